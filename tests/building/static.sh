#!/usr/bin/env bash
# The program that is linked statically, as it is handed on: it asks for no library, answers whole tables of cases in a root that has
# nothing but it, and stands whole in the archive and in the package, which lintian looks at; and what make/static.sh says where something
# is missing for it. The last line is 'N passed, M failed'.
set -u
cd "$(dirname "$0")/../.." || exit 1
. tests/lib/tools.sh
need_tools make python3 lintian readelf=binutils
. tests/lib/judge.sh
. tests/lib/program.sh

if needs_make 'the program that is linked statically'; then
    tell_counts
    exit
fi
if ! make/static.sh stands; then
    echo 'needs `make static`: the program that is linked statically, which is not there, or not made of what is built now'
    tell_counts
    exit
fi
linked=$PWD/out/static/ninecheck
version=$(make/version.sh)

# It is a program by itself, without an interpreter and without symbols.
readelf -ldS "$linked" > "$work/out" 2> "$work/err"
judge 'it asks for no library' eval '! grep -q "INTERP\|(NEEDED)" "$work/out"'
judge 'it has no symbols' eval '! grep -qw "\.symtab" "$work/out"'

# In a root that has nothing else but the sheets that the tables name it answers them. Only who may change roots can do so; others get a
# space of their own.
root="$work/an empty root"
mkdir "$root"
cp -r decks "$root"
cp "$linked" "$root/nine"
as=
[ "$(id -u)" = 0 ] || as='unshare -r'
printf '#!/bin/bash\nexec %s chroot "%s" /nine "$@"\n' "$as" "$root" > "$work/in_root"
chmod +x "$work/in_root"
tables=(tests/cases/{verdicts,digest,why-breaks,json,info,known-modes,rates,run-hands,wrong-values}.txt)
judge_all 'the cases in an empty root' env NINECHECK="$work/in_root" make/check.sh -p no:cacheprovider "${tables[@]}"

# What is handed on is made in a copy, so that what stands in out/ here stays.
copy="$work/a copy"
mkdir "$copy"
cp -r Makefile make web README.md crates.txt ninecheck package decks examples docs "$copy"
mkdir -p "$copy/crates/ninecheck/out" "$copy/crates/words9/src"
cp crates/words9/src/task.rt "$copy/crates/words9/src"
cp "$program" "$copy/crates/ninecheck/out/ninecheck"
for target in dist deb; do
    make -C "$copy" "$target" "INSTALLED=$linked" > "$work/out" 2> "$work/err"
    status=$?
    judge "make $target" [ "$status" = 0 ]
done

# The archive, by its sum, unpacked elsewhere. Each of its files is whole, and none is missing in the list.
name=ninecheck-$version-linux-x86_64
mkdir "$work/un packed"
cp "$copy/out/$name.tar.gz" "$copy/out/$name.tar.gz.sha256" "$work/un packed"
judge 'the sum of the archive' eval '(cd "$work/un packed" && sha256sum --quiet -c "$name.tar.gz.sha256") > "$work/out" 2>&1'
tar -C "$work/un packed" -xzf "$work/un packed/$name.tar.gz"
there="$work/un packed/$name"
judge 'the sums of its files' eval '(cd "$there" && sha256sum --quiet -c SHA256SUMS) > "$work/out" 2>&1'
judge 'each file has one' [ "$(wc -l < "$there/SHA256SUMS")" = "$(find "$there" -type f ! -name SHA256SUMS | wc -l)" ]
judge 'its program is the one that was linked' cmp -s "$there/lib/ninecheck/ninecheck" "$linked"
for file in README.md INSTALL.md MADE-OF.md share/man/man1/ninecheck.1; do judge "it has $file" [ -s "$there/$file" ]; done
# Each library of crates.txt that is none of the crates here is the kit's.
for library in $(awk -F: '!/^#/ && $1 !~ /_tests$/ { print $2 }' crates.txt | tr ' ' '\n' | sort -u); do
    [ -d "crates/$library" ] || judge "MADE-OF.md has $library" grep -q "^| \`$library\`, " "$there/MADE-OF.md"
done
"$there/bin/ninecheck" check "$there/share/ninecheck/examples/second-reply.csv" > "$work/out" 2> "$work/err"
status=$?
expect 'its script' 1 'no at record 7: P1 reply without a command' ''

# linked_pages FILE: where the links of a page of the archive lead that name a file.
linked_pages() { grep -oE '\]\([^)#:]+' "$1" | sed 's/](//' | grep -v '^https*$' | sort -u; }
for page in README.md $(cd "$there" && find share/doc/ninecheck -name '*.md'); do
    while IFS= read -r link; do
        judge "$page leads to $link" [ -e "$(dirname "$there/$page")/$link" ]
    done < <(linked_pages "$there/$page")
done
# The commands of the page on installing, as they stand there, in a folder of their own that is the home.
mkdir "$work/home"
cp "$work/un packed/$name.tar.gz" "$work/home"
sed -n 's/^    \(tar\|cd\|bin\|mkdir\)/\1/p' "$there/INSTALL.md" > "$work/commands"
(cd "$work/home" && HOME=$work/home bash -eu -c "$(sed 's/^bin.*/& || [ $? = 1 ]/' "$work/commands")") > "$work/out" 2> "$work/err"
status=$?
expect 'the commands of INSTALL.md' 0 'no at record 7: P1 reply without a command' ''
judge 'what it installs answers' eval '[ "$("$work/home/.local/bin/ninecheck" --version)" = "ninecheck $version" ]'

# The package, by lintian: what it says hangs on the licence, which is the owner's to choose.
package=$copy/out/ninecheck_${version}_amd64.deb
lintian --allow-root "$package" > "$work/out" 2> "$work/err"
: > "$work/err"
status=0
expect 'what lintian says' 0 'W: ninecheck: copyright-without-copyright-notice' ''
judge 'its sums' eval '(mkdir "$work/unpacked" && dpkg-deb -x "$package" "$work/unpacked" && dpkg-deb -e "$package" "$work/unpacked/DEBIAN" &&
    cd "$work/unpacked" && md5sum --quiet -c DEBIAN/md5sums) > "$work/out" 2>&1'
judge 'it has the same program' cmp -s "$work/unpacked/usr/lib/ninecheck/ninecheck" "$linked"

# Where something is missing it says what.
mkdir "$work/few"
for tool in bash dirname cat sha256sum; do ln -s "$(command -v $tool)" "$work/few/$tool"; done
# lacks WHAT WANT: what make/static.sh says in the copy, where nothing of these tools is there.
lacks() {
    (cd "$copy" && PATH=$work/few make/static.sh) > "$work/out" 2> "$work/err"
    status=$?
    expect "without $1" 1 '' "the program is not linked statically: $2"
}
lacks 'the kit' '`rt`, the command of the Rattle kit, is not on the path'
ln -s "$(command -v rt)" "$work/few/rt"
lacks 'a compiler' '`gcc` is missing: it is in the package of that name'
# Here the built program has no object, and nothing to make one of.
(cd "$copy" && make/static.sh) > "$work/out" 2> "$work/said"
status=$?
tail -n 1 "$work/said" > "$work/err"
expect 'without the libraries' 1 'the object of the built program is made: some minutes' \
    'the program is not linked statically: its object was not made: what stands above says why'

tell_counts
