#!/usr/bin/env bash
# Installs the built program into roots of its own, whose paths have a blank, as files, as a package and as an archive, and
# runs it there as somebody who can't read the copy of the repository that it was installed from. Has bash, zsh and fish
# complete its words. On a trial what is installed is a script that runs its program, and no package is made; static.sh has the program
# that is linked statically. The last line is 'N passed, M failed'.
set -u
cd "$(dirname "$0")/../.." || exit 1
. tests/lib/tools.sh
need_tools mandoc make zsh fish jq
. tests/lib/judge.sh
. tests/lib/program.sh

chmod 755 "$work"

# holds NAME WORDS...: the command ends well.
holds() {
    judge "$1" in_quiet "${@:2}"
}
in_quiet() {
    "$@" > "$work/out" 2> "$work/err"
    status=$?
    [ "$status" = 0 ]
}

# as_nobody WORDS...: runs them in a folder whose name has a blank, as a user without rights.
as_nobody() {
    (cd "$work/a folder" && setpriv --reuid=65534 --regid=65534 --clear-groups "$@") > "$work/out" 2> "$work/err"
    status=$?
}

# run_installed NAME ROOT PREFIX: the program below this root, by a symlink and from another folder. The man page names a
# folder below the prefix.
run_installed() {
    local name=$1 root=$2 prefix=$3 folder
    as_nobody "$root/bin/ninecheck" --version
    expect "$name: the version" 0 "ninecheck $(make/version.sh)" ''
    ln -sf "$root/bin/ninecheck" "$work/a folder/nine"
    as_nobody ./nine check capture.csv
    expect "$name: a check" 0 'yes: records 6, exchanges 1, open 0' ''
    as_nobody "$root/bin/ninecheck" check "$root/share/ninecheck/examples/second-reply.csv"
    expect "$name: an example" 1 'no at record 7: P1 reply without a command' ''
    as_nobody ./nine digest capture.csv
    expect "$name: a digest" 0 'record 6, 0.002400 s: PLAY -> ACK
yes: records 6, exchanges 1, open 0
known, of 1 exchanges: shown 0.0 %, in 0.0 %, out 0.0 %, local 0.0 %, ain 0.0 %, aout 0.0 %' ''
    as_nobody ./nine page capture.csv
    judge "$name: a page" eval '[ "$status" = 0 ] && grep -q "^<h1>0 breaks</h1>" "$work/out"'
    run_pages "$name" "$root"
    : > "$work/out"
    zcat -f "$root"/share/man/man1/ninecheck.1* > "$work/manual"
    judge "$name: the version of the man page" grep -qE "^\.TH NINECHECK 1 [0-9-]+ \"ninecheck $(make/version.sh)\"" "$work/manual"
    folder=$(grep -o "$prefix/share/ninecheck/decks" "$work/manual")
    judge "$name: the man page's folder of sheets" [ -d "$root${folder#"$prefix"}" ]
}

# joined PAGE: the page, with each command that goes on in the next line in one.
joined() { sed -e ':join' -e '/\\$/{N; s/ *\\\n */ /; b join' -e '}' "$1"; }

# run_pages NAME ROOT: the commands of the installed pages on captures and on views, in a copy of the folder that has the
# installed examples make what they make here.
run_pages() {
    local name=$1 root=$2 command exported page commands=0
    rm -rf "$work/a copy"
    cp -r "$root/share/ninecheck" "$work/a copy"
    while IFS= read -r command; do
        (cd "$work/a copy" && PATH="$root/bin:$PATH" bash -c "$command") > "$work/out" 2> "$work/err" < /dev/null
        status=$?
        judge "$name: $command" is_quiet
        commands=$((commands + 1))
        case $command in
            *examples/exports/*)
                exported=${command##*examples/exports/}
                exported=${exported%% *}
                cmp "$work/a copy/capture.csv" "examples/exports/${exported%.*}-capture.csv" > "$work/out" 2>&1
                status=$?
                judge "$name: the capture of $exported" [ "$status" = 0 ] ;;
        esac
    done < <(joined "$root/share/doc/ninecheck/docs/CAPTURE.md" | sed -n 's#^    \./\(ninecheck convert .*examples/exports.*\)#\1#p'
        for page in VIEWS JSON; do
            joined "$root/share/doc/ninecheck/docs/$page.md" | sed -n 's/^    \$ //p' | sed 's#\./ninecheck#ninecheck#g'
        done)
    judge "$name: the pages' commands: $commands" [ "$commands" -ge 10 ]
    cmp "$work/a copy/late-reply.svg" docs/pictures/late-reply.svg > "$work/out" 2>&1
    status=$?
    judge "$name: the picture" [ "$status" = 0 ]
}
is_quiet() {
    [[ $status = [01] || $status = 123 ]] && [ ! -s "$work/err" ] # 123 is that of xargs, where it ran some that end with 1
}

mkdir "$work/a folder"
cp examples/play.csv "$work/a folder/capture.csv"
chmod 755 "$work/a folder"
copy="$work/copy of it"
mkdir "$copy"
cp -r Makefile make web README.md crates.txt ninecheck package decks examples docs "$copy"
mkdir -p "$copy/crates/ninecheck/out" "$copy/crates/words9/src"
cp crates/words9/src/task.rt "$copy/crates/words9/src"
chmod 700 "$copy"

(cd "$copy" && make install "DESTDIR=$work/none") > "$work/out" 2> "$work/err"
status=$?
[ ! -e "$work/none" ] || status=installed
sed -i '/^make/d' "$work/err"
expect 'nothing is built' 2 '' 'nothing is built yet: run make first, it proves and builds the program'

if $on_trial; then
    # It takes off the bound of the address space that the script sets.
    cp "$program" "$work/on trial"
    printf '#!/bin/sh\nulimit -S -v unlimited\nexec "%s" "$@"\n' "$work/on trial" > "$copy/crates/ninecheck/out/ninecheck"
    chmod 755 "$work/on trial" "$copy/crates/ninecheck/out/ninecheck"
else
    cp "$program" "$copy/crates/ninecheck/out/ninecheck"
fi

# make_copy TARGET [WORDS...]: make in the copy, which installs what is built there as it is.
make_copy() {
    make -C "$copy" "$@" "INSTALLED=crates/ninecheck/out/ninecheck"
}

place="$work/a place"
root="$place/srv/a nine"
holds 'make install' make_copy install "DESTDIR=$place" 'PREFIX=/srv/a nine'
run_installed 'installed' "$root" '/srv/a nine'
mv "$root/lib/ninecheck" "$root/lib/away"
as_nobody ./nine check capture.csv
expect 'installed without the program' 125 '' 'ninecheck: the program is missing: install it again'
mv "$root/lib/away" "$root/lib/ninecheck"

# offered_in_zsh ROOT WORDS: what zsh would put in place of the last of these words. It is asked in a terminal of its own, and
# what is added to its list goes to a file too.
offered_in_zsh() {
    mkdir -p "$work/zsh"
    : > "$work/zsh/offered"
    cat > "$work/zsh/setup" <<END
fpath=("$1" \$fpath)
autoload -Uz compinit
compinit -u -d "$work/zsh/dump"
bindkey '^I' complete-word
compadd() {
    [[ \${@[1,(i)(-|--)]} != *-(O|A|D)\ * ]] || { builtin compadd "\$@"; return }
    local -a found
    builtin compadd -A found "\$@"
    [[ -z \$found ]] || print -l -- \$found >> "$work/zsh/offered"
    builtin compadd "\$@"
}
comppostfuncs=(exit)
END
    timeout 60 zsh -fc 'zmodload zsh/zpty; zpty z zsh -f -i; zpty -w z "source ${(q)1}"; zpty -w -n z "$2"$'"'\t'"'
        while zpty -r z; do :; done' zsh "$work/zsh/setup" "$2" > "$work/zsh/said" 2> "$work/err"
    status=$?
    sort -u "$work/zsh/offered" | tr '\n' ' ' | sed 's/ $/\n/' > "$work/out"
}

# offered_in_fish ROOT WORDS: the same of fish, which looks below the share of each root for what it was given.
offered_in_fish() {
    mkdir -p "$work/fish"
    PATH="$1/bin:$PATH" HOME=$work/fish XDG_DATA_DIRS=$1/share fish -c 'complete -C $argv[1]' "$2" > "$work/fish/offered" 2> "$work/err"
    status=$?
    cut -f 1 "$work/fish/offered" | LC_ALL=C sort | tr '\n' ' ' | sed 's/ $/\n/' > "$work/out"
}

export LC_ALL=C
while IFS='|' read -r typed in_zsh in_fish; do
    offered_in_zsh "$root/share/zsh/site-functions" "$typed"
    expect "zsh: $typed" 0 "$in_zsh" ''
    offered_in_fish "$root" "$typed"
    expect "fish: $typed" 0 "$in_fish" ''
done <<'END'
ninecheck |check clock convert delays digest explain help info json motion page picture run split touches try why|check clock convert delays digest explain help info json motion page picture run split touches try why
ninecheck e|explain|explain
ninecheck -|--help --version -V -h|--help --version -V -h
ninecheck why -|--all --deck --hands --help --line-buffered --quiet --rate --sync -h|--all --deck --hands --help --line-buffered --quiet --rate --sync -h
ninecheck try -|--all --deck --help --rate --sync -h|--all --deck --help --rate --sync -h
ninecheck digest -|--all --deck --from --hands --help --line-buffered --rate --sync --to -h|--all --deck --from --hands --help --line-buffered --rate --sync --to -h
ninecheck delays -|--all --deck --from --hands --help --rate --sync --to -h|--all --deck --from --hands --help --rate --sync --to -h
ninecheck motion -|--all --deck --from --hands --help --line-buffered --rate --sync --to -h|--all --deck --from --hands --help --line-buffered --rate --sync --to -h
ninecheck json -|--all --bytes --deck --from --hands --help --line-buffered --rate --sync --to -h|--all --bytes --deck --from --hands --help --line-buffered --rate --sync --to -h
ninecheck json run -|--deck --hands --help --rate --sync -h|--deck --hands --help --rate --sync -h
ninecheck json why -|--all --deck --from --hands --help --line-buffered --rate --sync --to -h|--all --deck --from --hands --help --line-buffered --rate --sync --to -h
ninecheck clock --s|--seconds|--seconds
ninecheck info -|--help --rate --sync -h|--help --rate --sync -h
ninecheck picture -|--all --at --deck --hands --help --rate --sync --width -h|--all --at --deck --hands --help --rate --sync --width -h
ninecheck page -|--deck --from --hands --help --rate --sync --to -h|--deck --from --hands --help --rate --sync --to -h
ninecheck convert |log saleae sigrok|log saleae sigrok
ninecheck convert log --unit |ms us|ms us
ninecheck check --a|--all|--all
ninecheck explain --b|--bytes|--bytes
ninecheck run -|--deck --hands --help --rate --sync -h|--deck --hands --help --rate --sync -h
ninecheck check --rate |24 25 29.97df 30|24 25 29.97df 30
ninecheck run --rate 2|24 25 29.97df|24 25 29.97df
ninecheck explain capture.csv --rate 3|30|30
ninecheck check --deck decks/nine|nine-pin-commands.toml|decks/nine-pin-commands.toml
ninecheck help |check clock convert delays digest explain help info json motion page picture run split touches try why|check clock convert delays digest explain help info json motion page picture run split touches try why
ninecheck run examples/play|play.csv|examples/play.csv
END

holds 'make uninstall' make -C "$copy" uninstall "DESTDIR=$place" 'PREFIX=/srv/a nine'
find "$place" ! -type d > "$work/out"
: > "$work/err"
status=0
expect 'nothing is left' 0 '' ''

make_package() {
    holds 'make deb' make_copy deb
    deb="$work/a deb"
    mkdir -p "$deb/var/lib/dpkg/updates" "$deb/var/lib/dpkg/info" "$deb/var/lib/dpkg/triggers"
    : > "$deb/var/lib/dpkg/status"
    chmod 755 "$deb"
    package="$copy/out/ninecheck_$(make/version.sh)_amd64.deb"
    judge 'the package needs no other' [ -z "$(dpkg-deb -f "$package" Depends)" ]
    holds 'dpkg installs it' dpkg --root="$deb" --log=/dev/null -i "$package"
    run_installed 'the package' "$deb/usr" /usr
    # Debian's zsh looks there by itself, and the package has it there.
    zsh -fc 'print -l $fpath' > "$work/out"
    judge "the package's folder for zsh is one of zsh's own" grep -qx /usr/share/zsh/vendor-completions "$work/out"
    offered_in_zsh "$deb/usr/share/zsh/vendor-completions" 'ninecheck r'
    expect "the package's words in zsh" 0 'run' ''
    holds 'dpkg removes it' dpkg --root="$deb" --log=/dev/null -r ninecheck
    find "$deb" ! -type d ! -path '*/var/lib/dpkg/*' > "$work/out"
    : > "$work/err"
    status=0
    expect 'nothing of the package is left' 0 '' ''
}
needs_make 'the package' || make_package

holds 'make dist' make_copy dist
mkdir "$work/un packed"
tar -C "$work/un packed" -xzf "$copy/out/ninecheck-$(make/version.sh)-linux-x86_64.tar.gz"
run_installed 'the archive' "$work/un packed/ninecheck-$(make/version.sh)-linux-x86_64" /usr/local

# The script in the repository, by a symlink.
ln -s "$PWD/ninecheck" "$work/linked"
"$work/linked" check examples/play.csv > "$work/out" 2> "$work/err"
status=$?
expect 'the script by a symlink' 0 'yes: records 6, exchanges 1, open 0' ''

# complete_words WORDS...: what bash would put in place of the last word.
complete_words() {
    bash -c 'source package/ninecheck.bash; COMP_WORDS=("$@"); COMP_CWORD=$(($# - 1)); _ninecheck; echo "${COMPREPLY[@]}"' \
        bash "$@" > "$work/out" 2> "$work/err"
    status=$?
}
complete_words ninecheck e
expect 'a verb is completed' 0 'explain' ''
complete_words ninecheck ''
expect 'verbs are offered' 0 'check explain run why convert split try digest delays motion touches picture page json clock info help --help --version' ''
complete_words ninecheck run --
expect 'options are offered' 0 '--hands --sync --rate --deck --help' ''
complete_words ninecheck explain --
expect 'options are offered where the judging can go on' 0 '--bytes --hands --sync --rate --deck --all --line-buffered --help' ''
complete_words ninecheck json --
expect 'options of objects are offered' 0 '--bytes --hands --sync --rate --deck --all --line-buffered --from --to --help' ''
complete_words ninecheck motion --
expect 'options of what is made of a capture are offered' 0 '--hands --sync --rate --deck --all --line-buffered --from --to --help' ''
complete_words ninecheck delays --
expect 'options of what is written at the end are offered' 0 '--hands --sync --rate --deck --all --from --to --help' ''
complete_words ninecheck page --
expect 'options of a page are offered' 0 '--hands --sync --rate --deck --from --to --help' ''
complete_words ninecheck picture --
expect 'options of a picture are offered' 0 '--hands --sync --rate --deck --all --at --width --help' ''
complete_words ninecheck json why --
expect 'options of objects of another report are offered' 0 '--hands --sync --rate --deck --all --line-buffered --from --to --help' ''
complete_words ninecheck json run --
expect 'options of a run in objects are offered' 0 '--hands --sync --rate --deck --help' ''
complete_words ninecheck json exp
expect 'a report is completed' 0 'explain' ''
complete_words ninecheck touches --
expect 'options of touches are offered' 0 '--sync --rate --deck --help' ''
complete_words ninecheck convert s
expect 'exports are offered' 0 'sigrok saleae' ''
complete_words ninecheck convert log --unit ''
expect 'units are offered' 0 'ms us' ''
complete_words ninecheck why --rate ''
expect 'rates are offered' 0 '24 25 30 29.97df' ''
complete_words ninecheck why --rate = 2
expect 'rates are offered after an equals sign' 0 '24 25 29.97df' ''
complete_words ninecheck check --deck decks/ni
expect 'a sheet is completed' 0 'decks/nine-pin-commands.toml' ''
complete_words ninecheck check --deck 9
expect 'a sheet inside the program is completed' 0 '9pin' ''
complete_words ninecheck check examples/play
expect 'a file is completed' 0 'examples/play.csv' ''

# The man page is rendered without a warning, also of its style.
mandoc -T lint package/ninecheck.1 > "$work/out" 2> "$work/err"
status=$?
expect 'the man page' 0 '' ''

tell_counts
