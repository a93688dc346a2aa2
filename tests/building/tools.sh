#!/usr/bin/env bash
# Checks that each script of tests asks for the tools that not every machine has before it does anything else, and that their packages are
# those of tests/packages.txt; and what `make tools` does, with an `apt-get` that installs nothing. The last line is 'N passed, M failed'.
set -u
cd "$(dirname "$0")/../.." || exit 1
. tests/lib/judge.sh

# A path on which there is nothing but this.
mkdir "$work/bin"
for tool in bash dirname sed grep cat mktemp rm env; do
    ln -s "$(command -v $tool)" "$work/bin/$tool"
done
export TMPDIR=$work
: > "$work/asked"

# stand_in NAME COMMANDS: a tool of this path, which writes down what it is asked for and then does this.
stand_in() {
    printf '#!%s/bash\necho "%s $*" >> "%s/asked"\n%s\n' "$work/bin" "$1" "$work" "$2" > "$work/bin/$1"
    chmod +x "$work/bin/$1"
}

# run_there COMMAND...: with this path alone.
run_there() {
    PATH=$work/bin bash "$@" > "$work/out" 2> "$work/err"
    status=$?
}

# not_there TOOLS PACKAGES: what a script says that can't do without these.
not_there() {
    printf '%s\n' "FAILED not there: $1; \`make tools\` installs $2" '0 passed, 1 failed'
}

# A script ends where its tools are not there, and installs nothing.
stand_in apt-get 'exit 0'
scripts=0
for script in $(grep -l '^need_tools ' tests/*/*.sh); do
    tools=$(sed -n 's/^need_tools //p' "$script")
    run_there "$script"
    expect "$script tells what is not there" 1 "$(not_there "$(sed 's/=[^ ]*//g' <<< "$tools")" "$(sed 's/[^ ]*=//g' <<< "$tools")")" ''
    judge "$script installs nothing" [ ! -s "$work/asked" ]
    scripts=$((scripts + 1))
done
judge "scripts that need tools: $scripts" [ "$scripts" -ge 10 ]
run_there -c '. tests/lib/tools.sh; need_tools apt-get && echo there'
expect 'a tool that is there' 0 there ''
run_there -c '. tests/lib/tools.sh; need_tools two=second apt-get three'
expect 'tools of which one is there' 1 "$(not_there 'two three' 'second three')" ''
run_there -c '. tests/lib/tools.sh; need_module no_such_module python3-none'
expect 'a module that is not there' 1 "$(not_there no_such_module python3-none)" ''

# What is asked for is listed, and nothing else.
listed=$(sed '/^#/d; s/ .*//' tests/packages.txt)
asked=$(sed -nE "s/^need_module [^ ]+ //p; s/^(.* && )?need_tools ([a-z][a-z0-9=. -]*).*/\2/p; s/.*: it is in the package ([a-z-]+)'$/\1/p" \
    tests/[!l]*/*.sh tests/by_hand/*/*.sh tests/*/test_*.py web/build.sh | sed 's/[^ ]*=//g' | tr ' ' '\n' | sed '/^$/d' | sort -u)
for package in $asked; do
    judge "$package is listed" grep -qxF "$package" <<< "$listed"
done
for package in $listed; do
    judge "$package has what it is for" grep -q "^$package  *[a-z]" tests/packages.txt
    case $package in
        # What make/check.sh runs, and what gcc links with.
        python3-pytest | python3-pytest-xdist | libc6-dev) ;;
        *) judge "$package is asked for" grep -qxF "$package" <<< "$asked" ;;
    esac
done

# make/tools.sh in a copy whose list has two packages, of which the second is there once apt-get has installed it.
copy="$work/a copy"
mkdir -p "$copy/make" "$copy/tests"
cp make/tools.sh "$copy/make"
printf '%s\n' '# Two packages.' 'first   does one thing' 'second  does another' > "$copy/tests/packages.txt"
installs='[ "$1" = update ] || echo installed > "'$work'/second"'
stand_in sleep ''
stand_in sudo 'exec "$@"'
# install_there USER APT: make/tools.sh for this user, with this apt-get. What was asked for, without what is told apart, is left in $work/asked.
install_there() {
    rm -f "$work/second"
    stand_in dpkg-query 'case ${!#} in first) echo installed ;; second) cat "'"$work"'/second" ;; esac'
    stand_in id "echo $1"
    stand_in apt-get "$2"
    : > "$work/asked"
    run_there "$copy/make/tools.sh"
    sed -i '/^dpkg-query /d; /^id /d' "$work/asked"
}
# is_asked LINES: this was asked for.
is_asked() { [ "$(cat "$work/asked")" = "$1" ]; }
update='apt-get update -qq'
install='apt-get install -y -qq second'
begins() { printf '%s\n' "This installs packages of Debian$1, which tests/packages.txt names:" 'second  does another'; }

install_there 0 "$installs"
expect 'as root' 0 "$(begins '')
They are installed." ''
judge 'as root: apt' is_asked "$update
$install"
run_there "$copy/make/tools.sh"
expect 'once more' 0 'The packages of tests/packages.txt are installed.' ''
install_there 1000 "$installs"
expect 'as somebody else' 0 "$(begins ' by sudo')
They are installed." ''
judge 'as somebody else: sudo' grep -qxF "sudo $update" "$work/asked"
install_there 0 'echo "apt: $1" >&2; exit 100'
expect 'where there is no list to be had' 1 "$(begins '')" 'apt: update
not installed: second'
judge 'where there is no list to be had: three times' is_asked "$update
sleep 10
$update
sleep 20
$update"
install_there 0 'echo "apt: $1" >&2'
expect 'where there is no such package' 1 "$(begins '')" 'apt: update
apt: install
not installed: second'
echo 'third   is not to be had' >> "$copy/tests/packages.txt"
install_there 0 'case "$*" in update*) ;; *third*) echo "apt: no third" >&2; exit 100 ;; *) echo installed > "'$work'/second" ;; esac'
expect 'one that is not to be had' 1 "$(begins '')
third   is not to be had" 'apt: no third
apt: no third
not installed: third'
judge 'it keeps no other away' [ -e "$work/second" ]
sed -i '$d' "$copy/tests/packages.txt"
rm "$work/bin/sudo"
install_there 1000 "$installs"
expect 'as somebody else, without sudo' 1 '' 'not root, and no sudo is there. As root: apt-get install second'
rm "$work/bin/dpkg-query"
run_there "$copy/make/tools.sh"
expect 'on another system' 1 '' 'these are packages of Debian, and this system has none: tests/packages.txt says what each is for'

# users TOOL: the scripts that run it, themselves or by a file of tests/lib/.
users() {
    local file
    for file in $(grep -lE "^[^#]*(^|[ (|'])$1( |$)" tests/*/*.sh); do
        case $file in
            tests/building/tools.sh | tests/lib/tools.sh) ;;
            tests/lib/*) grep -lxF ". $file" tests/*/*.sh ;;
            *) echo "$file" ;;
        esac
    done | sort -u
}

# Each script that runs one of these names it.
for tool in cc make mawk gawk busybox jq mandoc parallel python3 rsvg-convert chromium zsh fish perl gcc clang strace sigrok-cli; do
    for script in $(users "$tool"); do
        judge "$script names $tool" grep -qE "^need_tools (.* )?$tool( |=|$)" "$script"
    done
done

tell_counts
