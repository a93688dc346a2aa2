#!/usr/bin/env bash
# Installs the packages of tests/packages.txt that are not there, as root or by sudo. Apt is asked three times, since a list of packages is
# not always to be had at once.
set -u
cd "$(dirname "$0")/.." || exit 1
list=tests/packages.txt

# missing: the packages that are not installed.
missing() {
    local package
    for package in $(sed '/^#/d; s/ .*//' "$list"); do
        [ "$(dpkg-query -W -f '${db:Status-Status}' "$package" 2> /dev/null)" = installed ] || echo "$package"
    done
}
# install COMMAND...: has apt install them, by this command.
install() {
    "$@" apt-get update -qq && "$@" env DEBIAN_FRONTEND=noninteractive apt-get install -y -qq "${packages[@]}"
}
give_up() {
    echo "$1" >&2
    exit 1
}

command -v dpkg-query > /dev/null || give_up "these are packages of Debian, and this system has none: $list says what each is for"
mapfile -t packages < <(missing)
if [ ${#packages[@]} = 0 ]; then
    echo "The packages of $list are installed."
    exit
fi
as=()
[ "$(id -u)" = 0 ] || as=(sudo)
[ ${#as[@]} = 0 ] || command -v sudo > /dev/null || give_up "not root, and no sudo is there. As root: apt-get install ${packages[*]}"
echo "This installs packages of Debian${as:+ by sudo}, which $list names:"
for package in "${packages[@]}"; do grep "^$package " "$list"; done
log=$(mktemp) || exit 1
trap 'rm -f "$log"' EXIT
for pause in 10 20 ''; do
    install "${as[@]}" > "$log" 2>&1 && break
    [ -z "$pause" ] || sleep "$pause"
done
# One that can't be had keeps no other away.
mapfile -t left < <(missing)
[ ${#left[@]} -lt 2 ] || for package in "${left[@]}"; do
    packages=("$package")
    install "${as[@]}" >> "$log" 2>&1
done
mapfile -t packages < <(missing)
[ ${#packages[@]} = 0 ] || { cat "$log" >&2 && give_up "not installed: ${packages[*]}"; }
echo 'They are installed.'
