# To be sourced by a script of tests that needs tools which the machine may not have. They come from the packages of tests/packages.txt.

# need_tools TOOL...: ends the script where one of these tools is not there, and says what installs it. A tool is NAME, of a package of its
# name, or NAME=PACKAGE.
need_tools() {
    local tool missing=()
    for tool; do
        is_there "${tool%=*}" || missing+=("$tool")
    done
    [ ${#missing[@]} = 0 ] || end_without "${missing[@]}"
}

# need_module MODULE PACKAGE: the same for a module of Debian's own Python, which is /usr/bin/python3.
need_module() {
    /usr/bin/python3 -c "import $1" > /dev/null 2>&1 || end_without "$1=$2"
}

# is_there NAME: the tool of this name. The package moreutils has a `parallel` too, which takes other words than GNU's.
is_there() {
    command -v "$1" > /dev/null || return 1
    [ "$1" != parallel ] || parallel --version < /dev/null 2> /dev/null | grep -q '^GNU parallel'
}

# end_without TOOL...: none of these is there.
end_without() {
    echo "FAILED not there: ${*%=*}; \`make tools\` installs ${*#*=}"
    echo '0 passed, 1 failed'
    exit 1
}
