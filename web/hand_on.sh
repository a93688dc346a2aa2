#!/bin/bash
# The clang of the folder that web/build.sh gives to `rattle build`: it hands on the module that it is to compile, as what it made of it.
module=
made=
while [ $# -gt 0 ]; do
    case $1 in
        -o) made=$2 && shift ;;
        *.bc) module=$1 ;;
    esac
    shift
done
exec /bin/cp "$module" "$made"
