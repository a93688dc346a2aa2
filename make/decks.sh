#!/bin/bash
# Writes crates/program9/src/shipped.rt from decks/*.toml: the sheets that the program has in itself, each under its short name. Run it when
# a sheet changes. With --check it writes nothing, and fails where the file is not what it would write.

set -eu -o pipefail
cd "$(dirname "$0")/.."

into=crates/program9/src/shipped.rt

# The short name of each sheet, and its file.
sheets='9pin nine-pin-commands
edit points-lost-after-edit
eject points-lost-after-eject
jog jog-for-var
no-bit no-motion-bit
rewind rewind-at-the-end
standby standby-off
user-bits user-bits
var-play play-for-var'

# constant_of NAME: what the text of a sheet is called in the program.
constant_of() {
    tr 'a-z-' 'A-Z_' <<< "$1"
}

written() {
    cat << 'END'
//! The sheets that the program has in itself, as they stand in decks/: make/decks.sh writes this file.
ghost use Rattle.std.specs.Prelude.{◌≡◌, is_some};
ghost use Rattle.program9.specs.Shipped.{is_shipped};

/// The text of the sheet with this short name, if the program has it.
pub fn shipped_sheet(name: &str) -> Option<&'static str>
    ensures { is_some result ≡ is_shipped name.now }
{
    match name {
END
    while read -r name file; do
        printf '        "%s" => Some(%s),\n' "$name" "$(constant_of "$file")"
    done <<< "$sheets"
    printf '        _ => None,\n    }\n}\n'
    while read -r name file; do
        head="const $(constant_of "$file"): &str ="
        first=$(head -n 1 "decks/$file.toml")
        # Laid out as rattle fmt does: a first line of more than 100 characters stands below.
        line="$head r#\"$first"
        (( ${#line} <= 100 )) && space=' ' || space=$'\n    '
        printf '\n/// decks/%s.toml\n%s%sr#"' "$file" "$head" "$space"
        cat "decks/$file.toml"
        printf '"#;\n'
    done <<< "$sheets"
}

case ${1-} in
    --check) cmp <(written) "$into" ;;
    *) written > "$into" ;;
esac
