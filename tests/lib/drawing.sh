# To be sourced by a script of tests that draws captures, which python3 does.

# draw_captures N FOLDER [WORDS...], damage_captures N FOLDER: draws captures, and damages those that were drawn. The heads of the two
# programs tell what they write, and their words.
draw_captures() {
    python3 -B tests/lib/draw_captures.py "$@"
}
damage_captures() {
    python3 -B tests/lib/damage_captures.py "$@"
}
