# To be sourced by a script of tests of the page for a browser, after program.sh: $page is the page, and $wasm the program in it. Where these
# are not there, the script ends here, and says what it needs.

if needs_make 'the program in a browser, which is the proved one'; then
    tell_counts
    exit
fi
if ! web/build.sh stands; then
    echo "needs \`make web\`: $(basename "$0"), on the page for a browser, which is not there, or not made of what is built now"
    tell_counts
    exit
fi
# shellcheck disable=SC2034
wasm=$PWD/out/web/ninecheck.wasm
# shellcheck disable=SC2034
page=$PWD/out/ninecheck-$(make/version.sh).html
