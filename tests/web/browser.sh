#!/usr/bin/env bash
# The page for a browser as a person uses it, opened from the disk: all of it in chromium, a capture and an export in firefox. It is HTML by the
# parsers of tidy and html5lib, and its scripts have no error by node and eslint. LONG=4000000 takes a capture of so many rows. The last line
# is 'N passed, M failed'.
set -u
cd "$(dirname "$0")/../.." || exit 1
. tests/lib/tools.sh
need_tools node=nodejs chromium firefox-esr tidy eslint wasm-as=binaryen
need_module html5lib python3-html5lib
. tests/lib/judge.sh
. tests/lib/program.sh
. tests/lib/browser.sh

tidy -errors -quiet -utf8 "$page" > "$work/err" 2>&1
judge 'tidy finds nothing' [ ! -s "$work/err" ]
judge 'html5lib finds nothing' /usr/bin/python3 -B -c 'import html5lib, sys
html5lib.HTMLParser(strict=True).parse(open(sys.argv[1], "rb"))' "$page"
for script in web/page/*.js tests/web/*.js; do judge "$script" node --check "$script"; done

# The scripts of the page are one. eslint's own modules are where Debian has them, also for a node of another package.
cat web/page/*.js > "$work/page.js"
cat > "$work/eslint.json" << 'EOF'
{"root": true, "extends": "eslint:recommended", "env": {"browser": true, "es2020": true}, "parserOptions": {"ecmaVersion": 2020},
    "globals": {"DecompressionStream": "readonly"},
    "rules": {"max-lines-per-function": ["error", 40], "max-depth": ["error", 3], "eqeqeq": "error", "no-var": "error", "prefer-const": "error"}}
EOF
(cd "$work" && NODE_PATH=/usr/share/nodejs eslint --no-eslintrc -c eslint.json page.js) > "$work/out" 2>&1
judge 'eslint finds nothing in the scripts of the page' [ $? = 0 ]

# stub NAME BODY [ROOM]: a module in the place of the program, which does this, and has the words put at ROOM.
stub() {
    echo "(module (memory (export \"memory\") 1) (func (export \"room\") (param i64) (result i64) (i64.const ${3-16}))
        (func \$run (export \"run\") (param i64 i64) (result i32) $2))" > "$work/$1.wat"
    wasm-as "$work/$1.wat" -o "$work/$1.wasm"
}
stub unreachable '(unreachable)'
stub stack '(i32.add (i32.const 1) (call $run (local.get 0) (local.get 1)))'
stub memory '(i32.const 0)' 0
judge_all 'the page in chromium' node tests/web/browser.js "$page" "$program" "$work"
judge_all 'the page in firefox' node tests/web/firefox.js "$page" "$program"

tell_counts
