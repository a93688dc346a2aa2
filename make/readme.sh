#!/usr/bin/env bash
# make/readme.sh [FOLDER/] writes README as it is installed, whose pages are in docs/ below this folder: links to what is not installed are
# plain text.
set -euo pipefail
cd "$(dirname "$0")/.."
kept=$'\001'
sed -E "s,\]\(docs/,](${kept}docs/,g; s,\[([^]]+)\]\(([^)#h$kept][^)]*)\),\1,g; s,$kept,${1-},g" README.md
