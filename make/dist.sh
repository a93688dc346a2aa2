#!/usr/bin/env bash
# make/dist.sh FOLDER makes the archive of what `make dist` installed into this folder, as a file of its name in out/, with a file of its
# sum beside it: it adds what somebody wants who unpacks it, and the page for a browser where that was made.
set -euo pipefail
cd "$(dirname "$0")/.."
folder=$1
name=$(basename "$folder")
version=$(make/version.sh)

make/readme.sh share/doc/ninecheck/ > "$folder/README.md"
sed "s/@VERSION@/$version/g" package/INSTALL.md > "$folder/INSTALL.md"
make/made_of.sh > "$folder/MADE-OF.md"
! web/build.sh stands || install -m 644 "out/ninecheck-$version.html" "$folder"
chmod 644 "$folder"/*.md
(cd "$folder" && find ./* -type f -print0 | LC_ALL=C sort -z | xargs -0 sha256sum | sed 's,  \./,  ,') > "$folder.sums"
mv "$folder.sums" "$folder/SHA256SUMS"
tar -C "$(dirname "$folder")" --owner=0 --group=0 --sort=name -czf "out/$name.tar.gz" "$name"
(cd out && sha256sum "$name.tar.gz" > "$name.tar.gz.sha256")
