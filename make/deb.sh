#!/usr/bin/env bash
# make/deb.sh FOLDER makes Debian's package of what `make deb` installed into this folder, as out/ninecheck_VERSION_amd64.deb: it adds what
# Debian's policy wants of each package, which are a copyright file, a changelog and a packed man page.
set -euo pipefail
cd "$(dirname "$0")/.."
root=$1
version=$(make/version.sh)
share=$root/usr/share
doc=$share/doc/ninecheck

# The day of the version is that of the man page.
day=$(sed -n 's/^\.TH NINECHECK 1 \([0-9-]*\) .*/\1/p' package/ninecheck.1)
gzip -9n "$share/man/man1/ninecheck.1"
install -m 644 package/debian-copyright "$doc/copyright"
sed "s/@VERSION@/$version/; s/@DATE@/$(LC_ALL=C date -u -R -d "$day")/" package/debian-changelog | gzip -9n > "$doc/changelog.gz"
make/made_of.sh > "$doc/MADE-OF.md"
install -D -m 644 package/debian-lintian "$share/lintian/overrides/ninecheck"
mkdir -p "$root/DEBIAN"
size=$(du -sk --apparent-size "$root/usr" | cut -f 1)
sed "s/@VERSION@/$version/; s/@SIZE@/$size/" package/debian-control > "$root/DEBIAN/control"
(cd "$root" && find usr -type f -print0 | LC_ALL=C sort -z | xargs -0 md5sum) > "$root/DEBIAN/md5sums"
# What is packed has the rights of its kind, whatever those are of the files here.
find "$root" -type d -exec chmod 755 {} +
dpkg-deb --root-owner-group --build "$root" "out/ninecheck_${version}_amd64.deb"
