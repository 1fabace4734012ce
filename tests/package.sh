#!/bin/sh
# Makes a Debian package of the program that `make` proved and built, with all that `make install` puts beside it, below /usr:
#
#     make deb
#     make deb TO=/tmp MAINTAINER='Ops <ops@example.net>'
#
# Nothing in it runs where it is installed or removed. Of one program and one tree it is the same, byte for byte.
set -eu
top=$(cd "$(dirname "$0")/.." && pwd)
cd "$top"
umask 022
if ! command -v dpkg-deb >/dev/null; then
    echo 'FAILED: there is no dpkg-deb, which makes a package' >&2
    exit 1
fi
work=$(mktemp -d)
trap 'rm -rf "$work"' EXIT
trap 'exit 130' INT TERM

tree=$work/tree
share=$tree/usr/share
PREFIX=/usr DESTDIR=$tree sh tests/install.sh install >"$work/said"
# Debian has its own list of what is installed, manual pages packed, and a folder of its own for what zsh completes.
rm "$share/doc/rollout/installed"
gzip -9n "$share/man/man1/rollout.1" "$share/man/man1/rollout-supervise.1"
mv "$share/zsh/site-functions" "$share/zsh/vendor-completions"

version=$("$PROGRAM" --version)
version=${version#rollout }
library=$(LC_ALL=C grep -ao 'GLIBC_2\.[0-9]*' "$PROGRAM" | sort -uV | tail -n 1)
mkdir "$tree/DEBIAN"
(cd "$tree" && find usr -type f -exec md5sum {} + | LC_ALL=C sort -k 2) >"$tree/DEBIAN/md5sums"
cat >"$tree/DEBIAN/control" <<CONTROL
Package: rollout
Version: $version
Architecture: amd64
Maintainer: $MAINTAINER
Installed-Size: $(find "$tree/usr" -type f -printf '%s\n' | awk '{ bytes += $1 } END { print int((bytes + 1023) / 1024) }')
Depends: libc6${library:+ (>= ${library#GLIBC_})}, libgcc-s1
Suggests: openssh-client, procps, ansible-core, python3-yaml
Section: admin
Priority: optional
Description: updates a fleet of hosts batch by batch, within its limits
 A group of the inventory may say how many of its hosts may be down at once. At no moment of a
 run are more of them down, hosts that failed included, and each plan has the fewest batches.
 The pages and examples are in /usr/share/doc/rollout.
CONTROL
file=$TO/rollout_${version}_amd64.deb
# Files are no younger than the program, so that the same ones make the same package.
SOURCE_DATE_EPOCH=${SOURCE_DATE_EPOCH:-$(stat -c %Y "$PROGRAM")} dpkg-deb --root-owner-group -Zgzip --build "$tree" "$file" >"$work/said"
echo "made: $file"
