#!/bin/sh
# The Debian package of `make deb`: what it says of itself, the files in it, that it is the same when it is made again, and that it can be installed below a fresh root, runs from there, and
# leaves nothing behind when it is removed. It needs make, dpkg and dpkg-deb; where these aren't there it says so.
. "$(dirname "$0")/common.sh"
cd "$top" || exit 1
unset MAKEFLAGS MFLAGS MAKELEVEL MAKEOVERRIDES PREFIX DESTDIR PROGRAM
umask 077
case $rollout in /*) ;; *) rollout=$top/$rollout ;; esac

# holds WHAT COMMAND WORD..: the command succeeds
holds() {
    what=$1
    shift
    if "$@" >"$work/said" 2>&1; then
        pass
    else
        fail "$what"
        head -n 20 "$work/said"
    fi
}

# same WHAT: the files `expected` and `found` are the same
same() {
    holds "$1" diff "$work/expected" "$work/found"
}

# refuses WHAT TEXT WORD..: make deb fails with this text, and makes nothing
refuses() {
    what=$1
    says=$2
    shift 2
    make deb "TO=$work/none" "$@" >"$work/said" 2>&1
    status=$?
    if [ "$status" -ne 0 ] && grep -qF -- "$says" "$work/said" && [ -z "$(ls "$work/none")" ]; then
        pass
    else
        fail "$what: status $status"
        head -n 5 "$work/said"
    fi
}

mkdir "$work/none" "$work/one" "$work/two"
refuses 'a program that is not there' 'proves and builds it' "PROGRAM=$work/no-program"
if ! command -v dpkg-deb >/dev/null; then
    refuses 'no dpkg-deb' 'there is no dpkg-deb' "PROGRAM=$rollout"
    echo 'left out: no dpkg-deb, and so no package'
    finish
    exit
fi

# ---- what it says of itself

version=$(sed -n 's/.*\.version("\(.*\)").*/\1/p' crates/command_line/src/syntax.rt)
package=rollout_${version}_amd64.deb
holds 'make deb' make deb "PROGRAM=$rollout" "TO=$work/one" 'MAINTAINER=Ops <ops@example.net>'
(cd "$work" && ls one) >"$work/found"
echo "$package" >"$work/expected"
same 'a package of the name that Debian gives it'
dpkg-deb -f "$work/one/$package" Package Version Architecture Maintainer >"$work/found"
printf '%s\n' 'Package: rollout' "Version: $version" 'Architecture: amd64' 'Maintainer: Ops <ops@example.net>' >"$work/expected"
same 'name, version, machine and maintainer'
dpkg-deb -e "$work/one/$package" "$work/control"
ls "$work/control" >"$work/found"
printf '%s\n' control md5sums >"$work/expected"
same 'nothing in it runs where it is installed'
sleep 1
make deb "PROGRAM=$rollout" "TO=$work/two" 'MAINTAINER=Ops <ops@example.net>' >/dev/null
holds 'once more it is the same' cmp "$work/one/$package" "$work/two/$package"

# ---- what is in it

share=./usr/share
{
    echo '-rwxr-xr-x root/root ./usr/bin/rollout'
    echo '-rwxr-xr-x root/root ./usr/bin/rollout-supervise'
    echo "-rw-r--r-- root/root $share/man/man1/rollout.1.gz"
    echo "-rw-r--r-- root/root $share/man/man1/rollout-supervise.1.gz"
    echo "-rw-r--r-- root/root $share/bash-completion/completions/rollout"
    echo "-rw-r--r-- root/root $share/zsh/vendor-completions/_rollout"
    echo "-rw-r--r-- root/root $share/fish/vendor_completions.d/rollout.fish"
    find *.md LICENSE* docs bench/README.md tests/*/README.md examples -type f ! -perm -100 | sed "s|^|-rw-r--r-- root/root $share/doc/rollout/|"
    find examples -type f -perm -100 | sed "s|^|-rwxr-xr-x root/root $share/doc/rollout/|"
} | LC_ALL=C sort >"$work/expected"
dpkg-deb -c "$work/one/$package" | awk '{ print $1, $2, $6 }' >"$work/all"
grep -v '^d' "$work/all" | LC_ALL=C sort >"$work/found"
same 'its files, with their modes'
: >"$work/expected"
grep '^d' "$work/all" | grep -v '^drwxr-xr-x root/root ' >"$work/found"
same 'each folder may be read by all'
holds 'it can be unpacked' dpkg-deb -x "$work/one/$package" "$work/unpacked"
(cd "$work/unpacked" && md5sum --quiet -c "$work/control/md5sums") >"$work/found" 2>&1
same 'the sums of its files'
(cd "$work/unpacked" && find . -type f | wc -l) >"$work/expected"
wc -l <"$work/control/md5sums" >"$work/found"
same 'each file has its sum'
holds 'the program as it is' cmp "$rollout" "$work/unpacked/usr/bin/rollout"
gzip -dc "$work/unpacked/usr/share/man/man1/rollout.1.gz" >"$work/found"
cp man/rollout.1 "$work/expected"
same 'the manual page as it is'

# ---- installed below a fresh root, and removed

root=$work/root
mkdir -p "$root/var/lib/dpkg/info" "$root/var/lib/dpkg/updates"
: >"$root/var/lib/dpkg/status"
below() {
    dpkg "--root=$root" --force-not-root --force-depends --log=/dev/null "$@"
}
if below -i "$work/one/$package" >"$work/said" 2>&1; then
    pass
    below -s rollout | sed -n 's/^Status: //p' >"$work/found"
    echo 'install ok installed' >"$work/expected"
    same 'it is installed'
else
    echo 'left out: dpkg installs nothing below another root here; the package is unpacked in place of that'
    head -n 3 "$work/said"
    dpkg-deb -x "$work/one/$package" "$root"
fi
"$root/usr/bin/rollout" --version >"$work/found"
echo "rollout $version" >"$work/expected"
same 'the program runs from there'
(cd "$root/usr/share/doc/rollout" && "$root/usr/bin/rollout" limits examples/two-racks.json) >"$work/found" 2>&1
printf '%s\n' 'web members=5 down=1 limit=2 room=1' 'rack1 members=3 down=0 limit=1 room=1' 'rack2 members=2 down=1 limit=1 room=0' 'hosts=5 limited=3' >"$work/expected"
same 'it reads the examples from there'
if [ -e "$root/var/lib/dpkg/info/rollout.list" ]; then
    below -V rollout >"$work/found" 2>&1
    : >"$work/expected"
    same 'all is as it was installed'
    holds 'it can be removed' below -P rollout
    find "$root" -path "$root/var" -prune -o -mindepth 1 -print >"$work/found"
    same 'nothing is left'
fi

finish
