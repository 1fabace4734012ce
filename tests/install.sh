#!/bin/sh
# Installs the program that `make` proved and built and bin/rollout-supervise, with their manual pages, completions, pages and examples, and takes that away again.
#
#     make install
#     make install PREFIX=/opt/rollout DESTDIR=/tmp/stage
#     make uninstall
#
# PREFIX is /usr/local where `make` is given none; DESTDIR is put before it for the copying alone. PROGRAM is another program to install. What is written is listed in
# share/doc/rollout/installed below PREFIX, with the folders that weren't there before: `make uninstall` removes these files, and of these folders those that are empty.
set -eu
top=$(cd "$(dirname "$0")/.." && pwd)
cd "$top"
program=${PROGRAM:-}
prefix=$PREFIX
case $prefix in
/*) prefix=${prefix%/} ;;
*)
    echo "FAILED: PREFIX is a path from the root on, and not $prefix" >&2
    exit 1
    ;;
esac
root=${DESTDIR:-}
list=$root$prefix/share/doc/rollout/installed
work=$(mktemp -d)
trap 'rm -rf "$work"' EXIT
trap 'exit 130' INT TERM

# each CALL: calls it with the mode, the file, and its place below PREFIX, of all that is installed.
each() {
    "$1" 755 "$program" bin/rollout
    "$1" 755 bin/rollout-supervise bin/rollout-supervise
    "$1" 644 man/rollout.1 share/man/man1/rollout.1
    "$1" 644 man/rollout-supervise.1 share/man/man1/rollout-supervise.1
    "$1" 644 completions/rollout.bash share/bash-completion/completions/rollout
    "$1" 644 completions/_rollout share/zsh/site-functions/_rollout
    "$1" 644 completions/rollout.fish share/fish/vendor_completions.d/rollout.fish
    # All pages and pictures, so that their links lead somewhere.
    for file in *.md LICENSE* docs/* bench/README.md tests/*/README.md examples/* examples/*/*; do
        mode=644
        [ ! -x "$file" ] || mode=755
        [ ! -f "$file" ] || "$1" "$mode" "$file" "share/doc/rollout/$file"
    done
}

# folder PATH: makes the folder, and those above it; each that wasn't there is noted.
folder() {
    [ -d "$root$1/" ] || {
        folder "${1%/*}"
        install -d -m 755 "$root$1"
        echo "folder $1" >>"$work/list"
    }
}

place() {
    folder "$prefix/${3%/*}"
    echo "file $prefix/$3" >>"$work/list"
}

copy() {
    install -m "$1" "$2" "$root$prefix/$3"
}

# removed FILE: removes the files that it lists.
removed() {
    sed -n 's/^file //p' "$1" >"$work/files"
    while IFS= read -r path; do
        rm -f "$root$path"
    done <"$work/files"
}

case $1 in
install)
    if [ ! -f "$program" ] || [ ! -x "$program" ]; then
        echo "FAILED: there is no program $program: \`make\` proves and builds it. What \`make look\` builds isn't proved, and isn't installed" >&2
        exit 1
    fi
    # An earlier install's folders are this one's too, and what it wrote and this one doesn't write goes away.
    [ ! -f "$list" ] || cp "$list" "$work/before"
    touch "$work/before"
    sed -n '/^folder /p' "$work/before" >"$work/list"
    [ -z "$root" ] || mkdir -p "$root"
    each place
    install -m 644 "$work/list" "$list"
    each copy
    grep -Fvx -f "$work/list" "$work/before" >"$work/gone" || :
    removed "$work/gone"
    echo "installed: $root$prefix/bin/rollout, and what $list has beside it"
    ;;
uninstall)
    if [ ! -f "$list" ]; then
        echo "FAILED: nothing is installed below $root$prefix: there is no $list" >&2
        exit 1
    fi
    cp "$list" "$work/list"
    removed "$work/list"
    rm -f "$list"
    # The innermost first.
    sed -n 's/^folder //p' "$work/list" | LC_ALL=C sort -r >"$work/folders"
    while IFS= read -r path; do
        rmdir "$root$path" 2>/dev/null || :
    done <"$work/folders"
    echo "removed: what was installed below $root$prefix"
    ;;
esac
