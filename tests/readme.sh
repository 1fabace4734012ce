#!/bin/bash
# Runs the lines of README.md and the pages beside it, docs/, the README.md of examples/ and its folders, and bench/README.md that begin with `$ `, at the top of the repository, and compares what each
# prints, both outputs together, with the lines behind it, up to the next `$ ` or the end of the block (fenced, or indented by four
# blanks). A command that ends in a backslash goes on in the next line. `rollout` is the built program, or ROLLOUT; the commands of one block run in
# one shell. A block whose first line is a comment `# needs NAME` is run only where NAME is among the script's words, as in
# `tests/readme.sh ansible-core`; PAGES are other pages than these, and LIMIT other seconds for a block than 120; one that bounds memory is left out where UNPROVED is set, as tests/common.sh has it. Then it looks for the files that the pages link to, and draws
# the picture that README shows.
# Under another shell, as `sh tests/readme.sh`, it starts itself again.
[ -n "${BASH_VERSION:-}" ] || exec bash "$0" "$@"
set -u
top=$(cd "$(dirname "$0")/.." && pwd)
cd "$top" || exit 1
rollout=${ROLLOUT:-$top/crates/rollout/out/rollout}
export PATH=${rollout%/*}:$PATH LC_ALL=C.UTF-8
here=" $* "
work=$(mktemp -d)
trap 'rm -rf "$work"' EXIT
passed=0
failed=0

# Examples write below /tmp. Where a mount is allowed they have one of their own: neither another run of this nor a file of that name is in their way.
apart=()
case $top:$rollout in
/tmp/* | *:/tmp/*) ;;
*)
    if unshare -m mount --bind /var/tmp /tmp 2>/dev/null; then
        rmdir "$work"
        work=$(mktemp -d -p /var/tmp)
        mkdir -m 1777 "$work/tmp"
        apart=(unshare -m sh -c 'mount --bind "$0" /tmp && exec "$@"' "$work/tmp")
    fi
    ;;
esac

if [ ! -x "$rollout" ]; then
    echo "FAILED: $rollout isn't built"
    echo '0 passed, 1 failed'
    exit 1
fi

judge() {
    if [ "$1" = yes ]; then
        passed=$((passed + 1))
    else
        failed=$((failed + 1))
        echo "FAILED: $2"
    fi
}

# The shell of a block: each command begins at the top and sees the exit status of the one before it.
cat >"$work/shell" <<'SHELL'
work=$1
number=0
status=0
while [ -e "$work/command.$number" ]; do
    command=$(<"$work/command.$number")
    cd "$2" || exit 1
    (exit "$status")
    eval "$command" >"$work/printed.$number" 2>&1 </dev/null
    status=$?
    number=$((number + 1))
done
SHELL

# run_block PAGE FIRST: the lines of the block are in the list `block`, the first of them is line FIRST of the page.
run_block() {
    local page=$1 first=$2 count=0 index=0 line need
    [ "${#block[@]}" -gt 0 ] || return
    rm -f "$work"/command.* "$work"/expected.* "$work"/printed.*
    local -a places=()
    while [ "$index" -lt "${#block[@]}" ]; do
        line=${block[index]}
        if [ "${line:0:2}" = '$ ' ]; then
            places[count]=$((first + index))
            line=${line:2}
            while [ "${line: -1}" = '\' ] && [ $((index + 1)) -lt "${#block[@]}" ]; do
                index=$((index + 1))
                line+=$'\n'${block[index]}
            done
            printf '%s\n' "$line" >"$work/command.$count"
            : >"$work/expected.$count"
            count=$((count + 1))
        elif [ "$count" -gt 0 ]; then
            printf '%s\n' "$line" >>"$work/expected.$((count - 1))"
        fi
        index=$((index + 1))
    done
    [ "$count" -gt 0 ] || return
    if [ "${block[0]:0:8}" = '# needs ' ]; then
        need=${block[0]:8}
        if [ "${here/ $need /}" = "$here" ]; then
            echo "skipped: $page:$first needs $need"
            return
        fi
    fi
    if [ -n "${UNPROVED:-}" ] && grep -q 'ulimit -v' "$work"/command.*; then
        echo "left out on a program without proofs: $page:$first, of want of memory"
        return
    fi
    timeout "${LIMIT:-120}" "${apart[@]}" bash "$work/shell" "$work" "$top"
    for ((index = 0; index < count; index++)); do
        # a substitution drops the empty lines at the end
        if [ "$(cat "$work/expected.$index")" = "$(cat "$work/printed.$index" 2>&1)" ]; then
            judge yes
        else
            judge no "$page:${places[index]}: $(cat "$work/command.$index")"
            diff "$work/expected.$index" "$work/printed.$index"
        fi
    done
}

run_page() {
    local page=$1 number=0 first=0 mode=text line
    local -a block=()
    while IFS= read -r line || [ -n "$line" ]; do
        number=$((number + 1))
        case $mode in
        fenced)
            if [ "${line:0:3}" = '```' ]; then
                run_block "$page" "$first"
                block=()
                mode=text
            else
                block+=("$line")
            fi
            continue
            ;;
        indented)
            if [ "${line:0:4}" = '    ' ]; then
                block+=("${line:4}")
                continue
            elif [ -z "$line" ]; then
                block+=('')
                continue
            fi
            run_block "$page" "$first"
            block=()
            mode=text
            ;;
        esac
        if [ "${line:0:3}" = '```' ]; then
            mode=fenced
            first=$((number + 1))
        elif [ "${line:0:4}" = '    ' ]; then
            mode=indented
            first=$number
            block+=("${line:4}")
        fi
    done <"$page"
    run_block "$page" "$first"
}

# Each file that the page links to stands where the link says.
check_links() {
    local page=$1 link
    while IFS= read -r link; do
        case $link in
        *://* | '#'*) continue ;;
        esac
        [ -e "$(dirname "$page")/${link%%#*}" ] && judge yes || judge no "$page: no file $link"
    done < <(grep -o '](\([^)]*\))' "$page" | sed 's/^](//; s/)$//' | sort -u)
}

# The picture that README shows is the one that the program draws.
"$rollout" plan examples/two-racks.json examples/restart-web.json --picture "$work/two-racks.svg" >/dev/null 2>&1
cmp -s docs/two-racks.svg "$work/two-racks.svg" && judge yes || judge no 'docs/two-racks.svg: the program draws another picture'

# shellcheck disable=SC2086
for page in ${PAGES:-*.md docs/*.md examples/README.md examples/*/README.md bench/README.md}; do
    run_page "$page"
    check_links "$page"
done
echo "$passed passed, $failed failed"
[ "$failed" -eq 0 ] && [ "$passed" -gt 0 ]
