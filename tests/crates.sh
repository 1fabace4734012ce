# What build.sh, edits.sh and touched.sh share: which crates stand on which, by crates.txt; which changed; proofs and edits of some of them.
set -u
top=$(cd "$(dirname "$0")/.." && pwd)
work=$(mktemp -d)
trap 'rm -rf "$work"' EXIT
trap 'exit 130' INT TERM
jobs=${JOBS:-$(nproc)}
passed=0
failed=0
cd "$top" || exit 1

fail() {
    failed=$((failed + 1))
    echo "FAILED: $1"
}

# The last line, and the exit status.
finish() {
    echo "$passed passed, $failed failed"
    [ "$failed" -eq 0 ]
}

# crates_by WAY 'NAME ..': these crates, each behind all that it stands on; with those that they stand on (WAY is `below`), with those that stand
# on them (`above`), or alone.
crates_by() {
    awk -v way="$1" -v names="$2" '
        { sub(/#.*/, "") }
        /:/ { name = $1; sub(/:.*/, "", name); sub(/^[^:]*:/, ""); order[++count] = name; uses[name] = $0 }
        END {
            for (n = split(names, list, " "); n > 0; n--) wanted[list[n]]
            do {
                more = 0
                for (i = 1; i <= count && way != "alone"; i++)
                    for (n = split(uses[order[i]], list, " "); n > 0; n--) {
                        from = way == "below" ? order[i] : list[n]
                        to = way == "below" ? list[n] : order[i]
                        if ((from in wanted) && (to in uses) && !(to in wanted)) more = wanted[to] = 1
                    }
            } while (more)
            do {
                more = 0
                for (i = 1; i <= count; i++) {
                    waits = order[i] in placed
                    for (n = split(uses[order[i]], list, " "); n > 0; n--) waits = waits || (list[n] in uses) && !(list[n] in placed)
                    if (waits) continue
                    placed[order[i]]
                    more = 1
                    if (order[i] in wanted) print order[i]
                }
            } while (more)
        }' crates.txt
}

# touched_since REV: the crates of which a file differs from REV, in the working tree too, and those above each whose text, or line of crates.txt, does.
touched_since() {
    if ! git rev-parse -q --verify "$1^{commit}" >/dev/null; then
        echo "'$1' is no revision: give one as SINCE=main" >&2
        return 1
    fi
    files=$(git diff --no-renames --name-only "$1" -- crates && git ls-files --others --exclude-standard -- crates)
    texts=$(echo "$files" | grep -E '^crates/[^/]*/(src|specs|proofs)/' | cut -d / -f 2)
    lines=$(git diff "$1" -- crates.txt | sed -n 's/^[-+]\([a-z0-9_]*\):.*/\1/p')
    above=$(crates_by above "$(echo $texts $lines)")
    crates_by alone "$(echo $above $(echo "$files" | cut -d / -f 2))"
}

# prove 'NAME ..': checks these crates, and first those that they stand on where they aren't built, over kept work. `rt all check` takes a crate
# with all below it and has several at work at once, which `rt check` beside `rt check` has not: each holds all that its crate stands on.
# What it said is left in $work/proofs, with a line 'NAME: ok' for each crate that is proved.
prove() {
    : >"$work/proofs"
    covered=
    for name in $(crates_by alone "$1" | tac); do
        case " $covered " in *" $name "*) continue ;; esac
        covered="$covered $(echo $(crates_by below "$name"))"
        (cd "crates/$name" && rt all check --jobs "$jobs") >>"$work/proofs" 2>&1
    done
}

# edits_in 'NAME ..' FOLDER ..: the edits of these crates in folders of that name
edits_in() {
    names=$1
    shift
    for name in $names; do
        for folder in "$@"; do
            find "crates/$name/$folder" -name '*.edit' 2>/dev/null
        done
    done
}

# try_edits 'NAME ..': has rt try what stands in these crates' must-fail/, and counts what it refused; all else has failed.
try_edits() {
    wanted=$(edits_in "$1" must-fail | wc -l)
    [ "$wanted" -gt 0 ] || return 0
    rt must-fail $(edits_in "$1" must-fail | cut -d / -f 2 | sort -u) >"$work/edits" 2>&1
    status=$?
    refused=$(grep -c ': refused, as it must be' "$work/edits")
    grep -v ': refused, as it must be' "$work/edits" | sed 's/^/    /'
    [ "$refused" -lt "$wanted" ] || [ "$status" -eq 0 ] || refused=$((wanted - 1))
    passed=$((passed + refused))
    failed=$((failed + wanted - refused))
    [ "$refused" -eq "$wanted" ] || echo "FAILED: $((wanted - refused)) of $wanted edits were not refused; what rt said of them stands above"
}
