#!/bin/sh
# Tries the edits that stand in crates/NAME/edits, and those of must-fail/ beside them: the prover must refuse each. The gate tries those of
# must-fail/ alone.
#
#     make edits                  all
#     make edits SINCE=REV        those of the crates that changed since REV, in the working tree too, and of the crates above them
#     make edits CRATES="a b"     those of these crates, so that all can be tried in parts
#
# They are tried in a copy, where all of a crate lie in its must-fail/. What an edit came to is kept beside the kit by all that its check read, so what
# was broken off goes on where it was.
. "$(dirname "$0")/crates.sh"

if [ -n "${CRATES:-}" ]; then
    chosen=$(crates_by alone "$CRATES")
    if [ "$(echo $chosen | wc -w)" -ne "$(echo $CRATES | wc -w)" ]; then
        fail "crates.txt doesn't have each of: $CRATES"
        finish
        exit 1
    fi
elif [ -n "${SINCE:-}" ]; then
    chosen=$(touched_since "$SINCE") || exit 1
else
    chosen=$(crates_by below "$(cut -d : -f 1 crates.txt | tr '\n' ' ')")
fi
names=
for name in $chosen; do
    [ -z "$(edits_in "$name" must-fail edits)" ] || names="$names $name"
done
if [ -z "$names" ]; then
    echo "no edit to try"
    finish
    exit
fi
echo "$(edits_in "$names" must-fail edits | wc -l) edits of$names"

# A copy begins with what was kept here, so the crates are proved here first: side by side, where `rt must-fail` would build one after the other.
began=$(date +%s)
prove "$names"
for name in $names; do
    grep -qx "$name: ok" "$work/proofs" || fail "$name is not proved as it stands"
done
echo "proofs: $(($(date +%s) - began)) s"
if [ "$failed" -gt 0 ]; then
    tail -n 40 "$work/proofs"
    finish
    exit 1
fi

below=$(crates_by below "$names")
mkdir "$work/copy"
cp HANDLES "$work/copy"
for name in $below; do
    mkdir -p "$work/copy/crates/$name/must-fail"
    grep "^$name:" crates.txt >>"$work/copy/crates.txt"
    for part in src specs proofs must-fail; do
        [ ! -d "crates/$name/$part" ] || cp -R "crates/$name/$part" "$work/copy/crates/$name"
    done
    [ ! -d "crates/$name/edits" ] || cp "crates/$name/edits/"*.edit "$work/copy/crates/$name/must-fail"
done
cd "$work/copy" || exit 1
for name in $names; do
    began=$(date +%s)
    before=$passed
    try_edits "$name"
    echo "$name: $((passed - before)) refused, $(($(date +%s) - began)) s"
done
finish
