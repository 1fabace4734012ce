#!/bin/sh
# The course as a picture, as `plan --picture` draws it: worked rows, read from the picture by Python's reader of XML; and drawn pictures, beside the slow program. PICTURES says how many, 100 if
# it isn't set. It needs crates/rollout/out/rollout and Python.
. "$(dirname "$0")/common.sh"

# What stands in the rows of a picture: `LABEL | CELL | ..`, a cell by its class, or by what is written in it.
cat >"$work/rows.py" <<'END'
import sys
import xml.etree.ElementTree as tree

rows = {}
for element in tree.parse(sys.argv[1]).getroot():
    kind = element.get("class")
    if element.tag.endswith("}text") and kind in ("group", "host", "count", "play"):
        rows.setdefault(int(element.get("y")) - 11, []).append((int(element.get("x")), element.text))
    if element.tag.endswith("}rect") and int(element.get("y")) > 10 and kind not in ("room", "full"):
        rows.setdefault(int(element.get("y")), []).append((int(element.get("x")), kind))
for y in sorted(rows):
    print(" | ".join(text for _, text in sorted(rows[y])))
END

# pictured WHAT INVENTORY PLAYBOOK ROWS WORD..: the picture of the course of the two texts has these rows.
pictured() {
    what=$1
    printf '%s' "$2" >"$work/inventory.json"
    printf '%s' "$3" >"$work/playbook.json"
    printf '%s\n' "$4" >"$work/expected"
    shift 4
    rm -f "$work/picture.svg"
    "$rollout" plan "$work/inventory.json" "$work/playbook.json" --picture "$work/picture.svg" "$@" >/dev/null 2>&1
    python3 "$work/rows.py" "$work/picture.svg" >"$work/rows" 2>&1
    if diff "$work/rows" "$work/expected"; then pass; else fail "$what"; fi
}

pictured 'two racks in a region, of which each batch takes a host' "$racks" '[{"hosts":"all","tasks":[{"command":"true"}]}]' 'play 1
eu max_down=3 | 0/3 | 2/3 | 2/3 | 1/3
r1 max_down=1 | 0/1 | 1/1 | 1/1 | 1/1
r2 max_down=2 | 0/2 | 1/2 | 1/2 | 0/2
a: r1 | waiting | updated ran | updated | updated
b: r1 | waiting | waiting | updated ran | updated
c: r1 | waiting | waiting | waiting | updated ran
d: r2 | waiting | updated ran | updated | updated
e: r2 | waiting | waiting | updated ran | updated' --forecast

pictured 'a host fails, and its rack has no room: the others wait' "$racks" '[{"hosts":"all","tasks":[{"command":"true"}]}]' 'play 1
eu max_down=3 | 0/3 | 2/3
r1 max_down=1 | 0/1 | 1/1
r2 max_down=2 | 0/2 | 1/2
a: r1 | waiting | failed ran
b: r1 | waiting | waiting
c: r1 | waiting | waiting
d: r2 | waiting | updated ran
e: r2 | waiting | waiting' --forecast --failing a

pictured 'the same where hosts are held: they are set aside behind the batch' "$racks" '[{"hosts":"all","on_blocked":"hold","tasks":[{"command":"true"}]}]' 'play 1
eu max_down=3 | 0/3 | 2/3 | 2/3
r1 max_down=1 | 0/1 | 1/1 | 1/1
r2 max_down=2 | 0/2 | 1/2 | 1/2
a: r1 | waiting | failed ran | failed
b: r1 | waiting | held | held
c: r1 | waiting | held | held
d: r2 | waiting | updated ran | updated
e: r2 | waiting | waiting | updated ran' --forecast --failing a

pictured 'a host that is down from the start, one that is for no play, and one in no limited group' '{"all":{"hosts":{"lone":null},"children":{"r":{"vars":{"max_down":2},"hosts":{"a":{"down":true},"b":null,"c":null}}}}}' \
    '[{"hosts":"a:b:lone","tasks":[{"command":"true"}]},{"hosts":"c","tasks":[{"command":"true"}]}]' 'play 1
r max_down=2 | 1/2 | 2/2
lone | waiting | updated ran
a: r | off | off
b: r | waiting | updated ran
c: r | idle | idle
play 2
r max_down=2 | 1/2 | 2/2
lone | idle | idle
a: r | off | off
b: r | idle | idle
c: r | waiting | updated ran' --forecast

# A file that is there is written anew: nothing is left of a longer picture.
printf '[{"hosts":"all","tasks":[{"command":"true"}]}]' >"$work/playbook.json"
for of in "$racks" '{"all":{"hosts":{"a":null}}}'; do
    printf '%s' "$of" >"$work/inventory.json"
    rm -f "$work/alone.svg"
    for picture in over alone; do
        run plan "$work/inventory.json" "$work/playbook.json" --picture "$work/$picture.svg"
        [ "$status" -eq 0 ] && wc -c <"$work/$picture.svg" >>"$work/sizes"
    done
done
[ "$(sed -n 1p "$work/sizes")" -gt "$(sed -n 4p "$work/sizes")" ] && cmp -s "$work/over.svg" "$work/alone.svg" && pass || fail "a picture over a longer one: $(tr '\n' ' ' <"$work/sizes") bytes"

# A file that the command reads is never written over, whatever name leads to it.
printf '%s' "$racks" >"$work/inventory.json"
ln -s inventory.json "$work/link.json"
ln "$work/playbook.json" "$work/hard.json"
cp "$work/inventory.json" "$work/inventory.before"
cp "$work/playbook.json" "$work/playbook.before"
for name in inventory.json ./inventory.json link.json playbook.json hard.json; do
    run plan "$work/inventory.json" "$work/playbook.json" --picture "$work/$name"
    check "a picture in place of an input, $name" 1 '' "rollout: 919 OutputIsInput name=$work/$name$newline"
    cmp -s "$work/inventory.json" "$work/inventory.before" && cmp -s "$work/playbook.json" "$work/playbook.before" && pass || fail "an input is written over by $name"
done

counting python3 "$top/tests/slow/pictured.py" "$rollout" 7 "${PICTURES:-100}"
finish
