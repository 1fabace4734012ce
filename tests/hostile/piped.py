"""Commands whose standard files are pipes of an odd kind: that don't block, that a slow reader empties, that the writer leaves in the middle.

usage: python3 tests/hostile/piped.py ROLLOUT FOLDER     the folder is empty

A write that a pipe doesn't take is a fault, which tells exactly how much went out; a read that would have to wait is one too. The last line counts.
"""

import fcntl
import json
import os
import subprocess
import sys
import threading
import time
from pathlib import Path

LIMIT = 300
# So much has room in a pipe here. A write of no more goes into it whole or not at all.
ROOM = 4096


class Rows:
    def __init__(self, rollout):
        self.rollout, self.passed, self.failed = rollout, 0, 0

    def row(self, what, found, wanted):
        if found == wanted:
            self.passed += 1
            return
        self.failed += 1
        print(f"FAILED: {what}: {short(found)}; expected {short(wanted)}", flush=True)

    def start(self, words, **files):
        return subprocess.Popen([self.rollout, *words], **{"stdin": subprocess.DEVNULL, "stdout": subprocess.PIPE, "stderr": subprocess.PIPE, **files})


def short(said):
    return ", ".join(f"{part[:80]!r} of {len(part)}" if isinstance(part, bytes) else repr(part)[:200] for part in said)


def small_pipe(blocks=True):
    """A pipe of little room; whether a write waits until there is some."""
    out, into = os.pipe()
    fcntl.fcntl(into, fcntl.F_SETPIPE_SZ, ROOM)
    os.set_blocking(into, blocks)
    return out, into


def held(end):
    """What lies in a pipe that nobody writes to any more."""
    parts = []
    while part := os.read(end, 1 << 16):
        parts.append(part)
    os.close(end)
    return b"".join(parts)


def unread(rows, words, told=b""):
    """The status, and what lies in a pipe as standard output that takes what it has room for and doesn't block; beside it what goes to standard error."""
    out, into = small_pipe(blocks=False)
    started = rows.start(words, stdout=into, stdin=subprocess.PIPE)
    os.close(into)
    errors = started.communicate(told, timeout=LIMIT)[1]
    return started.returncode, held(out), errors


def whole(rows, words, told=b""):
    started = rows.start(words, stdin=subprocess.PIPE)
    out, errors = started.communicate(told, timeout=LIMIT)
    return started.returncode, out, errors


def slowly(rows, words, size, told=b""):
    """The same of one that a reader empties by so many bytes at a time."""
    out, into = small_pipe()
    started = rows.start(words, stdout=into, stdin=subprocess.PIPE)
    os.close(into)
    started.stdin.write(told)
    started.stdin.close()
    parts = []
    while part := os.read(out, size):
        parts.append(part)
    os.close(out)
    errors = started.stderr.read()
    return started.wait(LIMIT), b"".join(parts), errors


def outputs(rows, files):
    both = [files["hosts"], files["skips"]]
    whole(rows, ["run", *both, "--journal", files["journal"]])
    plan = ["plan", *both]
    for words, told, status in (
        (["limits", files["groups"]], b"", 0),
        (plan, b"", 0),
        ([*plan, "--forecast"], b"", 0),
        ([*plan, "--groups"], b"", 0),
        ([*plan, "--commands"], b"", 0),
        ([*plan, "--json"], b"", 0),
        (["lint", files["groups"]], b"", 1),
        (["state", files["hosts"], files["journal"]], b"", 0),
        (["run", *both], b"", 0),
        (["rehearse", *both], b"plan\nshow\n" * 20, 0),
    ):
        right = whole(rows, words, told)
        rows.row(f"{words[0]} {words[-1]}: an output that is longer than a pipe", (right[0], len(right[1]) > ROOM, right[2]), (status, True, b""))
        status, out, errors = unread(rows, words, told)
        fault = b'{"fault":{"number":904,"kind":"Write","written":%d}}\n' if "--json" in words else b"rollout: 904 Write written=%d\n"
        rows.row(f"{words[0]} {words[-1]} into a pipe that doesn't block and is full", (status, right[1].startswith(out), len(out) > ROOM // 2, errors), (1, True, True, fault % len(out)))
        rows.row(f"{words[0]} {words[-1]} to a slow reader", slowly(rows, words, 509, told), right)
    rows.row("a table into a pipe that doesn't block and has room", unread(rows, ["limits", files["small"]]), (0, b"hosts=3 limited=0\n", b""))


def told_of(rows, files):
    """A run that tells of itself into a pipe that doesn't block: what it can't write is left out, each line whole, and the run goes on."""
    right = whole(rows, ["run", files["many"], files["skips"]])
    errors, into = small_pipe(blocks=False)
    started = rows.start(["run", "-v", files["many"], files["skips"]], stderr=into)
    os.close(into)
    out = started.communicate(timeout=LIMIT)[0]
    lines = held(errors)
    rows.row("a run tells of itself into a pipe that doesn't block", (started.returncode, out), right[:2])
    named = lines.decode().split("\n")
    rows.row("the lines in it are whole", (len(lines) > ROOM // 2, named[-1][:80], {line.split(" step=")[1] for line in named[1:-1]}), (True, "", {"1 skipped name="}))


def inputs(rows, files):
    inventory = Path(files["small"]).read_bytes()
    for words in ([], ["rehearse", files["small"], files["true"]]):
        into, end = os.pipe()
        os.set_blocking(into, False)
        started = rows.start(words, stdin=into)
        out, errors = started.communicate(timeout=LIMIT)
        os.close(into)
        os.close(end)
        rows.row(f"{words[:1]}: standard input doesn't block, and nothing has come", (started.returncode, out, errors), (1, b"", b"rollout: 902 File name=-\n"))
    for what, parts, wanted in (
        ("comes in three parts", (inventory[:9], inventory[9:20], inventory[20:]), (0, b"hosts=3 limited=0\n", b"")),
        ("stops in the middle", (inventory[:9], inventory[9:20]), (1, b"", b"rollout: 201 NotJson\n")),
        ("stops at once", (), (1, b"", b"rollout: 201 NotJson\n")),
    ):
        started = rows.start([], stdin=subprocess.PIPE)
        for part in parts:
            started.stdin.write(part)
            started.stdin.flush()
            time.sleep(0.2)
        out, errors = started.communicate(timeout=LIMIT)
        rows.row(f"standard input that {what}", (started.returncode, out, errors), wanted)
    started = rows.start(["plan", "/dev/stdin", "/dev/stdin"], stdin=subprocess.PIPE)
    out, errors = started.communicate(inventory, timeout=LIMIT)
    rows.row("one pipe as both inputs", (started.returncode, out, errors), (1, b"", b"rollout: 701 NotJson\n"))


def named_pipes(rows, folder, files):
    """All inputs are named pipes; of one the writer stops in the middle."""
    plan = b"plan batches=1 bound=one-host\nbatch 1: a b c\n"
    inventory, playbook = (Path(files[name]).read_bytes() for name in ("small", "true"))
    whole(rows, ["run", files["small"], files["true"], "--journal", str(folder / "small.journal")])
    journal = (folder / "small.journal").read_bytes()
    states = b"".join(b"%c state=updated\n" % host for host in b"abc")
    for what, command, texts, wanted in (
        ("two named pipes", "plan", (inventory, playbook), (0, plan, b"")),
        ("an inventory that stops in the middle", "plan", (inventory[:20], playbook), (1, b"", b"rollout: 201 NotJson\n")),
        ("a playbook that stops in the middle", "plan", (inventory, playbook[:20]), (1, b"", b"rollout: 701 NotJson\n")),
        ("three named pipes", "check", (inventory, playbook, b"a b\nc\n"), (2, b"valid batches=2 least=1\n", b"")),
        ("a plan that stops in the middle", "check", (inventory, playbook, b"a b\n"), (1, b"missing host=c\n", b"")),
        ("an inventory and a journal", "state", (inventory, journal), (0, states + b"end finished\n", b"")),
        ("a journal that stops before its last byte", "state", (inventory, journal[:-1]), (6, states + b"end broken-off\n", b"")),
        ("a journal that stops in its first line", "state", (inventory, journal[:99]), (1, b"", b"rollout: 912 BadJournal line=1\n")),
        ("two named pipes that are looked through", "lint --allow=local-command", (inventory, playbook), (0, b"notes=0\n", b"")),
    ):
        pipes = [folder / f"{number}.pipe" for number in range(len(texts))]
        for pipe, text in zip(pipes, texts):
            pipe.unlink(missing_ok=True)
            os.mkfifo(pipe)
            threading.Thread(target=pipe.write_bytes, args=(text,), daemon=True).start()
        rows.row(f"{command}: {what}", whole(rows, [*command.split(), *map(str, pipes)]), wanted)


def made(folder):
    """The files by their names."""
    texts = {
        "small": {"all": {"hosts": dict.fromkeys("abc")}},
        "groups": {"all": {"children": {f"group{number:0240}": {"vars": {"max_down": 1}} for number in range(100)}}},
        "hosts": {"all": {"hosts": dict.fromkeys(f"host{number:090}" for number in range(100))}},
        "many": {"all": {"hosts": dict.fromkeys(f"h{number:04}" for number in range(300))}},
        "true": [{"hosts": "all", "tasks": [{"command": "true"}]}],
        "skips": [{"hosts": "all", "tasks": [{"command": "true", "when": False}, {"command": "true", "when": False}]}],
    }
    for name, text in texts.items():
        (folder / name).write_text(json.dumps(text))
    return {name: str(folder / name) for name in (*texts, "journal")}


def main(rollout, folder):
    folder = Path(folder)
    rows, files = Rows(os.path.abspath(rollout)), made(folder)
    outputs(rows, files)
    told_of(rows, files)
    inputs(rows, files)
    named_pipes(rows, folder, files)
    print(f"{rows.passed} passed, {rows.failed} failed")
    return 1 if rows.failed or not rows.passed else 0


if __name__ == "__main__":
    sys.exit(main(*sys.argv[1:]))
