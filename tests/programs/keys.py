"""keys.py SHELL ROWS WORD..: types keys at a shell that runs at a terminal, as WORD.. start it, and compares what the screen shows with what the file ROWS has for it. Its last line
counts them.

A row is `SHELLS | KEYS | SHOWN`: the names of the shells that it is for, or `all`; what is typed behind the prompt `$ `, in which `<Tab>` is that key; and what stands there in the end, where
`_` is the cursor. Where SHOWN begins with `/`, one more Tab is typed than stands there if SHELL is bash, which lists at the second one, and what is listed below the line is
compared, in any order: names, with a `/` before each; a `|` in a name stands for a `/`.
"""

import fcntl
import os
import pty
import re
import select
import struct
import sys
import termios
import time

COLUMNS, ROWS = 200, 70
# The longest that a shell may take to answer, on a machine that is busy with other things, and that one that has answered may be silent before it shows more, in seconds.
PATIENCE, SILENCE = 60, 3
PIECE = re.compile(rb"\x1b\[[<=>?]*([\d;:]*)[ !\"#$'*]*([@-~])|\x1b[\]P_^].*?(?:\x07|\x1b\\)|\x1b[()*+#%].|\x1b([^\[\]P_^()*+#%])|([\x00-\x1a\x1c-\x1f\x7f])|([^\x00-\x1f\x7f]+)", re.S)


class Terminal:
    """What such a terminal shows, of what shells write: a row is a list of characters."""

    def __init__(self):
        self.left, self.asked = b"", b""
        self.row = self.column = 0
        self.kept = (0, 0)
        self.rows = [[] for _ in range(ROWS)]

    def feed(self, written):
        text, end = self.left + written, 0
        for found in PIECE.finditer(text):
            if found.start() != end or found.end() == len(text) and found[5] and found[5][-1] >= 0x80:
                # What is cut off in the middle comes whole with the next part.
                break
            end = found.end()
            numbers, letter, escaped, control, signs = found.groups()
            if signs:
                self._put(signs.decode(errors="replace"))
            elif control:
                self._control(control)
            elif letter:
                self._moved(letter.decode(), [int(number) if number.isdigit() else 0 for number in numbers.replace(b":", b";").split(b";")])
            elif escaped:
                self._escaped(escaped)
        self.left = text[end:]

    def _put(self, signs):
        for sign in signs:
            if self.column == COLUMNS:
                self._down()
                self.column = 0
            row = self.rows[self.row]
            row.extend(" " * (self.column + 1 - len(row)))
            row[self.column] = sign
            self.column += 1

    def _down(self):
        if self.row == ROWS - 1:
            self.rows = [*self.rows[1:], []]
        else:
            self.row += 1

    def _control(self, control):
        if control == b"\n":
            self._down()
        elif control == b"\r":
            self.column = 0
        elif control == b"\b":
            self.column = max(0, min(self.column, COLUMNS - 1) - 1)
        elif control == b"\t":
            self.column = min(COLUMNS - 1, self.column + 8 - self.column % 8)

    def _escaped(self, sign):
        if sign == b"7":
            self.kept = (self.row, self.column)
        elif sign == b"8":
            self.row, self.column = self.kept
        elif sign == b"M":
            self.row = max(0, self.row - 1)

    def _moved(self, letter, numbers):
        first, count = numbers[0], max(1, numbers[0])
        if letter in "AB":
            self.row = max(0, min(ROWS - 1, self.row + (count if letter == "B" else -count)))
        elif letter in "CD":
            self.column = max(0, min(COLUMNS - 1, self.column + (count if letter == "C" else -count)))
        elif letter == "G":
            self.column = count - 1
        elif letter in "Hf":
            self.row, self.column = min(ROWS, count) - 1, max(1, numbers[1] if len(numbers) > 1 else 1) - 1
        elif letter == "J":
            for at in range(ROWS) if first in (2, 3) else range(self.row + 1, ROWS) if first == 0 else range(self.row):
                self.rows[at] = []
            self._erase(first)
        elif letter == "K":
            self._erase(first)
        elif letter in "P@":
            row = self.rows[self.row]
            row[self.column : self.column + (count if letter == "P" else 0)] = [] if letter == "P" else " " * count
        elif letter in "LM":
            above, below = self.rows[: self.row], self.rows[self.row :]
            self.rows = (above + ([[] for _ in range(count)] + below if letter == "L" else below[count:] + [[] for _ in range(count)]))[:ROWS]
        elif letter == "n" and first == 6:
            self.asked += b"\x1b[%d;%dR" % (self.row + 1, self.column + 1)
        elif letter == "c":
            self.asked += b"\x1b[?62;22c"

    def _erase(self, which):
        row = self.rows[self.row]
        if which in (0, 2):
            del row[self.column if which == 0 else 0 :]
        else:
            row[: self.column + 1] = " " * (self.column + 1)

    def lines(self):
        found = ["".join(row).rstrip() for row in self.rows]
        while found and not found[-1]:
            found.pop()
        return found


class Shell:
    """A shell at a terminal of its own."""

    def __init__(self, words):
        self.screen = Terminal()
        self.child, self.file = pty.fork()
        if self.child == 0:
            fcntl.ioctl(0, termios.TIOCSWINSZ, struct.pack("HHHH", ROWS, COLUMNS, 0, 0))
            os.execvp(words[0], words)

    def read(self, seconds):
        """Takes what is written within that time; whether anything was."""
        if not select.select([self.file], [], [], seconds)[0]:
            return False
        try:
            self.screen.feed(os.read(self.file, 65536))
        except OSError:
            sys.exit("the shell has ended")
        if self.screen.asked:
            os.write(self.file, self.screen.asked)
            self.screen.asked = b""
        return True

    def shows(self, fits, seconds=PATIENCE, answered=lambda lines: False):
        """Whether the screen comes to show what fits, and goes on to. Of a shell that has answered no more is waited for once it is silent."""
        until, heard = time.monotonic() + seconds, time.monotonic()
        while time.monotonic() < until and not (answered(self.screen.lines()) and time.monotonic() > heard + SILENCE):
            if fits(self.screen.lines()):
                while self.read(0.05):
                    pass
                if fits(self.screen.lines()):
                    return True
            if self.read(0.2):
                heard = time.monotonic()
        return False

    def type(self, keys):
        os.write(self.file, keys.replace("<Tab>", "\t").encode())

    def fresh(self):
        """An empty line at the top of an empty screen. An interrupt may come while the shell is still at the last completion, and end just that."""
        for _ in range(PATIENCE // SILENCE):
            self.type("\x03")
            while self.read(0.05):
                pass
            self.type("\x0c")
            if self.shows(lambda lines: lines == ["$"], SILENCE):
                return True
        return False

    def end(self):
        os.close(self.file)
        os.waitpid(self.child, 0)


def line_of(lines):
    """The line behind the last prompt, each run of blanks as one."""
    return re.sub(r" +", " ", next((line[2:] for line in reversed(lines) if line.startswith("$ ")), ""))


def listed(lines):
    """The names that are listed below a line: what is said of each is left out, in brackets or behind `--`."""
    names = set()
    for line in lines[1:]:
        if line.startswith("$ "):
            continue
        while True:
            less = re.sub(r"\([^()]*\)", "  ", line)
            if less == line:
                break
            line = less
        front, said, _ = line.partition(" -- ")
        names |= {name.strip().replace("\\", "") for name in (front.split() if said else re.split(r" {2,}", line)) if name.strip()}
    return names


def shows_line(asked, shown):
    return asked.shows(lambda lines: line_of(lines) == shown, answered=lambda lines: line_of(lines).endswith("_"))


def shows_list(asked, shown):
    wanted = {name.replace("|", "/") for name in shown[1:].split("/")}
    return asked.shows(lambda lines: listed(lines) == wanted, answered=listed)


def main(shell, path, *words):
    passed = failed = 0
    asked = Shell(words)
    if not asked.shows(lambda lines: lines == ["$"]):
        print(f"FAILED: {shell} shows no prompt, and {asked.screen.lines()}")
        print("0 passed, 1 failed")
        return 1
    with open(path, encoding="utf-8") as file:
        rows = [line.rstrip("\n").split(" | ") for line in file]
    for shells, keys, shown in rows:
        if shells != "all" and shell not in shells.split():
            continue
        fresh = asked.fresh()
        lists = shown.startswith("/")
        # The last sign shows that the keys before it were heard.
        asked.type(keys + ("<Tab>" * (shell == "bash") if lists else "_"))
        if fresh and (shows_list if lists else shows_line)(asked, shown):
            passed += 1
        else:
            failed += 1
            seen = "\n".join(asked.screen.lines()[:30])
            print(f"FAILED: {shell} shows behind '{keys}', where {shown} was expected:\n{seen}")
            if lists:
                print(f"listed: {sorted(listed(asked.screen.lines()))}")
    asked.end()
    print(f"{passed} passed, {failed} failed")
    return failed > 0


if __name__ == "__main__":
    sys.exit(main(*sys.argv[1:]))
