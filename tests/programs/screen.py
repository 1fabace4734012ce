"""screen.py COLUMNS OUT RAW PROGRAM WORD..: runs the program with a terminal of so many columns as its standard error, OUT as its standard output and nothing to read. Where
TYPED is set the terminal is its standard input too, and that text and the end of input are typed there.

What was written there is put into RAW, byte by byte, and what the terminal shows in the end is printed: each line once, though it may have gone over several rows. The exit
status is the program's; it is 99 where something was written that a terminal isn't to be given here, or where the line that is written over was ever too long for it:

- the only bytes below 32 are those of `\\r`, `\\n`, the tabulator and `\\x1b[K`;
- what stands between `\\r` and `\\x1b[K` has fewer characters than there are columns.
"""

import fcntl
import os
import pty
import re
import struct
import sys
import termios

OVER = re.compile(r"\r([^\r\n\x1b]*)\x1b\[K")


class Screen:
    """A terminal of endless height: rows of characters, which of them go on with the row before, and where the cursor is."""

    def __init__(self, columns):
        self.columns, self.rows, self.goes_on, self.row, self.column = columns, [[]], [False], 0, 0

    def feed(self, text):
        for piece in re.findall(r"\x1b\[K|.", text, re.S):
            if piece == "\x1b[K":
                del self.rows[self.row][self.column :]
            elif piece == "\r":
                self.column = 0
            elif piece == "\n":
                self._down(False)
            elif piece == "\t":
                self._put(" " * (8 - self.column % 8))
            else:
                self._put(piece)

    def _down(self, goes_on):
        self.row += 1
        if self.row == len(self.rows):
            self.rows.append([])
            self.goes_on.append(goes_on)

    def _put(self, text):
        for sign in text:
            if self.column == self.columns:
                self._down(True)
                self.column = 0
            row = self.rows[self.row]
            row.extend(" " * (self.column + 1 - len(row)))
            row[self.column] = sign
            self.column += 1

    def lines(self):
        """The lines that are shown, without the empty one in which the cursor waits."""
        found = []
        for row, goes_on in zip(self.rows, self.goes_on):
            text = "".join(row)
            found = [*found[:-1], found[-1] + text] if goes_on else [*found, text]
        while found and not found[-1].strip():
            found.pop()
        return [line.rstrip() for line in found]


def faults(text, columns):
    """What was written that was not to be."""
    for found in re.finditer(r"[\x00-\x08\x0b-\x1f\x7f-\x9f]", text):
        if found[0] != "\r" and not text.startswith("\x1b[K", found.start()):
            yield f"a byte {found[0]!r}"
    for found in OVER.finditer(text):
        if len(found[1]) >= columns:
            yield f"{len(found[1])} characters in {columns} columns: {found[1]!r}"


def run(columns, out, words):
    """What the program writes to the terminal, and its exit status."""
    typed = os.environ.pop("TYPED", None)
    child, terminal = pty.fork()
    if child == 0:
        fcntl.ioctl(2, termios.TIOCSWINSZ, struct.pack("HHHH", 24, columns, 0, 0))
        if typed is None:
            os.dup2(os.open(os.devnull, os.O_RDONLY), 0)
        os.dup2(os.open(out, os.O_WRONLY | os.O_CREAT | os.O_TRUNC), 1)
        os.execv(words[0], words)
    if typed is not None:
        # What is typed isn't shown.
        modes = termios.tcgetattr(terminal)
        modes[3] &= ~termios.ECHO
        termios.tcsetattr(terminal, termios.TCSANOW, modes)
        os.write(terminal, typed.encode() + b"\n\x04")
    shown = b""
    while True:
        try:
            more = os.read(terminal, 65536)
        except OSError:
            break
        if not more:
            break
        shown += more
    # The terminal's own line ends.
    return shown.replace(b"\r\n", b"\n"), os.waitstatus_to_exitcode(os.waitpid(child, 0)[1])


def main(columns, out, raw, *words):
    written, status = run(int(columns), out, words)
    with open(raw, "wb") as file:
        file.write(written)
    text = written.decode(errors="replace")
    screen = Screen(int(columns))
    # A line feed moves to the first column, as the terminal made of each.
    screen.feed(text.replace("\n", "\r\n"))
    print("".join(f"{line}\n" for line in screen.lines()), end="")
    wrong = list(faults(text, int(columns)))
    for line in wrong[:5]:
        print(line, file=sys.stderr)
    return 99 if wrong else status


if __name__ == "__main__":
    sys.exit(main(*sys.argv[1:]))
