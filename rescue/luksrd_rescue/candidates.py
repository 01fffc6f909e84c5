"""The lines of a file of candidates: passphrases, each in a bytearray that its user overwrites.
(Python cannot overwrite bytes, so that none of them are bytes on the way.)"""

from __future__ import annotations

import os
from typing import BinaryIO, Generator, NamedTuple, Optional

from . import terminal
from .command import FAILED, IMAGE, USAGE, Refusal, say

# luksrd's longest passphrase, and the longest line that may be one
PASSPHRASE_BYTES = 8388608
LINE_BYTES = PASSPHRASE_BYTES + len(b"\r\n")
# So much of the file is in memory at once, unless a line is longer
PIECE = 1 << 16


class Line(NamedTuple):
    """A passphrase, and the number of its line."""

    number: int
    passphrase: bytearray


def opened(name: str) -> BinaryIO:
    """The file with the passphrases."""
    try:
        # (without a buffer of Python, which nobody could overwrite)
        return open(os.dup(0) if name == "-" else name, "rb", buffering=0)
    except OSError as error:
        raise Refusal(IMAGE, name, f"cannot open: {error.strerror}") from error


class _Reader:
    """The lines of a file. What is read ahead is in one object, which is overwritten."""

    def __init__(self, file: BinaryIO) -> None:
        self._file = file
        # what was read, and is not given yet
        self._room, self._start, self._end = bytearray(PIECE), 0, 0

    def next(self) -> bytearray:
        """The next line with its newline, or the first bytes of one that is too long; nothing at
        the end."""
        while (after := self._room.find(b"\n", self._start, self._end) + 1) == 0:
            if self._end - self._start == LINE_BYTES or not self._read():
                after = self._end
                break
        with memoryview(self._room)[self._start:after] as view:
            line = bytearray(view)
            view[:] = bytes(len(view))
        self._start = after
        return line

    def _read(self) -> int:
        """Reads more, and gives how many bytes that is: 0 at the end."""
        left, old = self._end - self._start, self._room
        self._room = bytearray(max(PIECE, min(2 * left, LINE_BYTES)))
        with memoryview(self._room) as view:
            view[:left] = memoryview(old)[self._start:self._end]
            terminal.wipe(old)
            got = os.readv(self._file.fileno(), [view[left:]])
        self._start, self._end = 0, left + got
        return got

    def wipe(self) -> None:
        """Overwrites what was read ahead."""
        terminal.wipe(self._room)


def lines_of(file: BinaryIO, name: str) -> Generator[Line, None, None]:
    """The lines of a file of this name, without their ends. A carriage return is a part."""
    is_noted, count, reader = False, 0, _Reader(file)
    try:
        while line := reader.next():
            count += 1
            if line.endswith(b"\n"):
                del line[-1:]
            if line.endswith(b"\r"):
                del line[-1:]
                if not is_noted:
                    say(name, f"line {count} ends with a carriage return, as Windows writes it: it "
                        "is taken off, and so are others")
                is_noted = True
            if len(line) > PASSPHRASE_BYTES:
                terminal.wipe(line)
                raise Refusal(USAGE, name, f"line {count} is longer than {PASSPHRASE_BYTES} bytes")
            yield Line(count, line)
    except OSError as error:
        why = f"read failed after line {count}: {error.strerror}"
        raise Refusal(FAILED, name, why) from error
    finally:
        reader.wipe()


def count_of(file: BinaryIO, name: str) -> Optional[int]:
    """The number of lines in the file of this name, or None for a pipe."""
    if not file.seekable():
        return None
    count, last, piece = 0, ord("\n"), bytearray(PIECE)
    try:
        begin = file.tell()
        while got := os.readv(file.fileno(), [piece]):
            count, last = count + piece.count(b"\n", 0, got), piece[got - 1]
        file.seek(begin)
    except OSError as error:
        raise Refusal(FAILED, name, f"read failed: {error.strerror}") from error
    finally:
        terminal.wipe(piece)
    return count + (last != ord("\n"))
