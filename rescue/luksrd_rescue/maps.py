"""Map files of ddrescue: which parts of a disk, or of a plaintext, are there.

GNU ddrescue's manual, "Mapfile structure": comments, a line with the current position and status,
and a line for each block with its position, its size and its status."""

from __future__ import annotations

import bisect
import contextlib
import os
import re
from typing import BinaryIO, Iterator, NamedTuple

from .command import FAILED, IMAGE, Refusal

# The statuses of a block: not tried, not trimmed, not scraped, bad, finished
UNTRIED, UNTRIMMED, UNSCRAPED, BAD, DONE = "?", "*", "/", "-", "+"
_NUMBER = re.compile(r"0[xX][0-9a-fA-F]+|0[0-7]*|[1-9][0-9]*")
_LONGEST = 256 << 20


class Block(NamedTuple):
    """So many bytes from a position on, all with one status."""

    start: int
    length: int
    status: str

    @property
    def end(self) -> int:
        """The first byte after it."""
        return self.start + self.length


def is_done(status: str) -> bool:
    """Whether the bytes of a block are there."""
    return status == DONE


def _number(word: str) -> int:
    if not _NUMBER.fullmatch(word):
        raise ValueError(word)
    return int(word, 16 if word[:2] in ("0x", "0X") else 8 if word[0] == "0" else 10)


class Map:
    """The statuses of all bytes from 0 to `size`, and the comments of the file."""

    def __init__(self, size: int = 0) -> None:
        self.comments: list[str] = []
        # where each block starts, in ascending order, and its status; neighbours differ
        self._starts, self._statuses = ([0], [UNTRIED]) if size else ([], [])
        self.size = size

    def blocks(self) -> Iterator[Block]:
        """All blocks in order."""
        ends = [*self._starts[1:], self.size]
        return (Block(start, end - start, status)
                for start, end, status in zip(self._starts, ends, self._statuses))

    def count(self, status: str) -> int:
        """How many bytes have this status."""
        return sum(block.length for block in self.blocks() if block.status == status)

    def block_at(self, position: int) -> Block:
        """The block with this byte; what is past the end is one that was not tried."""
        if not 0 <= position < self.size:
            return Block(position, (1 << 63) - position, UNTRIED)
        index = bisect.bisect_right(self._starts, position) - 1
        start = self._starts[index]
        end = self._starts[index + 1] if index + 1 < len(self._starts) else self.size
        return Block(start, end - start, self._statuses[index])

    def _cut(self, position: int) -> int:
        """Makes a block start at this byte, and returns its index."""
        index = bisect.bisect_left(self._starts, position)
        is_start = index < len(self._starts) and self._starts[index] == position
        if not is_start and position < self.size:
            self._starts.insert(index, position)
            self._statuses.insert(index, self._statuses[index - 1])
        return index

    def mark(self, start: int, length: int, status: str) -> None:
        """Gives these bytes a status."""
        if length <= 0:
            return
        first, last = self._cut(start), self._cut(start + length)
        self._starts[first:last], self._statuses[first:last] = [start], [status]
        for index in (first + 1, first):
            if 0 < index < len(self._starts) and self._statuses[index] == self._statuses[index - 1]:
                del self._starts[index], self._statuses[index]

    def copy(self) -> Map:
        """The same map, which changes no more with this one."""
        same = Map()
        same.comments, same.size = list(self.comments), self.size
        same._starts, same._statuses = list(self._starts), list(self._statuses)
        return same

    def text(self) -> str:
        """The map file."""
        left = next((block.start for block in self.blocks() if block.status == UNTRIED), None)
        current = f"0x{left or 0:08X}     {DONE if left is None else UNTRIED}               1"
        lines = [f"# {comment}" for comment in self.comments]
        lines += ["# current_pos  current_status  current_pass", current,
                  "#      pos        size  status"]
        lines += [f"0x{start:08X}  0x{length:08X}  {status}"
                  for start, length, status in self.blocks()]
        return "\n".join(lines) + "\n"

    def save(self, path: str) -> None:
        """Writes the map file in one step: whoever opens it finds the old one or this one, also
        after the machine has lost its power."""
        fresh = f"{path}.new"
        with contextlib.suppress(FileNotFoundError):
            os.unlink(fresh)
        descriptor = os.open(fresh, os.O_WRONLY | os.O_CREAT | os.O_EXCL | os.O_CLOEXEC, 0o600)
        try:
            with open(descriptor, "w", encoding="ascii", errors="backslashreplace") as file:
                file.write(self.text())
                file.flush()
                os.fsync(descriptor)
            os.replace(fresh, path)
        except BaseException:
            with contextlib.suppress(OSError):
                os.unlink(fresh)
            raise
        _sync_folder(path)


def _sync_folder(path: str) -> None:
    """The name of a file survives a loss of power, on file systems that can promise that."""
    with contextlib.suppress(OSError):
        folder = os.open(os.path.dirname(path) or ".", os.O_RDONLY | os.O_DIRECTORY)
        try:
            os.fsync(folder)
        finally:
            os.close(folder)


def _blocks_in(lines: list[str]) -> tuple[list[str], list[Block]]:
    """The comments and the blocks; raises ValueError with the number of a wrong line."""
    comments, blocks, has_current = [], [], False
    for place, line in enumerate(lines, 1):
        words = line.split()
        try:
            if line.startswith("#"):
                comments.append(line[1:].strip())
            elif words and not has_current:
                _number(words[0])
                has_current = len(words) in (2, 3) and words[1] in "?*/-FG+" or _wrong(line)
            elif words:
                start, length, status = words
                blocks.append(Block(_number(start), _number(length), status))
                _check(blocks)
        except ValueError:
            raise ValueError(place) from None
    if not has_current:
        raise ValueError(len(lines))
    return comments, blocks


def _wrong(line: str) -> bool:
    raise ValueError(line)


def _check(blocks: list[Block]) -> None:
    """The last block is one, and comes after the others."""
    last = blocks[-1]
    before = blocks[-2].end if len(blocks) > 1 else 0
    is_status = len(last.status) == 1 and last.status in "?*/-+"
    if not is_status or last.length == 0 or last.start < before or last.end >= 1 << 63:
        _wrong(last.status)


def _read(file: BinaryIO, path: str) -> bytes:
    try:
        return file.read(_LONGEST)
    except OSError as error:
        raise Refusal(FAILED, path, f"cannot read the map: {error.strerror}") from error


def load(path: str) -> Map:
    """The map in a file of ddrescue or of luksrd-rescue. What lies between its blocks was not
    tried."""
    try:
        with open(path, "rb") as file:
            text = _read(file, path)
    except OSError as error:
        raise Refusal(IMAGE, path, f"cannot open the map: {error.strerror}") from error
    try:
        comments, blocks = _blocks_in(text.decode("utf-8", "replace").splitlines())
    except ValueError as error:
        raise Refusal(IMAGE, path, f"line {error} is not one of a map of ddrescue") from None
    found = Map(blocks[-1].end if blocks else 0)
    found.comments = comments
    for block in blocks:
        found.mark(*block)
    return found


def save_or_refuse(found: Map, path: str) -> None:
    """Writes the map file, or says why that failed."""
    try:
        found.save(path)
    except OSError as error:
        raise Refusal(FAILED, path, f"cannot write the map: {error.strerror}") from error
