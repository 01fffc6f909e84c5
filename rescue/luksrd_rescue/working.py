"""Decrypting with many threads: pieces are read in the order of the disk, decrypted side by side,
and written in that order again. What is done is noted in a map, after it is on the disk."""

from __future__ import annotations

import os
import threading
from typing import Iterator, NamedTuple, Optional

from . import maps
from .command import Refusal, shown
from .image import Image, Loaded
from .terminal import Progress
from .writing import Output, failed

PIECE = 1 << 20
# the longest encryption sector
_SECTOR = 4096
# so many pieces are in memory at once, at most
_BUFFERS = 32
# What may be read before the map says that it is done: a run that goes on reads no more again
_AHEAD = 48 << 20
# The map is written after so many bytes, or seconds
_STEP, _SECONDS = 16 << 20, 5


class Part(NamedTuple):
    """So many bytes of the plaintext from an offset on, and where they are in the output."""

    plain: int
    length: int
    output: int


class Gap(NamedTuple):
    """Encryption sectors that are lost: where they are in the plaintext."""

    plain: int
    length: int


def _note(gaps: list[Gap], gap: Gap) -> None:
    """Adds a gap to a list, or makes the last one longer."""
    last = gaps[-1] if gaps else None
    if last and last.plain <= gap.plain <= last.plain + last.length:
        end = max(last.plain + last.length, gap.plain + gap.length)
        gaps[-1] = Gap(last.plain, end - last.plain)
    else:
        gaps.append(gap)


class _Filled(NamedTuple):
    """A part in memory, the buffer that it is in, and what of it is lost."""

    part: Part
    buffer: bytearray
    view: memoryview
    gaps: list[Gap]


class Payload(NamedTuple):
    """An open volume, the image that its payload is in, from which byte on, and the object by which
    it reads the image."""

    volume: object
    image: Image
    loaded: Loaded
    start: int


def laid_out(pieces: list[tuple[int, int]]) -> list[Part]:
    """Pieces of the plaintext, one after the other in the output."""
    parts, output = [], 0
    for plain, length in pieces:
        parts.append(Part(plain, length, output))
        output += length
    return parts


def to_do(parts: list[Part], done: maps.Map, statuses: str) -> Iterator[Part]:
    """The parts of the output that have one of these statuses, each at most a piece long."""
    for block in list(done.blocks()):
        for part in parts if block.status in statuses else []:
            start, end = max(block.start, part.output), min(block.end, part.output + part.length)
            while start < end:
                until = min(end, (start // PIECE + 1) * PIECE)
                yield Part(part.plain + start - part.output, until - start, start)
                start = until


class Work:
    """The decryption of some parts of a volume."""

    def __init__(self, payload: Payload, parts: Iterator[Part], output: Output, done: maps.Map,
                 map_path: Optional[str]) -> None:
        self._payload, self._parts, self._output = payload, parts, output
        self._map, self._map_path = done, map_path
        #: what is lost, in the order in which it was found
        self.gaps: list[Gap] = []
        self._threads = len(os.sched_getaffinity(0))
        self._free = [bytearray(PIECE + 2 * _SECTOR)
                      for _ in range(min(2 * self._threads + 1, _BUFFERS))]
        self._reading, self._writing = threading.Lock(), threading.Lock()
        # what follows is looked at and changed under this lock
        self._changed = threading.Condition()
        self._ready: dict[int, _Filled] = {}
        self._taken = self._written = 0  # numbers of parts
        self._ahead = self._unsaved = self._progress = 0  # bytes
        self._has_ended, self._error = False, None

    def run(self, progress: Progress) -> None:
        """Decrypts all parts. However it ends, what is written is on the disk, and in the map."""
        workers = [threading.Thread(target=self._work, daemon=True) for _ in range(self._threads)]
        keepers = [threading.Thread(target=self._keep, daemon=True)] if self._map_path else []
        for thread in [*workers, *keepers]:
            thread.start()
        try:
            for thread in workers:
                while thread.is_alive():
                    thread.join(0.1)
                    self._show(progress)
        finally:
            self._end(None)
            for thread in [*workers, *keepers]:
                thread.join()
            self._show(progress)
            try:
                self._save()
            except Refusal as error:
                self._error = self._error or error
        if self._error:
            raise self._error

    def _show(self, progress: Progress) -> None:
        with self._changed:
            count, self._progress = self._progress, 0
        progress.advance(count)

    def _end(self, error: Optional[BaseException]) -> None:
        """No further part is begun."""
        with self._changed:
            self._error = self._error or error
            self._has_ended = True
            self._changed.notify_all()

    def _work(self) -> None:
        try:
            while filled := self._read_next():
                number, part = filled
                self._decrypt(part)
                self._put(number, part)
        except BaseException as error:  # pylint: disable=broad-exception-caught
            self._end(error)

    def _buffer_for(self, part: Part) -> Optional[bytearray]:
        """A buffer, as soon as one is free and the map is not too far behind; None at the end."""
        def may_go_on() -> bool:
            return self._has_ended or bool(self._free) and (
                self._map_path is None or self._ahead + part.length <= _AHEAD)

        with self._changed:
            self._changed.wait_for(may_go_on)
            if self._has_ended:
                return None
            self._ahead += part.length
            return self._free.pop()

    def _read_next(self) -> Optional[tuple[int, _Filled]]:
        """Reads the next part, and gives its number; None if there is none."""
        # (one read at a time, in the order of the disk)
        with self._reading:
            part = next(self._parts, None)
            buffer = self._buffer_for(part) if part else None
            if buffer is None:
                return None
            unit = self._payload.volume.sector_size
            first, last = part.plain // unit * unit, -(-(part.plain + part.length) // unit) * unit
            view = memoryview(buffer)[:last - first]
            lost = self._payload.image.salvage(view, self._payload.start + first)
            number, self._taken = self._taken, self._taken + 1
        gaps: list[Gap] = []
        for it in lost:
            begin = it.offset - self._payload.start
            # (whole encryption sectors)
            start, end = begin // unit * unit, -(-(begin + it.length) // unit) * unit
            start, end = max(start, part.plain), min(end, part.plain + part.length)
            if start < end:
                _note(gaps, Gap(start, end - start))
        return number, _Filled(part, buffer, view, gaps)

    def _decrypt(self, filled: _Filled) -> None:
        """Decrypts a part in its place, and fills what is lost with zeros."""
        volume, view, part = self._payload.volume, filled.view, filled.part
        first = part.plain // volume.sector_size * volume.sector_size
        self._payload.loaded.load(view, self._payload.start + first)
        if volume.pread_into(view, first) != len(view):
            raise RuntimeError(f"the plaintext ends before {first + len(view)}")
        for gap in filled.gaps:
            view[gap.plain - first:gap.plain - first + gap.length] = bytes(gap.length)

    def _put(self, number: int, filled: _Filled) -> None:
        """Hands a part over, and writes all whose turn it is, unless another thread does."""
        with self._changed:
            self._ready[number] = filled
        while self._written in self._ready and self._writing.acquire(blocking=False):
            try:
                while next_one := self._next_ready():
                    self._write(next_one)
            finally:
                self._writing.release()

    def _next_ready(self) -> Optional[_Filled]:
        with self._changed:
            found = self._ready.pop(self._written, None)
            self._written += found is not None
            return found

    def _write(self, filled: _Filled) -> None:
        """Writes a part, and notes in the map what is done."""
        part, first = filled.part, filled.part.plain % self._payload.volume.sector_size
        try:
            self._output.write(filled.view[first:first + part.length], part.output)
        except OSError as error:
            raise failed(self._output.path, error) from error
        with self._changed:
            self._map.mark(part.output, part.length, maps.DONE)
            for gap in filled.gaps:
                self._map.mark(part.output + gap.plain - part.plain, gap.length, maps.BAD)
                _note(self.gaps, gap)
            self._unsaved += part.length
            self._progress += part.length
            self._free.append(filled.buffer)
            self._changed.notify_all()

    def _keep(self) -> None:
        """Writes the map again and again."""
        while not self._has_ended:
            with self._changed:
                self._changed.wait_for(lambda: self._has_ended or self._unsaved >= _STEP, _SECONDS)
            try:
                self._save()
            except BaseException as error:  # pylint: disable=broad-exception-caught
                self._end(error)

    def _save(self) -> None:
        """Writes the map of what is written by now, after that is on the disk."""
        with self._changed:
            now, count = self._map.copy(), self._unsaved
        if count == 0 or self._map_path is None:
            return
        try:
            self._output.flush()
        except OSError as error:
            raise failed(self._output.path, error) from error
        maps.save_or_refuse(now, self._map_path)
        with self._changed:
            self._unsaved -= count
            self._ahead -= count
            self._changed.notify_all()


def kept_for_later(refusal: Refusal, map_path: Optional[str]) -> Refusal:
    """The same refusal, which says how to go on."""
    if map_path is None:
        return refusal
    return Refusal(refusal.status, refusal.what, f"{refusal.why}; what is written is kept, and "
                   f"--resume goes on with it by {shown(map_path)}")
