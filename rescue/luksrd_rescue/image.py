"""Images of disks, and disks, of which some sectors cannot be read.

A sector cannot be read if the system says so, or if the map of ddrescue that made the image does
not mark it as finished: the image has zeros there, which would be decrypted to noise."""

from __future__ import annotations

import errno
import fcntl
import mmap
import os
import stat
import struct
import threading
from typing import Iterator, NamedTuple, Optional

from . import maps
from .command import FAILED, IMAGE, Refusal

_BLKSSZGET = 0x1268
# What cannot be read at once is read again in pieces of these sizes, and then sector by sector
_SMALLER = (1 << 16, 1 << 12)
# The whole disk is gone, and no sector of it
_GONE = {errno.ENODEV, errno.ENXIO, errno.ENOMEDIUM}


class Lost(NamedTuple):
    """Bytes of an image that cannot be read."""

    offset: int
    length: int


def _note(lost: list[Lost], offset: int, length: int) -> None:
    """Adds these bytes, in ascending order, to a list."""
    if lost and lost[-1].offset + lost[-1].length == offset:
        length, offset = length + lost[-1].length, lost.pop().offset
    lost.append(Lost(offset, length))


class Image:
    """A regular file or a block device, as luksrd.py takes one: a read of what is lost fails."""

    def __init__(self, path: str, descriptor: int, image_map: Optional[maps.Map]) -> None:
        self.path, self._file, self._map = path, descriptor, image_map
        self._direct: Optional[int] = None
        self._opening = threading.Lock()
        found = os.fstat(descriptor)
        self.is_device, self.identity = stat.S_ISBLK(found.st_mode), found
        self.sector = _sector_of(descriptor) if self.is_device else 512
        #: the length in bytes; that of a block device is known only by its end
        self.size = os.lseek(descriptor, 0, os.SEEK_END)

    def __enter__(self) -> Image:
        return self

    def __exit__(self, *_: object) -> None:
        self.close()

    def close(self) -> None:
        """Closes the file; a second time does no harm."""
        for descriptor in {self._file, self._direct or -1} - {-1}:
            os.close(descriptor)
        self._file, self._direct = -1, -1

    def pread_into(self, view: memoryview, offset: int) -> int:
        """Fills the view, or a part of it from its beginning, and returns how many bytes these are:
        0 only at the end. Raises OSError if the first of them cannot be read."""
        view = view[:max(0, min(len(view), self.size - offset))]
        if not view:
            return 0
        if self._map:
            block = self._map.block_at(offset)
            if not maps.is_done(block.status):
                raise OSError(errno.EIO, f"its map has no finished block at {offset}")
            view = view[:block.end - offset]
        got = os.preadv(self._file, [view], offset)
        # (a file that is truncated while it is read may give zeros from its last page)
        if not self.is_device and os.fstat(self._file).st_size < offset + got:
            return 0
        return got

    def salvage(self, view: memoryview, offset: int) -> list[Lost]:
        """Fills the view, which ends within the image, with zeros for what is lost, and returns
        where that is."""
        lost: list[Lost] = []
        for start, length, is_readable in self._runs(offset, len(view)):
            part = view[start - offset:start - offset + length]
            if is_readable:
                self._fill(part, start, _SMALLER, lost)
            else:
                part[:] = bytes(length)
                _note(lost, start, length)
        return lost

    def _runs(self, offset: int, length: int) -> Iterator[tuple[int, int, bool]]:
        """These bytes in runs: each is to be read, or is lost by the map."""
        end = offset + length
        while offset < end:
            block = self._map.block_at(offset) if self._map else None
            until = min(end, block.end) if block else end
            yield offset, until - offset, not block or maps.is_done(block.status)
            offset = until

    def _fill(self, view: memoryview, offset: int, sizes: tuple[int, ...],
              lost: list[Lost]) -> None:
        """Fills the view by reads of pieces that become smaller where one fails."""
        done = self._try(view, offset)
        if done == len(view):
            return
        view, offset = view[done:], offset + done
        smaller = next((size for size in sizes if size < len(view)), self.sector)
        for start, length in _pieces(offset, len(view), smaller):
            part = view[start - offset:start - offset + length]
            if smaller > self.sector:
                self._fill(part, start, tuple(it for it in sizes if it < smaller), lost)
            elif not self._read_sector(part, start):
                part[:] = bytes(length)
                _note(lost, start, length)

    def _try(self, view: memoryview, offset: int) -> int:
        """Reads, and returns how many bytes came before the end or a read that failed."""
        done = 0
        while done < len(view):
            try:
                got = self.pread_into(view[done:], offset + done)
            except OSError as error:
                self._check(error)
                break
            if not got:
                break
            done += got
        return done

    def _check(self, error: OSError) -> None:
        """Ends the command if the disk itself is gone."""
        if error.errno in _GONE and self.is_device:
            raise Refusal(FAILED, self.path, f"the disk is gone: {error.strerror}") from error

    def _read_sector(self, view: memoryview, offset: int) -> bool:
        """Reads a sector, or a part of one: if possible past the page cache, which would lose its
        whole page, and read that again and again."""
        found = self._try_directly(view, offset)
        return self._try(view, offset) == len(view) if found is None else found

    def _try_directly(self, view: memoryview, offset: int) -> Optional[bool]:
        """Reads past the page cache, or returns None if that is not possible here."""
        unit, descriptor = self.sector, self._direct_file()
        if descriptor < 0:
            return None
        first = offset // unit * unit
        with mmap.mmap(-1, unit) as buffer, memoryview(buffer) as aligned:
            try:
                got = os.preadv(descriptor, [aligned], first)
            except OSError as error:
                self._check(error)
                # (sectors of another size, below a file system)
                return None if error.errno == errno.EINVAL else False
            start = offset - first
            if got < start + len(view):
                return False
            view[:] = aligned[start:start + len(view)]
        return True

    def _direct_file(self) -> int:
        """The file for reads past the page cache, or -1."""
        with self._opening:
            if self._direct is None:
                try:
                    self._direct = os.open(f"/proc/self/fd/{self._file}",
                                           os.O_RDONLY | os.O_DIRECT | os.O_CLOEXEC)
                except OSError:
                    self._direct = -1
            return self._direct

    def patched(self) -> Patched:
        """The same image with zeros for what is lost."""
        return Patched(self)


class Patched:
    """An image with zeros for what is lost. `lost` has what reads came upon."""

    def __init__(self, image: Image) -> None:
        self._image = image
        self.path, self.size, self.is_device = image.path, image.size, image.is_device
        self.sector = image.sector
        self.lost: list[Lost] = []

    def pread_into(self, view: memoryview, offset: int) -> int:
        """Fills the view, or what of it is before the end, and returns how many bytes that is."""
        view = view[:max(0, min(len(view), self.size - offset))]
        self.lost += self._image.salvage(view, offset) if view else []
        return len(view)


class Loaded:
    """An image as luksrd.py takes one, of which each thread has loaded a part."""

    def __init__(self, image: Image) -> None:
        self._image, self._own = image, threading.local()
        self.size = image.size

    def load(self, view: memoryview, offset: int) -> None:
        """What this thread reads next are these bytes of the image, from this one on."""
        self._own.part = (view, offset)

    def pread_into(self, view: memoryview, offset: int) -> int:
        """Fills the view from what is loaded, or else from the image."""
        loaded, start = getattr(self._own, "part", (memoryview(b""), 0))
        at = offset - start
        if not 0 <= at < len(loaded):
            return self._image.pread_into(view, offset)
        count = min(len(view), len(loaded) - at)
        # (usually these are the same bytes of memory)
        view[:count] = loaded[at:at + count]
        return count


def _pieces(offset: int, length: int, size: int) -> Iterator[tuple[int, int]]:
    """These bytes in pieces, which end at multiples of a size."""
    end = offset + length
    while offset < end:
        until = min(end, (offset // size + 1) * size)
        yield offset, until - offset
        offset = until


def _sector_of(descriptor: int) -> int:
    """The length of the sectors of a block device, below which nothing can be read."""
    try:
        size, = struct.unpack("i", fcntl.ioctl(descriptor, _BLKSSZGET, bytes(4)))
    except OSError:
        return 512
    return size if size >= 512 and size & size - 1 == 0 else 512


def open_image(path: str, image_map: Optional[str] = None) -> Image:
    """An image, for which a map of ddrescue may be named."""
    found = maps.load(image_map) if image_map is not None else None
    if path == "-" and not os.path.exists(path):
        raise Refusal(IMAGE, path, "standard input cannot be an image, which is read at offsets: "
                      "save it to a file first")
    try:
        # (a blocking open would wait for the writer of a pipe)
        descriptor = os.open(path, os.O_RDONLY | os.O_NOCTTY | os.O_NONBLOCK | os.O_CLOEXEC)
    except OSError as error:
        raise Refusal(IMAGE, path, f"cannot open: {error.strerror}") from error
    except ValueError as error:  # a zero byte in the name
        raise Refusal(IMAGE, path, f"cannot open: {error}") from error
    try:
        mode = os.fstat(descriptor).st_mode
        if stat.S_ISDIR(mode):
            raise Refusal(IMAGE, path, "is a folder")
        if not stat.S_ISREG(mode) and not stat.S_ISBLK(mode):
            raise Refusal(IMAGE, path, "is neither a regular file nor a block device: "
                          "an image is read at offsets, so save it to a file first")
        return Image(path, descriptor, found)
    except BaseException:
        os.close(descriptor)
        raise
