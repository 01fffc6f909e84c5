"""Where the plaintext goes: a new file with holes for zeros, a block device, or a pipe."""

from __future__ import annotations

import contextlib
import errno
import os
import stat
from typing import Iterator, NamedTuple, Optional, Protocol

from . import related
from .command import FAILED, USAGE, Refusal, say, shown, sized, write_all

# What is a hole in a file, if it is all zeros: the blocks of most file systems
BLOCK = 4096
_ZEROS = bytes(BLOCK)
PIPE = "-"


class Kept(NamedTuple):
    """A file that is read, so that nothing is written to it."""

    path: str
    identity: os.stat_result


class Output(Protocol):
    """What the plaintext is written to, from its first byte to its last."""

    path: str

    def write(self, view: memoryview, offset: int) -> None:
        """Writes these bytes at an offset of the output."""

    def flush(self) -> None:
        """What was written is on the disk."""

    def close(self) -> None:
        """Nothing more is written."""


def shown_path(path: str) -> str:
    """The output as messages name it."""
    return "standard output" if path == PIPE else path


def failed(path: str, error: OSError) -> Refusal:
    """A write that failed, with the system's reason."""
    return Refusal(FAILED, shown_path(path), f"write failed: {error.strerror}")


def _write_all(descriptor: int, view: memoryview, offset: int) -> None:
    while view:
        done = os.pwrite(descriptor, view, offset)
        view, offset = view[done:], offset + done


def zero_runs(view: memoryview, offset: int) -> Iterator[tuple[int, int, bool]]:
    """The bytes at this offset in runs, each with its first byte, the one after its last, and
    whether it is whole blocks of zeros."""
    start, at = 0, -offset % BLOCK
    # (few blocks begin with a zero)
    for first in view[at::BLOCK].tobytes():
        is_whole = at + BLOCK <= len(view)
        is_zeros = first == 0 and is_whole and view[at:at + BLOCK].tobytes() == _ZEROS
        if is_zeros:
            if start < at:
                yield start, at, False
            yield at, at + BLOCK, True
            start = at + BLOCK
        at += BLOCK
    if start < len(view):
        yield start, len(view), False


class DeviceOutput:
    """A block device, which gets zeros, too."""

    def __init__(self, path: str, descriptor: int) -> None:
        self.path, self._file = path, descriptor

    def write(self, view: memoryview, offset: int) -> None:
        """Writes all of it."""
        _write_all(self._file, view, offset)

    def flush(self) -> None:
        """What was written is on the disk."""
        os.fdatasync(self._file)

    def close(self) -> None:
        """All is on the disk, with the length and the name of a file."""
        try:
            os.fsync(self._file)
        finally:
            os.close(self._file)


class FileOutput(DeviceOutput):
    """A regular file, as long as the plaintext from its creation on, with holes for zeros."""

    def __init__(self, path: str, descriptor: int, is_new: bool) -> None:
        super().__init__(path, descriptor)
        self._is_new = is_new

    def write(self, view: memoryview, offset: int) -> None:
        """Writes what is not zeros: the rest of a new file is zeros."""
        for start, end, is_zeros in zero_runs(view, offset):
            if not is_zeros or self._has_data(offset + start, offset + end):
                _write_all(self._file, view[start:end], offset + start)

    def _has_data(self, start: int, end: int) -> bool:
        """Whether there may be something else than a hole, as an earlier run may have left it."""
        if self._is_new:
            return False
        try:
            return os.lseek(self._file, start, os.SEEK_DATA) < end
        except OSError as error:
            # (nothing but a hole up to the end of the file)
            return error.errno != errno.ENXIO


class PipeOutput:
    """Standard output, which gets the plaintext in order."""

    path = PIPE

    def write(self, view: memoryview, _: int) -> None:
        """Writes all of it."""
        write_all(1, view)

    def flush(self) -> None:
        """Nothing can be done for a pipe, and a file that the shell opened is not ours to sync."""

    def close(self) -> None:
        """It stays open, for messages of Python."""


class Target:
    """The output that a command line names, before it is opened: it is opened only when a key has
    opened the volume."""

    def __init__(self, path: str, is_forced: bool, goes_on: bool) -> None:
        self.path, self._is_forced, self._goes_on = path, is_forced, goes_on
        self.is_pipe = path == PIPE
        self._found = None if self.is_pipe else _status(path)
        self.is_device = self._found is not None and stat.S_ISBLK(self._found.st_mode)
        #: the length of a file that is there
        self.length = self._found.st_size if self._found is not None else 0
        #: whether there is something that an earlier run may have begun
        self.is_there = self.is_device or self.length > 0

    def check(self, kept: list[Kept]) -> None:
        """Refuses what must not be written to, before anybody is asked for a passphrase."""
        if self.is_pipe:
            self._check_pipe(kept)
        elif self._found is None:
            self._check_folder(kept)
        elif self.is_device:
            self._check_device(kept)
        else:
            self._check_file(kept)

    def _check_pipe(self, kept: list[Kept]) -> None:
        if self._goes_on:
            raise Refusal(USAGE, "-o -", "a pipe cannot be gone on with")
        if os.isatty(1):
            raise Refusal(USAGE, "-o -",
                          "standard output is a terminal: redirect it, or name a file")
        self._refuse_kept(os.fstat(1), kept)

    def _check_folder(self, kept: list[Kept]) -> None:
        folder = os.path.dirname(self.path) or "."
        if os.path.islink(self.path):
            raise Refusal(USAGE, self.path, "is a link to a file that is not there")
        if not os.path.isdir(folder):
            raise Refusal(USAGE, folder, "there is no such folder")
        if not os.access(folder, os.W_OK | os.X_OK):
            raise Refusal(USAGE, folder, "no file can be made in this folder: Permission denied")
        self._refuse_kept(os.stat(folder), kept)

    def _check_file(self, kept: list[Kept]) -> None:
        if stat.S_ISDIR(self._found.st_mode):
            raise Refusal(USAGE, self.path, "is a folder")
        if not stat.S_ISREG(self._found.st_mode):
            raise Refusal(USAGE, self.path,
                          "is neither a file nor a block device (-o - writes to a pipe)")
        self._refuse_kept(self._found, kept)
        if not self._goes_on and not self._is_forced:
            raise Refusal(USAGE, self.path, "there is such a file: --resume goes on with it, and "
                          "--force overwrites it")

    def _check_device(self, kept: list[Kept]) -> None:
        self._refuse_kept(self._found, kept)
        if not self._is_forced:
            raise Refusal(USAGE, self.path, "is a device: --force overwrites all that is on it")
        users = related.mounted_on(self._found.st_rdev)
        if users:
            raise Refusal(USAGE, self.path, f"is in use: mounted on {users[0]}")

    def _refuse_kept(self, found: os.stat_result, kept: list[Kept]) -> None:
        for it in kept:
            if related.are_related(found, it.identity) or related.is_inside(found, it.identity):
                raise Refusal(USAGE, shown_path(self.path), f"is {shown(it.path)} itself, a part "
                              "of it, or what it is a part of: nothing is written there")

    def remove(self) -> None:
        """Takes a file that was made back, since nothing will be written to it."""
        if self._found is None and not self.is_pipe:
            with contextlib.suppress(OSError):
                os.unlink(self.path)

    def warn_of_room(self, length: int) -> None:
        """Says if the file system of the output may become full."""
        if self.is_pipe or self.is_device:
            return
        with contextlib.suppress(OSError):
            found = os.statvfs(os.path.dirname(self.path) or ".")
            free = found.f_bavail * found.f_frsize
            free += self._found.st_blocks * 512 if self._found else 0
            if free < length:
                say(self.path, f"{sized(free)} are free, and the plaintext has {sized(length)}: "
                    "the disk may become full (zeros take no room)")

    def open(self, length: int, kept: list[Kept], is_new: bool) -> Output:
        """Creates the output, or opens that of an earlier run."""
        try:
            if self.is_pipe:
                return PipeOutput()
            return self._device(length) if self.is_device else self._file(length, kept, is_new)
        except OSError as error:
            if error.errno == errno.EEXIST:
                raise Refusal(USAGE, self.path,
                              "another program has just made this file") from error
            raise Refusal(FAILED, self.path, f"cannot write to it: {error.strerror}") from error

    def _device(self, length: int) -> Output:
        # (which the system refuses while the device is in use)
        descriptor = os.open(self.path, os.O_RDWR | os.O_EXCL | os.O_NOCTTY | os.O_CLOEXEC)
        size = os.lseek(descriptor, 0, os.SEEK_END)
        if size < length:
            os.close(descriptor)
            raise Refusal(USAGE, self.path, f"has {sized(size)}, and the plaintext {sized(length)}")
        return DeviceOutput(self.path, descriptor)

    def _file(self, length: int, kept: list[Kept], is_new: bool) -> Output:
        flags = os.O_RDWR | os.O_NOCTTY | os.O_CLOEXEC
        if self._found is None:
            flags |= os.O_CREAT | os.O_EXCL
        descriptor = os.open(self.path, flags, 0o600)
        try:
            # (the name may lead to another file by now)
            found = os.fstat(descriptor)
            self._refuse_kept(found, kept)
            if is_new:
                os.ftruncate(descriptor, 0)
                os.fchmod(descriptor, 0o600)
                os.ftruncate(descriptor, length)
            elif found.st_size != length:
                raise Refusal(USAGE, self.path, f"has {found.st_size} bytes, and the map is of a "
                              f"file of {length}: it is another file, or was changed")
        except BaseException:
            os.close(descriptor)
            self.remove()
            raise
        return FileOutput(self.path, descriptor, is_new)


def _status(path: str) -> Optional[os.stat_result]:
    """What is at this path, or None if there is nothing."""
    try:
        return os.stat(path)
    except FileNotFoundError:
        return None
    except (OSError, ValueError) as error:
        why = getattr(error, "strerror", error)
        raise Refusal(USAGE, path, f"cannot be written: {why}") from error
