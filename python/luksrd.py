"""Any part of the plaintext of a LUKS1 or LUKS2 volume, as a file.

    import luksrd

    with luksrd.open("disk.img", key_file="pass") as volume:
        print(volume.size, "bytes, opened by key slot", volume.key_slot)
        volume.seek(1024)
        superblock = volume.read(1024)

A volume is an io.RawIOBase that is read-only and seekable, so that whatever takes a binary file
takes it: zipfile.ZipFile(volume), shutil.copyfileobj(volume, file). Each of its reads decrypts. For
lines and other small reads open it with `buffering=-1`, which gives an io.BufferedReader over it.
Reading needs no privileges and writes nothing.

This module is one file over luksrd's library for C, libluksrd.so.2, whose functions are proved to
meet their contracts. The module itself is tested, not proved. A wheel, as pip makes it, has the
module and no library. The library that is loaded is the file that the environment variable
LUKSRD_LIBRARY names; without that, PREFIX/lib/libluksrd.so.2 if the module is
PREFIX/lib/*/dist-packages/luksrd.py; or else the one that the loader finds, in the folders of
LD_LIBRARY_PATH and of ldconfig. `python3 -m luksrd` prints which one that is.

Secrets: `close` wipes the volume key and its expanded forms, and the module overwrites its own copy
of a passphrase or volume key once the volume is open or refused. Python cannot overwrite a str or
bytes: those that the caller passes stay until their memory is used again, and so do the bytes that
a str is encoded to. Pass a bytearray and overwrite it afterwards, or name a file. The library
writes over the stack that it used. What Python itself leaves there, and in registers, is not wiped,
nor is plaintext.
"""

from __future__ import annotations

import contextlib
import ctypes
import enum
import errno
import functools
import io
import operator
import os
import pathlib
import stat
import sys
import threading
import warnings
import weakref
from typing import Callable, Iterator, NamedTuple, NoReturn, Optional, Protocol, Union

__all__ = ["Code", "Image", "IncompleteImageWarning", "LuksError", "NotLuksError",
           "UncheckedKeyWarning", "Volume", "WrongKeyError", "library_version", "open",
           "open_by_volume_key"]
__version__ = "1.3.0"

_Path = Union[str, bytes, "os.PathLike[str]", "os.PathLike[bytes]"]
_Passphrase = Union[str, bytes, bytearray, memoryview]
_Bytes = Union[bytes, bytearray, memoryview]

# How many bytes are read and decrypted at once, whole sectors of any size: more would leave the
# processor's cache
_PIECE = 262144

# How many bytes of plaintext are buffered, if the caller does not say
_BUFFER = 65536


class Code(enum.IntEnum):
    """Why luksrd refuses a volume: enum luksrd_code in luksrd.h."""

    OK = 0
    NOT_LUKS = 1
    TRUNCATED = 2
    JSON = 3
    SEGMENT_REFUSED = 4
    NO_SUCH_SLOT = 5
    SLOT_DISABLED = 6
    SLOT_SKIPPED = 7
    NOTHING_TRIED = 8
    KEY_FILE_LENGTH = 9
    NO_KEY = 10
    OUT_OF_MEMORY = 11
    ENDS_BEFORE_PAYLOAD = 12
    ENDS_INSIDE_SECTOR = 13
    ENDS_BEFORE_SEGMENT = 14
    BAD_OPTIONS = 15
    BAD_VOLUME = 16
    BAD_RANGE = 17
    OTHER_KEY = 18
    NO_DIGEST = 19


class LuksError(Exception):
    """luksrd refuses the volume. The text is the message of `luksrd luksCat`, or one in its form about
    key slots by Argon2, which `luksrd` skips."""

    def __init__(self, code: int, status: int, message: str) -> None:
        super().__init__(message)
        #: a Code, or the number that a newer library gave
        self.code = Code(code) if code in Code.__members__.values() else code
        #: the exit status of `luksrd luksCat`: 1 refused, 2 no key opens the volume, 3 out of
        #: memory, 4 the image is not as it has to be
        self.status = status
        #: the message, which begins with "luksrd: "
        self.message = message

    def __reduce__(self) -> tuple[type[LuksError], tuple[int, int, str]]:
        return type(self), (self.code, self.status, self.message)


class NotLuksError(LuksError):
    """The image, or the file with the detached header, has no LUKS header."""


class WrongKeyError(LuksError):
    """The passphrase opens no key slot that was tried, or the volume key is another volume's."""


# The codes that have a class of their own
_ERRORS = {Code.NOT_LUKS: NotLuksError, Code.NO_KEY: WrongKeyError, Code.OTHER_KEY: WrongKeyError}


class IncompleteImageWarning(UserWarning):
    """The image ends inside a sector, or before its payload does: its whole sectors are read."""


class UncheckedKeyWarning(UserWarning):
    """A header is there, but the volume key was not compared with it."""


class Image(Protocol):
    """What a volume can be in besides a file: any object with these two, such as another Volume."""

    @property
    def size(self) -> int:
        """The length in bytes, which does not change."""

    def pread_into(self, view: memoryview, offset: int) -> int:
        """Fills the view from this byte on, or a part of it from its beginning, and returns how
        many bytes these are: 0 only at the end. Raises OSError if they cannot be read. If threads
        read the volume at the same time, they call this at the same time."""


def _warn(message: str, category: type[Warning]) -> None:
    """Warns, and points to the line that called this module."""
    level, frame = 1, sys._getframe()
    while frame.f_back and frame.f_globals is globals():
        level, frame = level + 1, frame.f_back
    warnings.warn(message, category, stacklevel=level)


# The library: its structs and functions. Nothing after this part calls it.

_LIBRARY = "libluksrd.so.2"

# How many first bytes of a header decide how a volume opens, and the longest passphrase
_HEADER_BYTES = 33554432
_PASSPHRASE_BYTES = 8388608

# The longest volume key, and the ciphers by their names in headers, with their numbers
_KEY_BYTES = 64
_MODES = {"aes-xts-plain64": 1, "aes-xts-plain": 2, "aes-cbc-essiv:sha256": 3,
          "aes-cbc-plain64": 4}
_CIPHERS = {number: name for name, number in _MODES.items()}


class _Options(ctypes.Structure):
    _fields_ = [(name, ctypes.c_uint32) for name in (
        "size", "detached", "has_key_slot", "key_slot", "max_iterations", "argon2_memory_kib",
        "argon2_fill_mib", "no_argon2")
    ] + [("reserved", ctypes.c_uint8 * 32)]


class _Opened(ctypes.Structure):
    _fields_ = (
        [(name, ctypes.c_uint64) for name in ("offset", "size", "iv_tweak")]
        + [(name, ctypes.c_uint32) for name in (
            "has_size", "sector_size", "mode", "key_size", "key_slot", "reserved")]
        + [("key", ctypes.c_uint8 * 64)]
    )


class _Cipher(ctypes.Structure):
    _fields_ = [("words", ctypes.c_uint64 * 2048)]


class _Step(ctypes.Structure):
    """Whole sectors of the image to read, and which of their bytes a range gets."""

    _fields_ = [(name, ctypes.c_uint64) for name in (
        "read_offset", "read_len", "first_sector", "skip", "count")]


class _Message(ctypes.Structure):
    _fields_ = [
        ("status", ctypes.c_uint32), ("len", ctypes.c_uint32), ("text", ctypes.c_char * 1016)]

    def error(self, code: int) -> LuksError:
        kind = _ERRORS.get(code, LuksError)
        return kind(code, self.status, self.text.decode("ascii"))


def _library_name() -> str:
    """The file with the library, or its name, for the loader."""
    named = os.environ.get("LUKSRD_LIBRARY")
    if named:
        return named
    # PREFIX/lib/libluksrd.so.N, from PREFIX/lib/python3/dist-packages/luksrd.py
    folders = pathlib.Path(__file__).resolve().parents
    is_installed = len(folders) > 2 and (folders[0].name, folders[2].name) == ("dist-packages", "lib")
    if is_installed and (folders[2] / _LIBRARY).exists():
        return str(folders[2] / _LIBRARY)
    return _LIBRARY


@functools.lru_cache(maxsize=None)
def _library() -> ctypes.CDLL:
    library = ctypes.CDLL(_library_name())
    pointer, size, u32, u64 = ctypes.c_void_p, ctypes.c_size_t, ctypes.c_uint32, ctypes.c_uint64
    for name, result, arguments in (
        ("luksrd_open", u32, [pointer, size, pointer, size, pointer, pointer, pointer]),
        ("luksrd_check_key", u32, [pointer, size, pointer, size, pointer, pointer]),
        ("luksrd_header_len", u64, [pointer, size]),
        ("luksrd_len", u64, [pointer, u64]),
        ("luksrd_ending", u32, [pointer, u64, pointer, pointer]),
        ("luksrd_prepare", u32, [pointer, pointer]),
        ("luksrd_plan", u32, [pointer, u64, u64, u64, pointer]),
        ("luksrd_finish", u32, [pointer, pointer, pointer, size]),
        ("luksrd_wipe", None, [pointer, size]),
        ("luksrd_version", u32, []),
    ):
        function = getattr(library, name)
        function.restype, function.argtypes = result, arguments
    return library


def _bytes_at(buffer: Union[bytearray, memoryview]) -> object:
    """A pointer to the bytes of a buffer, which is not empty."""
    return ctypes.byref(ctypes.c_uint8.from_buffer(buffer))


def _zero(buffer: Union[bytearray, memoryview]) -> None:
    """Fills the bytes of a buffer with zeros, in one call and without memory for them."""
    if len(buffer) > 0:
        ctypes.memset(_bytes_at(buffer), 0, len(buffer))


class _Keys(ctypes.Structure):
    """All that has keys, in one piece, so that one call wipes it."""

    _fields_ = [("opened", _Opened), ("cipher", _Cipher)]


class _Key:
    """A volume, as the library has it, in an image of this length. It has no key until `unlock` or
    `use` opens it; whoever makes one wipes it, also after a failure."""

    def __init__(self, image_len: int) -> None:
        self._keys = _Keys()
        self._opened, self._cipher = self._keys.opened, self._keys.cipher
        self._image_len = image_len

    def unlock(self, header: memoryview, passphrase: memoryview, options: _Options) -> None:
        """Opens the volume by a passphrase."""
        message = _Message()
        code = _library().luksrd_open(
            _bytes_at(header.obj), len(header), _bytes_at(passphrase.obj), len(passphrase),
            ctypes.byref(options), ctypes.byref(self._opened), ctypes.byref(message))
        if code:
            raise message.error(code)
        # (what luksrd_open has filled is never refused)
        self._prepare()

    def use(self, key: memoryview, fields: dict[str, int]) -> None:
        """Opens the volume by its key and these fields of the struct, without a header."""
        if len(key) > _KEY_BYTES:
            raise ValueError(f"the volume key is longer than {_KEY_BYTES} bytes")
        for name, value in fields.items():
            setattr(self._opened, name, value)
        self._opened.key_size = len(key)
        ctypes.memmove(self._opened.key, _bytes_at(key.obj), len(key))
        if not self._prepare():
            raise ValueError(
                f"a key of {len(key)} bytes, this cipher and this sector size do not go together")

    def _prepare(self) -> bool:
        return not _library().luksrd_prepare(
            ctypes.byref(self._opened), ctypes.byref(self._cipher))

    @property
    def slot(self) -> int:
        return self._opened.key_slot

    @property
    def sector_size(self) -> int:
        return self._opened.sector_size

    @property
    def cipher(self) -> str:
        return _CIPHERS.get(self._opened.mode, f"mode {self._opened.mode}")

    def plain_len(self) -> int:
        return _library().luksrd_len(ctypes.byref(self._opened), self._image_len)

    def ending(self) -> Optional[LuksError]:
        """What luksCat ends with if the image is incomplete."""
        count, message = ctypes.c_uint64(), _Message()
        code = _library().luksrd_ending(
            ctypes.byref(self._opened), self._image_len, ctypes.byref(count),
            ctypes.byref(message))
        return message.error(code) if code else None

    def plan(self, offset: int, length: int) -> _Step:
        """The next step of reading this range."""
        step = _Step()
        code = _library().luksrd_plan(
            ctypes.byref(self._cipher), self._image_len, offset, length, ctypes.byref(step))
        if code:
            raise OSError(errno.EIO, f"luksrd refuses {length} bytes at {offset} with {code}")
        return step

    def finish(self, step: _Step, read: memoryview) -> None:
        """Decrypts what a step has read, and moves the bytes of the range to the beginning."""
        code = _library().luksrd_finish(
            ctypes.byref(self._cipher), ctypes.byref(step), _bytes_at(read), len(read))
        if code:
            raise OSError(errno.EIO, f"luksrd refuses {len(read)} bytes with {code}")

    def wipe(self) -> None:
        """Wipes all keys; a second time does no harm."""
        _library().luksrd_wipe(ctypes.byref(self._keys), ctypes.sizeof(self._keys))


def _compared(header: memoryview, key: memoryview, options: _Options) -> Optional[LuksError]:
    """None if the volume key matches the digest of the header, or why it is not known to."""
    message = _Message()
    code = _library().luksrd_check_key(
        _bytes_at(header.obj), len(header), _bytes_at(key.obj), len(key), ctypes.byref(options),
        ctypes.byref(message))
    return message.error(code) if code else None


def library_version() -> tuple[int, int, int]:
    """The version of the library that this module has loaded."""
    version = _library().luksrd_version()
    return version >> 16, version >> 8 & 255, version & 255


# Files, and what is read from them.

_NOT_AN_IMAGE = "neither a regular file nor a block device"


def _open_file(path: _Path, flags: int = 0, kind: type[io.FileIO] = io.FileIO) -> io.FileIO:
    """A file that is not a folder. It closes its descriptor once, whoever interrupts that."""

    def opened(_: object, mode: int) -> int:
        try:
            return os.open(path, mode | os.O_NOCTTY | flags)
        except BlockingIOError:
            # another program has a lease on a regular file, and the kernel asks for it: this waits
            return os.open(path, mode | os.O_NOCTTY)

    # (a number would be taken for a descriptor)
    return kind(os.fspath(path), opener=opened)


class _ImageFile(io.FileIO):
    """A regular file or a block device, as an Image."""

    size = 0

    def pread_into(self, view: memoryview, offset: int) -> int:
        got = os.preadv(self.fileno(), [view], offset)
        # a file that is truncated while it is read may give zeros from its last page, so its length
        # is checked after that
        found = os.fstat(self.fileno())
        return 0 if stat.S_ISREG(found.st_mode) and found.st_size < offset + got else got


def _open_image(path: _Path) -> _ImageFile:
    """An image, which is read at offsets."""
    # a blocking open would wait for the writer of a pipe
    file = _open_file(path, os.O_NONBLOCK, _ImageFile)
    try:
        mode = os.fstat(file.fileno()).st_mode
        if not stat.S_ISREG(mode) and not stat.S_ISBLK(mode):
            raise OSError(errno.EINVAL, _NOT_AN_IMAGE, path)
        # the length of a block device is known only by its end
        file.size = file.seek(0, os.SEEK_END)
    except BaseException:
        file.close()
        raise
    return file


class _Part(NamedTuple):
    """The image of a volume: so many bytes of a file or of an object, from this one on."""

    source: Image
    start: int
    size: int


def _part_of(path: Union[_Path, Image], source: Image, offset: int, length: Optional[int]) -> _Part:
    """The part that the caller names; warns if the source ends before that."""
    behind = max(0, operator.index(source.size) - offset)
    if length is None:
        return _Part(source, offset, behind)
    if behind < length:
        missing = f"it ends {length - behind} bytes before the part of it that is named"
        _warn(f"{_shown(path)}: {missing}", IncompleteImageWarning)
    return _Part(source, offset, min(length, behind))


def _is_path(path: Union[_Path, Image]) -> bool:
    """Whether this names a file; what is neither a name nor an Image is taken for a wrong name."""
    return isinstance(path, (str, bytes, os.PathLike)) or not hasattr(path, "pread_into")


def _shown(path: Union[_Path, Image]) -> str:
    return os.fsdecode(path) if _is_path(path) else repr(path)


def _has_headers(start: memoryview) -> bool:
    """Whether an image that starts with these bytes has its whole header in them: that of LUKS1, or
    both of LUKS2."""
    return _library().luksrd_header_len(_bytes_at(start.obj), len(start)) <= len(start)


# Reads the next bytes, of which so many come before them
_Read = Callable[[memoryview, int], int]


def _read_first(read: _Read, buffer: bytearray, is_header: bool = False) -> memoryview:
    """The first bytes, as many as the buffer has room for, or all: a part of the buffer. If a read
    fails after a whole header, the bytes before: luksrd needs few of the others, the key areas, and
    refuses the volume if one of those is not there."""
    view, done = memoryview(buffer), 0
    while done < len(view):
        try:
            got = read(view[done:], done)
        except OSError as error:
            if not is_header or not _has_headers(view[:done]):
                raise
            _warn(f"reading the header ended after {done} bytes: {error}", IncompleteImageWarning)
            break
        if not got:
            break
        done += got
    return view[:done]


def _next_of(file: io.FileIO) -> _Read:
    return lambda view, _: os.readv(file.fileno(), [view])


def _first_of(part: _Part) -> _Read:
    """Reads an image from its first byte on."""
    if isinstance(part.source, io.FileIO):
        part.source.seek(part.start)
        return _next_of(part.source)

    def read(view: memoryview, done: int) -> int:
        try:
            return _read_some(part.source, view[:_PIECE], part.start + done)
        except OSError:
            # (what comes before the byte that cannot be read may be enough)
            return _read_some(part.source, view[:512], part.start + done)

    return read


def _read_file(path: _Path, buffer: bytearray, is_header: bool = False) -> memoryview:
    with _open_file(path) as file:
        return _read_first(_next_of(file), buffer, is_header)


def _read_some(source: Image, view: memoryview, offset: int) -> int:
    """Reads from this byte of the source on, and returns how many bytes it gave."""
    got = operator.index(source.pread_into(view, offset))
    if not 0 <= got <= len(view):
        raise OSError(errno.EIO, f"pread_into of {len(view)} bytes gave {got}")
    return got


def _read_exactly(source: Image, view: memoryview, offset: int) -> None:
    """Fills the view from this byte of the source on."""
    done = 0
    while done < len(view):
        got = _read_some(source, view[done:], offset + done)
        if not got:
            what = f"reading {len(view)} bytes at offset {offset}"
            raise OSError(errno.EIO, f"{what}: the image has become shorter")
        done += got


@contextlib.contextmanager
def _secret(given: Optional[_Bytes], path: Optional[_Path], longest: int) -> Iterator[memoryview]:
    """A copy of a passphrase or of a volume key, or what its file has: a part of a bytearray that
    is wiped at the end of the block, however that ends. One that is too long is cut after one byte
    more than the longest one, and refused for its length later."""
    view = None if given is None else memoryview(given).cast("B")[:longest + 1]
    copy = bytearray(longest + 1 if view is None else len(view) or 1)
    try:
        if view is None:
            yield _read_file(path, copy)
        else:
            filled = memoryview(copy)[:len(view)]
            filled[:] = view
            yield filled
    finally:
        _zero(copy)


# The volumes of this process, for a child that is forked
_volumes: weakref.WeakSet[Volume] = weakref.WeakSet()


def _in_child() -> None:
    """Forgets reads of the threads that are not in the child of a fork, and the locks that they held."""
    own = threading.get_ident()
    for volume in list(_volumes):
        if all(thread != own for thread in volume._readers.values()):
            volume._moving, volume._idle = threading.RLock(), threading.Condition()
        for reader in [one for one, thread in volume._readers.items() if thread != own]:
            del volume._readers[reader]


os.register_at_fork(after_in_child=_in_child)


class Volume(io.RawIOBase):
    """The plaintext of an open volume; luksrd.open() makes it.

    Threads may share it. `pread` and `pread_into` read any range without moving the position, side
    by side; `read`, `readinto` and `seek` take turns. `close`, or the end of a `with` block, waits
    for reads that run, and wipes the volume key. A volume cannot be copied or pickled."""

    mode = "rb"

    def __init__(self, name: Union[_Path, Image], image: _Part, key: _Key,
                 key_slot: Optional[int]) -> None:
        self._image, self._key = image, key
        # what is closed with the volume: its own file, and no object of the caller
        self._file = image.source if isinstance(image.source, _ImageFile) else None
        # (a signal handler may read in the thread that it interrupts)
        self._position, self._moving = 0, threading.RLock()
        # one object for each read that runs, with its thread
        self._readers: dict[object, int] = {}
        self._idle, self._is_closing = threading.Condition(), False
        _volumes.add(self)
        self._name, self._key_slot = name, key_slot
        self._size, self._incomplete = key.plain_len(), key.ending()
        self._sector_size, self._cipher = key.sector_size, key.cipher

    @property
    def name(self) -> Union[_Path, Image]:
        """The path of the image, or the object that it is read from."""
        return self._name

    @property
    def size(self) -> int:
        """The length of the plaintext in bytes, whole sectors."""
        return self._size

    @property
    def sector_size(self) -> int:
        """The length of a sector in bytes."""
        return self._sector_size

    @property
    def cipher(self) -> str:
        """The cipher of the payload as headers name it, such as aes-xts-plain64."""
        return self._cipher

    @property
    def key_slot(self) -> Optional[int]:
        """The number of the key slot that opened, or None if the volume was opened by its key."""
        return self._key_slot

    @property
    def incomplete(self) -> Optional[LuksError]:
        """The error with which luksCat ends if the image is incomplete, or None."""
        return self._incomplete

    def __repr__(self) -> str:
        closed = ", closed" if self.closed else ""
        return f"<luksrd.Volume {self.name!r}, {self.size} bytes{closed}>"

    def __reduce__(self) -> NoReturn:
        # (a copy would close the image under this volume, and pickling would write its key out)
        raise TypeError("a volume cannot be copied or pickled")

    @contextlib.contextmanager
    def _reading(self) -> Iterator[None]:
        """The image stays open until the end of the block."""
        reader = object()
        try:
            with self._idle:
                self._check_open()
                self._readers[reader] = threading.get_ident()
            yield
        finally:
            # (first of all, since waiting for the lock may be interrupted)
            self._readers.pop(reader, None)
            with self._idle:
                if self._is_closing and not self._readers:
                    self._release()
                self._idle.notify_all()

    def _release(self) -> None:
        """Wipes the key and closes the image; a second time does no harm. The caller has the lock,
        and no read runs."""
        try:
            self._key.wipe()
        finally:
            if self._file:
                self._file.close()

    def close(self) -> None:
        """Waits for reads that run, wipes the volume key and closes the image.

        If this is interrupted, as by KeyboardInterrupt, or called by a signal handler that
        interrupts a read, no further read begins. The key is wiped and the image closed by the read
        that ends last, by another `close`, or when the volume is no longer used."""
        if self.closed:
            return
        with self._idle:
            self._is_closing = True
            # (a read of this thread goes on only when a handler that calls this has returned)
            own = threading.get_ident()
            while any(thread != own for thread in list(self._readers.values())):
                # (a read that is interrupted may end without a notice)
                self._idle.wait(1)
            if self._readers:
                return
            self._release()
        super().close()

    def _read_step(self, view: memoryview, offset: int) -> int:
        """Puts the first bytes of the plaintext from this offset on into the view, and returns how
        many these are."""
        step = self._key.plan(offset, min(len(view), _PIECE - offset % _PIECE))
        is_whole = step.count == step.read_len
        read = view[:step.count] if is_whole else memoryview(bytearray(step.read_len))
        _read_exactly(self._image.source, read, self._image.start + step.read_offset)
        self._key.finish(step, read)
        if not is_whole:
            view[:step.count] = read[:step.count]
        return step.count

    def pread_into(self, buffer: bytearray | memoryview, offset: int) -> int:
        """Fills the buffer from this byte of the plaintext on, or up to its end, and returns how
        many bytes these are.

        If a read fails, this raises OSError, and the buffer is filled with zeros."""
        offset = operator.index(offset)
        if offset < 0:
            raise ValueError(f"negative offset {offset}")
        view = memoryview(buffer).cast("B")
        view = view[:max(0, min(len(view), self.size - offset))]
        done = 0
        with self._reading():
            try:
                while done < len(view):
                    done += self._read_step(view[done:], offset + done)
            except BaseException:
                # neither what was decrypted before nor what is still encrypted is an answer
                _zero(view)
                raise
        return done

    def pread(self, length: int, offset: int) -> bytes:
        """The bytes of the plaintext from this one on: fewer than `length` only at its end."""
        length, offset = operator.index(length), operator.index(offset)
        if length < 0:
            raise ValueError(f"negative length {length}")
        buffer = bytearray(max(0, min(length, self.size - offset)))
        self.pread_into(buffer, offset)
        return bytes(buffer)

    def readinto(self, buffer: bytearray | memoryview) -> int:
        """Fills the buffer from the position on, or up to the end of the plaintext, and moves the
        position."""
        with self._moving:
            # (a signal handler may move the position meanwhile: nothing is left out here)
            at = self._position
            got = self.pread_into(buffer, at)
            self._position = at + got
            return got

    def readall(self) -> bytes:
        """The plaintext from the position to its end."""
        with self._moving:
            at = self._position
            rest = self.pread(max(0, self.size - at), at)
            self._position = at + len(rest)
            return rest

    def seek(self, offset: int, whence: int = os.SEEK_SET) -> int:
        """Moves the position, which may be past the end of the plaintext, and returns it."""
        self._check_open()
        offset = operator.index(offset)
        with self._moving:
            bases = {os.SEEK_SET: 0, os.SEEK_CUR: self._position, os.SEEK_END: self.size}
            if whence not in bases:
                raise ValueError(f"whence is {whence}, not 0, 1 or 2")
            if bases[whence] + offset < 0:
                raise ValueError(f"negative position {bases[whence] + offset}")
            self._position = bases[whence] + offset
            return self._position

    def tell(self) -> int:
        """The position."""
        self._check_open()
        return self._position

    def readable(self) -> bool:
        self._check_open()
        return True

    def seekable(self) -> bool:
        self._check_open()
        return True

    def write(self, buffer: object) -> int:
        """Nothing is written."""
        raise io.UnsupportedOperation("a volume is read-only")

    def _check_open(self) -> None:
        if self.closed or self._is_closing:
            raise ValueError("I/O operation on closed volume")


def _limit(name: str, value: Optional[int], unit: int) -> int:
    """A limit in whole units of so many bytes, as the library has it: 0 is its default."""
    if value is None:
        return 0
    count = operator.index(value) // unit
    if not 1 <= count <= 4294967295:
        raise ValueError(f"{name} is {value}, not from {unit} to {unit * 4294967295}")
    return count


def _options(header: Optional[_Path], key_slot: Optional[int],
             max_iterations: Optional[int]) -> _Options:
    if key_slot is not None and not 0 <= key_slot <= 31:
        raise ValueError(f"key_slot is {key_slot}, not from 0 to 31")
    if max_iterations is not None and not 1 <= max_iterations <= 4294967295:
        raise ValueError(f"max_iterations is {max_iterations}, not from 1 to 4294967295")
    return _Options(size=ctypes.sizeof(_Options), detached=header is not None,
                    has_key_slot=key_slot is not None, key_slot=key_slot or 0,
                    max_iterations=max_iterations or 0)


def _fields(cipher: str, payload_offset: int, sector_size: int, iv_offset: int,
            size: Optional[int]) -> dict[str, int]:
    """What a header says of its payload, as fields of the library's struct."""
    if cipher not in _MODES:
        raise ValueError(f"cipher is {cipher!r}, none of {', '.join(_MODES)}")
    if sector_size not in (512, 1024, 2048, 4096):
        raise ValueError(f"sector_size is {sector_size}, not 512, 1024, 2048 or 4096")
    for name, value in (("payload_offset", payload_offset), ("iv_offset", iv_offset),
                        ("size", size or 0)):
        if not 0 <= value < 1 << 64:
            raise ValueError(f"{name} is {value}, not from 0 to 2**64 - 1")
    if (size or 0) % sector_size:
        raise ValueError(f"size is {size}, not a multiple of sector_size, {sector_size}")
    return {"mode": _MODES[cipher], "offset": payload_offset, "sector_size": sector_size,
            "iv_tweak": iv_offset, "has_size": size is not None, "size": size or 0}


def _unchecked(head: memoryview, secret: memoryview, options: _Options) -> Optional[LuksError]:
    """Why the volume key was not compared with a header, if one is there or was named; raises what
    was found if that is another key."""
    answer = _compared(head, secret, options)
    if answer and answer.code in (Code.OTHER_KEY, Code.OUT_OF_MEMORY):
        raise answer
    is_lost = answer and answer.code == Code.NOT_LUKS and not options.detached
    return None if is_lost else answer


def _check_part(offset: int, length: Optional[int], head: Optional[_Bytes],
                header: Optional[_Path]) -> None:
    for name, value in (("offset", offset), ("length", 0 if length is None else length)):
        if not 0 <= operator.index(value) < 1 << 63:
            raise ValueError(f"{name} is {value}, not from 0 to 2**63 - 1")
    if head is not None and header is not None:
        raise TypeError("head and header do not go together")


def _begin(cleanup: contextlib.ExitStack, path: Union[_Path, Image], header: Optional[_Path],
           offset: int, length: Optional[int],
           head: Optional[_Bytes]) -> tuple[_Part, memoryview, _Key]:
    """The image, the first bytes of its header, and a key that has to be opened. Unless the caller
    takes that back, the image is closed and the key wiped in the end."""
    _check_part(offset, length, head, header)
    # (before anything that has to be undone)
    _library()
    source = cleanup.enter_context(_open_image(path)) if _is_path(path) else path
    image = _part_of(path, source, offset, length)
    first = _read_header(header, image, head)
    key = _Key(image.size)
    cleanup.callback(key.wipe)
    return image, first, key


def _read_header(header: Optional[_Path], image: _Part, head: Optional[_Bytes]) -> memoryview:
    """The first bytes of the image, which the caller may have read, or of the file with the
    detached header."""
    if header is not None:
        return _read_file(header, bytearray(_HEADER_BYTES), True)
    wanted = min(_HEADER_BYTES, image.size)
    if head is None:
        buffer = bytearray(wanted or 1)
        return _read_first(_first_of(image), buffer, True) if wanted else memoryview(buffer)[:0]
    given = memoryview(head).cast("B")[:wanted]
    buffer = bytearray(len(given) or 1)
    buffer[:len(given)] = given
    return memoryview(buffer)[:len(given)]


def _opened_volume(path: Union[_Path, Image], image: _Part, key: _Key, key_slot: Optional[int],
                   buffering: int) -> Union[Volume, io.BufferedReader]:
    """The volume, in a buffer if the caller wants one; warns if its image is incomplete."""
    volume = Volume(path, image, key, key_slot)
    if volume.incomplete:
        _warn(f"{_shown(path)}: {volume.incomplete}", IncompleteImageWarning)
    if buffering == 0:
        return volume
    return io.BufferedReader(volume, buffering if buffering > 0 else _BUFFER)


def open(path: Union[_Path, Image], *, passphrase: Optional[_Passphrase] = None,
         key_file: Optional[_Path] = None, header: Optional[_Path] = None,
         key_slot: Optional[int] = None, max_iterations: Optional[int] = None,
         argon2_memory: Optional[int] = None, argon2_fill: Optional[int] = None,
         argon2: bool = True, offset: int = 0, length: Optional[int] = None,
         head: Optional[_Bytes] = None,
         buffering: int = 0) -> Union[Volume, io.BufferedReader]:
    """Opens the volume in an image by a passphrase.

    path            the image, a regular file or a block device; or an object that is an Image,
                    which is not closed with the volume
    passphrase      the passphrase; a str is encoded in UTF-8. Python does not wipe a str or bytes
    key_file        in its place, the file whose bytes are the passphrase, all of them; it may be a
                    pipe
    header          the file with the detached header; it may be a pipe
    key_slot        the only key slot to try, 0 to 31
    max_iterations  skip each key slot that needs more iterations of PBKDF2, for itself or for its
                    digest. Without it there is no limit, and a hostile header may take days
    argon2_memory   skip each key slot that needs more bytes of memory for Argon2, whole KiB of this;
                    4 GiB if it is not given
    argon2_fill     the same for the memory that Argon2 fills in all passes (time * memory), whole
                    MiB; 64 GiB if it is not given
    argon2          False skips all key slots by Argon2, as `luksrd` does
    offset, length  the image is this part of the file, as a partition is of a disk: so many bytes
                    from this one on. Without a length it ends with the file
    head            the first bytes of the image, if the caller has them: at least its headers and
                    the key areas that are tried, at most the first 33554432 bytes. Then nothing is
                    read from the image to open the volume
    buffering       0 gives a Volume, each of whose reads decrypts. Otherwise an io.BufferedReader
                    over that, its `raw`, with a buffer of so many bytes; of 65536 if it is negative

    Raises LuksError if luksrd refuses the volume: NotLuksError if there is no header, WrongKeyError
    if no key opens it. Raises OSError if a file cannot be opened or read, and TypeError or
    ValueError for arguments that cannot be. Warns by IncompleteImageWarning of an image that is
    incomplete, of a part that ends past its file, or of bytes after the header that cannot be
    read. If the memory for a slot is refused, the LuksError has code OUT_OF_MEMORY and names the
    slot: no later one is tried."""
    if (passphrase is None) == (key_file is None):
        raise TypeError("either passphrase or key_file is needed")
    # (a text such as "no" would turn it on)
    if not isinstance(argon2, bool):
        raise TypeError(f"argon2 is {argon2!r}, neither True nor False")
    options, buffering = _options(header, key_slot, max_iterations), operator.index(buffering)
    options.argon2_memory_kib = _limit("argon2_memory", argon2_memory, 1 << 10)
    options.argon2_fill_mib = _limit("argon2_fill", argon2_fill, 1 << 20)
    options.no_argon2 = not argon2
    with contextlib.ExitStack() as cleanup:
        image, first, key = _begin(cleanup, path, header, offset, length, head)
        given = passphrase.encode() if isinstance(passphrase, str) else passphrase
        with _secret(given, key_file, _PASSPHRASE_BYTES) as secret:
            key.unlock(first, secret, options)
        volume = _opened_volume(path, image, key, key.slot, buffering)
        cleanup.pop_all()
    return volume


def open_by_volume_key(path: Union[_Path, Image], *, payload_offset: int,
                       volume_key: Optional[_Bytes] = None,
                       volume_key_file: Optional[_Path] = None, cipher: str = "aes-xts-plain64",
                       sector_size: int = 512, iv_offset: int = 0, size: Optional[int] = None,
                       header: Optional[_Path] = None, max_iterations: Optional[int] = None,
                       offset: int = 0, length: Optional[int] = None,
                       head: Optional[_Bytes] = None,
                       buffering: int = 0) -> Union[Volume, io.BufferedReader]:
    """Opens a volume by its volume key, as `cryptsetup luksDump --dump-volume-key` saves it: one
    whose header is lost, too.

    payload_offset   the first byte of the payload in the image
    volume_key       the volume key. Python does not wipe bytes
    volume_key_file  in its place, the file with the volume key
    cipher           as headers name it: also aes-xts-plain, aes-cbc-essiv:sha256, aes-cbc-plain64
    sector_size      512, 1024, 2048 or 4096
    iv_offset        the data unit number of the first sector, in units of 512 bytes
    size             the payload's length in bytes, if that is fixed; else it ends with the image
    header           the file with the detached header, if there is one
    max_iterations   a digest with more iterations of PBKDF2 is not compared with the key. Without
                     it there is no limit

    path, offset, length, head and buffering are those of open. If the image, or the detached
    header, has the digest of another key, this raises WrongKeyError. If there is no header, nothing
    can tell that the key is a wrong one: it gives noise. Warns by UncheckedKeyWarning of a header
    that cannot tell, as of a file with a detached header that has none, and raises and warns as
    open does."""
    if (volume_key is None) == (volume_key_file is None):
        raise TypeError("either volume_key or volume_key_file is needed")
    fields = _fields(cipher, payload_offset, sector_size, iv_offset, size)
    options, buffering = _options(header, None, max_iterations), operator.index(buffering)
    with contextlib.ExitStack() as cleanup:
        image, first, key = _begin(cleanup, path, header, offset, length, head)
        with _secret(volume_key, volume_key_file, _KEY_BYTES) as secret:
            key.use(secret, fields)
            unchecked = _unchecked(first, secret, options)
        if unchecked:
            _warn(f"{_shown(path)}: the volume key is not compared: {unchecked}",
                  UncheckedKeyWarning)
        volume = _opened_volume(path, image, key, None, buffering)
        cleanup.pop_all()
    return volume


def _main() -> int:
    """Prints what this is, and which library it loads; 1 if it finds none."""
    print(f"luksrd {__version__}: {(__doc__ or '').splitlines()[0]}")
    try:
        version = ".".join(map(str, library_version()))
    except OSError as error:
        print(f"the library is not found: {error}")
        return 1
    print(f"library: {_library()._name}, version {version}")
    print(f"ciphers: {' '.join(_MODES)}")
    print('use: import luksrd; help(luksrd)')
    return 0


if __name__ == "__main__":
    sys.exit(_main())
