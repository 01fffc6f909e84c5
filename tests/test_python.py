"""The module for Python: what it gives is the plaintext of volumes of all kinds; how it refuses,
warns and closes, and what is left of keys and passphrases when that is interrupted."""

import concurrent.futures
import contextlib
import copy
import ctypes
import errno
import gc
import io
import mmap
import os
import pathlib
import pickle
import random
import signal
import subprocess
import sys
import threading
import time
import warnings
import zipfile

import luksrd
import pytest
import volumes
from kinds import (BY_VOLUME_KEY, KINDS, REFUSED, START, VOLUME1, VOLUME2, each_kind,
                   volume_key_options)
from support import TOP, expect, fails_from, must, needs, run


@pytest.fixture(autouse=True)
def folder(library, kinds, monkeypatch):
    """The module loads the built library, and names of files are below that of the kinds."""
    monkeypatch.setenv("LUKSRD_LIBRARY", str(library))
    monkeypatch.chdir(kinds.folder)
    assert luksrd.library_version()[:1] == (1,)


@pytest.fixture
def text(kinds):
    """text(IMAGE) is what was encrypted."""
    return kinds.text


def open_kind(image):
    kind = KINDS[image]
    with warnings.catch_warnings(action="ignore", category=luksrd.IncompleteImageWarning):
        return luksrd.open(image, key_file=kind.key, header=kind.header or None)


@pytest.fixture
def volume():
    with open_kind(VOLUME2) as opened:
        yield opened


def descriptors():
    return len(os.listdir("/proc/self/fd"))


@each_kind
def test_whole(kind, text):
    """An incomplete image has luksCat's message and status, and opening it warns of that."""
    with warnings.catch_warnings(record=True, action="always") as caught:
        volume = luksrd.open(kind.image, key_file=kind.key, header=kind.header or None)
    said = [str(warning.message) for warning in caught
            if warning.category is luksrd.IncompleteImageWarning]
    assert said == ([f"{kind.image}: {kind.message}"] if kind.message else [])
    with volume:
        ending = volume.incomplete
        assert volume.size == len(text(kind.image))
        assert volume.read() == text(kind.image)
        assert volume.read() == b"" and volume.tell() == volume.size
    assert (ending.status, str(ending)) == (4, kind.message) if kind.message else ending is None


@each_kind
def test_ranges(kind, text):
    chance, wanted = random.Random(kind.image), text(kind.image)
    with open_kind(kind.image) as volume:
        for _ in range(40):
            length = chance.choice((0, 1, 511, 512, 513, 4096, 4097, chance.randrange(70000),
                                    300000))
            offset = chance.choice((0, 1, chance.randrange(len(wanted) + 1),
                                    max(0, len(wanted) - length)))
            part = wanted[offset:offset + length]
            assert volume.pread(length, offset) == part
            volume.seek(offset)
            buffer = bytearray(b"x" * length)
            got = volume.readinto(buffer)
            assert buffer == part + b"x" * (length - got)
            assert volume.tell() == offset + got


def test_past_the_end(volume):
    assert volume.pread(10, volume.size) == volume.pread(10, volume.size + 2 ** 70) == b""
    assert volume.seek(5, os.SEEK_END) == volume.size + 5
    assert volume.read(10) == b"" and volume.read() == b"" and volume.tell() == volume.size + 5


def test_seek(volume, text):
    wanted = text(VOLUME2)
    assert volume.seek(100) == volume.tell() == 100
    assert volume.read(7) == wanted[100:107] and volume.tell() == 107
    assert volume.seek(-3, os.SEEK_CUR) == 104 and volume.seek(-2, 2) == volume.size - 2
    assert volume.read(10) == wanted[-2:]
    for call, *arguments in ((volume.seek, -1, 0), (volume.seek, -volume.size - 1, 2), (volume.seek, 0, 3),
                             (volume.pread, -1, 0), (volume.pread, 1, -1)):
        pytest.raises(ValueError, call, *arguments)


def test_whole_numbers_alone(volume, text):
    for wrong in 1.5, "1", None:
        for call, *before in (volume.seek,), (volume.pread, 1), (volume.pread_into, bytearray(1)):
            pytest.raises(TypeError, call, *before, wrong)
    assert volume.seek(True) == 1 and volume.read(2) == text(VOLUME2)[1:3]


def test_buffers(volume, text):
    """Any writable buffer is filled; one of several dimensions or items as bytes."""
    numbers = (ctypes.c_uint32 * 1000)()
    assert volume.pread_into(numbers, 3) == 4000 and bytes(numbers) == text(VOLUME2)[3:4003]
    pytest.raises(TypeError, volume.readinto, b"read-only")
    assert volume.tell() == 0


def test_read_only(volume):
    assert volume.readable() and volume.seekable()
    assert not volume.writable() and not volume.isatty()
    for change, *arguments in (volume.write, b"x"), (volume.truncate, 5), (volume.fileno,):
        pytest.raises(io.UnsupportedOperation, change, *arguments)
    assert isinstance(volume, io.RawIOBase) and volume.mode == "rb"


def test_facts(volume):
    assert (volume.key_slot, volume.sector_size, volume.name) == (0, 4096, VOLUME2)
    assert VOLUME2 in repr(volume) and f" {volume.size} bytes" in repr(volume)
    with luksrd.open(VOLUME1, key_file="pass2") as other:
        assert (other.key_slot, other.sector_size) == (5, 512)


def sealed(made1, plain):
    plain += bytes(-len(plain) % 512)
    return made1("aes-xts-plain64", "sha256", 512, plain=plain)


def test_zipfile(made1):
    packed = io.BytesIO()
    with zipfile.ZipFile(packed, "w") as archive:
        archive.writestr("inside", "inside\n" * 90)
    image = sealed(made1, bytes(-len(packed.getvalue()) % 512) + packed.getvalue())
    with luksrd.open(image, key_file="pass") as volume, zipfile.ZipFile(volume) as archive:
        assert archive.read("inside") == b"inside\n" * 90


@needs("mke2fs", "debugfs")
def test_pytsk3(made1, tmp_path):
    import pytsk3

    class Image(pytsk3.Img_Info):
        def __init__(self, volume):
            self.volume = volume
            super().__init__(url="", type=pytsk3.TSK_IMG_TYPE_EXTERNAL)

        def read(self, offset, length):
            return self.volume.pread(length, offset)

        def get_size(self):
            return self.volume.size

    (tmp_path / "inside").write_text("inside\n")
    plain = tmp_path / "plain"
    must("mke2fs", "-q", "-t", "ext4", plain, "4M")
    must("debugfs", "-w", "-R", "write inside inside", plain, cwd=tmp_path)
    with luksrd.open(sealed(made1, plain.read_bytes()), key_file="pass") as volume:
        image = Image(volume)
        # pytsk3 keeps no reference to the file system
        system = pytsk3.FS_Info(image)
        file = system.open("/inside")
        assert file.read_random(0, file.info.meta.size) == b"inside\n"


@pytest.mark.parametrize("kind_of_text", [str, bytes, bytearray, memoryview])
def test_passphrases(kind_of_text, text):
    """A passphrase of any kind opens the volume, and is not changed."""
    given = "a passphrase" if kind_of_text is str else kind_of_text(b"a passphrase")
    with luksrd.open(VOLUME1, passphrase=given) as volume:
        assert volume.read() == text(VOLUME1)
    assert given == ("a passphrase" if kind_of_text is str else b"a passphrase")


@pytest.mark.parametrize("path", ["detached2", b"detached2", pathlib.Path("detached2")], ids=repr)
def test_names_of_files(path, text, start):
    """Paths of any kind; key file and header from pipes."""
    pipes = [start("cat", file, cwd=None, stdout=subprocess.PIPE) for file in ("pass", "header2")]
    key, header = (f"/dev/fd/{process.stdout.fileno()}" for process in pipes)
    with luksrd.open(path, key_file=key, header=header) as volume:
        assert volume.read() == text("detached2")


@pytest.mark.parametrize("image, options, code, status, message", REFUSED, ids=str)
def test_refused(image, options, code, status, message):
    with pytest.raises(luksrd.LuksError) as caught:
        luksrd.open(image, **{"key_file": "pass"} | options)
    kind = {1: luksrd.NotLuksError, 10: luksrd.WrongKeyError}.get(code, luksrd.LuksError)
    for error in (caught.value, pickle.loads(pickle.dumps(caught.value))):
        assert type(error) is kind and type(error.code) is luksrd.Code
        assert (error.code, error.status, error.message) == (code, status, message)
        assert str(error) == message


def by_key(image=VOLUME2, key=VOLUME2, **options):
    """The volume in this image, by the volume key of this one."""
    return luksrd.open_by_volume_key(image, **volume_key_options(key, options))


def by_key_file(**options):
    return luksrd.open(VOLUME1, **{"key_file": "pass"} | options)


WRONG = {by_key_file: {
    TypeError: [{"key_file": None}, {"passphrase": "a passphrase"}, {"key_file": 0}, {"header": 0},
                {"key_file": None, "passphrase": 5}, {"argon2_memory": 1e9}, {"argon2_fill": "1G"},
                *({"argon2": word} for word in ("no", "False", "", None, 0, 1))],
    ValueError: [{"key_slot": 32}, {"key_slot": -1}, {"max_iterations": 0},
                 {"max_iterations": 2 ** 32},
                 *({"argon2_memory": size} for size in (0, -1, 1023, 2 ** 42)),
                 *({"argon2_fill": size} for size in (0, -1, 2 ** 20 - 1, 2 ** 52))],
    FileNotFoundError: [{"key_file": "absent"}, {"header": "absent"}],
    IsADirectoryError: [{"key_file": "."}, {"header": "."}],
}, by_key: {
    TypeError: [{"volume_key": b"k" * 64}, {"volume_key_file": None}, {"payload_offset": 1.5},
                {"iv_offset": "1"}, {"volume_key_file": None, "volume_key": "k" * 64}],
    ValueError: [{"cipher": "aes-ecb"}, {"cipher": "aes-cbc-plain64"}, {"sector_size": 513},
                 {"payload_offset": -1}, {"payload_offset": 2 ** 64}, {"iv_offset": -1},
                 {"iv_offset": 2 ** 64}, {"size": -4096}, {"size": 2 ** 64}, {"size": 512},
                 {"max_iterations": 0}, {"volume_key_file": None, "volume_key": b""},
                 {"volume_key_file": None, "volume_key": b"k" * 65}, {"volume_key_file": "plain"}],
    FileNotFoundError: [{"volume_key_file": "absent"}],
}}


@pytest.mark.parametrize("opens, options, error", [
    (opens, options, error) for opens, table in WRONG.items() for error, rows in table.items()
    for options in rows], ids=lambda value: getattr(value, "__name__", str(value)))
def test_wrong_arguments(opens, options, error):
    before = descriptors()
    pytest.raises(error, opens, **options)
    assert descriptors() == before


@pytest.mark.parametrize("image, error", [
    ("absent", FileNotFoundError), (".", IsADirectoryError), ("pipe", OSError),
    ("/dev/null", OSError)])
def test_wrong_image(image, error):
    before = descriptors()
    with pytest.raises(error) as caught:
        luksrd.open(image, passphrase="a passphrase")
    assert os.fspath(caught.value.filename) == image
    if caught.value.errno == errno.EINVAL:
        assert "neither a regular file nor a block device" in str(caught.value)
    assert descriptors() == before
    pytest.raises(TypeError, luksrd.open, 0, passphrase="a passphrase")


# ---- volume keys

@pytest.mark.parametrize("of, image, options, first, end, message", BY_VOLUME_KEY, ids=str)
def test_volume_key(of, image, options, first, end, message, text):
    """A volume key opens its volume, whether or not the header is there; one that cannot tell is
    warned of, and an image that ends too early."""
    with warnings.catch_warnings(record=True, action="always") as caught:
        volume = by_key(image, of, **options)
    kind = luksrd.IncompleteImageWarning if " ends " in message else luksrd.UncheckedKeyWarning
    assert [warning.category for warning in caught] == ([kind] if message else [])
    assert not message or message.removeprefix("luksrd: ") in str(caught[0].message)
    with volume:
        assert volume.read() == text(of)[first:end]


def test_volume_key_as_bytes(text):
    """It is not changed; with other numbers of data units it gives noise."""
    volume_key = bytearray(pathlib.Path(f"{VOLUME2}.key").read_bytes())
    with by_key(VOLUME2, volume_key_file=None, volume_key=volume_key) as volume:
        assert volume.read() == text(VOLUME2)
    assert volume_key == pathlib.Path(f"{VOLUME2}.key").read_bytes()
    with by_key(f"{VOLUME2}.lost", payload_offset=START + 8192) as volume:
        assert volume.read()[:4096] != text(VOLUME2)[8192:12288]


@pytest.mark.parametrize("changed", [0, 63])
def test_another_volume_key(changed, text):
    """It is refused if a header is there, and gives noise if there is none."""
    other = bytearray(pathlib.Path(f"{VOLUME2}.key").read_bytes())
    other[changed] ^= 1
    for image, header in ((VOLUME2, None), (f"{VOLUME2}.lost", VOLUME2)):
        with pytest.raises(luksrd.WrongKeyError) as caught:
            by_key(image, volume_key_file=None, volume_key=other, header=header)
        assert (caught.value.code, caught.value.status) == (18, 2)
        assert str(caught.value) == "luksrd: volume key does not match the digest in the header"
    with by_key(f"{VOLUME2}.lost", volume_key_file=None, volume_key=other) as volume:
        assert volume.key_slot is None
        assert volume.size == len(text(VOLUME2)) and volume.read() != text(VOLUME2)


def test_huge_secrets():
    """A passphrase or a volume key is refused by its whole length, and not read to its end."""
    with open("huge", "rb") as file, mmap.mmap(file.fileno(), 0, prot=mmap.PROT_READ) as given:
        for options in ({"passphrase": given}, {"key_file": "huge"}):
            with pytest.raises(luksrd.LuksError, match="key file is longer than 8388608 bytes"):
                luksrd.open(VOLUME1, **options)
        for options in ({"volume_key": given, "volume_key_file": None},
                        {"volume_key_file": "huge"}):
            with pytest.raises(ValueError, match="longer than 64 bytes"):
                by_key(f"{VOLUME1}.lost", VOLUME1, **options)


# ---- closing, and what is left

def key_of(volume):
    """The bytes in which the module keeps the key."""
    return bytes(volume._key._opened) + bytes(volume._key._cipher)


def test_close():
    """The key is wiped, the descriptor is closed, and nothing is read any more; a second time does
    nothing."""
    before = descriptors()
    volume = open_kind(VOLUME2)
    assert any(bytes(volume._key._opened)) and any(bytes(volume._key._cipher))
    volume.close()
    volume.close()
    assert volume.closed and "closed" in repr(volume) and not any(key_of(volume))
    assert descriptors() == before
    for use in (volume.read, volume.tell, volume.readable, volume.seekable, lambda: volume.seek(0),
                lambda: volume.pread(1, 0), lambda: volume.readinto(bytearray(1)),
                volume.__enter__):
        pytest.raises(ValueError, use)


class Left:
    """What a block leaves: descriptors, and bytes of the keys and secrets that the module made."""

    def __init__(self, monkeypatch):
        self.keys, self.secrets = [], []
        make_keys, fill = luksrd._Keys, luksrd._zero

        def keys():
            self.keys.append(make_keys())
            return self.keys[-1]

        def zero(buffer):
            self.secrets.append((any(buffer), buffer))
            fill(buffer)

        monkeypatch.setattr(luksrd, "_Keys", keys)
        monkeypatch.setattr(luksrd, "_zero", zero)

    def __enter__(self):
        gc.collect()
        self.descriptors = descriptors()
        return self

    def __exit__(self, *_):
        gc.collect()
        assert descriptors() == self.descriptors
        assert self.keys and not any(any(bytes(key)) for key in self.keys)
        # a secret was there, and is no more
        assert any(had for had, _ in self.secrets)
        assert not any(any(buffer) for _, buffer in self.secrets)


@pytest.fixture
def left(monkeypatch):
    return Left(monkeypatch)


@pytest.mark.parametrize("use, warning", [
    (lambda: open_kind("truncated inside a sector"), None),
    (lambda: luksrd.open("truncated inside a sector", key_file="pass"),
     luksrd.IncompleteImageWarning),
    (lambda: by_key("of no digest"), luksrd.UncheckedKeyWarning),
    (lambda: by_key(VOLUME2, size=2 ** 40), luksrd.IncompleteImageWarning)])
def test_warnings_as_errors(left, use, warning):
    """Nothing is left, though the error itself is kept."""
    with warnings.catch_warnings(action="error"), left:
        if warning is None:
            use().close()
        else:
            with pytest.raises(warning) as caught:
                use()
    assert warning is None or caught.value is not None


def interrupt(monkeypatch, owner, name, turn=1, is_done=False):
    """This call is interrupted once, before or after it is done; gives a list of its calls."""
    call, calls = getattr(owner, name), []

    def interrupted(*arguments, **named):
        calls.append(name)
        if len(calls) == turn and not is_done:
            raise KeyboardInterrupt
        answer = call(*arguments, **named)
        if len(calls) == turn:
            raise KeyboardInterrupt
        return answer

    monkeypatch.setattr(owner, name, interrupted)
    return calls


@pytest.mark.parametrize("is_done", [False, True])
@pytest.mark.parametrize("owner, name, turn", [
    (luksrd, "_library", 2), (luksrd, "_library", 3), (luksrd, "_library", 4),
    (luksrd, "_read_header", 1), (luksrd._Key, "unlock", 1), (luksrd._Key, "_prepare", 1),
    (luksrd._Key, "plain_len", 1), (luksrd._Key, "ending", 1), (warnings, "warn", 1)])
def test_open_interrupted(left, monkeypatch, owner, name, turn, is_done):
    """Nothing is left if opening is interrupted before or after one of these calls."""
    with left:
        # one that is opened, so that there is a secret
        luksrd.open(VOLUME1, key_file="pass").close()
        calls = interrupt(monkeypatch, owner, name, turn, is_done)
        with pytest.raises(KeyboardInterrupt), warnings.catch_warnings(action="always"):
            luksrd.open("truncated inside a sector", key_file="pass")
        assert len(calls) >= turn


def test_reading_a_secret_fails(left, monkeypatch):
    """What was read before is wiped."""
    fails_from(monkeypatch, "pass", 5)
    with left, pytest.raises(OSError, match="a part of the disk is gone"):
        luksrd.open(VOLUME1, key_file="pass")
    assert [len(buffer) for _, buffer in left.secrets] == [8388609]


@pytest.mark.parametrize("image", [VOLUME1, VOLUME2])
def test_bytes_after_the_header_cannot_be_read(image, text, monkeypatch):
    """The volume is opened all the same, unless the header is not whole."""
    end = os.stat(image).st_size - 4096
    fails_from(monkeypatch, image, end)
    with pytest.warns(luksrd.IncompleteImageWarning, match=f"ended after {end} bytes"):
        volume = luksrd.open(image, key_file="pass")
    with volume:
        assert volume.pread(1000, 5000) == text(image)[5000:6000]
    for end in 500, 0:
        fails_from(monkeypatch, image, end)
        with pytest.raises(OSError, match="a part of the disk is gone"):
            luksrd.open(image, key_file="pass")


def test_close_in_a_child_of_a_fork(volume):
    """It waits for no thread of its parent that reads, and takes no lock that one holds."""
    reading, go = threading.Event(), threading.Event()

    def holds():
        with volume._moving, volume._idle:
            volume._readers[reading] = threading.get_ident()
            reading.set()
            go.wait()
            del volume._readers[reading]

    reader = threading.Thread(target=holds)
    reader.start()
    reading.wait()
    child = os.fork()
    if child == 0:
        signal.alarm(60)
        volume.close()
        os._exit(0)
    go.set()
    reader.join()
    assert os.waitpid(child, 0)[1] == 0


@pytest.mark.parametrize("ending", ["close", "forget"])
@pytest.mark.parametrize("step", ["wait", "wipe", "closing", "marking"])
def test_close_interrupted(left, monkeypatch, step, ending):
    """A close that is interrupted leaves a volume that cannot be read, and the next one, or the end
    of the object, completes it."""
    with left:
        volume = open_kind(VOLUME2)
        reading = contextlib.ExitStack()
        if step == "wait":
            with concurrent.futures.ThreadPoolExecutor(1) as threads:
                threads.submit(reading.enter_context, volume._reading()).result()
        owner, name = {"wait": (volume._idle, "wait"), "wipe": (volume._key, "wipe"),
                       "closing": (volume, "_release"), "marking": (volume, "flush")}[step]
        interrupt(monkeypatch, owner, name)
        pytest.raises(KeyboardInterrupt, volume.close)
        # Python itself takes it for closed once nothing is left to do
        assert volume.closed == (step == "marking")
        for use in (volume.read, volume.tell, lambda: volume.pread(1, 0)):
            pytest.raises(ValueError, use)
        if step == "wait":
            # the read that ends last does what close() could not
            assert any(key_of(volume)) and not volume._file.closed
            reading.close()
            assert not any(key_of(volume)) and volume._file.closed
        monkeypatch.undo()
        if ending == "close":
            volume.close()
            assert volume.closed
        del volume, reading, use, owner


@pytest.mark.parametrize("read", [lambda volume: volume.pread(5000, 300),
                                  lambda volume: volume.read(5000)], ids=["pread", "read"])
def test_close_by_a_handler(left, monkeypatch, read, text):
    """A close in the midst of a read of the same thread, as by a signal handler, does not wait for
    that read, which ends as usual and then does what close() could not."""
    with left:
        volume, read_exactly = open_kind(VOLUME2), luksrd._read_exactly

        def interrupted(*arguments):
            volume.close()
            pytest.raises(ValueError, volume.seek, 0)
            read_exactly(*arguments)

        volume.seek(300)
        monkeypatch.setattr(luksrd, "_read_exactly", interrupted)
        assert read(volume) == text(VOLUME2)[300:5300]
        assert not any(key_of(volume)) and volume._file.closed
        volume.close()
        assert volume.closed
        del volume


def test_read_by_a_handler(left, monkeypatch, text):
    """A read in the midst of a read of the same thread, as by a signal handler: the next one goes
    on after the latter."""
    with left, open_kind(VOLUME2) as volume:
        read_exactly, inner = luksrd._read_exactly, []

        def interrupted(*arguments):
            read_exactly(*arguments)
            if not inner:
                inner.append(None)
                inner.append(volume.read(50))
                volume.seek(7)

        monkeypatch.setattr(luksrd, "_read_exactly", interrupted)
        wanted = text(VOLUME2)
        assert volume.read(100) == wanted[:100] and inner[1] == wanted[:50]
        assert volume.read(100) == wanted[100:200]


def test_close_in_threads(left, text):
    """The image is closed once, and no close returns before that: none closes a file of another
    that has got the same descriptor."""
    wanted = text(VOLUME2)
    with left, concurrent.futures.ThreadPoolExecutor(8) as threads:
        for _ in range(50):
            volume, gate = open_kind(VOLUME2), threading.Barrier(8)

            def close(number):
                gate.wait()
                if number == 0:
                    with contextlib.suppress(ValueError):
                        assert volume.pread(9000, 100) == wanted[100:9100]
                volume.close()
                assert volume.closed and volume._file.closed and not any(key_of(volume))
                with open("pass", "rb") as other:
                    time.sleep(0.001)
                    return other.read()

            assert set(threads.map(close, range(8))) == {volumes.PASS}


STRICT = """
import gc, sys, warnings, luksrd
image, key, short = sys.argv[1:]
luksrd.open(image, key_file=key).close()
volume = luksrd.open(image, key_file=key)
del volume
for options in ({"key_file": key + ".absent"}, {"passphrase": "a wrong one"},
                {"key_file": key, "header": key}):
    try:
        luksrd.open(image, **options)
        print("opened")
    except (OSError, luksrd.LuksError):
        pass
try:
    luksrd.open(short, key_file=key)
    print("opened")
except luksrd.IncompleteImageWarning:
    pass
gc.collect()
volume = luksrd.open(image, key_file=key)
"""


def test_strict():
    """Python reports no file that was not closed, and no error that it ignores, when all warnings
    are errors."""
    expect(run(sys.executable, "-B", "-W", "error", "-X", "dev", "-c", STRICT, VOLUME1, "pass",
               "truncated inside a sector", env=os.environ | {"PYTHONPATH": str(TOP / "python")}))


def test_no_copies(volume, text):
    """A volume cannot be copied or pickled."""
    for copies in (copy.copy, copy.deepcopy, pickle.dumps):
        with pytest.raises(TypeError, match="a volume cannot be copied or pickled"):
            copies(volume)
    assert volume.read() == text(VOLUME2)


def test_forgotten():
    """A volume that is no longer used is closed."""
    before = descriptors()
    volume = open_kind(VOLUME2)
    assert descriptors() == before + 1
    del volume
    assert descriptors() == before


def test_threads(volume, text):
    """Threads read ranges of one volume at once, and each of its bytes once by readinto."""
    wanted = text(VOLUME2)

    def ranges(number):
        chance = random.Random(number)
        for _ in range(200):
            offset, length = chance.randrange(len(wanted)), chance.randrange(20000)
            assert volume.pread(length, offset) == wanted[offset:offset + length]

    with concurrent.futures.ThreadPoolExecutor(8) as threads:
        list(threads.map(ranges, range(8)))
        pieces = list(threads.map(lambda _: volume.read(1000), range(len(wanted) // 1000 + 1)))
    assert sorted(pieces) == sorted(wanted[at:at + 1000] for at in range(0, len(wanted), 1000))


def test_close_while_threads_read(text):
    """A read gives the text or says that the volume is closed, and never reads a file that got the
    same descriptor."""
    wanted = text(VOLUME2)
    for number in range(20):
        volume, started = open_kind(VOLUME2), threading.Event()

        def reads():
            try:
                while True:
                    assert volume.pread(9000, 100) == wanted[100:9100]
                    started.set()
            except ValueError:
                return "closed"

        with concurrent.futures.ThreadPoolExecutor(4) as threads:
            running = [threads.submit(reads) for _ in range(4)]
            assert started.wait(60)
            time.sleep(number / 2000)
            volume.close()
            with open("plain", "rb") as other:
                assert [future.result() for future in running] == ["closed"] * 4
                assert other.tell() == 0


def test_shorter(tmp_path, text):
    """An image that becomes shorter gives no bytes where it is gone, and the buffer is zeroed."""
    image = volumes.copy_of(VOLUME1, tmp_path / "image")
    with luksrd.open(image, key_file="pass") as volume:
        os.truncate(image, image.stat().st_size - 2000)
        buffer = bytearray(b"x" * 8000)
        with pytest.raises(OSError) as caught:
            volume.pread_into(buffer, volume.size - 8000)
        assert caught.value.errno == errno.EIO
        assert "the image has become shorter" in str(caught.value)
        assert buffer == bytes(8000)
        assert volume.pread(8000, 0) == text(VOLUME1)[:8000]
