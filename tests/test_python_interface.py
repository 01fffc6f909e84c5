"""The module for Python, what it takes and what it is: parts of files, objects in the place of files, lines, its errors
and facts, where its warnings point, and how pip installs it. What is read is what was encrypted."""
import ctypes
import enum
import io
import os
import random
import re
import shutil
import subprocess
import sys
import warnings
import zipfile

import luksrd
import pytest
import volumes
from kinds import CUT, NO_LUKS
from support import TOP, expect, fails_from, must, run, wait_until

MODULE = TOP / "python/luksrd.py"
# whole sectors of 512 bytes, whose end has lines of all lengths
LINES = b"".join(bytes([65 + number % 26]) * number + b"\n" for number in range(400))
TEXT = random.Random("text").randbytes(300032 - len(LINES)) + LINES
START = 1049088  # of a partition in a disk
AFTER = 777777


@pytest.fixture
def loaded(library, monkeypatch):
    """The module loads the built library."""
    monkeypatch.setenv("LUKSRD_LIBRARY", str(library))
    assert luksrd.library_version()[:1] == (1,)


@pytest.fixture
def volume(loaded, made1):
    """A volume of LUKS1 whose dynamic segment has TEXT."""
    assert len(TEXT) % 512 == 0
    return made1("aes-xts-plain64", "sha256", 512, plain=TEXT)


@pytest.fixture
def disk(volume, tmp_path):
    """The volume as a partition: there are other bytes before and after it."""
    path, chance = tmp_path / "disk", random.Random("disk")
    path.write_bytes(chance.randbytes(START) + volume.read_bytes() + chance.randbytes(AFTER))
    return path


@pytest.fixture
def by_key(volume, tmp_path):
    """by_key(IMAGE, ..) opens an image by the volume key that cryptsetup gives."""
    key = tmp_path / "volume.key"
    volumes.cryptsetup("luksDump --dump-volume-key --key-file -", "--volume-key-file", key, volume, stdin=volumes.PASS)
    start = volumes.payload_start(volume)

    def opened(image, **options):
        return luksrd.open_by_volume_key(image, payload_offset=start, volume_key_file=key, **options)

    return opened


def by_passphrase(image, **options):
    return luksrd.open(image, passphrase=volumes.PASS, **options)


@pytest.fixture(params=["open", "open_by_volume_key"])
def opener(request, by_key):
    return by_passphrase if request.param == "open" else by_key


class Memory:
    """An image in memory, which gives at most so many bytes at once, and notes what was asked for. `fails` is the first
    byte that cannot be read."""

    def __init__(self, content, most=1 << 30, fails=1 << 62):
        self.content, self.size, self.most = content, len(content), most
        self.fails, self.asked = fails, []

    def pread_into(self, view, offset):
        self.asked.append((offset, len(view)))
        if offset <= self.fails < offset + len(view):
            raise OSError(5, "a part of the disk is gone")
        found = self.content[offset:offset + len(view)][:self.most]
        view[:len(found)] = found
        return len(found)


def test_partition(opener, disk, volume):
    """A dynamic segment ends where the partition does, and without a length where the file does."""
    length = volume.stat().st_size
    with opener(disk, offset=START, length=length) as part:
        assert part.size == len(TEXT) and part.read() == TEXT
        assert part.pread(1000, 5000) == TEXT[5000:6000] and part.incomplete is None
    with warnings.catch_warnings():
        warnings.simplefilter("ignore", luksrd.IncompleteImageWarning)
        with opener(disk, offset=START) as rest:
            assert rest.size == (len(TEXT) + AFTER) // 512 * 512 and rest.pread(len(TEXT), 0) == TEXT
    with opener(disk, offset=START, length=length - 1024) as less:
        assert less.read() == TEXT[:-1024]


def test_partition_that_ends_past_the_file(opener, volume):
    length = volume.stat().st_size
    with pytest.warns(luksrd.IncompleteImageWarning, match=f"{volume}: it ends 512 bytes before the part") as seen:
        part = opener(volume, length=length + 512)
    with part:
        assert part.read() == TEXT
    assert [warning.filename for warning in seen] == [__file__]


def test_no_volume_in_a_partition(disk):
    for offset, length in (0, None), (START, 0), (1 << 62, None), (START + 1, 1 << 20):
        with warnings.catch_warnings(), pytest.raises(luksrd.NotLuksError) as caught:
            warnings.simplefilter("ignore")
            by_passphrase(disk, offset=offset, length=length)
        assert (caught.value.code, caught.value.status, str(caught.value)) == (1, 4, NO_LUKS)


@pytest.mark.parametrize("options, error", [
    ({"offset": -1}, ValueError), ({"length": -1}, ValueError), ({"offset": 1 << 63}, ValueError),
    ({"offset": 0.5}, TypeError), ({"length": "1"}, TypeError), ({"buffering": 0.5}, TypeError),
    ({"head": b"", "header": "/dev/null"}, TypeError), ({"head": "text"}, TypeError)], ids=str)
def test_wrong_arguments(opener, volume, options, error):
    descriptors = os.listdir("/proc/self/fd")
    with pytest.raises(error):
        opener(volume, **options)
    assert len(os.listdir("/proc/self/fd")) == len(descriptors)


@pytest.mark.parametrize("most", [1 << 30, 4099])
def test_object(opener, disk, most):
    """An object is read as a file is, however few bytes it gives at once, and is not closed."""
    image, length = Memory(disk.read_bytes(), most), disk.stat().st_size - START - AFTER
    with opener(image, offset=START, length=length) as part:
        assert part.name is image and part.read() == TEXT and part.pread(700, 300) == TEXT[300:1000]
    assert image.asked and all(START <= offset and offset + asked <= START + length for offset, asked in image.asked)


def test_head(opener, volume):
    """What the caller has read of the header is not read again, and the payload is."""
    content = volume.read_bytes()
    start = len(content) - len(TEXT)
    for head in (content, content[:start], bytearray(content[:start]), memoryview(content)):
        image = Memory(content)
        with opener(image, head=head) as opened:
            assert image.asked == [] and opened.read() == TEXT
        assert min(offset for offset, _ in image.asked) == start
    with opener(volume, head=content[:start]) as opened:
        assert opened.read() == TEXT
    changed = Memory(bytes(start) + content[start:])
    with opener(changed, head=content[:start]) as opened:
        assert opened.read() == TEXT


def test_head_that_is_too_short(volume):
    content = volume.read_bytes()
    with pytest.raises(luksrd.LuksError) as caught:
        by_passphrase(volume, head=content[:20000])
    assert (caught.value.code, str(caught.value)) == (2, CUT)
    pytest.raises(luksrd.NotLuksError, by_passphrase, volume, head=b"")


def test_head_that_ends_in_an_area_of_argon2(loaded, kinds):
    """The key areas of all slots that are tried are needed, also if an earlier slot opens."""
    head = kinds.head_of_argon2()
    with pytest.raises(luksrd.LuksError) as caught:
        by_passphrase(kinds / "argon2", head=head)
    assert (caught.value.code, str(caught.value)) == (2, CUT)
    for options in {"argon2": False}, {"key_slot": 0}, {"argon2_memory": 31 << 10}:
        with by_passphrase(kinds / "argon2", head=head, **options) as opened:
            assert (opened.key_slot, opened.read()) == (0, kinds.text("argon2"))


def test_volume_in_a_volume(volume, tmp_path, made1):
    """A volume is such an object, and stays open when the one in it is closed."""
    inner = volume.read_bytes()
    inner += bytes(-len(inner) % 512)
    outer = made1("aes-xts-plain64", "sha256", 256, plain=bytes(4096) + inner)
    with by_passphrase(outer) as below:
        with by_passphrase(below, offset=4096, length=volume.stat().st_size) as above:
            assert above.read() == TEXT and above.name is below
        assert below.pread(4096 + len(inner), 0) == bytes(4096) + inner
    with pytest.raises(ValueError):
        by_passphrase(below)


def test_object_that_fails(volume):
    """Bytes after the header are not needed; where the payload cannot be read, nothing is given."""
    content = volume.read_bytes()
    start = len(content) - len(TEXT)
    with pytest.warns(luksrd.IncompleteImageWarning, match="a part of the disk is gone") as seen:
        opened = by_passphrase(Memory(content, fails=start + 100000))
    with opened:
        assert opened.pread(90000, 0) == TEXT[:90000]
        buffer = bytearray(b"x" * 20000)
        with pytest.raises(OSError, match="a part of the disk is gone"):
            opened.pread_into(buffer, 90000)
        assert not any(buffer)
    assert [warning.filename for warning in seen] == [__file__]
    with pytest.raises(OSError, match="a part of the disk is gone"):
        by_passphrase(Memory(content, fails=100))


@pytest.mark.parametrize("answer, error", [(-1, OSError), (1 << 40, OSError), (None, TypeError), (0.5, TypeError)])
def test_object_that_answers_wrongly(volume, answer, error):
    image = Memory(volume.read_bytes())
    image.pread_into = lambda view, offset: answer
    with pytest.raises(error):
        by_passphrase(image)


@pytest.mark.parametrize("wrong", [0, object(), None, ["volume"]])
def test_neither_a_path_nor_an_object(loaded, wrong):
    with pytest.raises(TypeError):
        by_passphrase(wrong)


@pytest.mark.parametrize("buffering, most", [(-1, 10), (4096, len(TEXT) // 4096 + 10)])
def test_lines(opener, volume, monkeypatch, buffering, most):
    """A line is no decryption a byte."""
    decrypted, finish = [], luksrd._Key.finish
    monkeypatch.setattr(luksrd._Key, "finish", lambda *arguments: decrypted.append(1) or finish(*arguments))
    reader = opener(volume, buffering=buffering)
    assert isinstance(reader, io.BufferedReader) and isinstance(reader.raw, luksrd.Volume)
    with reader:
        reader.seek(len(TEXT) - len(LINES))
        assert [reader.readline() for _ in range(400)] == LINES.splitlines(True) and reader.readline() == b""
        assert 0 < len(decrypted) <= most
        reader.seek(0)
        assert reader.read() == TEXT
    assert reader.raw.closed
    with pytest.raises(ValueError):
        reader.raw.pread(1, 0)


def test_no_buffer(opener, volume):
    for options in {}, {"buffering": 0}:
        with opener(volume, **options) as opened:
            assert type(opened) is luksrd.Volume


def test_codes():
    """They are those of luksrd.h."""
    listed = re.search(r"enum luksrd_code \{(.*?)\};", (TOP / "c/luksrd.h").read_text(), re.DOTALL)[1]
    assert {code.name: code.value for code in luksrd.Code} == {
        name: int(number) for name, number in re.findall(r"LUKSRD_(\w+) = (\d+)", listed)}
    assert issubclass(luksrd.Code, enum.IntEnum)


def test_structs():
    """The module's structs have the fields, sizes and offsets that luksrd.h states."""
    stated = re.findall(
        r"_Static_assert\((sizeof|offsetof)\(struct luksrd_(\w+)(?:, (\w+))?\) == (\d+)",
        (TOP / "c/luksrd.h").read_text())
    structs = {"options": luksrd._Options, "volume": luksrd._Opened, "cipher": luksrd._Cipher,
               "step": luksrd._Step, "message": luksrd._Message}
    assert {struct for _, struct, _, _ in stated} == set(structs)
    for what, struct, field, number in stated:
        ours = structs[struct]
        got = ctypes.sizeof(ours) if what == "sizeof" else getattr(ours, field).offset
        assert int(number) == got, (struct, field)
    for name, struct in structs.items():
        assert [field for field, *_ in struct._fields_] == [
            field for what, other, field, _ in stated if other == name and what == "offsetof"]


def test_unknown_code():
    """A newer library may have more."""
    error = luksrd.LuksError(1000, 1, "luksrd: something new")
    assert error.code == 1000 and str(error) == "luksrd: something new"


def test_facts(opener, volume, tmp_path):
    """The cipher is as cryptsetup shows it; nothing can be set, and all stays when the volume is closed."""
    shown = dict(re.findall(r"^(Cipher \w+):\s*(\S+)$", volumes.cryptsetup("luksDump", volume), re.MULTILINE))
    slot = volumes.slot_by_cryptsetup(volume, volumes.passphrases(tmp_path) / "pass2")
    with opener(volume) as opened:
        facts = {"cipher": f"{shown['Cipher name']}-{shown['Cipher mode']}", "sector_size": 512, "size": len(TEXT),
                 "key_slot": 0 if opener is by_passphrase else None, "name": volume, "incomplete": None}
        for name, value in facts.items():
            assert getattr(opened, name) == value
            with pytest.raises(AttributeError):
                setattr(opened, name, value)
    assert {name: getattr(opened, name) for name in facts} == facts
    with luksrd.open(volume, passphrase=volumes.PASS2) as opened:
        assert slot == f"Key slot {opened.key_slot} opens the volume.\n"


def lines_of(seen):
    return [(warning.category, warning.filename) for warning in seen]


@pytest.mark.parametrize("is_detached", [False, True])
def test_warnings_point_to_the_caller(volume, by_key, tmp_path, monkeypatch, is_detached):
    """A header that cannot be read to its end, and an image that is incomplete."""
    content = volume.read_bytes()
    image, header = tmp_path / "image", tmp_path / "header"
    image.write_bytes(content[-len(TEXT):-1] if is_detached else content[:-1])
    header.write_bytes(content[:-len(TEXT)])
    partly = header if is_detached else image
    fails_from(monkeypatch, partly, partly.stat().st_size - 4096)
    how = {"header": header} if is_detached else {}
    with warnings.catch_warnings(record=True, action="always") as seen:
        by_passphrase_line = sys._getframe().f_lineno + 1
        luksrd.open(image, passphrase=volumes.PASS, **how).close()
    assert [(warning.filename, warning.lineno) for warning in seen] == [(__file__, by_passphrase_line)] * 2
    assert re.match("reading the header ended after .*: .*a part of the disk is gone", str(seen[0].message))
    monkeypatch.undo()
    with warnings.catch_warnings(record=True, action="always") as seen:
        luksrd.open_by_volume_key(volume, payload_offset=0, volume_key=bytes(64), header=TOP / "Makefile").close()
    assert lines_of(seen)[0] == (luksrd.UncheckedKeyWarning, __file__)


HOLDS = """
import fcntl, signal, sys, time
file = open(sys.argv[1], "r+b")
fcntl.fcntl(file, fcntl.F_SETLEASE, fcntl.F_WRLCK)
def asked(*_):
    time.sleep(0.5)
    fcntl.fcntl(file, fcntl.F_SETLEASE, fcntl.F_UNLCK)
    open(sys.argv[2] + ".released", "w").close()
signal.signal(signal.SIGIO, asked)
open(sys.argv[2], "w").close()
while True:
    time.sleep(1)
"""


@pytest.mark.parametrize("is_header", [False, True])
def test_lease(volume, start, tmp_path, is_header):
    """A file under another program's lease is opened when that has released it."""
    held = volumes.copy_of(volume, tmp_path / "held")
    start(sys.executable, "-c", HOLDS, held, tmp_path / "holds", until=(tmp_path / "holds").exists)
    assert not (tmp_path / "holds.released").exists()
    options = {"header": held} if is_header else {}
    with by_passphrase(volume if is_header else held, **options) as opened:
        assert is_header or opened.read() == TEXT
    wait_until((tmp_path / "holds.released").exists)


def test_what_is_public():
    names = {name for name, value in vars(luksrd).items()
             if not name.startswith("_") and getattr(value, "__module__", None) == "luksrd"}
    assert sorted(names) == sorted(luksrd.__all__)
    assert all(getattr(luksrd, name).__doc__ for name in luksrd.__all__)


def test_version(loaded):
    wanted = re.search(r"^VERSION := (.*)$", (TOP / "Makefile").read_text(), re.MULTILINE)[1]
    assert luksrd.__version__ == wanted == ".".join(map(str, luksrd.library_version()))


def test_what_it_is(loaded, library, tmp_path):
    ended = run(sys.executable, MODULE, cwd=tmp_path)
    assert ended.status == 0 and ended.output.decode().splitlines()[:2] == [
        f"luksrd {luksrd.__version__}: Any part of the plaintext of a LUKS1 or LUKS2 volume, as a file.",
        f"library: {library}, version {luksrd.__version__}"]
    absent = run(sys.executable, MODULE, env=os.environ | {"LUKSRD_LIBRARY": str(tmp_path / "absent")})
    assert absent.status == 1 and "the library is not found: " in absent.output.decode() and not absent.message


def test_installation_by_pip(library, volume, tmp_path):
    """pip installs the module alone, in a virtual environment with pip and nothing else, and without a network."""
    pytest.importorskip("ensurepip", reason="python3-venv is not installed")
    sources, here = tmp_path / "python", tmp_path / "environment"
    shutil.copytree(TOP / "python", sources, ignore=shutil.ignore_patterns("__pycache__"))
    before = sorted(path.name for path in sources.iterdir())
    must(sys.executable, "-m", "venv", here)
    offline = os.environ | {"PIP_NO_INDEX": "1", "PIP_DISABLE_PIP_VERSION_CHECK": "1"}
    must(here / "bin/pip", "uninstall", "-y", "setuptools", env=offline)
    must(here / "bin/pip", "install", "--no-build-isolation", ".", cwd=sources, env=offline)
    assert sorted(path.name for path in sources.iterdir()) == before
    program = """
import luksrd, sys
volume = luksrd.open(sys.argv[1], passphrase="a passphrase")
assert luksrd.__file__.startswith(sys.prefix), luksrd.__file__
sys.stdout.buffer.write(volume.read())
"""
    expect(run(here / "bin/python", "-c", program, volume, cwd=tmp_path), TEXT)
    assert run(here / "bin/python", "-m", "luksrd", cwd=tmp_path).output.splitlines()[1].startswith(b"library: ")
    must(here / "bin/pip", "wheel", "--no-build-isolation", "-w", tmp_path / "wheels", ".", cwd=sources, env=offline)
    name = f"luksrd-{luksrd.__version__}"
    with zipfile.ZipFile(tmp_path / f"wheels/{name}-py3-none-any.whl") as wheel:
        assert sorted(wheel.namelist()) == [f"{name}.dist-info/{part}" for part in ("METADATA", "RECORD", "WHEEL")] + \
            ["luksrd.py"]
        assert wheel.read("luksrd.py") == MODULE.read_bytes()
    expect(run(here / "bin/pip", "uninstall", "-y", "luksrd", env=offline, stdout=subprocess.DEVNULL), "")
    assert run(here / "bin/python", "-c", "import luksrd", cwd=tmp_path).status == 1
