"""Key slots by Argon2: the library, luksrd.py, the plugin and the filter open those of cryptsetup, and those that are
written here; what limits them, what they leave in memory; and that luksrd itself skips them all."""
import copy
import functools
import os
import re
import subprocess

import pytest
import volumes
from argon2_slots import Cost, rewrite
from serving import connected, read
from support import NO_KEY, TOP, expect, limited, must, needs, run, runs_v3
from test_plugin import found
from volumes import PASS, PASS2, copy_of, cryptsetup

pytestmark = needs("argon2", "cryptsetup", "gcc", "nbdkit", "nbdcopy")
SKIPPED = "luksrd: no key slot can be tried; skipped: 0 ({})"
LONG = bytes(range(48, 112)) + b"a long passphrase"
PYTHON = """
import sys, luksrd
image, key, header, slot, memory, fill, argon2 = sys.argv[1:]
number = lambda word: None if word == "-" else int(word)
try:
    volume = luksrd.open(image, key_file=key, header=None if header == "-" else header, key_slot=number(slot),
                         argon2_memory=number(memory), argon2_fill=number(fill), argon2=argon2 == "yes")
except luksrd.LuksError as error:
    print(error, file=sys.stderr)
    sys.exit(error.status)
sys.stdout.buffer.write(volume.readall())
print(f"key slot {volume.key_slot}", file=sys.stderr)
"""


# ---- the ways to read a volume

def by_c(program, image, key, header, slot, memory, fill, argon2):
    """The limits of C are in KiB and MiB."""
    limits = [str((memory or 0) >> 10), str((fill or 0) >> 20), "0" if argon2 else "1"]
    return [*program, "limited", image, header or "-", key, "-" if slot is None else str(slot), *limits]


def by_python(image, key, header, slot, memory, fill, argon2):
    given = ["-" if one is None else str(one) for one in (header, slot, memory, fill)]
    return ["/usr/bin/python3", "-B", "-c", PYTHON, image, key, *given, "yes" if argon2 else "no"]


def by_nbdkit(words, image, key, header, slot, memory, fill, argon2):
    given = {"header": header, "key-slot": slot, "argon2-memory": memory, "argon2-fill": fill,
             "argon2": None if argon2 else "no"}
    return ["nbdkit", "-U", "-", *words, image, f"key-file={key}",
            *(f"{name}={value}" for name, value in given.items() if value is not None),
            "--run", 'nbdcopy "$uri" -']


class Way:
    """Reads volumes in one way."""

    def __init__(self, name, command, folder, environment):
        self.name, self.command, self.folder, self.environment = name, command, folder, environment

    def __call__(self, image, key="pass", *, header=None, slot=None, memory=None, fill=None, argon2=True, before=()):
        """How reading ends: the plaintext, or luksrd's message without the image's name."""
        words = self.command(image, key, header, slot, memory, fill, argon2)
        ended = run(*before, *words, cwd=self.folder, env=os.environ | self.environment)
        said = re.search(r"luksrd: .*", re.sub(r"^nbdkit: [^:]*: ", "", ended.message, flags=re.MULTILINE))
        return said[0] if ended.status else ended.output

    def opened_by(self, *arguments, **how):
        """The number of the key slot that opens, which only Python says."""
        assert self.name == "Python"
        ended = run(*self.command(*arguments, **{"header": None, "slot": None, "memory": None, "fill": None,
                                                 "argon2": True} | how), cwd=self.folder,
                    env=os.environ | self.environment)
        return re.search(r"key slot (\d+)", ended.message)[1]


@pytest.fixture
def program(cached, library):
    """The program in C over the shared library. (The loader would save registers on the stack when it looks up a
    function.)"""
    def make(path):
        must("gcc", "-std=c11", "-D_GNU_SOURCE", "-O1", "-g", f"-I{TOP}/c", TOP / "tests/library.c", library,
             f"-Wl,-rpath,{library.parent},-z,now", "-lpthread", "-o", path)

    return [cached("library-limited", make)]


def make_way(name, program, library, plugin, filter, folder):
    shared = library
    if name.endswith("v3"):
        if not runs_v3():
            pytest.skip("this processor is older")
        shared = library.parent / "glibc-hwcaps/x86-64-v3/libluksrd.so.2"
    os.symlink(shared.resolve(), folder / "libluksrd.so.2")
    environment = {"LD_LIBRARY_PATH": str(folder), "LUKSRD_LIBRARY": str(folder / "libluksrd.so.2"),
                   "PYTHONPATH": f"{TOP}/python"}
    command = {"Python": by_python, "plugin": functools.partial(by_nbdkit, [plugin]),
               "filter": functools.partial(by_nbdkit, [f"--filter={filter}", "file"])}.get(
                   name, functools.partial(by_c, program))
    return Way(name, command, volumes.passphrases(folder), environment)


WAYS = ["C, x86-64-v2", "C, x86-64-v3", "Python", "plugin", "filter"]


@pytest.fixture(params=WAYS)
def way(request, program, library, plugin, filter, tmp_path):
    return make_way(request.param, program, library, plugin, filter, tmp_path)


@pytest.fixture
def python(program, library, plugin, filter, tmp_path):
    return make_way("Python", program, library, plugin, filter, tmp_path)


# ---- volumes

PLAIN = b"".join(number.to_bytes(16, "little") for number in range(1 << 14))
MADE = {
    "argon2id, 32 KiB": (Cost("argon2id", 4, 32, 1), "xts-plain64", 512, 512),
    "argon2i, 32 KiB": (Cost("argon2i", 4, 32, 4), "xts-plain64", 256, 1024),
    "argon2i, 5 passes": (Cost("argon2i", 5, 1024, 2), "cbc-essiv:sha256", 256, 4096),
    "argon2id, 6 passes": (Cost("argon2id", 6, 1000, 3), "cbc-plain64", 128, 512),
    "argon2id, 8 passes": (Cost("argon2id", 8, 77, 2), "xts-plain", 512, 2048),
    "argon2id, 64 MiB": (Cost("argon2id", 4, 65536, 4), "xts-plain64", 512, 4096),
    "argon2i, 64 MiB": (Cost("argon2i", 4, 65536, 1), "xts-plain64", 512, 512),
}
WRITTEN = {
    "written: argon2id, 1 pass": Cost("argon2id", 1, 64, 8),
    "written: argon2i, 1 pass": Cost("argon2i", 1, 40, 5),
    "written: argon2id, 2 passes": Cost("argon2id", 2, 1000, 6, "eight by"),
    "written: argon2i, 2 passes": Cost("argon2i", 2, 8, 1),
    "written: argon2i, 3 passes": Cost("argon2i", 3, 129, 7, "s" * 64),
    "written: argon2id, 3 passes": Cost("argon2id", 3, 4096, 5),
    "written: argon2id, 1 lane": Cost("argon2id", 1, 8, 1),
}
NAMES = [*MADE, *WRITTEN]


def kdf_of(cost):
    """The options with which cryptsetup makes a slot of this cost."""
    return (f"--pbkdf {cost.kind} --pbkdf-force-iterations {cost.time} --pbkdf-memory {cost.memory} "
            f"--pbkdf-parallel {cost.cpus}")


def convert(image, cost, slot=0, key="pass"):
    """cryptsetup makes a slot by Argon2 of this one."""
    folder = volumes.passphrases(image.parent)
    cryptsetup(f"luksConvertKey --key-slot {slot} {kdf_of(cost)} --key-file {key}", image, cwd=folder)
    kdf = volumes.metadata(image)[0]["keyslots"][str(slot)]["kdf"]
    assert (kdf["type"], kdf["time"], kdf["memory"]) == (cost.kind, cost.time, cost.memory)
    return image


def make(name, path, made2):
    """A volume with one key slot, number 0, by Argon2, which PASS opens."""
    cost, *form = MADE.get(name, (WRITTEN.get(name), "xts-plain64", 512, 512))
    cipher, bits, sector = form
    copy_of(made2(f"aes-{cipher}", bits, "--sector-size", str(sector), plain=PLAIN), path)
    os.truncate(path, volumes.payload_start(path) + len(PLAIN))
    cryptsetup("luksKillSlot --key-file", volumes.passphrases(path.parent) / "pass", path, "1")
    if name in MADE:
        convert(path, cost)
    else:
        rewrite(path, "0", PASS, PASS, cost)


@pytest.fixture
def volume(cached, made2):
    """volume(NAME) is the path of a volume, which no test changes."""
    def get(name):
        return cached(re.sub(r"\W+", "-", name), lambda path: make(name, path, made2))

    return get


@pytest.fixture
def image(volume, tmp_path):
    """A copy of one that may be changed, whose slot takes 1 MiB in 5 passes; PASS2 opens slot 1, by PBKDF2."""
    path = copy_of(volume("argon2i, 5 passes"), tmp_path / "image")
    cryptsetup("luksAddKey --pbkdf pbkdf2 --pbkdf-force-iterations 1000 --key-file",
               volumes.passphrases(tmp_path) / "pass", path, tmp_path / "pass2")
    return path


# ---- what opens

@pytest.mark.parametrize("name", NAMES)
def test_opens(way, volume, name):
    assert way(volume(name)) == PLAIN
    assert way(volume(name), "wrong") == NO_KEY


@pytest.mark.parametrize("name", MADE)
def test_luks_cat_agrees(way, luksrd, volume, tmp_path, name):
    """A slot by PBKDF2 is added to a copy: luksCat writes the same."""
    added = copy_of(volume(name), tmp_path / "added")
    cryptsetup("luksAddKey --pbkdf pbkdf2 --pbkdf-force-iterations 1000 --key-file", tmp_path / "pass", added,
               tmp_path / "pass2")
    expect(luksrd("luksCat --key-file pass2 added"), PLAIN)
    assert way(added) == way(added, "pass2") == PLAIN


@pytest.mark.parametrize("name", NAMES)
def test_luksrd_skips(luksrd, way_of_zeros, volume, tmp_path, name):
    """luksrd does so, and each other way if it is asked to, in the same words."""
    volumes.passphrases(tmp_path)
    kind = (MADE[name][0] if name in MADE else WRITTEN[name]).kind
    for command in "testPassphrase", "luksCat":
        expect(luksrd(f"{command} --key-file pass", volume(name)), message=SKIPPED.format(kind), status=1)
    assert f"\nSlot 0: SKIPPED {kind}\n" in luksrd("luksDump", volume(name)).output.decode()
    expect(luksrd("luksCheck", volume(name)), "clean\n")
    assert way_of_zeros(volume(name), argon2=False) == SKIPPED.format(kind)


@pytest.fixture(params=["C, x86-64-v2", "Python", "plugin"])
def way_of_zeros(request, program, library, plugin, filter, tmp_path):
    return make_way(request.param, program, library, plugin, filter, tmp_path)


def test_both_kinds(way, image):
    assert way(image) == way(image, "pass2") == PLAIN
    assert way(image, argon2=False) == f"{NO_KEY}; skipped: 0 (argon2i)"
    assert way(image, "pass2", argon2=False) == PLAIN
    assert way(image, slot=0, argon2=False) == "luksrd: key slot 0 is skipped: argon2i"


def test_order(python, image):
    """By priority, and then by number, whichever function derives the key."""
    add = "luksAddKey --pbkdf pbkdf2 --pbkdf-force-iterations 1000 --key-slot 2 --key-file pass"
    cryptsetup(add, image, "pass", cwd=image.parent)
    assert python.opened_by(image, "pass") == "0"
    assert python.opened_by(image, "pass", argon2=False) == "2"
    assert python.opened_by(image, "pass2") == "1"
    cryptsetup("config --priority prefer --key-slot 2", image)
    assert python.opened_by(image, "pass") == "2"
    cryptsetup("config --priority ignore --key-slot 0", image)
    cryptsetup("config --priority normal --key-slot 2", image)
    assert python.opened_by(image, "pass") == "2"
    assert python.opened_by(image, "pass", slot=0) == "0"


def test_detached(way, volume, luksrd):
    whole = volume("argon2id, 64 MiB").read_bytes()
    start = volumes.payload_start(volume("argon2id, 64 MiB"))
    header, image = way.folder / "header", way.folder / "image"
    header.write_bytes(whole[:start])
    image.write_bytes(whole[start:])
    volumes.edit_segment(header, offset="0")
    assert way(image, header=header) == PLAIN
    assert way(image, "wrong", header=header) == NO_KEY
    expect(luksrd("luksCat --key-file pass --header header image"), message=SKIPPED.format("argon2id"), status=1)


def test_damaged_header(way, luksrd, image):
    """The secondary header has the slot, too."""
    volumes.overwrite(image, 5000, b"\xff")
    assert b"primary header: not valid" in luksrd("luksCheck", image).output
    assert way(image) == way(image, "pass2") == PLAIN


def test_damaged_area(way, image):
    offset = int(volumes.metadata(image)[0]["keyslots"]["0"]["area"]["offset"])
    volumes.overwrite(image, offset + 5000, b"\xff\0" * 8)
    assert way(image) == NO_KEY
    assert way(image, "pass2") == PLAIN


# ---- parameters out of range

OUT_OF_RANGE = [
    ({"time": 0}, "argon2 time"), ({"time": 1 << 32}, "argon2 time"),
    ({"cpus": 0}, "argon2 cpus"), ({"cpus": 1 << 24}, "argon2 cpus"),
    ({"memory": 15}, "argon2 memory"), ({"memory": 1 << 32}, "argon2 memory"), ({"memory": 0}, "argon2 memory"),
    ({"cpus": 129}, "argon2 memory"),
    ({"memory": 4194305}, "argon2 memory limit, asks for 4194305 KiB"),
    ({"memory": (1 << 32) - 1}, "argon2 memory limit, asks for 4294967295 KiB"),
    ({"time": 65537}, "argon2 fill limit, asks for 67109888 KiB"),
    ({"time": (1 << 32) - 1}, "argon2 fill limit, asks for 4398046510080 KiB"),
    *(({name: wrong}, "member") for name in ("time", "memory", "cpus") for wrong in (-1, "4", 4.0, None, [4])),
    ({"salt": "no base64"}, "member"), ({"salt": 8}, "member"),
]


def is_skipped(message, slot, reason):
    """Whether this is the reason for a slot, with what it asks for if that is above a limit."""
    return re.search(rf"skipped: (?:.*\), )?{slot} \({reason}\)", message) is not None


@pytest.mark.parametrize("change, reason", OUT_OF_RANGE, ids=str)
def test_out_of_range(way_of_zeros, luksrd, image, change, reason):
    """The slot is skipped, the other one is tried, and luksrd says what it says of all."""
    volumes.edit_metadata(image, lambda tree: tree["keyslots"]["0"]["kdf"].update(change))
    said = way_of_zeros(image)
    assert said.startswith(f"{NO_KEY}; ") and is_skipped(said, 0, reason), said
    assert len(said) <= 1015
    assert way_of_zeros(image, "pass2") == PLAIN
    expect(luksrd("testPassphrase --key-file pass image"), message=f"{NO_KEY}; skipped: 0 (argon2i)", status=2)


@pytest.mark.parametrize("name", ["time", "memory", "cpus"])
def test_missing_member(way_of_zeros, image, name):
    volumes.edit_metadata(image, lambda tree: tree["keyslots"]["0"]["kdf"].pop(name))
    assert is_skipped(way_of_zeros(image), 0, "member")


@pytest.mark.parametrize("salt", ["", "AA==", "AAAAAAAAAA=="])
def test_short_salt(way_of_zeros, image, salt):
    """A salt of 0, 1 or 7 bytes is no reason to skip a slot."""
    volumes.edit_metadata(image, lambda tree: tree["keyslots"]["0"]["kdf"].update(salt=salt))
    assert way_of_zeros(image) == NO_KEY


def test_all_slots_skipped(way_of_zeros, image):
    """The longest list: 32 slots over a limit. What a slot asks for is said of the first one alone."""
    def change(tree):
        slot = tree["keyslots"]["0"]
        slot["kdf"].update(memory=(1 << 32) - 1, time=(1 << 32) - 1)
        tree["keyslots"] = {str(number): copy.deepcopy(slot) for number in range(32)}
        tree["keyslots"]["0"]["kdf"].update(memory=4194304)
        tree["digests"]["0"]["keyslots"] = [str(number) for number in range(32)]

    volumes.edit_metadata(image, change)
    said = way_of_zeros(image)
    first = "luksrd: no key slot can be tried; skipped: 0 (argon2 fill limit, asks for 18014398505287680 KiB)"
    assert said == first + "".join(f", {number} (argon2 memory limit)" for number in range(1, 32))
    assert len(said) <= 1015


def test_what_a_later_slot_asks_for(way_of_zeros, image):
    """Only the first slot of a list says what it asks for, and only if that is above a limit."""
    def change(tree):
        first, second = (tree["keyslots"][number] for number in "01")
        second["kdf"] = first["kdf"] | {"memory": (1 << 32) - 1}
        first["kdf"]["time"] = 0

    volumes.edit_metadata(image, change)
    assert way_of_zeros(image) == SKIPPED.format("argon2 time") + ", 1 (argon2 memory limit)"


# ---- limits

MIB = 1 << 20
MEMORY, FILL = "argon2 memory limit, asks for 1024 KiB", "argon2 fill limit, asks for 5120 KiB"


@pytest.mark.parametrize("limits, reason", [
    ({"memory": MIB}, ""), ({"memory": MIB - 1}, MEMORY),
    ({"memory": MIB - 1024}, MEMORY), ({"memory": 1024}, MEMORY),
    ({"fill": 5 * MIB}, ""), ({"fill": 5 * MIB - 1}, FILL),
    ({"fill": 4 * MIB}, FILL), ({"fill": MIB}, FILL),
    ({"memory": MIB, "fill": 5 * MIB}, ""),
    ({"memory": (4 << 40) - 1024, "fill": ((1 << 32) - 1) * MIB}, ""),
    ({"memory": 1024, "fill": MIB}, MEMORY)], ids=str)
def test_limits(way, image, limits, reason):
    """At a limit the slot is tried, and below one it is skipped. The slot by PBKDF2 has none of them."""
    said = way(image, **limits)
    if reason:
        assert said.startswith(f"{NO_KEY}; ") and is_skipped(said, 0, reason), said
    else:
        assert said == PLAIN
    assert way(image, "pass2", **limits) == PLAIN


def test_rounded_fill(way, image):
    """4,100 KiB are more than 4 MiB."""
    convert(image, Cost("argon2id", 4, 1025, 1))
    assert is_skipped(way(image, fill=4 * MIB), 0, "argon2 fill limit, asks for 4100 KiB")
    assert way(image, fill=5 * MIB) == PLAIN


def test_named_slot_over_a_limit(way, image):
    assert way(image, slot=0, memory=1024) == f"luksrd: key slot 0 is skipped: {MEMORY}"
    assert way(image, slot=0, fill=MIB) == f"luksrd: key slot 0 is skipped: {FILL}"
    assert way(image, slot=0) == PLAIN


# ---- memory

LITTLE = limited("-v", 2000000)


def test_refused_memory(way, image):
    """A slot that asks for 4 GiB, in less than 2: no later slot is tried, unless one is named or a limit is set."""
    volumes.edit_metadata(image, lambda tree: tree["keyslots"]["0"]["kdf"].update(memory=4194304, time=1))
    for key in "pass", "pass2":
        assert way(image, key, before=LITTLE) == "luksrd: out of memory: Argon2 needs 4194304 KiB for key slot 0"
    assert way(image, "pass2", slot=1, before=LITTLE) == PLAIN
    assert way(image, "pass2", memory=1 << 30, before=LITTLE) == PLAIN
    assert is_skipped(way(image, memory=1 << 30, before=LITTLE), 0, "argon2 memory limit, asks for 4194304 KiB")
    # a slot before it opens
    cryptsetup("config --priority prefer --key-slot 1", image)
    assert way(image, "pass2", before=LITTLE) == PLAIN


def large(volume, tmp_path, kib):
    """(cryptsetup itself takes less, if the machine has less.)"""
    image = copy_of(volume("argon2id, 64 MiB"), tmp_path / "large")
    cryptsetup("luksConvertKey --key-slot 0 --pbkdf pbkdf2 --pbkdf-force-iterations 1000 --key-file pass", image,
               cwd=volumes.passphrases(tmp_path))
    rewrite(image, "0", PASS, PASS, Cost("argon2id", 2, kib, 4))
    return image


@pytest.mark.parametrize("kib", [32, 65536, 1 << 20])
def test_memory_of_opening(program, volume, tmp_path, kib):
    """The slot's own and 16 MB."""
    made = {32: "argon2id, 32 KiB", 65536: "argon2id, 64 MiB"}
    image = volume(made[kib]) if kib in made else large(volume, tmp_path, kib)
    ended = run(*program, "memory", image, volumes.passphrases(tmp_path) / "pass", stdin=b"\n\n")
    used = int(ended.output.split()[0])
    assert (ended.status, ended.output.split()[1]) == (0, b"wiped")
    assert used <= kib + 16_000_000 // 1024
    assert kib < 1024 or used >= kib, "the memory was not filled"


def test_one_memory_at_a_time(program, volume, tmp_path):
    """The first slot is tried in 64 MiB. The second, which opens, gets its 65 MiB after these were freed."""
    image = copy_of(volume("argon2id, 64 MiB"), tmp_path / "two")
    cryptsetup("luksAddKey --pbkdf pbkdf2 --pbkdf-force-iterations 1000 --key-slot 1 --key-file",
               volumes.passphrases(tmp_path) / "pass", image, tmp_path / "pass2")
    rewrite(image, "1", PASS2, PASS2, Cost("argon2id", 2, 65 << 10, 1))
    ended = run(*program, "memory", image, tmp_path / "pass2", stdin=b"\n\n")
    assert ended.status == 0
    assert 65 << 10 <= int(ended.output.split()[0]) <= (65 << 10) + 16_000_000 // 1024


@pytest.mark.parametrize("name, gib", [("C, x86-64-v3", 2), ("plugin", 1)])
def test_much_memory(name, gib, program, library, plugin, filter, volume, tmp_path):
    way = make_way(name, program, library, plugin, filter, tmp_path)
    assert way(large(volume, tmp_path, gib << 20)) == PLAIN


@pytest.fixture(params=[Cost("argon2id", 2, 40, 5), Cost("argon2i", 3, 65536, 1)], ids=["40 KiB", "64 MiB"])
def secrets(request, volume, tmp_path):
    """A volume, a passphrase in a file of its own, the key that Argon2 derives, and the volume key."""
    base = copy_of(volume("argon2id, 32 KiB"), tmp_path / "secrets")
    (tmp_path / "long").write_bytes(LONG)
    cryptsetup("luksDump --dump-volume-key --volume-key-file", tmp_path / "volume.key", "--key-file",
               volumes.passphrases(tmp_path) / "pass", base)
    cryptsetup("luksAddKey --pbkdf pbkdf2 --pbkdf-force-iterations 1000 --key-slot 1 --key-file", tmp_path / "pass",
               base, tmp_path / "long")
    tag = rewrite(base, "1", LONG, LONG, request.param)
    return base, tmp_path / "long", tag, (tmp_path / "volume.key").read_bytes()


def test_nothing_stays_in_c(program, secrets):
    """Once the caller has wiped what is its own, neither the passphrase nor a key is in memory. Before that all but the
    derived key are, which shows that they would be found."""
    image, key, tag, volume_key = secrets
    process = subprocess.Popen([*program, "memory", image, key], stdin=subprocess.PIPE, stdout=subprocess.PIPE)
    try:
        assert int(process.stdout.readline()) > 0
        assert [found(secret, process.pid) for secret in (LONG, volume_key, tag)] == [
            "everywhere", "everywhere", "nowhere"]
        process.stdin.write(b"\n")
        process.stdin.flush()
        assert process.stdout.readline() == b"wiped\n"
        assert [found(secret, process.pid) for secret in (LONG, volume_key, tag)] == ["nowhere"] * 3
    finally:
        process.communicate(b"\n")
    assert process.returncode == 0


@pytest.mark.parametrize("name", ["plugin", "filter"])
def test_nothing_stays_in_nbdkit(name, plugin, filter, start, secrets, tmp_path):
    """While the volume is served, only the volume key is in memory."""
    image, key, tag, volume_key = secrets
    words = [plugin] if name == "plugin" else [f"--filter={filter}", "file"]
    pid, socket = tmp_path / "pid", tmp_path / "socket"
    process = start("nbdkit", "-f", "-U", socket, "-P", pid, *words, image, f"key-file={key}",
                    until=lambda: pid.exists() and pid.read_text())
    # (while there is a connection, no thread ends, and its stack stays)
    handle = connected(f"nbd+unix:///?socket={socket}")
    assert read(handle, len(PLAIN), 0) == PLAIN
    assert [found(secret, process.pid) for secret in (LONG, tag, volume_key)] == ["nowhere", "nowhere", "everywhere"]
