"""Hostile key slots by Argon2: 3,000 headers whose parameters are at their extremes, of wrong kinds or missing, also
beside a fault of another part of the slot. What the library says is compared with the rules of RFC 9106 and of the
LUKS2 specification, written again here; luksrd skips each, whatever its parameters are. And requests for memory that
are refused, one after the other. SEED gives the same headers again."""
import base64
import copy
import functools
import json
import os
import random
import re
import time

import luksrd
import pytest
import volumes
from support import TOP, must, needs
from test_argon2 import PLAIN, volume  # noqa: F401
from volumes import copy_of

pytestmark = needs("argon2", "cryptsetup", "gcc")
SEED = int(os.environ.get("SEED", time.time()))
HEADERS, PARTS = 3000, 6
MEMORY_KIB, FILL_MIB = 1024, 4
NUMBERS = [0, 1, 2, 3, 7, 8, 15, 16, 128, 129, 1023, 1024, 1025, 4096, 1 << 22, (1 << 22) + 1, (1 << 24) - 1, 1 << 24,
           (1 << 32) - 1, 1 << 32, 1 << 53, (1 << 63) - 1, 1 << 63, (1 << 64) - 1, 1 << 64]
OTHERS = [-1, 1.0, 1e300, "4", "", None, True, [4], {"time": 4}]
NO_BASE64 = ["A", "AA=", "AAAA=", "no base64", "AA==AA==", "\x1b", 8, None, [], {}]


def is_whole(value):
    return type(value) is int and 0 <= value < 1 << 64


def reasons(kdf):
    """Why the library may skip a slot by Argon2, within the limits above: all reasons that there are, in any order. A
    slot without one is tried."""
    found, numbers = set(), {name: kdf.get(name) for name in ("time", "memory", "cpus")}
    if not all(map(is_whole, numbers.values())):
        found.add("member")
    try:
        salt = base64.b64decode(kdf["salt"], validate=True)
        if base64.b64encode(salt).decode() != kdf["salt"]:
            found.add("member")
    except (KeyError, TypeError, ValueError):
        found.add("member")
    passes, memory, lanes = (number if is_whole(number) else None for number in numbers.values())
    if passes is not None and not 1 <= passes < 1 << 32:
        found.add("argon2 time")
    if lanes is not None and not 1 <= lanes < 1 << 24:
        found.add("argon2 cpus")
    if memory is not None and not 8 * (lanes or 0) <= memory < 1 << 32:
        found.add("argon2 memory")
    if not found and memory > MEMORY_KIB:
        found.add(f"argon2 memory limit, asks for {memory} KiB")
    if not found and passes * memory > FILL_MIB * 1024:
        found.add(f"argon2 fill limit, asks for {passes * memory} KiB")
    return found


def hostile(draw, tree):
    """Changes the slot, and gives the reasons to skip it that come with that."""
    slot = tree["keyslots"]["0"]
    kdf, more = slot["kdf"], set()
    for _ in range(draw.choice((1, 1, 1, 2, 3))):
        name = draw.choice(("time", "memory", "cpus", "salt"))
        kind = draw.random()
        if kind < 0.1:
            kdf.pop(name, None)
        elif name == "salt":
            salt = base64.b64encode(draw.randbytes(draw.choice((0, 1, 7, 8, 16, 64, 500)))).decode()
            kdf[name] = draw.choice(NO_BASE64) if kind < 0.5 else salt
        else:
            near = draw.randrange(1, 40)
            kdf[name] = draw.choice(OTHERS) if kind < 0.25 else draw.choice(NUMBERS) if kind < 0.7 else near
    if draw.random() < 0.15:
        reason, change = draw.choice((
            ("stripes", lambda: slot["af"].update(stripes=draw.choice((0, 1 << 32)))),
            ("hash", lambda: slot["af"].update(hash="whirlpool")),
            ("encryption", lambda: slot["area"].update(encryption="serpent-xts-plain64")),
            ("area", lambda: slot["area"].update(offset=str(1 << 40))),
            ("digest", lambda: tree["digests"]["0"].update(keyslots=[]))))
        change()
        more.add(reason)
    if draw.random() < 0.1:
        kdf["unknown"] = draw.choice(OTHERS)
    return more


@pytest.fixture
def opened(library, monkeypatch):
    """opened(IMAGE, KEY FILE) is the plaintext, or the library's message."""
    monkeypatch.setenv("LUKSRD_LIBRARY", str(library))

    def opens(image, key):
        try:
            with luksrd.open(image, key_file=key, argon2_memory=MEMORY_KIB << 10, argon2_fill=FILL_MIB << 20) as found:
                return found.readall()
        except luksrd.LuksError as error:
            return error.message

    return opens


def check(ended, wanted, is_same):
    """Whether a hostile header ended in one of the ways that it may."""
    if wanted:
        found = re.fullmatch(r"luksrd: no key slot can be tried; skipped: 0 \(([A-Za-z0-9, ]+)\)", str(ended))
        return found is not None and found[1] in wanted
    return ended == (PLAIN if is_same else "luksrd: no key opens the volume")


@pytest.mark.parametrize("part", range(PARTS))
def test_hostile_headers(opened, luksrd, volume, tmp_path, part):  # noqa: F811
    draw, tried, wrong = random.Random(SEED + part), 0, []
    name = "written: argon2i, 2 passes" if part % 2 else "written: argon2id, 1 lane"
    image = copy_of(volume(name), tmp_path / "image")
    usual = volumes.metadata(image)[0]
    (tmp_path / "pass").write_bytes(volumes.PASS)

    def seen(tree):
        """How luksrd ends over these metadata."""
        volumes.edit_metadata(image, lambda old: (old.clear(), old.update(json.loads(tree))))
        return [luksrd(line) for line in ("luksCat --key-file pass image", "luksCheck image", "luksDump image")]

    # (few differ in more than the parameters)
    without = functools.cache(seen)
    for number in range(HEADERS // PARTS):
        tree = copy.deepcopy(usual)
        more = hostile(draw, tree)
        kdf = tree["keyslots"]["0"]["kdf"]
        kind, wanted = kdf["type"], reasons(kdf) | more
        is_same = all(kdf.get(name) == value for name, value in usual["keyslots"]["0"]["kdf"].items())
        ended = seen(json.dumps(tree))
        said = opened(image, tmp_path / "pass")
        tried += not wanted
        is_right = check(said, wanted, is_same)
        # (to luksrd the parameters are nothing)
        if not more:
            skipped = f"luksrd: no key slot can be tried; skipped: 0 ({kind})\n"
            is_right = is_right and ended[:2] == [(1, b"", skipped), (0, b"clean\n", "")]
        tree["keyslots"]["0"]["kdf"] = {"type": kind}
        if not is_right or ended != without(json.dumps(tree)):
            wrong.append((number, kdf, more, wanted, said[:100], ended))
    assert wrong[:3] == [], f"SEED={SEED}"
    assert tried * 20 > HEADERS // PARTS, f"SEED={SEED}: {tried} were tried"


# ---- refused memory

@pytest.fixture
def refusals(cached, library):
    """The program that opens a volume while one request for memory after the other is refused."""
    def make(path):
        must("gcc", "-std=c11", "-D_GNU_SOURCE", "-Wall", "-Wextra", "-Werror", "-O1", f"-I{TOP}/c",
             TOP / "tests/refused_memory.c", library.with_name("libluksrd.a"), "-o", path,
             *(f"-Wl,--wrap={name}" for name in ("malloc", "realloc", "free")))

    return cached("refused-memory", make)


@pytest.mark.parametrize("name", ["written: argon2id, 2 passes", "argon2i, 32 KiB"])
def test_refused_memory_at_each_step(refusals, volume, tmp_path, name):  # noqa: F811
    """Each ends as out of memory, and once it is Argon2's memory, which is named with its slot."""
    image = volume(name)
    memory = volumes.metadata(image)[0]["keyslots"]["0"]["kdf"]["memory"]
    ended = must(refusals, image, volumes.passphrases(tmp_path) / "pass").decode().splitlines()
    *refused, last = ended
    assert last == "0 0 " and len(refused) > 10
    assert set(refused) == {"11 3 luksrd: out of memory",
                            f"11 3 luksrd: out of memory: Argon2 needs {memory} KiB for key slot 0"}
    assert sum("Argon2" in line for line in refused) == 1
