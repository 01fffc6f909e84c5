"""The commands of the guides and the man pages run as they are written there, in bash and in zsh,
on volumes of cryptsetup and qemu-img: they write the plaintext, all files that they make are
private, and no image changes, not even one with a damaged secondary header. Mounting is tried by
what RESCUE.md says of it; what needs a disk or a device mapper is left out. README's commands are
run by tests/test_rescue_laptops.py and tests/test_audit.py."""

import os
import re
import subprocess
import typing

import pytest
import volumes
from disks import lvm_over
from documents import SHELLS, Cook, document, not_run, programs, web_server
from support import (NO_KEY, TOP, alone, expect, must, namespace, needs, run, wait_until)
from volumes import PASS, copy_of, cryptsetup, empty_file

MIB = 1 << 20
FSTAB = b"/dev/sda1 / ext4 defaults 0 1\n"
NEW = b"a new passphrase"
SLOT = "Key slot 0 opens the volume."
QUICK = "--pbkdf pbkdf2 --pbkdf-force-iterations 1000"
ARGON2 = "--pbkdf argon2id --pbkdf-force-iterations 4 --pbkdf-memory 32768 --pbkdf-parallel 1"
# what tests/test_rescue_laptops.py runs, and what it prints
RESCUE = "luksrd-rescue |UUID |slot "
MOUNT = "mount |or without root: "
PROTOTYPE = "/\n0 0\nd--755 0 0\netc d--755 0 0\nfstab ---644 0 0 files/etc/fstab\n$\n$\n"


# ---- what the recipes are run on

def file_system(path, kind):
    """One of this kind, with the file etc/fstab, or for NTFS boot.ini."""
    folder = path.parent
    (folder / "files/etc").mkdir(parents=True, exist_ok=True)
    (folder / "files/etc/fstab").write_bytes(FSTAB)
    if kind == "inside":
        (folder / "files/inside").write_text("inside\n")
    (folder / "prototype").write_text(PROTOTYPE)
    empty_file(path, {"xfs": 16, "ntfs": 16, "btrfs": 32}.get(kind, 8) * MIB)
    make = {"xfs": ["mkfs.xfs", "-q", "--unsupported", "-p", "prototype"],
            "btrfs": ["mkfs.btrfs", "-q", "--mixed", "--rootdir", "files"],
            "ntfs": ["mkntfs", "-q", "-F"]}
    ext = ["mke2fs", "-q", "-t", kind if kind.startswith("ext") else "ext4", "-d", "files"]
    must(*make.get(kind, ext), path, cwd=folder)
    if kind == "ntfs":
        must("ntfscp", "-q", path, "files/etc/fstab", "boot.ini", cwd=folder)


def with_random(path, source):
    """A file system with a file of 3 MiB."""
    copy_of(source, path)
    (path.parent / "random").write_bytes(os.urandom(3 * MIB))
    must("debugfs", "-w", "-R", "write random random", path, cwd=path.parent)


def emptied(path, source):
    with_random(path, source)
    must("debugfs", "-w", "-R", "rm random", path)


def damaged(path, source):
    copy_of(source, path)
    must("debugfs", "-w", "-R", "set_super_value free_blocks_count 1", path)


def luks1(path, source):
    volumes.luks1(path, "aes-xts-plain64", "sha256", 512)
    volumes.fill1(path, source.read_bytes())


def luks2(path, source):
    volumes.luks2(path, source.read_bytes(), "aes-xts-plain64", 512)


def one_slot(volume, killed):
    """A volume with key slot 0 alone."""
    def make(path, source):
        volume(path, source)
        cryptsetup("luksKillSlot --key-file pass", path, killed, cwd=path.parent)

    return make


def encrypted(path, source, options, more=8 * MIB):
    volumes.passphrases(path.parent)
    path.write_bytes(source.read_bytes() + bytes(more))
    cryptsetup(f"reencrypt --encrypt --type luks2 --reduce-device-size {more} --key-file pass "
               f"--force-offline-reencrypt {options}", path, cwd=path.parent)


def argon2(path, source):
    encrypted(path, source, f"--luks2-metadata-size 16k --luks2-keyslots-size 1m {ARGON2}", 4 * MIB)
    volumes.overwrite(path, 16384 + 5000, b"\xff")


def disk(path, source, table="label: gpt\nstart=2048, size=4096\nstart=6144\n", sector=6144,
         size=16 * MIB):
    """A whole disk with a volume in one of its partitions."""
    must("sfdisk", "-q", empty_file(path, size), stdin=table.encode())
    volumes.overwrite(path, sector * 512, source.read_bytes())


def lost_table(path, source):
    path.write_bytes(bytes(6144 * 512) + source.read_bytes())
    os.truncate(path, 32 * MIB)


def packed(*command):
    return lambda path, source: path.write_bytes(must(*command, source))


def overwritten(at, content):
    return lambda path, source: volumes.overwrite(copy_of(source, path), at, content)


def cut(count):
    return lambda path, source: os.truncate(copy_of(source, path), source.stat().st_size - count)


def third(path, source):
    """It has a slot by Argon2, too, and a damaged secondary header."""
    copy_of(source, path)
    cryptsetup(f"luksAddKey {ARGON2} --key-file pass", path, "pass2",
               cwd=volumes.passphrases(path.parent))
    volumes.overwrite(path, 16384 + 5000, b"\xff")


MAKERS = {maker.__name__: maker for maker in (
    with_random, emptied, damaged, luks1, luks2, argon2, disk, lost_table, third)}
MAKERS |= {
    "one_slot": one_slot(luks2, "1"),
    "one_slot1": one_slot(luks1, "5"),
    "partition1": lambda path, source: disk(path, source, "start=2048, size=24576\n", 2048),
    "two_partitions": lambda path, source: disk(
        path, source, "label: gpt\nstart=2048, size=16384\nstart=18432, size=12288\n", 2048),
    "second_partition": lambda path, source: disk(
        path, source, "label: gpt\nstart=2048, size=2048\nstart=4096, size=16384\n", 4096),
    "qcow2": lambda path, source: must("qemu-img", "convert", "-f", "raw", "-O", "qcow2", source, path),
    "backup": lambda path, source: cryptsetup("luksHeaderBackup --header-backup-file", path, source),
    "without_header": overwritten(0, os.urandom(MIB)),
    "no_iterations": overwritten(212, b"\xff" * 4),
    "zst": packed("zstd", "-q", "-c"),
    "xz": packed("xz", "-c", "--block-size=1M"),
    "cut1": cut(1500000),
    "cut7": cut(7 * MIB),
    "first500": lambda path, source: path.write_bytes(source.read_bytes()[:500]),
}
BASES = {"empty": b"", "zeros": bytes(8 * MIB), "key": bytes(range(64)), "more": b"what follows",
         "candidates": PASS + b" \r\n" + PASS}


@pytest.fixture(scope="session")
def stock(cached):
    """stock(NAME) is a file: `luks1 ext4` is an ext4 file system in a LUKS1 volume."""
    def get(name):
        kind, _, source = name.partition(" ")

        def make(path):
            if source:
                MAKERS[kind](path, get(source))
            elif kind in BASES:
                path.write_bytes(BASES[kind])
            else:
                file_system(path, kind)

        return cached(name.replace(" ", "-of-"), make)

    return get


@pytest.fixture(params=SHELLS)
def cook(request, luksrd, plugin, filter, library, tmp_path):
    path = programs(tmp_path / "programs", luksrd.path, plugin, filter)
    more = {"PATH": f"{path}:{os.environ['PATH']}:/usr/sbin", "LUKSRD_LIBRARY": str(library),
            "PYTHONPATH": str(TOP / "python"), "PYTHONDONTWRITEBYTECODE": "1"}
    cook = Cook(request.param, tmp_path, os.environ | more)
    server = web_server(cook.images)
    cook.environment["url"] = f"http://127.0.0.1:{server.server_address[1]}/whole.img"
    yield cook
    server.shutdown()
    server.server_close()


@pytest.fixture(params=SHELLS)
def plain_cook(request, tmp_path):
    """For recipes that read plain.img by other tools."""
    more = {"PATH": f"{os.environ['PATH']}:/usr/sbin", "url": ""}
    return Cook(request.param, tmp_path, os.environ | more)


# ---- the recipes

class Case(typing.NamedTuple):
    """Files in the folder of images, recipes, and the files that these leave and what they print: all of a file in the
    stock, or a part of it (its name, first byte and end), or bytes."""

    given: dict
    places: list
    gives: dict = {}
    says: list = []
    links: bool = True
    typed: list = [PASS, PASS]
    url: str = "whole.img"
    tools: tuple = ()


VOLUME = {"disk.img": "luks1 inside"}
FIRST = ("inside", 0, MIB)
WHOLE = {"whole.img": "disk luks2 ext4", "disk.img": "luks2 ext4"}
BACKUP = {"disk.img": "without_header luks2 inside", "backup": "backup luks2 inside"}
PARTITION = {"disk.img": "luks2 inside", "whole.img": "partition1 luks2 inside"}
ARGON2_ALONE = {"disk.img": "argon2 inside"}
TYPED_NEW = [PASS, NEW, NEW, NEW, NEW]
GIVES_FSTAB = {"fstab": FSTAB}
CASES = {
    "a volume": Case(
        VOLUME | {"disk.img.zst": "zst luks1 inside"},
        ["RECIPES.md:Try the passphrase", "RECIPES.md:The first bytes alone",
         "RECIPES.md:Look into ext2, ext3 or ext4", "RECIPES.md:Keep the passphrase out",
         "RECIPES.md:At the end"],
        {"plain.img": "inside", "plain2.img": "inside", "plain3.img": "inside", "first": FIRST,
         "plain4.img": "inside", "inside": b"inside\n", "pass": None},
        ["luksrd: write failed", SLOT, 'TYPE="ext4"', " inside"]),
    "a volume by the man page": Case(
        VOLUME | {"disk.img.zst": "zst luks1 inside", "NAME": "luks1 inside"},
        ["luksrd.1:Decrypt a volume into a file", "luksrd.1:Decrypt the first bytes alone",
         "luksrd.1:Read a file whose name", "luksrd.1:Check a header from a stranger"],
        {"plain.img": "inside", "plain3.img": "inside", "plain4.img": "inside", "first": FIRST},
        [f"clean\n{SLOT}", "UUID: {uuid}"]),
    "one file of a disk": Case(
        WHOLE, ["RECIPES.md:What is in it", "RECIPES.md:One file out of it"],
        {"fstab": FSTAB, "plain.img": "ext4"},
        ["whole.img2 : start=        6144,", 'start: UUID="', 'TYPE="ext4"']),
    "one file by the filter's page": Case(
        WHOLE | {"whole.img.xz": "xz disk luks2 ext4", "disk.qcow2": "qcow2 luks2 ext4"},
        [f"nbdkit-luksrd-filter.1:{text}" for text in (
            "Copy one file out of the ext4", "The same if the disk",
            "Copy the plaintext of a volume in a qcow2", "Print a volume")],
        {"fstab2": FSTAB, "fstab3": FSTAB, "plain.img": "ext4"}, ["export-size: "],
        url="disk.img"),
    "any part": Case(
        {"disk.img": "luks1 two_partitions ext4"},
        ["RECIPES.md:The size of a volume", "RECIPES.md:A partition, a window of"],
        {"fstab": FSTAB, "part.img": "ext4", "plain.qcow2": "two_partitions ext4",
         "window": ("two_partitions ext4", MIB, 5 * MIB)},
        ["16777216 bytes", "start=       18432, size=       12288"]),
    "one file by the plugin's page": Case(
        {"disk.img": "luks1 second_partition ext4"},
        ["nbdkit-luksrd-plugin.1:Copy one file out of the ext4"], GIVES_FSTAB),
    "a partition": Case(
        PARTITION, ["RECIPES.md:A partition of a whole disk without nbdkit"],
        {"plain.img": "inside"}, ["start=        2048, size=       24576"]),
    "a partition by the man page": Case(
        PARTITION, ["luksrd.1:Decrypt partition 2"], {"plain.img": "inside"}),
    "a damaged header": Case(
        BACKUP, ["RECIPES.md:# A damaged header"], {"plain.img": "inside"},
        [f"clean\n{SLOT}", 'TYPE="ext4"']),
    "Argon2": Case(
        ARGON2_ALONE, ["RECIPES.md:# Argon2 key slots only: add"], {"plain5.img": "inside", "copy": None}),
    "stripes": Case(
        {"disk.img": "empty", "key": "key", "more": "more"},
        ["RECIPES.md:Split a key of 64 bytes"],
        {"key.again": "key", "key2": "key", "more.again": "more"}),
    "a lost partition table": Case(
        {"disk.img": "luks2 ext4", "whole.img": "lost_table luks2 ext4"},
        ["RESCUE.md:# Decrypt from one of these places on",
         "RESCUE.md:# One file, without writing the rest"],
        {"plain.img": "ext4", "fstab": FSTAB}, ["UUID: {uuid}"]),
    "Argon2 in a disk": Case(
        {"disk.img": "argon2 ext4", "whole.img": "disk argon2 ext4"},
        ["RECIPES.md:One file out of it"], {"fstab": FSTAB, "plain.img": "ext4"}),
    # what helps a truncated ext file system takes nothing from what is none
    "no ext file system": Case(
        {"disk.img": "luks2 zeros"},
        ["RESCUE.md:# What is left of each file", "RESCUE.md:# The file system knows its length"],
        {"plain.img": "zeros"}),
    "truncated": Case(
        {"disk.img": "cut1 luks2 ext4"},
        ["RESCUE.md:# What is left of each file", "RESCUE.md:# The file system knows its length"],
        {"files/etc/fstab": FSTAB, "plain.img": "ext4"},
        ["luksrd: image ends inside a sector: ",
         "Pass 5: Checking group summary information\nplain.img: ",
         f" of {8 * MIB} bytes are left"]),
    "which passphrase it was": Case(
        {"disk.img": "luks2 ext4", "candidates": "candidates"},
        ["RESCUE.md:# One line after the other", "RESCUE.md:# Line 2 as the key file"],
        {"pass": PASS}, [f"{SLOT}\nline 2"]),
    "repaired": Case({"disk.img": "luks1 damaged inside"}, ["RECIPES.md:Show it, repair it"], {},
                     [" inside", "FILE SYSTEM WAS MODIFIED"], tools=("fuse", "fusermount3", "nbdfuse")),
    "noise": Case({"disk.img": "ext4", "plain.img": "ext4"},
                  ["RESCUE.md:# A partition table, a header"], {},
                  ["luksrd: not a LUKS image"]),
}
# those that read plain.img by other tools
PLAIN_CASES = {
    "ext3 by debugfs": Case({"plain.img": "ext3"}, ["RESCUE.md:# ext2, ext3, ext4"], GIVES_FSTAB),
    **{f"{kind} by GRUB": Case(
        {"plain.img": kind}, ["RESCUE.md:# XFS, Btrfs, NTFS and many others"], GIVES_FSTAB)
       for kind in ("xfs", "btrfs")},
    "all of Btrfs": Case({"plain.img": "btrfs"}, ["RESCUE.md:# All files of Btrfs"],
                         {"files/etc/fstab": FSTAB}),
    "NTFS": Case({"plain.img": "ntfs"}, ["RESCUE.md:# NTFS"], {"boot.ini": FSTAB}),
}
# those that a test of its own runs
MORE = {
    "servers": Case(
        VOLUME, [f"nbdkit-luksrd-plugin.1:{text}" for text in (
            "Copy the plaintext out", "Serve a volume on a socket")],
        {"plain.img": "inside", "plain.qcow2": "inside"}),
    "a detached header": Case({}, ["RECIPES.md:# A detached header"], {"plain.img": "inside"}),
    "many images": Case(
        {"1.img": "luks1 inside", "2.img": "without_header luks2 inside", "3.img": "third luks2 inside",
         "4.img": "partition1 luks2 inside", "5.img": "first500 luks1 inside",
         "6.img": "no_iterations luks1 inside", "disk.img": "empty"},
        ["RECIPES.md:All images of a folder"], links=False),
    "a volume key": Case({}, ["RESCUE.md:# By a saved volume key", "RESCUE.md:# By the line of a volume"],
                         {"plain.img": "ext4", "plain2.img": "ext4"}, ['TYPE="ext4"']),
    "cut in a file": Case({"disk.img": "cut7 luks2 with_random ext4"},
                          ["RESCUE.md:# What is left of each file"], {}, ["short read"]),
    "lost sectors": Case({}, ["RESCUE.md:# The files with lost sectors"]),
    "a damaged key area": Case(
        {"backup": "backup luks2 ext4"},
        ["RESCUE.md:# LUKS2, but for slots by Argon2: the", "RESCUE.md:# Where it differs"]),
    "reencryption": Case({}, ["RESCUE.md:# Finish on a copy"], {"plain.img": "ext4"}),
    "moved": Case(
        {"disk.img": "luks2 ext4"}, [f"MIGRATION.md:# {text}" for text in (
            "A plain one", "One that is encrypted", "By a pipe", "By nbdcopy",
            "A new passphrase, a new", "Both have the same")],
        {"plain.img": "ext4", "plain2.img": "ext4", "plain.qcow2": "ext4"}, ["the same"],
        typed=TYPED_NEW),
    "converted": Case({"disk.img": "one_slot1 ext4"}, ["MIGRATION.md:# LUKS1 to LUKS2"]),
    "blocks in use": Case({"disk.img": "luks2 emptied ext4"},
                          ["MIGRATION.md:# ext2, ext3, ext4 (for others"]),
    "smaller": Case({"disk.img": "luks2 emptied ext4"}, [
        "MIGRATION.md:# As small as it can be", "MIGRATION.md:# The same into a new LUKS"],
        typed=TYPED_NEW),
    "LVM": Case({}, ["RESCUE.md:# The names of groups", "RESCUE.md:# A folder and a file in the volume"],
                GIVES_FSTAB, ["root {"]),
    "by Python": Case({"disk.img": "luks2 ext4"}, ["PROGRAMMERS.md:# The first bytes, as hexadecimal",
                                                   "PROGRAMMERS.md:# 16 bytes from byte 1080"]),
}


def cooked(cook, stock, case):
    """Runs the recipes of a case, and compares what they leave and print."""
    for name, source in case.given.items():
        copy_of(stock(source), cook.images / name)
    cook.environment["url"] = cook.environment["url"].replace("whole.img", case.url)
    images = sorted(path.name for path in cook.images.iterdir() if path.name != "disk.img")
    result = cook(case.places, images if case.links else [], case.typed)
    for name, wanted in case.gives.items():
        if wanted is None:
            assert not (result.folder / name).exists()
            continue
        if isinstance(wanted, tuple):
            wanted, first, end = wanted
            result.gives(name, stock(wanted).read_bytes()[first:end])
        else:
            result.gives(name, stock(wanted).read_bytes() if isinstance(wanted, str) else wanted)
    for text in case.says:
        if "{uuid}" in text:
            text = text.format(uuid=cryptsetup("luksUUID", stock(case.given["disk.img"])).strip())
        assert text in result.said
    return result


def half_empty(path, length):
    """A file takes less than half the room of this length."""
    return path.stat().st_blocks * 512 < length / 2


@pytest.mark.parametrize("name", [pytest.param(name, marks=needs(*case.tools)) for name, case in CASES.items()])
def test_recipes(cook, stock, name):
    cooked(cook, stock, CASES[name])


@pytest.mark.parametrize("name", PLAIN_CASES)
def test_recipes_by_other_tools(plain_cook, stock, name):
    cooked(plain_cook, stock, PLAIN_CASES[name])


@pytest.mark.parametrize("name, but", [
    ("README.md", f"make |apt |ddrescue |luksrd-audit |    jq |{MOUNT}|{RESCUE}"), ("RECIPES.md", "mount "),
    ("RESCUE.md", f"luksrd-audit |ddrescue |file |{MOUNT}|{RESCUE}"), ("MIGRATION.md", "luksrd-audit "), ("PROGRAMMERS.md", "cc ")])
def test_whole_document(name, but):
    """Each line of commands is in a recipe that is run here."""
    places = [place for case in {**CASES, **PLAIN_CASES, **MORE}.values() for place in case.places]
    assert not_run(name, [place for place in places if place.startswith(name)], but) == []


# ---- recipes of which more is compared

def test_servers(cook, stock):
    folder = cooked(cook, stock, MORE["servers"]).folder
    process = (folder / "served/plain.pid").read_text().strip()
    wait_until(lambda: not os.path.exists(f"/proc/{process}"))


def test_detached_header(cook, stock):
    image = copy_of(stock("inside"), cook.images / "disk.img")
    volumes.passphrases(cook.folder)
    cryptsetup(f"reencrypt --encrypt --type luks2 --force-offline-reencrypt {QUICK} --key-file pass "
               "--header given/disk.header", image, cwd=cook.folder)
    cooked(cook, stock, MORE["a detached header"])


def test_many_images(cook, stock, luksrd):
    said = cooked(cook, stock, MORE["many images"]).said
    # of copies, since cryptsetup mends a damaged header even when it only reads
    uuids = [cryptsetup("luksUUID", copy_of(stock(MORE["many images"].given[name]), cook.folder / name)).strip()
             for name in ("1.img", "3.img")]
    assert f"""../1.img:
Version: 1
UUID: {uuids[0]}
clean
{SLOT}
../2.img:
isLuks ends with 1
../3.img:
Version: 2
UUID: {uuids[1]}
secondary header: not valid
luksrd: the header has findings
{SLOT}
../4.img:
isLuks ends with 1
../5.img:
luksrd: image ends inside the header or a key area
isLuks ends with 4
../6.img:
Version: 1
UUID: {uuids[0]}
clean
{NO_KEY}; skipped: 0 (iterations)
../disk.img:
isLuks ends with 1
""" in said


def test_volume_key(cook, stock, luksrd):
    """In place of a header that is lost, at the payload's usual place."""
    image, key = cook.images / "disk.img", cook.images / "volume.key"
    encrypted(image, stock("ext4"), QUICK, 32 * MIB)
    for name in ("pass", "pass2", "wrong"):
        (cook.images / name).rename(cook.folder / name)
    cryptsetup("luksDump --dump-volume-key --key-file pass --volume-key-file", key, image,
               cwd=cook.folder)
    volumes.overwrite(image, 0, bytes(16 * MIB))
    (cook.images / "table").write_text(
        f"0 16384 crypt aes-xts-plain64 {key.read_bytes().hex()} 0 7:0 32768\n")
    expect(luksrd("luksDump", image), "", "luksrd: not a LUKS image", 4)
    cooked(cook, stock, MORE["a volume key"])


def test_cut_in_a_file(cook, stock):
    found = (cooked(cook, stock, MORE["cut in a file"]).folder / "files/random").read_bytes()
    must("debugfs", "-R", f"dump random {cook.folder}/random", stock("with_random ext4"))
    whole = (cook.folder / "random").read_bytes()
    assert 0 < len(found) < len(whole) == 3 * MIB and whole.startswith(found)


@needs("ddrescuelog")
def test_lost_sectors(cook, stock, rescue):
    """By the map that luksrd-rescue leaves: a sector of a file that ddrescue did not copy, and one that no file has."""
    source = stock("with_random ext4")
    image = copy_of(stock("luks2 with_random ext4"), cook.folder / "laptop.img")
    length, start = source.stat().st_size, volumes.payload_start(image)
    block = int(must("debugfs", "-R", "blocks random", source).split()[2])
    size = int(re.search(rb"Block size: *(\d+)", must("dumpe2fs", "-h", source))[1])
    done, lines = 0, "0 + 1\n"
    for at in start + block * size + 512, start + length - 512:
        lines += f"{done} {at - done} +\n{at} 512 -\n"
        done = at + 512
    (cook.folder / "laptop.map").write_text(f"{lines}{done} {image.stat().st_size - done} +\n")
    volumes.passphrases(cook.folder)
    words = "decrypt laptop.img --key-file pass --image-map laptop.map -o given/plain.img"
    assert rescue(*words.split()).status == 6
    (cook.images / "disk.img").touch()
    said = cooked(cook, stock, MORE["lost sectors"]).said
    assert re.findall(r"^\d+\t/+(.*)$", said, re.MULTILINE) == ["random"], said


def test_damaged_key_area(cook, stock, luksrd):
    """One that was overwritten in part, beside an intact one."""
    image = copy_of(stock("luks2 ext4"), cook.images / "disk.img")
    volumes.overwrite(image, 16 * 4096, bytes(2 * 4096))
    (cook.folder / "pass").write_bytes(PASS)
    expect(luksrd("testPassphrase --key-slot 0 --key-file pass", image), "", NO_KEY, 2)
    said = cooked(cook, stock, MORE["a damaged key area"]).said
    areas = re.findall(r"^slot (\d): (\d+) of (\d+) bytes$", said, re.MULTILINE)
    assert [(slot, int(got) < int(size)) for slot, got, size in areas] == [("0", True), ("1", False)]
    assert len(re.findall(r"^ *\d+ +[0-7]+ +[0-7]+$", said, re.MULTILINE)) == 10


def reencrypting(stock, path):
    """A volume of which reencryption is under way."""
    volumes.passphrases(path.parent)
    volumes.with_own_uuid(copy_of(stock("one_slot ext4"), path))
    if run("cryptsetup", "-q", "reencrypt", "--init-only", *QUICK.split(), "--key-file", "pass", path,
           cwd=path.parent).status:
        pytest.skip("cryptsetup does not begin to encrypt here")
    return path


def test_reencryption(cook, stock, luksrd):
    image = copy_of(reencrypting(stock, cook.folder / "image"), cook.images / "disk.img")
    expect(luksrd("testPassphrase --key-file pass", image), "",
           "luksrd: segment refused: requirement", 1)
    cooked(cook, stock, MORE["reencryption"])


def test_moved(cook, stock, luksrd):
    """To qcow2, and sparse copies; after the passphrase a new one is typed, twice for each."""
    folder = cooked(cook, stock, MORE["moved"]).folder
    plain = stock("ext4").read_bytes()
    (folder / "newpass").write_bytes(NEW)
    for image in ("driver=qcow2,encrypt.key-secret=s,file.filename=new.qcow2",
                  "driver=luks,key-secret=s,file.filename=new.img"):
        must("qemu-img", "convert", "-O", "raw", "--object", "secret,id=s,file=newpass", "--image-opts", image, "raw",
             cwd=folder)
        assert (folder / "raw").read_bytes().startswith(plain)
    assert luksrd("luksCat --key-file", folder / "newpass", folder / "new.img").output[:len(plain)] == plain
    for name in ("plain.img", "plain2.img"):
        assert half_empty(folder / name, len(plain))


def test_converted(cook, stock, luksrd):
    folder = cooked(cook, stock, MORE["converted"]).folder
    said = luksrd("luksDump", folder / "luks2.img").output.decode()
    assert re.findall("Slot.*", said) == ["Slot 0: SKIPPED argon2id"]


@needs("fuse", "fusermount3", "nbdfuse", "resize2fs")
@pytest.mark.parametrize("name, image", [("blocks in use", "used.img"), ("smaller", "small.img")])
def test_file_systems(cook, stock, luksrd, name, image):
    """By a file over the volume: the blocks in use, and a smaller file system."""
    folder, whole = cooked(cook, stock, MORE[name]).folder, stock("emptied ext4").stat().st_size
    must("e2fsck", "-fn", folder / image)
    assert must("debugfs", "-R", "cat /etc/fstab", folder / image) == FSTAB
    assert half_empty(folder / image, whole)
    if name == "smaller":
        assert (folder / image).stat().st_size < whole / 2
        (folder / "newpass").write_bytes(NEW)
        expect(luksrd("luksCat --key-file", folder / "newpass", folder / "small.luks"),
               (folder / image).read_bytes())


@alone
@needs("root", "loop", "lvm")
def test_lvm(plain_cook, stock, loop):
    """Two logical volumes, the second with a file system."""
    group = empty_file(plain_cook.folder / "group", 16 * MIB)
    device = loop(group)
    lvm = lvm_over(plain_cook.folder / "lock", device)
    for line in (f"pvcreate {device}", f"vgcreate vg0 {device}", "lvcreate -an -Zn -Wn -l 1 -n swap vg0",
                 "lvcreate -an -Zn -Wn -l 2 -n root vg0"):
        lvm(line)
    image = copy_of(group, plain_cook.images / "plain.img")
    volumes.overwrite(image, 5 * MIB, stock("ext4").read_bytes())
    cooked(plain_cook, stock, MORE["LVM"])


def test_programmers(cook, stock):
    said = cooked(cook, stock, MORE["by Python"]).said
    plain = stock("ext4").read_bytes()
    assert f"{plain[:16].hex()}\n{plain[1080:1096].hex()}\n" in said


# ---- what the documents say of luksrd's answers

def test_answers(luksrd, stock, tmp_path):
    """The answers of luksDump in a table of RESCUE.md, each from a volume of its kind."""
    table = re.search(r"^\| It prints.*?\n\n", document("RESCUE.md").read_text(), re.M | re.S)[0]
    cells = re.findall(r"^\| (`[^|]*) \|", table, re.MULTILINE)
    stated = [name.removesuffix(" ..") for cell in cells
              for name in re.findall(r"`((?:Slot|luksrd|Segment)[^`]*)", cell)]
    images = [stock(name) for name in ("luks2 inside", "luks1 inside", "argon2 inside",
                                       "partition1 luks2 inside")]
    answers = []
    for image in [*images, reencrypting(stock, tmp_path / "image")]:
        said = luksrd("luksDump", image, stderr=subprocess.STDOUT).output.decode()
        pattern = r"^(Slot 0: [A-Z]+(?: argon2id)?|luksrd: .*|Segment: REFUSED)"
        found = re.findall(pattern, said, re.MULTILINE)
        answers.append("Segment: REFUSED" if len(answers) == 4 and "Segment: REFUSED" in found
                       else found[0])
    assert answers == stated


@needs("file", "gzip")
def test_what_file_says(stock, tmp_path):
    """It begins with what RESCUE.md has, for an image of each kind."""
    table = re.search(r"^\| `file` says.*?\n\n", document("RESCUE.md").read_text(), re.M | re.S)[0]
    stated = re.findall(r"`([^`]+)`", "".join(re.findall(r"^\|( `[^|]*) \|", table, re.MULTILINE)[1:]))
    must("qemu-img", "convert", "-f", "raw", "-O", "vmdk", stock("ext4"), tmp_path / "vmdk")
    (tmp_path / "gzip").write_bytes(must("gzip", "-c", stock("ext4")))
    (tmp_path / "lvm").write_bytes(bytes(512) + b"LABELONE".ljust(24, b"\0") + b"LVM2 001" + bytes(4096))
    (tmp_path / "zeros").write_bytes(bytes(4096))
    images = [stock(name) for name in ("disk luks2 ext4", "luks2 ext4", "qcow2 luks2 ext4")]
    images += [tmp_path / "vmdk", stock("xz luks2 ext4"), tmp_path / "gzip", stock("ext4"), stock("ntfs"),
               tmp_path / "lvm", tmp_path / "zeros"]
    said = [must("file", "-b", image).decode() for image in images]
    assert [text for text, image in zip(stated, said) if text not in image] == []
    assert len(stated) == len(said)


@needs("systemd-cryptenroll")
def test_recovery_key(luksrd, stock, tmp_path):
    volumes.passphrases(tmp_path)
    image = copy_of(stock("one_slot inside"), tmp_path / "image")
    key = must("systemd-cryptenroll", f"--unlock-key-file={tmp_path}/pass", "--recovery-key", image)
    (tmp_path / "key").write_bytes(key.strip())
    expect(luksrd("testPassphrase --key-file key image"), "Key slot 1 opens the volume.\n")


def test_cut_header(luksrd, stock, tmp_path):
    """An image that ends inside its header."""
    (tmp_path / "image").write_bytes(stock("luks2 ext4").read_bytes()[:9000])
    expect(luksrd("luksDump image"), "", "luksrd: not a LUKS image", 4)
    said = must("blkid", "-p", "-o", "value", "-s", "TYPE", tmp_path / "image")
    assert said == b"crypto_LUKS\n"


@needs("nbdkit")
def test_no_ext_file_system(plugin, stock, kinds):
    """What nbdkit's filter says of a volume that has none."""
    said = run("nbdkit", "-U", "-", "--filter=ext2", plugin, stock("luks2 zeros"), f"key-file={kinds / 'pass'}",
               "ext2file=/etc/fstab", "--run", 'nbdcopy "$uri" -', stderr=subprocess.STDOUT).output.decode()
    assert "Bad magic number in super-block" in said
    assert "server has no export named '':" in said


# ---- what RESCUE.md says of mounting

def without_journal(kind):
    """The command in the table that mounts a file system of this kind without its journal."""
    row = re.search(rf"^\| [^|]*{kind}[^|]*\|[^|]*\| *`([^`]*)`", document("RESCUE.md").read_text(),
                    re.MULTILINE | re.IGNORECASE)
    return row[1]


@alone
@needs("root", "loop", "mount", "fuse", "fusermount3", "nbdfuse", "xfs_io")
@pytest.mark.parametrize("kind, wanted", [
    ("ext2", "etc new ro\netc new ro\nstatus 32\nunchanged\n"),
    ("ext3", "status 32\netc new ro\nnew\nunchanged\n"),
    ("ext4", "status 32\netc new ro\nnew\nunchanged\n"),
    ("xfs", "status 32\netc ro\nnew\nunchanged\n"),
    ("btrfs", "status 32\netc ro\nnew\nunchanged\n"),
    ("ntfs", "boot.ini ro\nboot.ini ro\nunchanged\nboot.ini rw\n")])
def test_journals(stock, tmp_path, kind, wanted):
    """File systems that were not unmounted: `mount -o ro` and the command in the table; the first
    fails if there is a journal, which a scratch copy replays."""
    apart = [*namespace(), "sh", "-c", 'mount -t tmpfs none /mnt && exec "$@"', "sh"]
    if kind != "ntfs" and run(*apart, "mount", "-o", "loop,ro", stock(kind), "/mnt").status:
        pytest.skip("this kernel has no such file system")
    expect(run(*apart, "/usr/bin/python3", "-B", TOP / "tests/journals.py", kind, stock(kind),
               without_journal(kind), cwd=tmp_path), wanted)
