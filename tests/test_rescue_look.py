"""luksrd-rescue look: what it prints of disks, volumes and headers that sfdisk, cryptsetup and file systems' own tools
made, and what to type next. blkid, luksDump and the numbers given to sfdisk say what is right."""
import json
import os
import re
import shlex
import types

import pytest
import volumes
from disks import EFI, LINUX, LUKS, MIB, bitlocker, disk, file_system, raid, row
from kinds import VOLUME1, VOLUME2
from support import alone, must, needs, run
from volumes import copy_of, cryptsetup, overwrite

pytestmark = needs("partx", "sfdisk", "cryptsetup", "mkfs.vfat", "mke2fs")
PLACES = {"efi": 1 * MIB, "boot": 3 * MIB, "windows": 7 * MIB, "raid": 9 * MIB, "luks": 13 * MIB}
LUKS_LENGTH = 6 * MIB


@pytest.fixture(scope="session")
def laptop(cached):
    """A disk with a GPT, and a volume of LUKS2 with a label in partition 5; `volume` is that alone."""

    def make(folder):
        folder.mkdir()
        volumes.luks2(folder / "volume", os.urandom(1 * MIB), "aes-xts-plain64", 512, "--label", "my laptop")
        disk(folder / "disk.img", "gpt", [
            row(PLACES["efi"], 2 * MIB, EFI, "EFI system"), row(PLACES["boot"], 4 * MIB, LINUX),
            row(PLACES["windows"], 2 * MIB, "EBD0A0A2-B9E5-4433-87C0-68B6B72699C7"),
            row(PLACES["raid"], 4 * MIB, "raid"), row(PLACES["luks"], LUKS_LENGTH, LUKS, "crypt")], {
                PLACES["efi"]: file_system(folder / "fs", "vfat", 2 * MIB, "ESP"),
                PLACES["boot"]: file_system(folder / "fs", "ext4", 4 * MIB, "boot"),
                PLACES["windows"]: bitlocker(2 * MIB), PLACES["raid"]: raid(4 * MIB),
                PLACES["luks"]: (folder / "volume").read_bytes()})

    folder = cached("laptop", make)
    return types.SimpleNamespace(disk=folder / "disk.img", volume=folder / "volume")


def uuid_of(volume):
    return cryptsetup("luksUUID", volume).strip()


def found_in(rescue, path, *options, status=0):
    """What --json has."""
    ended = rescue("look", "--json", *options, path)
    assert ended.status == status, ended
    return json.loads(ended.output)


def text_of(rescue, *words, status=0, **how):
    """What is printed, without a message."""
    ended = rescue("look", *words, **how)
    assert (ended.status, ended.message) == (status, ""), ended
    return ended.output.decode()


def words_of(found):
    """What opens each key slot of the only volume."""
    volume, = found["volumes"]
    return {slot["number"]: slot["words"] for slot in volume["slots"]}


# ---- whole disks

def test_a_disk(rescue, laptop, tmp_path):
    copy_of(laptop.disk, tmp_path / "laptop.img")
    uuid = uuid_of(laptop.volume)
    text = text_of(rescue, "laptop.img")
    assert text.splitlines()[:8] == [
        "laptop.img: 21 MiB, a disk with 5 partitions",
        '  partition 1: 2 MiB, EFI system "EFI system": FAT, label ESP',
        "  partition 2: 4 MiB, Linux: ext4, label boot",
        "  partition 3: 2 MiB, Microsoft data: BitLocker",
        "  partition 4: 4 MiB, Linux RAID: RAID, label host:0",
        '  partition 5: 6 MiB, LUKS "crypt": LUKS2',
        f"    UUID {uuid}, label my laptop, aes-xts-plain64",
        "    slot 0: opens with a passphrase (PBKDF2, sha256, 1,000 iterations)"]
    assert [line.strip() for line in text.splitlines() if line.startswith("    luksrd-rescue")] == [
        "luksrd-rescue decrypt laptop.img -o plain.img", "luksrd-rescue serve laptop.img plain",
        "luksrd-rescue try laptop.img --candidates LIST"]


def test_a_disk_for_programs(rescue, laptop):
    found = found_in(rescue, laptop.disk)
    assert [(each["number"], each["offset"], each["length"], each["contents"]) for each in found["partitions"]] == [
        (1, PLACES["efi"], 2 * MIB, "vfat"), (2, PLACES["boot"], 4 * MIB, "ext4"),
        (3, PLACES["windows"], 2 * MIB, "BitLocker"), (4, PLACES["raid"], 4 * MIB, "linux_raid_member"),
        (5, PLACES["luks"], LUKS_LENGTH, "crypto_LUKS")]
    volume, = found["volumes"]
    assert {name: volume[name] for name in ("offset", "length", "partition", "version", "uuid", "label", "damage")} == {
        "offset": PLACES["luks"], "length": LUKS_LENGTH, "partition": 5, "version": 2,
        "uuid": uuid_of(laptop.volume), "label": "my laptop", "damage": []}
    assert volume["payload_offset"] == volumes.payload_start(laptop.volume)
    assert [slot["opens"] for slot in volume["slots"]] == [True, True]


def test_logical_partitions_of_an_mbr(rescue, kinds, tmp_path):
    content = (kinds / VOLUME1).read_bytes()
    disk(tmp_path / "mbr.img", "dos", [row(MIB, MIB, "83"), row(2 * MIB, 5 * MIB, "5"), row(3 * MIB, 4 * MIB, "83")],
         {3 * MIB: content})
    found = found_in(rescue, "mbr.img")
    assert [(each["number"], each["type"]) for each in found["partitions"]] == [
        (1, "Linux"), (2, "extended"), (5, "Linux")]
    volume, = found["volumes"]
    assert (volume["partition"], volume["offset"], volume["version"]) == (5, 3 * MIB, 1)
    assert volume["uuid"] == uuid_of(kinds / VOLUME1)


@alone
@needs("root", "loop")
@pytest.mark.parametrize("label", ["gpt", "dos"])
def test_sectors_of_4096_bytes(rescue, laptop, loop, tmp_path, label):
    """A device says it, and so does a GPT. In the image of a disk with an MBR nothing does: there the partitions seem to
    be elsewhere, and a search finds the volume."""
    content = laptop.volume.read_bytes()
    volumes.empty_file(tmp_path / "big.img", 16 * MIB)
    device = loop("big.img", "-b", "4096")
    must("sfdisk", "-q", device, stdin=f"label: {label}\nstart={MIB // 4096}, size={2 * MIB // 4096}\n"
         f"start={4 * MIB // 4096}, size={8 * MIB // 4096}\n".encode())
    overwrite(tmp_path / "big.img", 4 * MIB, content)
    for path in [device] if label == "dos" else [device, "big.img"]:
        volume, = found_in(rescue, path)["volumes"]
        assert (volume["partition"], volume["offset"], volume["length"]) == (2, 4 * MIB, 8 * MIB)
    if label == "dos":
        assert found_in(rescue, "big.img", status=4)["next"] == ["luksrd-rescue look --search big.img"]
        found = found_in(rescue, "big.img", "--search")
        assert [volume["offset"] for volume in found["volumes"]] == [4 * MIB]
        assert found["next"][0] == f"luksrd-rescue decrypt big.img --offset {4 * MIB} -o plain.img"


@pytest.mark.parametrize("left", [16 * MIB, PLACES["luks"] + 100000,
                                  pytest.param(8 * MIB, marks=pytest.mark.of_script)])
def test_a_truncated_disk(rescue, laptop, tmp_path, left):
    """The copy ends inside a partition: partx alone lists nothing then."""
    os.truncate(copy_of(laptop.disk, tmp_path / "cut.img"), left)
    assert run("partx", "--pairs", "--output", "NR", "-", tmp_path / "cut.img").output == b""
    has_header = left > PLACES["luks"]
    found = found_in(rescue, "cut.img", status=0 if has_header else 4)
    assert [each["offset"] for each in found["partitions"]] == [*PLACES.values()]
    assert len(found["volumes"]) == has_header
    text = rescue("look", "cut.img").output.decode()
    if has_header:
        missing = (PLACES["luks"] + LUKS_LENGTH - left) / (1 << 20)
        assert f"truncated: the image ends {missing:.1f}".rstrip("0").rstrip(".") in text
    else:
        assert "partition 5: 6 MiB, LUKS \"crypt\": the image ends before it" in text


def test_a_lost_table(rescue, laptop, kinds, tmp_path):
    """Headers are found by searching, and the next command has their places."""
    with open(tmp_path / "lost.img", "wb") as file:
        file.truncate(20 * MIB)
    overwrite(tmp_path / "lost.img", 3 * MIB, laptop.volume.read_bytes())
    overwrite(tmp_path / "lost.img", 15 * MIB + 512, (kinds / VOLUME1).read_bytes())
    found = found_in(rescue, "lost.img")
    assert found["searched"] and [each["offset"] for each in found["volumes"]] == [3 * MIB, 15 * MIB + 512]
    assert [each for each in found["next"] if "candidates" not in each] == [
        f"luksrd-rescue decrypt lost.img --offset {3 * MIB} -o plain.img",
        f"luksrd-rescue serve lost.img --offset {3 * MIB} plain",
        f"luksrd-rescue decrypt lost.img --offset {15 * MIB + 512} -o plain2.img",
        f"luksrd-rescue serve lost.img --offset {15 * MIB + 512} plain2"]
    assert "searched for LUKS headers: 2 found" in text_of(rescue, "lost.img") \
        or "without a partition table; searched for LUKS headers: 2 found" in text_of(rescue, "lost.img")
    # one alone is chosen by its place, too, since the search takes long
    os.truncate(tmp_path / "lost.img", 12 * MIB)
    assert f"luksrd-rescue decrypt lost.img --offset {3 * MIB} -o plain.img" in found_in(rescue, "lost.img")["next"]


def test_a_search_in_spite_of_a_table(rescue, laptop, tmp_path):
    must("sfdisk", "-q", "--delete", copy_of(laptop.disk, tmp_path / "other.img"), "5")
    assert found_in(rescue, "other.img", status=4)["next"] == ["luksrd-rescue look --search other.img"]
    volume, = found_in(rescue, "other.img", "--search")["volumes"]
    assert volume["offset"] == PLACES["luks"]


@pytest.mark.of_script
def test_nothing_at_all(rescue, tmp_path):
    (tmp_path / "empty.img").write_bytes(bytes(MIB))
    text = text_of(rescue, "empty.img", status=4)
    assert text == "empty.img: 1 MiB, without a partition table; no LUKS header was found\n"
    (tmp_path / "none").touch()
    assert text_of(rescue, "none", status=4).startswith("none: 0 bytes, without a partition table")


@pytest.mark.of_script
def test_a_file_system(rescue, tmp_path):
    (tmp_path / "plain.img").write_bytes(file_system(tmp_path / "fs", "ext4", 4 * MIB, "root"))
    text = text_of(rescue, "plain.img", status=4)
    assert text.startswith("plain.img: 4 MiB, not encrypted: ext4, label root\n")
    assert "mount -o loop,ro,noload plain.img /mnt" in text


# ---- images in other forms

QEMU = {"qcow2": "a qcow2 image", "vmdk": "a VMDK image (VMware)", "vdi": "a VDI image (VirtualBox)",
        "vhdx": "a VHDX image (Hyper-V)", "vpc": "a VHD image (Hyper-V)"}
PACKERS = {"xz": ["xz", "-k"], "gz": ["gzip", "-k"], "zst": ["zstd", "-q"]}
PACKED = {"xz": "compressed by xz", "gz": "compressed by gzip", "zst": "compressed by zstd"}


@pytest.mark.of_script
@needs("qemu-img", "zstd", "xz")
@pytest.mark.parametrize("ending", [*QEMU, *PACKERS])
def test_another_form(rescue, laptop, tmp_path, ending):
    """Its name, and the commands that open it, which give the disk."""
    name = f"disk.img.{ending}"
    if ending in QEMU:
        must("qemu-img", "convert", "-O", ending, laptop.disk, tmp_path / name)
    else:
        copy_of(laptop.disk, tmp_path / "disk.img")
        must(*PACKERS[ending], "disk.img", cwd=tmp_path)
        (tmp_path / "disk.img").unlink()
    lines = text_of(rescue, name, status=4).splitlines()
    assert (QEMU | PACKED)[ending] in lines[0]
    assert [line[:4] for line in lines[1:]] == ["    "] * 2
    for words in ["decrypt", name, "-o", "plain"], ["try", name, "--candidates", "/dev/null", "--partition", "5"]:
        ended = rescue(*words)
        assert ended.message.splitlines() == [
            f"luksrd-rescue: {name}: is {(QEMU | PACKED)[ending]} (if not, --offset says where the volume begins). "
            "Write the image out first:", *lines[1:]]
        assert (ended.status, ended.output) == (4, b"") and not (tmp_path / "plain").exists()
    must("bash", "-c", lines[1], cwd=tmp_path)
    raw = lines[2].split()[-1]
    assert lines[2] == f"    luksrd-rescue look {raw}"
    content = (tmp_path / raw).read_bytes()
    wanted = laptop.disk.read_bytes()
    # (some forms round the length up)
    assert content[:len(wanted)] == wanted and not any(content[len(wanted):])


# ---- a map of ddrescue beside the image

def next_with(rescue, option):
    """Whether each of the next commands has this option."""
    commands = found_in(rescue, "disk.img")["next"]
    assert commands == [f"luksrd-rescue decrypt disk.img{option} -o plain.img",
                        f"luksrd-rescue serve disk.img{option} plain",
                        f"luksrd-rescue try disk.img{option} --candidates LIST"]


@pytest.mark.parametrize("name", ["disk.map", "disk.img.map"])
@needs("ddrescue")
def test_a_map_beside_the_image(rescue, laptop, tmp_path, name):
    """What comes next has it, and without it the others warn if it lacks sectors."""
    must("ddrescue", "-q", "--size", str(20 * MIB), laptop.disk, "disk.img", name, cwd=tmp_path)
    (tmp_path / "wrong").write_bytes(b"wrong")
    next_with(rescue, f" --image-map {name}")
    warned = (f"luksrd-rescue: {name}: is beside the image, and lists sectors that were not read: without --image-map "
              f"{name} they become noise\n")
    decrypt = ["decrypt", "disk.img", "--key-file", "wrong", "-o", "plain"]
    tries = ["try", "disk.img", "--candidates", "wrong"]
    for command in decrypt, tries:
        assert warned not in rescue(*command).message
        assert warned not in rescue(*command, "--image-map", name).message
    # (it was longer when ddrescue read it)
    os.truncate(tmp_path / "disk.img", 21 * MIB)
    for command in decrypt, tries:
        ended = rescue(*command)
        assert ended.status == 2 and ended.message.startswith(warned), ended
        assert warned not in rescue(*command, "--image-map", name).message


@pytest.mark.parametrize("text", [
    "# Mapfile. Created by luksrd-rescue 1.2.0\n0 + 1\n0 512 +\n", "0 + 1\n0 512 +\n", "nonsense\n", "",
    "# Mapfile. Created by GNU ddrescue version 1.27\nnonsense\n"])
def test_another_map_beside_the_image(rescue, laptop, tmp_path, text):
    """Only ddrescue's is one of the image: luksrd-rescue's own is of a plaintext."""
    copy_of(laptop.disk, tmp_path / "disk.img")
    (tmp_path / "disk.map").write_text(text)
    (tmp_path / "disk.img.map").mkdir()
    (tmp_path / "wrong").write_bytes(b"wrong")
    next_with(rescue, "")
    assert "map" not in rescue("try", "disk.img", "--candidates", "wrong").message
    (tmp_path / "disk.img.map").rmdir()
    (tmp_path / "disk.img.map").write_text("# Rescue Logfile. Created by GNU ddrescue version 1.14\n0 + 1\n0 512 +\n")
    next_with(rescue, " --image-map disk.img.map")
    assert "--image-map disk.img.map" in rescue("try", "disk.img", "--candidates", "wrong").message


# ---- headers

def test_a_volume(rescue, kinds):
    text = text_of(rescue, kinds / VOLUME1)
    assert re.search(r": 2\.3 MiB, a LUKS volume\n  at byte 0: LUKS1\n", text), text
    assert words_of(found_in(rescue, kinds / VOLUME1)) == {
        0: "opens with a passphrase (PBKDF2, sha256, 1,000 iterations)",
        5: "opens with a passphrase (PBKDF2, sha256, 1,300 iterations)"}


@pytest.mark.parametrize("name, role", [("header2", "a detached LUKS header"), ("header1", "a detached LUKS header"),
                                        ("backup", "a backup of a LUKS header")])
def test_a_header_alone(rescue, kinds, tmp_path, name, role):
    if name == "backup":
        cryptsetup("luksHeaderBackup --header-backup-file", tmp_path / name, kinds / VOLUME2)
    else:
        copy_of(kinds / name, tmp_path / name)
    text = text_of(rescue, name)
    assert role in text
    assert f"luksrd-rescue decrypt IMAGE --header {name} -o plain.img" in text
    assert "cannot be" not in text and "slot 0: opens with a passphrase (PBKDF2" in text


@pytest.mark.parametrize("at, words", [
    (0, "the first of its two headers is damaged; the second one is used"),
    (16384, "the second of its two headers is damaged; the first one is used")])
def test_a_damaged_header(rescue, laptop, tmp_path, at, words):
    overwrite(copy_of(laptop.volume, tmp_path / "disk.img"), at + 4200, b"damaged")
    volume, = found_in(rescue, "disk.img")["volumes"]
    assert volume["damage"] == [words]
    assert f"    damaged: {words}\n" in text_of(rescue, "disk.img")


@pytest.mark.of_script
def test_no_whole_header(rescue, laptop, tmp_path):
    """blkid calls it LUKS, and it cannot be read."""
    image = copy_of(laptop.disk, tmp_path / "disk.img")
    for at in 4200, 16384 + 4200:
        overwrite(image, PLACES["luks"] + at, b"damaged")
    text = text_of(rescue, "disk.img", status=4)
    assert 'partition 5: 6 MiB, LUKS "crypt": it begins as LUKS, but has no whole header: damaged, or truncated' in text


@pytest.mark.parametrize("change, words", [
    ({"type": "crypt", "integrity": {"type": "hmac(sha256)", "journal_encryption": "none",
                                     "journal_integrity": "none"}},
     "it has integrity protection: cryptsetup opens it"),
    ({"encryption": "serpent-xts-plain64"}, "luksrd does not read its cipher: cryptsetup opens it")])
def test_what_cannot_be_decrypted(rescue, laptop, tmp_path, change, words):
    volumes.edit_segment(copy_of(laptop.volume, tmp_path / "disk.img"), **change)
    found = found_in(rescue, "disk.img")
    assert found["volumes"][0]["fault"] == words and found["next"] == []
    assert f"    cannot be decrypted: {words}\n" in text_of(rescue, "disk.img")


def test_reencryption_under_way(rescue, laptop, tmp_path):
    volumes.edit_metadata(copy_of(laptop.volume, tmp_path / "disk.img"), lambda tree: tree["config"].update(
        requirements={"mandatory": ["online-reencrypt-v2"]}))
    assert "reencryption was interrupted" in found_in(rescue, "disk.img")["volumes"][0]["fault"]


TOKENS = {"systemd-tpm2": "needs a token (TPM2)", "systemd-fido2": "needs a token (FIDO2)",
          "systemd-pkcs11": "needs a token (PKCS#11 card)", "clevis": "needs a token (Clevis)",
          "luks2-keyring": "opens with a passphrase (PBKDF2, sha512, 1,200 iterations)",
          "systemd-recovery": "opens with a recovery key, typed as a passphrase with its hyphens "
                              "(PBKDF2, sha512, 1,200 iterations)",
          "of\x1b[31m": "needs a token (of\\x1b[31m)"}


@pytest.mark.parametrize("kind", TOKENS)
def test_tokens(rescue, laptop, tmp_path, kind):
    volumes.edit_metadata(copy_of(laptop.volume, tmp_path / "disk.img"), lambda tree: tree.update(
        tokens={"0": {"type": kind, "keyslots": ["1"], "key_description": "x"}}))
    words = words_of(found_in(rescue, "disk.img"))
    assert words == {0: "opens with a passphrase (PBKDF2, sha256, 1,000 iterations)", 1: TOKENS[kind]}
    assert "\x1b" not in text_of(rescue, "disk.img")


def test_no_slot_for_a_passphrase(rescue, laptop, tmp_path):
    volumes.edit_metadata(copy_of(laptop.volume, tmp_path / "disk.img"), lambda tree: tree.update(
        tokens={"0": {"type": "systemd-tpm2", "keyslots": ["0", "1"]}}))
    assert found_in(rescue, "disk.img")["next"] == []
    assert "no key slot opens with a passphrase alone" in text_of(rescue, "disk.img")


def test_other_slots(rescue, kinds, laptop, tmp_path):
    words = words_of(found_in(rescue, kinds / "argon2"))
    assert words[0].startswith("opens with a passphrase (PBKDF2")
    assert words[1] == "opens with a passphrase (Argon2id, 32 KiB, 4 passes)"
    image = copy_of(laptop.volume, tmp_path / "disk.img")
    cryptsetup("config --priority ignore --key-slot 1", image)
    volumes.edit_metadata(image, lambda tree: tree["keyslots"]["0"]["af"].update(stripes=4001))
    words = words_of(found_in(rescue, image))
    assert words[0] == "cannot be opened: its number of stripes is damaged"
    assert words[1].startswith("opens with a passphrase, only by --key-slot 1 (PBKDF2")


# ---- names, tools, reads

@pytest.mark.parametrize("name", [b"-x y.img", b"with 'quotes'.img", b"a\nb\x1b[31m.img", b"not utf-8 \xff.img"])
def test_odd_names(rescue, laptop, tmp_path, name):
    """The next command names the file as bash reads it, and nothing reaches the terminal."""
    path = os.path.join(os.fsencode(tmp_path), name)
    with open(path, "wb") as file:
        file.write(laptop.volume.read_bytes())
    text = text_of(rescue, "--", os.fsdecode(name))
    assert "\x1b" not in text and not re.search(r"^b", text, re.MULTILINE)
    command = re.search(r"^ +(luksrd-rescue decrypt .*) -o plain.img$", text, re.MULTILINE)[1]
    script = f'luksrd-rescue() {{ printf %s "$2"; }}; {command}'
    printed = must("bash", "-c", script, cwd=tmp_path)
    assert printed.removeprefix(b"./") == name


def test_no_room_for_a_copy(rescue, laptop, tmp_path):
    """Then it is served, or decrypted to another disk."""
    image = copy_of(laptop.volume, tmp_path / "disk.img")
    try:
        os.truncate(image, 8 << 40)
    except OSError:
        pytest.skip("file systems number their files otherwise here")
    found = found_in(rescue, "disk.img")
    assert found["next"][0] == "luksrd-rescue serve disk.img plain"
    assert "without a copy of 8 TiB, and here are " in text_of(rescue, "disk.img")


@pytest.mark.of_script
def test_several_images(rescue, laptop, tmp_path):
    """The greatest status is returned, and each image is looked at."""
    copy_of(laptop.disk, tmp_path / "laptop.img")
    ended = rescue("look", "missing", "laptop.img", "/dev/null", tmp_path)
    assert ended.status == 4
    assert "5 partitions" in ended.output.decode()
    assert ended.message.splitlines() == [
        "luksrd-rescue: missing: cannot open: No such file or directory",
        "luksrd-rescue: /dev/null: is neither a regular file nor a block device: an image is read at offsets, so save "
        "it to a file first",
        f"luksrd-rescue: {tmp_path}: is a folder"]
    ended = rescue("look", "--json", "missing", "laptop.img")
    assert [json.loads(line).get("error") for line in ended.output.splitlines()] == [
        "cannot open: No such file or directory", None]


AT_A_BYTE, IN_A_SEARCH = r"at byte \d+: Input/output error", "while it was searched for headers"


@pytest.mark.parametrize("options, places, where", [
    pytest.param([], (0, 512), AT_A_BYTE, marks=pytest.mark.of_script),
    pytest.param([], (PLACES["luks"], 512), AT_A_BYTE, marks=pytest.mark.of_script),
    pytest.param([], (PLACES["luks"] + 16384, 4096), AT_A_BYTE, marks=pytest.mark.of_script),
    (["--search"], (4 * MIB, 512), IN_A_SEARCH)],
    ids=["the table", "the header", "the other header", "a search"])
def test_a_failed_read(rescue, laptop, bad_sectors, tmp_path, options, places, where):
    """It says how to make an image first."""
    image = copy_of(laptop.disk, tmp_path / "disk")
    ended = rescue("look", *options, "disk", env=bad_sectors(image, [places]))
    assert (ended.status, ended.output) == (6, b"")
    first, *rest = ended.message.splitlines()
    assert re.fullmatch(f"luksrd-rescue: disk: read failed {where}", first)
    assert rest == ["Make an image first, and work on that:",
                    "    ddrescue -d disk disk.img disk.map   (from the package gddrescue)",
                    "    luksrd-rescue look disk.img",
                    "Then decrypt with --image-map disk.map, which has the sectors that were not read."]


def test_a_search_that_ends_early(rescue, laptop, bad_sectors, tmp_path):
    """The headers long before that are listed."""
    image = copy_of(laptop.volume, tmp_path / "disk")
    os.truncate(image, 80 * MIB)
    text = text_of(rescue, "--search", "disk", env=bad_sectors(image, [(70 * MIB, 512)]))
    assert "  at byte 0: LUKS2\n" in text
    assert "  a read failed before its end: headers after that are not listed\n" in text


def test_no_key_slot_in_use(rescue, kinds, tmp_path):
    cryptsetup("erase", copy_of(kinds / VOLUME1, tmp_path / "disk.img"))
    text = text_of(rescue, "disk.img")
    assert "    no key slot is in use\n" in text and "luksrd-rescue decrypt" not in text
    ended = rescue("decrypt", "disk.img", "--key-file", kinds / "pass", "-o", "plain")
    assert ended == (1, b"", "luksrd-rescue: disk.img: no key slot can be tried: none is in use\n")


def test_without_the_folder_of_system_programs(rescue, laptop):
    """A user's path often lacks /usr/sbin, which has blkid."""
    ended = rescue("look", laptop.disk, env={"PATH": "/usr/bin:/bin"})
    assert ended.status == 0 and "ext4, label boot" in ended.output.decode()


@needs("root", "setpriv")
def test_not_as_root(rescue, laptop, tmp_path):
    copy_of(laptop.disk, tmp_path / "laptop.img")
    user = ["setpriv", "--reuid", "65534", "--regid", "65534", "--clear-groups"]
    content = (tmp_path / "laptop.img").read_bytes()
    shown = rescue("look", "/dev/stdin", before=user, stdin=tmp_path / "laptop.img")
    assert shown.status == 0, shown
    assert "partition 5: 6 MiB, LUKS" in shown.output.decode()
    assert (tmp_path / "laptop.img").read_bytes() == content


def test_the_examples_of_the_help(rescue, laptop, tmp_path):
    """Each is read by the parser."""
    copy_of(laptop.disk, tmp_path / "laptop.img")
    copy_of(laptop.disk, tmp_path / "disk.img")
    shown = rescue("look", "--help")
    assert shown.status == 0
    lines = [shlex.split(line.partition("  ")[0].partition("|")[0]) for line in re.findall(
        r"^  luksrd-rescue (look .*)$", shown.output.decode(), re.MULTILINE)]
    assert len(lines) == 4
    for words in lines:
        words = [*words[:-1], *(["laptop.img", "disk.img"] if "*" in words[-1] else [words[-1]])]
        if words[-1].startswith("/dev/"):
            continue
        assert rescue(*words).status == 0
