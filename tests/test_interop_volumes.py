"""What luksrd reports and reads of volumes with an attached header, beside what went into them and
what cryptsetup and qemu-img report: the header, every byte of the payload, which slot a passphrase
opens, and how runs end on wrong passphrases and on truncated images."""
import random
import re

import pytest
from payloads import (BEFORE, FIRST, IN_AREA, MODES, NOT_LUKS, PLAIN, PLAIN1, Volume, area_end,
                      check_header, check_opening, check_truncated, check_volume, format2, left_over,
                      make_several)
from reported import dump_of, reported
from support import NO_KEY, expect, must, needs, run
from volumes import (PASS, by_qemu, copy_of, cryptsetup, fill1, overwrite, passphrases,
                     payload_start, slot_by_cryptsetup)

pytestmark = pytest.mark.usefixtures("keys")
HASHES = ["sha1", "sha224", "sha256", "sha384", "sha512"]


@pytest.mark.parametrize("mode, bits, hash_, options", [
    *((mode, bits, "sha256", "") for mode, bits in MODES),
    *(("xts-plain64", bits, hash_, "") for hash_ in HASHES if hash_ != "sha256"
      for bits in (256, 512)),
    ("xts-plain64", 512, "sha256", "--align-payload 1"),
    ("xts-plain64", 512, "sha256", "--align-payload 2056"),
    ("xts-plain64", 512, "sha256", "--offset 5000"),
])
def test_luks1(each_luksrd, made, tmp_path, mode, bits, hash_, options):
    volume = made.luks1(mode, bits, hash_, *options.split())
    check_volume(each_luksrd, volume)
    (tmp_path / "newline").write_bytes(b"a passphrase\n")
    newline = run("cryptsetup", "open", "--test-passphrase", "--key-file", tmp_path / "newline",
                  volume.image)
    assert newline.status == 2
    expect(each_luksrd("testPassphrase --key-file newline", volume.image), message=NO_KEY, status=2)


@pytest.mark.parametrize("mode, bits, sector, hash_", [
    *((mode, bits, sector, "sha256") for mode, bits in MODES for sector in (512, 4096)),
    *(("xts-plain64", 512, sector, "sha256") for sector in (1024, 2048)),
    *(("xts-plain64", 512, 512, hash_) for hash_ in HASHES if hash_ != "sha256"),
])
def test_luks2(each_luksrd, made, mode, bits, sector, hash_):
    check_volume(each_luksrd, made.luks2(mode, bits, sector, "--hash", hash_))


@pytest.mark.parametrize("bits", [128, 256])
def test_luks1_of_qemu(each_luksrd, tmp_path, bits):
    image = tmp_path / "image"
    by_qemu(image, f",cipher-alg=aes-{bits},hash-alg=sha512")
    plain = random.Random(bits).randbytes(1 << 20)
    fill1(image, plain)
    check_header(each_luksrd, Volume(image))
    info = must("qemu-img", "info", image).decode()
    expect(each_luksrd("luksUUID image"), re.search(r"uuid: (.*\n)", info)[1])
    expect(each_luksrd("luksCat --key-file pass image"), plain)
    must("qemu-img", "convert", "-O", "raw", "--object", "secret,id=s,file=pass", "--image-opts",
         "driver=luks,key-secret=s,file.driver=file,file.filename=image", "theirs", cwd=tmp_path)
    assert (tmp_path / "theirs").read_bytes() == plain


@pytest.mark.parametrize("kib", [16, 32, 64, 128, 256, 512, 1024, 2048, 4096])
def test_luks2_lengths(luksrd, tmp_path, kib):
    image = tmp_path / "image"
    format2(image, f"--luks2-metadata-size {kib}k --luks2-keyslots-size 1m")
    check_header(luksrd, Volume(image))
    assert reported(image)["header_size"] == kib * 1024


@pytest.fixture
def several(cached, tmp_path):
    """A copy of a volume of many parts, with the passphrases beside it."""
    return copy_of(cached("several", make_several), passphrases(tmp_path) / "several")


def test_several_slots(luksrd, several):
    check_header(luksrd, Volume(several))
    expect(luksrd("testPassphrase --key-file pass several"),
           slot_by_cryptsetup(several, several.parent / "pass"))
    cryptsetup("luksKillSlot --key-file pass several 1", cwd=several.parent)
    check_header(luksrd, Volume(several))


def test_a_header_backup(luksrd, several):
    cryptsetup("luksHeaderBackup --header-backup-file backup several", cwd=several.parent)
    expect(luksrd("luksDump backup"), dump_of(reported(several)))


@pytest.mark.parametrize("role, offset, damage", [
    ("secondary", 0, bytes(512)),
    ("primary", 20000, b"x"),
], ids=["the primary header", "the secondary header"])
def test_a_damaged_header(luksrd, several, role, offset, damage):
    """cryptsetup reports about the undamaged one, as it repairs what it reads."""
    dump = dump_of({**reported(several), "header": role})
    overwrite(several, offset, damage)
    expect(luksrd("luksDump several"), dump)
    other = "primary" if role == "secondary" else "secondary"
    expect(luksrd("luksCheck several"), f"{other} header: not valid\n",
           "luksrd: the header has findings", 1)


def test_both_headers_damaged(luksrd, several):
    """The byte in the primary header is the brace that its metadata start with: most bytes after
    it are random, and would sometimes be the one written here."""
    overwrite(several, 20000, b"x")
    overwrite(several, 4096, b"x")
    for command in "luksUUID", "luksDump", "luksCheck":
        expect(luksrd(command, several), message=NOT_LUKS, status=4)
    expect(luksrd("isLuks several"), status=1)


@needs("grub-fstest", "nbdkit", "nbdcopy")
@pytest.mark.parametrize("version, mode, bits, sector", [
    *((1, mode, bits, 512) for mode, bits in (("xts-plain64", 512), ("xts-plain", 256),
                                              ("cbc-essiv:sha256", 256), ("cbc-plain64", 128))),
    *((2, mode, bits, sector) for mode, bits, sector in (
        ("xts-plain64", 512, 512), ("xts-plain64", 256, 4096), ("xts-plain", 256, 512),
        ("cbc-essiv:sha256", 256, 512), ("cbc-plain64", 128, 512))),
])
def test_other_readers(luksrd, made, tmp_path, version, mode, bits, sector):
    """What luksrd reads is what GRUB reads, and for LUKS1 nbdkit. GRUB asks for the passphrase, on
    standard input here."""
    image, plain, _ = made.luks1(mode, bits) if version == 1 else made.luks2(mode, bits, sector)
    must("grub-fstest", "-C", image, "cp", f"(crypto0)0+{len(plain) // 512}", "by-grub", cwd=tmp_path,
         stdin=PASS + b"\n")
    expect(luksrd("luksCat --key-file pass", image), (tmp_path / "by-grub").read_bytes())
    # nbdkit 1.32 crashes on ESSIV
    if version == 1 and "essiv" not in mode:
        must("nbdkit", "-U", "-", "file", image, "--filter=luks", "passphrase=+pass", "--run",
             'nbdcopy "$uri" by-nbdkit', cwd=tmp_path)
        assert (tmp_path / "by-nbdkit").read_bytes() == (tmp_path / "by-grub").read_bytes()


LIMITED = "luksrd: no key slot can be tried; skipped: 0 (iterations), {} (iterations)"


@pytest.mark.parametrize("version, line, output, message, status", [
    (1, "testPassphrase --key-slot 5 --key-file pass2", "Key slot 5 opens the volume.\n", "", 0),
    (1, "luksCat --key-slot 5 --key-file pass", "", NO_KEY, 2),
    (1, "luksCat --key-slot 1 --key-file pass2", "", "luksrd: key slot 1 is disabled", 1),
    (1, "luksCat --key-slot 8 --key-file pass", "", "luksrd: key slot 8 is not there", 1),
    (1, "luksCat --key-slot 008 --key-file pass", "", "luksrd: key slot 8 is not there", 1),
    (1, "luksCat --key-slot 5 --max-iterations 1299 --key-file pass2", "",
     "luksrd: key slot 5 is skipped: iterations", 1),
    (1, "testPassphrase --max-iterations 1000 --key-file pass", FIRST, "", 0),
    (1, "testPassphrase --max-iterations 999 --key-file pass", "", LIMITED.format(5), 1),
    (2, "testPassphrase --key-slot 1 --key-file pass2", "Key slot 1 opens the volume.\n", "", 0),
    (2, "testPassphrase --key-slot 1 --key-file pass", "", NO_KEY, 2),
    (2, "testPassphrase --key-slot 7 --key-file pass", "", "luksrd: key slot 7 is not there", 1),
    (2, "testPassphrase --max-iterations 1000 --key-file pass", FIRST, "", 0),
    (2, "testPassphrase --max-iterations 999 --key-file pass", "", LIMITED.format(1), 1),
])
def test_slots_by_number_and_limit(luksrd, made, version, line, output, message, status):
    image = (made.luks1() if version == 1 else made.luks2()).image
    expect(luksrd(line, image), output, message, status)


def test_payload_by_a_slot_of_this_number(luksrd, made):
    expect(luksrd("luksCat --key-slot 5 --key-file pass2", made.luks1().image), PLAIN1)


def test_slot_to_be_ignored(luksrd, made, tmp_path):
    image = copy_of(made.luks2().image, tmp_path / "image")
    cryptsetup("config --priority ignore --key-slot 0", image)
    expect(luksrd("testPassphrase --key-file pass image"), message=NO_KEY, status=2)
    expect(luksrd("testPassphrase --key-slot 0 --key-file pass image"), FIRST)
    cryptsetup("config --priority ignore --key-slot 1", image)
    expect(luksrd("testPassphrase --key-file pass image"), message="luksrd: no key slot can be tried",
           status=1)
    cryptsetup("config --priority normal --key-slot 1", image)
    cryptsetup("luksConvertKey --key-slot 1 --pbkdf argon2id --pbkdf-memory 32 --pbkdf-parallel 1 "
               "--pbkdf-force-iterations 4 --key-file pass2 image", cwd=tmp_path)
    expect(luksrd("testPassphrase --key-file pass2 image"), status=1,
           message="luksrd: no key slot can be tried; skipped: 1 (argon2id)")


def test_mode_that_is_not_read(luksrd, made1):
    image = made1("aes-cbc-plain", "sha256", 256)
    expect(luksrd("luksCat --key-file missing", image), message="luksrd: cannot open missing",
           status=4)
    expect(luksrd("luksCat --key-file pass", image), message="luksrd: segment refused: encryption",
           status=1)


def test_damaged_slot_of_luks1(luksrd, made, tmp_path):
    image = copy_of(made.luks1().image, tmp_path / "image")
    overwrite(image, 208, b"\0\0\0\1")
    expect(luksrd("testPassphrase --key-file pass image"), status=2,
           message="luksrd: no key opens the volume; skipped: 0 (state)")
    expect(luksrd("testPassphrase --key-file pass2 image"), "Key slot 5 opens the volume.\n")
    expect(luksrd("testPassphrase --key-slot 0 --key-file pass image"), status=1,
           message="luksrd: key slot 0 is skipped: state")


@pytest.mark.parametrize("damage", [
    pytest.param((600, b"X"), id="the primary header"),
    pytest.param((20000, b"X"), id="the secondary header"),
    # then the search for the other one reads past the payload's start
    pytest.param((8, (4 << 20).to_bytes(8, "big")), id="the size of the primary header"),
])
def test_damaged_header_of_luks2(luksrd, made, tmp_path, damage):
    image = copy_of(made.luks2().image, tmp_path / "image")
    overwrite(image, *damage)
    check_opening(luksrd, Volume(image, PLAIN))


# where the image ends, from its start, from the end of the last key area, or from the payload's
# start; the plain bytes, and the message
TRUNCATED1 = [
    ("start", 0, 0, NOT_LUKS),
    ("start", 7, 0, NOT_LUKS),
    ("start", 591, 0, IN_AREA),
    ("area", -1, 0, IN_AREA),
    ("area", 0, 0, BEFORE),
    ("payload", -1, 0, BEFORE),
    ("payload", 0, 0, ""),
    ("payload", 1, 0, left_over(1)),
    ("payload", 512, 512, ""),
    ("payload", 100000, 99840, left_over(160)),
]


def end_of(volume, place, offset):
    """The offset in bytes from the image's start."""
    if place == "area":
        return area_end(volume.image) + offset
    return offset + (payload_start(volume.image) if place == "payload" else 0)


@pytest.mark.parametrize("place, offset, plain_size, message", TRUNCATED1)
@pytest.mark.parametrize("mode, bits, hash_", [
    ("xts-plain64", 512, "sha256"),
    ("xts-plain64", 256, "sha1"),
    ("cbc-essiv:sha256", 256, "sha256"),
])
def test_truncated_luks1(luksrd, made, mode, bits, hash_, place, offset, plain_size, message):
    volume = made.luks1(mode, bits, hash_)
    check_truncated(luksrd, volume, end_of(volume, place, offset), plain_size, message)


@pytest.mark.parametrize("place, offset, plain_size, message", [
    ("start", 16383, 0, NOT_LUKS),
    ("start", 16384, 0, IN_AREA),
    ("start", 40000, 0, IN_AREA),
    ("payload", -1, 0, BEFORE),
    ("payload", 100, 0, left_over(100)),
])
def test_truncated_luks2(luksrd, made, tmp_path, place, offset, plain_size, message):
    whole = made.luks2()
    image = copy_of(whole.image, tmp_path / "image")
    overwrite(image, 20000, b"X")
    check_truncated(luksrd, Volume(image, PLAIN), end_of(whole, place, offset), plain_size, message)
