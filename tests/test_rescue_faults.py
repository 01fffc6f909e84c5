"""luksrd-rescue decrypt past what is damaged: bad sectors in payload, headers and key areas, by reads that fail
(tests/failing_reads.c) and by maps of ddrescue; images that end early; writes that fail. What is expected is the
plaintext with zeros for the sectors that were injected."""
import os
import random
import re
import subprocess

import pytest
import volumes
from kinds import ESSIV, START, VOLUME1, VOLUME2
from rescuing import blocks_by_ddrescuelog, disk_by_nbdfuse, merged, says, with_zeros
from support import FULL, must, namespace, needs, shown
from volumes import copy_of, metadata

pytestmark = needs("cc")
DECRYPT = ["decrypt", "disk.img", "--key-file", "pass"]


@pytest.fixture
def volume(kinds, tmp_path):
    """volume(NAME): a copy of one of the kinds, in the folder of the test, with its key files."""
    volumes.passphrases(tmp_path)
    return lambda name: copy_of(kinds / name, tmp_path / "disk.img")


def lost_by(places, start, sector, size):
    """The encryption sectors of a plaintext that are lost with these bytes of the image."""
    found = []
    for offset, length in places:
        first, last = (offset - start) // sector * sector, -(-(offset + length - start) // sector) * sector
        first, last = max(0, first), min(size, last)
        if first < last:
            found.append((first, last - first))
    return merged(found)


def lost_in_map(path):
    """The places of a map that are marked as bad."""
    rows = re.findall(r"^(0x\w+)\s+(0x\w+)\s+-$", path.read_text(), re.MULTILINE)
    return [(int(start, 16), int(length, 16)) for start, length in rows]


def listed(message):
    """What messages say is missing: its place in the image and in the plaintext, and its length."""
    return [(int(at), int(plain), int(length)) for length, at, plain in re.findall(
        r": (\d+) bytes at (\d+) cannot be read: zeros at (\d+) of the plaintext$", message, re.MULTILINE)]


PLACES = {
    "one sector": [(START + 4096, 512)],
    "the first and the last": [(START, 512), (START + 303104 - 512, 512)],
    "neighbours and others": [(START + 8192, 1536), (START + 9728, 512), (START + 100000, 7), (START + 200704, 65536)],
    "neighbours of 512": [(START + 4096, 512), (START + 9216, 512), (START + 100 * 1024 + 1024, 1024)],
    "between sectors": [(START + 4096 * 3 - 1, 2)],
    "forty": [(START + 7168 * number, 512) for number in range(40)],
    "all of it": [(START, 303104)],
}


@pytest.mark.parametrize("unit, whole", [(1, None), (1, 1), (4096, None)])
@pytest.mark.parametrize("places", PLACES.values(), ids=PLACES)
@pytest.mark.parametrize("name, sector", [("luks2 xts-plain64 512 512", 512), (VOLUME2, 4096), (ESSIV, 4096)])
def test_bad_sectors(rescue, volume, kinds, bad_sectors, name, sector, places, unit, whole):
    image, plain = volume(name), kinds.text(name)
    env = bad_sectors(image, places, unit=unit, **({"whole": 1} if whole else {}))
    ended = rescue(*DECRYPT, "-o", "plain", "--map", "map", env=env)
    # (what is read past the page cache is lost by sectors of 512)
    by_sectors = [(start // 512 * 512, -(-(start + length) // 512) * 512 - start // 512 * 512)
                  for start, length in places]
    lost = lost_by(by_sectors, START, sector, len(plain))
    says(ended, status=6)
    assert shown((rescue.folder / "plain").read_bytes()) == shown(with_zeros(plain, lost))
    assert lost_in_map(rescue.folder / "map") == lost
    assert listed(ended.message) == [(START + start, start, length) for start, length in lost]
    total = sum(length for _, length in lost)
    assert re.search(rf"plain: {re.escape(sized(total))} of .* are missing", ended.message), ended.message


@needs("nbdkit", "nbdfuse", "fusermount3", "fuse")
@pytest.mark.parametrize("is_direct", [True, False], ids=["past the page cache", "through the page cache"])
@pytest.mark.parametrize("name, sector", [("luks2 xts-plain64 512 512", 512), (VOLUME2, 4096)])
def test_page_cache(rescue, volume, kinds, tmp_path, name, sector, is_direct):
    """What is lost is exactly the sectors, or their pages where a read cannot go past the page cache."""
    image, plain, places = volume(name), kinds.text(name), PLACES["neighbours of 512"]
    pages = [(at // 4096 * 4096, -(-(at + length) // 4096) * 4096 - at // 4096 * 4096) for at, length in places]
    lost = lost_by(places if is_direct else pages, START, sector, len(plain))
    if not is_direct:
        rescue = rescue.changed("from luksrd_rescue import image", "image.Image._direct_file = lambda self: -1")
    with disk_by_nbdfuse(image, places, tmp_path / "fuse") as disk:
        with open(disk, "rb", buffering=0) as file, pytest.raises(OSError):
            # (a sector that can be read, in a page with one that cannot)
            os.pread(file.fileno(), 512, places[0][0] + 512)
        ended = rescue("decrypt", disk, "--key-file", "pass", "-o", "plain", "--map", "map")
    says(ended, status=6)
    assert shown((rescue.folder / "plain").read_bytes()) == shown(with_zeros(plain, lost))
    assert lost_in_map(rescue.folder / "map") == lost


def sized(count):
    return f"{count} bytes" if count < 1024 else f"{count / 1024:.1f} KiB".replace(".0 ", " ")


@needs("ddrescuelog")
def test_ddrescuelog_reads_the_map(rescue, volume, kinds, bad_sectors):
    image, size = volume("luks2 xts-plain64 512 512"), len(kinds.text(VOLUME2))
    places = PLACES["neighbours and others"]
    says(rescue(*DECRYPT, "-o", "plain", env=bad_sectors(image, places)), status=6)
    path = rescue.folder / "plain.map"
    must("ddrescuelog", "--show-status", path)
    lost = lost_by([(it // 512 * 512, 512 * (1 + (length - 1) // 512)) for it, length in places], START, 512, size)
    assert blocks_by_ddrescuelog(path, "-") == lost
    assert sum(length for _, length in blocks_by_ddrescuelog(path, "+")) == size - sum(length for _, length in lost)
    text = path.read_text()
    assert "disk.img" in text and metadata_uuid(image) in text and str(START) in text


def metadata_uuid(image):
    return must("cryptsetup", "luksUUID", image).decode().strip()


def test_ranges_past_bad_sectors(rescue, volume, kinds, bad_sectors):
    """Whole encryption sectors are lost, but only what of them is in the range."""
    image, plain = volume(VOLUME2), kinds.text(VOLUME2)
    env = bad_sectors(image, [(START + 8192 + 512, 512)])
    for first, length in (8000, 1000), (9000, 8000), (8192, 4096), (12287, 1), (12288, 100), (8191, 1):
        ended = rescue(*DECRYPT, "-o", "part", "--force", "--range", f"{first}:{length}", env=env)
        wanted = with_zeros(plain, [(8192, 4096)])[first:first + length]
        assert (rescue.folder / "part").read_bytes() == wanted
        assert ended.status == (6 if first < 12288 and first + length > 8192 else 0), ended


def test_pipe_past_bad_sectors(rescue, volume, kinds, bad_sectors):
    """Also if the messages cannot be printed; and a full standard output is said besides."""
    image, plain = volume(VOLUME1), kinds.text(VOLUME1)
    env = bad_sectors(image, [(START + 1024, 512)])
    for how in {}, {"stderr": FULL}:
        ended = rescue(*DECRYPT, "-o", "-", "--map", "map", "--force", env=env, **how)
        says(ended, status=6)
        assert ended.output == with_zeros(plain, [(1024, 512)])
        assert lost_in_map(rescue.folder / "map") == [(1024, 512)]
    ended = rescue(*DECRYPT, "-o", "plain", env=env, stdout=FULL)
    says(ended, "plain: 512 bytes of 293 KiB are missing; --retry plain.map tries them again\n",
         "standard output: write failed: No space left on device; plain is written\n", status=6)
    assert (rescue.folder / "plain").read_bytes() == with_zeros(plain, [(1024, 512)])


def test_retry(rescue, volume, kinds, bad_sectors):
    """What can be read by now is filled in, until nothing is missing."""
    image, plain = volume(VOLUME1), kinds.text(VOLUME1)
    places = [(START + 512 * number, 512) for number in (3, 4, 100, 585)]
    command = [*DECRYPT, "-o", "plain"]
    says(rescue(*command, env=bad_sectors(image, places)), "--retry plain.map", status=6)
    for left in places[1:], places[2:], []:
        ended = rescue(*command, "--retry", "plain.map", env=bad_sectors(image, left))
        says(ended, status=6 if left else 0)
        lost = lost_by(left, START, 512, len(plain))
        assert (rescue.folder / "plain").read_bytes() == with_zeros(plain, lost)
        assert lost_in_map(rescue.folder / "plain.map") == lost
    assert re.search(r"^0x0+\s+0x\w+\s+\+$", (rescue.folder / "plain.map").read_text(), re.MULTILINE)


@pytest.mark.parametrize("lines, lost", [
    ("0 ? 1\n0 {end} +\n", []),
    ("0x0 + 1\n0x0 {start} +\n{start} 1024 -\n{rest} {left} +\n", [(0, 1024)]),
    ("0 ?\n0 {start} +\n{start} 512 ?\n{next} 512 *\n{rest} 512 /\n", [(0, "end")]),
    ("0 + 2\n0 {start} +\n", [(0, "end")]),
    ("# a comment\n0 + 1\n0 {start} +\n{rest} {left} +\n", [(0, 1024)]),
])
def test_map_of_the_image(rescue, volume, kinds, lines, lost):
    """What is not finished, or not covered, is not decrypted."""
    image, plain = volume("luks2 xts-plain64 512 512"), kinds.text("luks2 xts-plain64 512 512")
    end = image.stat().st_size
    numbers = {"start": START, "next": START + 512, "rest": START + 1024, "left": end - START - 1024, "end": end}
    (rescue.folder / "disk.map").write_text(lines.format(**numbers))
    if lost:
        volumes.overwrite(image, START, bytes(1024))
    ended = rescue(*DECRYPT, "-o", "plain", "--image-map", "disk.map")
    says(ended, status=6 if lost else 0)
    places = [(start, len(plain) if length == "end" else length) for start, length in lost]
    assert (rescue.folder / "plain").read_bytes() == with_zeros(plain, places)


@pytest.fixture
def lacking(rescue, volume, kinds, tmp_path):
    """A whole image as `whole.img`, and its copy by ddrescue, which lacks 1024 bytes, with its map, decrypted into
    `plain`. Gives the plaintext, and the map's lines for a disk whose status of those bytes it is given."""
    plain = kinds.text("luks2 xts-plain64 512 512")
    image = volume("luks2 xts-plain64 512 512")
    copy_of(image, tmp_path / "whole.img")
    volumes.overwrite(image, START + 4096, bytes(1024))
    left = image.stat().st_size - START - 5120

    def lines(status):
        return f"0 + 1\n0 {START + 4096} +\n{START + 4096} 1024 {status}\n{START + 5120} {left} +\n"

    (tmp_path / "disk's map").write_text(lines("-"))
    ended = rescue(*DECRYPT, "-o", "plain", "--image-map", "disk's map")
    says(ended, f"plain: 1 KiB of {sized(len(plain))} are missing; after another ddrescue, "
         "--image-map 'disk'\"'\"'s map' --retry plain.map tries them again\n", status=6)
    assert (tmp_path / "plain").read_bytes() == with_zeros(plain, [(4096, 1024)])
    return plain, lines


@pytest.mark.parametrize("words", [["--resume"], ["--retry", "plain.map"]])
def test_map_of_the_image_is_named_again(rescue, lacking, tmp_path, words):
    """Without it the zeros of the image would become noise."""
    before = {name: (tmp_path / name).read_bytes() for name in ("plain", "plain.map")}
    says(rescue(*DECRYPT, "-o", "plain", *words), "plain.map: is of a run with --image-map disk's map: ", status=1)
    says(rescue(*DECRYPT, "-o", "other", "--map", "plain.map", "--resume"), "--image-map disk's map", status=1)
    assert before == {name: (tmp_path / name).read_bytes() for name in before}
    assert not (tmp_path / "other").exists()
    says(rescue(*DECRYPT, "-o", "plain", "--image-map", "disk's map", *words), status=6)
    assert (tmp_path / "plain").read_bytes() == before["plain"]


def test_retry_after_another_ddrescue(rescue, lacking, tmp_path):
    """What the image and its map have by then is filled in, and the new map is not forgotten."""
    plain, lines = lacking
    copy_of(tmp_path / "whole.img", tmp_path / "disk.img")
    command = [*DECRYPT, "-o", "plain", "--image-map", "better.map", "--retry", "plain.map"]
    (tmp_path / "better.map").write_text(lines("+"))
    says(rescue(*command), status=0)
    assert (tmp_path / "plain").read_bytes() == plain and lost_in_map(tmp_path / "plain.map") == []
    says(rescue(*DECRYPT, "-o", "plain", "--retry", "plain.map"), "a run with --image-map better.map", status=1)


@pytest.mark.of_script
@pytest.mark.parametrize("text, line", [
    ("", 0), ("nonsense\n", 1), ("0 + 1\n0 10\n", 2), ("0 + 1\n0 10 x\n", 2), ("0 + 1\n0 0 +\n", 2),
    ("0 + 1\n0 10 +\n5 10 +\n", 3), ("# only\n", 1), ("0 + 1\n-5 10 +\n", 2), ("\0\xff", 1)])
def test_no_map(rescue, volume, text, line):
    volume(VOLUME1)
    (rescue.folder / "disk.map").write_bytes(text.encode("latin-1"))
    ended = rescue(*DECRYPT, "-o", "plain", "--image-map", "disk.map")
    says(ended, f"disk.map: line {line} is not one of a map of ddrescue", status=4)
    says(rescue("decrypt", "disk.img", "-o", "plain", "--image-map", "none"), "none: cannot open the map", status=4)


@needs("ddrescue")
def test_image_by_ddrescue(rescue, volume, kinds, bad_sectors, tmp_path):
    """ddrescue's own image and map of a disk with bad sectors."""
    image, plain = volume("luks2 xts-plain64 512 512"), kinds.text("luks2 xts-plain64 512 512")
    must("ddrescue", "-q", "--size", str(START + 10240), "disk.img", "copy.img", "copy.map", cwd=tmp_path)
    os.truncate(tmp_path / "copy.img", image.stat().st_size)
    ended = rescue("decrypt", "copy.img", "--key-file", "pass", "-o", "plain", "--image-map", "copy.map")
    says(ended, status=6)
    assert (tmp_path / "plain").read_bytes() == with_zeros(plain, [(10240, len(plain))])


# Headers and key areas

def areas_of(image):
    return {int(number): (int(slot["area"]["offset"]), int(slot["area"]["size"]))
            for number, slot in metadata(image)[0]["keyslots"].items()}


@pytest.mark.parametrize("at, used", [(0, "secondary"), (4096, "secondary"), (15872, "primary")])
def test_bad_sector_in_the_first_header(rescue, volume, kinds, bad_sectors, at, used):
    """The second header is used, unless the sector has nothing but the zeros after the JSON text."""
    image = volume(VOLUME2)
    ended = rescue(*DECRYPT, "-o", "plain", env=bad_sectors(image, [(at, 512)]))
    says(ended, f"sectors of the header cannot be read; the {used} header is used", status=0)
    assert (rescue.folder / "plain").read_bytes() == kinds.text(VOLUME2)


def test_bad_sectors_in_both_headers(rescue, volume, bad_sectors):
    image = volume(VOLUME2)
    env = bad_sectors(image, [(0, 512), (16384, 512)])
    ended = rescue("decrypt", "disk.img", "--offset", "0", "--key-file", "pass", "-o", "plain", env=env)
    says(ended, "the header cannot be read", "--header", status=6)
    assert not (rescue.folder / "plain").exists()


def test_bad_sector_in_a_key_area(rescue, volume, kinds, bad_sectors):
    """Its slot is left out, and another one opens; zeros are not key material."""
    image = volume(VOLUME2)
    env = bad_sectors(image, [(areas_of(image)[0][0] + 512, 512)])
    ended = rescue("decrypt", "disk.img", "--key-file", "pass2", "-o", "plain", env=env)
    says(ended, "key slot 0 is left out: its key area has sectors that cannot be read", status=0)
    assert "trying key slot 0" not in ended.message
    assert (rescue.folder / "plain").read_bytes() == kinds.text(VOLUME2)
    says(rescue(*DECRYPT, "-o", "other", env=env), "(not tried: 0)", status=2)
    says(rescue(*DECRYPT, "--key-slot", "0", "-o", "other", env=env),
         "no key slot can be read", status=6)


def test_bad_sectors_in_all_key_areas(rescue, volume, bad_sectors):
    image = volume(VOLUME2)
    env = bad_sectors(image, [(start, 512) for start, _ in areas_of(image).values()])
    says(rescue(*DECRYPT, "-o", "plain", env=env), "no key slot can be read", "--header", status=6)


def test_bad_sector_after_the_key_material(rescue, volume, kinds, bad_sectors):
    """The rest of a key area is not used."""
    image = volume(VOLUME2)
    start, length = areas_of(image)[0]
    material = 64 * 4000
    env = bad_sectors(image, [(start + material, length - material)])
    ended = rescue(*DECRYPT, "-o", "plain", env=env)
    says(ended, status=0)
    assert "left out" not in ended.message


def test_bad_sectors_of_luks1(rescue, volume, kinds, bad_sectors):
    """The first sector has what all slots need. The second one has slot 7 and a part of slot 6."""
    image = volume(VOLUME1)
    volumes.cryptsetup("luksAddKey --key-file pass --pbkdf-force-iterations 1000 --key-slot 7", image, "wrong",
                       cwd=rescue.folder)
    says(rescue(*DECRYPT, "--offset", "0", "-o", "x", env=bad_sectors(image, [(0, 512)])),
         "the header cannot be read", status=6)
    env = bad_sectors(image, [(512, 512)])
    says(rescue("decrypt", "disk.img", "--key-file", "wrong", "-o", "x", env=env),
         "sectors of the header cannot be read", status=2)
    for number, areas in enumerate(([], [(4096, 512)])):
        ended = rescue("decrypt", "disk.img", "--key-file", "pass2", "-o", f"plain{number}",
                       env=bad_sectors(image, [(512, 512), *areas]))
        says(ended, status=0)
        assert ("key slot 0 is left out" in ended.message) == bool(areas)
        assert (rescue.folder / f"plain{number}").read_bytes() == kinds.text(VOLUME1)


def test_header_under_another_file(rescue, volume, kinds, tmp_path):
    """A disk whose beginning somebody has written a file over is no such file, if --offset says so."""
    image = volume(VOLUME2)
    volumes.cryptsetup("luksHeaderBackup --header-backup-file backup", image, cwd=tmp_path)
    volumes.overwrite(image, 0, b"\xfd7zXZ\0" + bytes(40000))
    command = [*DECRYPT, "--header", "backup", "-o", "plain"]
    says(rescue(*command), "is compressed by xz (if not, --offset says where the volume begins)", status=4)
    assert not (tmp_path / "plain").exists()
    says(rescue(*command, "--offset", "0"), "disk.img: seems to be compressed by xz", status=0)
    assert (tmp_path / "plain").read_bytes() == kinds.text(VOLUME2)


def test_map_of_the_image_and_the_header(rescue, volume, kinds):
    """A map that misses the first header."""
    image = volume(VOLUME2)
    (rescue.folder / "map").write_text(f"0 ?\n0 4096 -\n4096 {image.stat().st_size - 4096} +\n")
    volumes.overwrite(image, 0, bytes(4096))
    ended = rescue("decrypt", "disk.img", "--offset", "0", "--key-file", "pass", "-o", "plain", "--image-map", "map")
    says(ended, "of the header cannot be read", status=0)
    assert (rescue.folder / "plain").read_bytes() == kinds.text(VOLUME2)


# Images that end early, and disks that go away

def test_bad_sectors_and_an_early_end(rescue, volume, kinds, bad_sectors):
    """Status 6 if both are missing."""
    image, plain = volume(VOLUME1), kinds.text(VOLUME1)
    os.truncate(image, START + 100000)
    ended = rescue(*DECRYPT, "-o", "plain", env=bad_sectors(image, [(START + 512, 512)]))
    says(ended, "image ends inside a sector: 160 bytes left over", "512 bytes at", status=6)
    assert (rescue.folder / "plain").read_bytes() == with_zeros(plain[:99840], [(512, 512)])


def test_gap_in_memory_is_not_decrypted_noise(rescue, made2, bad_sectors, tmp_path):
    """Bad sectors in many pieces of a larger volume, whose other pieces are whole."""
    volumes.passphrases(tmp_path)
    plain = random.Random("gaps").randbytes(8 << 20)
    image = copy_of(made2("aes-xts-plain64", 512, "--sector-size", "4096", plain=plain), tmp_path / "disk.img")
    start = volumes.payload_start(image)
    places = [(start + (number << 20) - 512, 1024) for number in range(1, 8)]
    ended = rescue(*DECRYPT, "-o", "plain", "--range", f"0:{len(plain)}", env=bad_sectors(image, places))
    lost = lost_by(places, start, 4096, len(plain))
    assert (ended.status, shown((tmp_path / "plain").read_bytes())) == (6, shown(with_zeros(plain, lost)))
    assert lost_in_map(tmp_path / "plain.map") == lost


# Calls on one file, by strace

READS, RENAMES = "preadv,preadv2", "rename,renameat,renameat2"
INPUTS = {"disk.img": "", "header": "", "disk.map": " the map", "pass": " the key file", "list": ""}
WITH_ALL = "decrypt disk.img --header header --image-map disk.map --key-file pass"


@pytest.fixture
def tampered(rescue, volume, tmp_path):
    """tampered(CALLS, FILE, HOW, LINE): a run in which the calls on a file are tampered with. (`when` counts those of
    each thread for itself.)"""
    image = volume(VOLUME2)
    (tmp_path / "header").write_bytes(image.read_bytes()[:START])
    (tmp_path / "disk.map").write_text(f"0 + 1\n0 {image.stat().st_size} +\n")
    (tmp_path / "list").write_bytes(b"wrong\n\na passphrase\n")

    def ends(calls, file, how, line, **further):
        ended = rescue(*line.split(), **further, before=[
            "strace", "-f", "-qq", "-o", "trace", "-P", file, "-P", tmp_path / file, "-e", f"trace={calls}", "-e",
            f"inject={calls}:{how}"])
        assert "INJECTED" in (tmp_path / "trace").read_text(errors="replace"), ended
        return ended._replace(message=re.sub("^strace: .*\n", "", ended.message, flags=re.MULTILINE))

    return ends


@needs("strace")
@pytest.mark.parametrize("calls, file, how", [
    *((READS, file, f"error={error}:when={when}") for file in ("disk.img", "header")
      for error, when in (("EINTR", "1+2"), ("EIO", 1), ("EIO", 2))),
    ("readv", "pass", "error=EINTR:when=1+2"), ("read", "disk.map", "error=EINTR:when=1+2"),
    *((call, "plain", "error=EINTR:when=1+2") for call in ("pwrite64", "fsync,fdatasync")),
    *(("write", file, "error=EINTR:when=1+2") for file in ("plain.map.new", "out"))])
def test_calls_that_are_repeated(tampered, kinds, tmp_path, calls, file, how):
    """An interrupted call, and a read that fails once: all of the plaintext is written."""
    (tmp_path / "out").touch()
    output = "-" if file == "out" else "plain"
    says(tampered(calls, file, how, f"{WITH_ALL} -o {output}", stdout=tmp_path / "out"), status=0)
    written = tmp_path / ("out" if file == "out" else "plain")
    assert shown(written.read_bytes()) == shown(kinds.text(VOLUME2)) and not (tmp_path / "plain.map").exists()


KEPT = "; what is written is kept, and --resume goes on with it by plain.map"


@needs("strace")
@pytest.mark.parametrize("calls, file, how, message, status, is_kept", [
    *(("openat", file, "EACCES", f"{file}: cannot open{what}: Permission denied", 4, False)
      for file, what in INPUTS.items()),
    ("openat", "plain", "EACCES", "plain: cannot write to it: Permission denied", 6, False),
    ("readv", "pass", "EIO", "pass: cannot read the key file: Input/output error", 6, False),
    ("readv", "list", "EIO", "list: read failed: Input/output error", 6, False),
    ("readv", "list", "EIO:when=2+", "list: read failed: Input/output error", 6, False),
    ("readv", "list", "EIO:when=3+", "list: read failed after line 0: Input/output error", 6, False),
    ("read", "disk.map", "EIO", "disk.map: cannot read the map: Input/output error", 6, False),
    (READS, "disk.img", "EIO", "disk.img: 303104 bytes at", 6, True),
    ("ftruncate", "plain", "ENOSPC", "plain: cannot write to it: No space left on device", 6, False),
    ("pwrite64", "plain", "ENOSPC", f"plain: write failed: No space left on device{KEPT}", 6, True),
    ("fdatasync", "plain", "EIO", f"plain: write failed: Input/output error{KEPT}", 6, True),
    ("fsync", "plain", "EIO", f"plain: write failed: Input/output error{KEPT}", 6, True),
    ("write", "plain.map.new", "ENOSPC", "plain.map: cannot write the map: No space left on device", 6, False),
    ("fsync", "plain.map.new", "EIO", "plain.map: cannot write the map: Input/output error", 6, False),
    (RENAMES, "plain.map.new", "EIO", "plain.map: cannot write the map: Input/output error", 6, False)])
def test_calls_that_fail(rescue, tampered, kinds, tmp_path, calls, file, how, message, status, is_kept):
    """The system's reason. Without a fault the same command then gives all of the plaintext."""
    line = "try disk.img --candidates list" if file == "list" else f"{WITH_ALL} -o plain"
    says(tampered(calls, file, f"error={how}", line), f"luksrd-rescue: {message}", status=status)
    assert ((tmp_path / "plain").exists(), (tmp_path / "plain.map").exists()) == (is_kept, is_kept)
    again = ["--retry", "plain.map"] if calls == READS else ["--resume"]
    says(rescue(*f"{WITH_ALL} -o plain".split(), *again * is_kept), status=0)
    assert shown((tmp_path / "plain").read_bytes()) == shown(kinds.text(VOLUME2))


@pytest.mark.parametrize("file, most", [("disk.img", 700), ("disk.img", 4096), ("header", 511), ("pass", 5),
                                        ("disk.map", 9), ("list", 7)])
def test_short_reads_and_writes(rescue, tampered, kinds, bad_sectors, tmp_path, file, most):
    """Each read of the file gives little, and each write takes little."""
    env = bad_sectors(tmp_path / file, [], most=most)
    if file == "list":
        ended = rescue("try", "disk.img", "--candidates", "list", env=env)
        assert ended.output.startswith(b"line 3 opens key slot 0\n"), ended
    for output in "plain", "-":
        ended = rescue(*WITH_ALL.split(), "-o", output, env=env)
        says(ended, status=0)
        written = ended.output if output == "-" else (tmp_path / output).read_bytes()
        assert shown(written) == shown(kinds.text(VOLUME2))


# Writes

def test_map_that_fails_later(rescue, volume, kinds):
    """What is written by then is kept."""
    volume(VOLUME2)
    fails = ["from luksrd_rescue import maps; save, saved = maps.Map.save, []",
             "def fails(self, path):",
             "    if saved: raise OSError(28, 'No space left on device')",
             "    save(self, path), saved.append(path)",
             "maps.Map.save = fails"]
    ended = rescue.changed(*fails)(*DECRYPT, "-o", "plain")
    says(ended, f"plain.map: cannot write the map: No space left on device{KEPT}\n", status=6)
    says(rescue(*DECRYPT, "-o", "plain", "--resume"), status=0)
    assert (rescue.folder / "plain").read_bytes() == kinds.text(VOLUME2)


def test_file_that_may_not_be_so_long(rescue, volume):
    import resource
    volume(VOLUME2)
    ended = rescue(*DECRYPT, "-o", "plain",
                   preexec_fn=lambda: resource.setrlimit(resource.RLIMIT_FSIZE, (4096, 4096)))
    says(ended, "plain: cannot write to it: File too large", status=6)
    assert not (rescue.folder / "plain").exists()


@needs("mount")
def test_full_disk(rescue, made2, tmp_path):
    """A file system with too little room: a warning before, the reason, and the rest once there is room."""
    volumes.passphrases(tmp_path)
    plain = random.Random("full").randbytes(24 << 20)
    copy_of(made2("aes-xts-plain64", 512, "--sector-size", "4096", plain=plain), tmp_path / "disk.img")
    (tmp_path / "out").mkdir()
    command = [*rescue.command(*DECRYPT, "-o", "out/plain", "--range", f"0:{len(plain)}")]
    script = ('mount -t tmpfs -o size=10m none out; "$@"; echo first $?; ls out; mount -o remount,size=64m out; '
              '"$@" --resume; echo second $?; ls out; cp out/plain plain')
    ended = subprocess.run([*namespace(), "sh", "-c", script, "sh", *command], cwd=tmp_path, env=rescue.variables,
                           capture_output=True, check=False)
    assert b"first 6\nplain\nplain.map\n" in ended.stdout and b"second 0\nplain\n" in ended.stdout, ended
    # (the tmpfs has its 10 MiB but for what its inodes take)
    warned = rb"out/plain: [\d.]+ MiB are free, and the plaintext has 24 MiB: the disk may become full"
    assert re.search(warned, ended.stderr), ended.stderr
    assert b"out/plain: write failed: No space left on device" in ended.stderr
    assert shown((tmp_path / "plain").read_bytes()) == shown(plain)
