"""luksrd_lvm finds logical volumes in physical volumes that LVM2's own tools make, at the places
that lvs reports, and `luksrd-rescue decrypt --lv` writes them out of a LUKS volume."""

import os
import pathlib
import struct
import types
import zlib

import luksrd_lvm
import pytest
import volumes
from disks import lvm_over
from rescuing import says
from volumes import copy_of, empty_file, overwrite

MIB = 1 << 20
AREA = 4096  # where the metadata area starts
SETUP = """pvcreate -q --metadatasize 32k --dataalignment 4k FIRST SECOND
vgcreate -q -s 1M --setautoactivation n vg FIRST SECOND
lvcreate -q -an -Zn -Wn -n root -l 8 vg FIRST
lvcreate -q -an -Zn -Wn -n two -l 4 vg FIRST
lvextend -q -l +1 vg/two FIRST
lvcreate -q -an -Zn -Wn -n swap.1-x -l 2 vg FIRST
lvextend -q -l +2 vg/two FIRST
lvcreate -q -an -Zn -Wn -n far -l 4 vg SECOND
lvcreate -q -an -Zn -Wn -n both -l 1 vg FIRST
lvextend -q -l +1 vg/both SECOND
lvcreate -q -an -Zn -Wn -n striped -l 4 vg -i 2"""
NAMES = ["both", "far", "root", "striped", "swap.1-x", "two"]
SEGMENTS = "lv_name,segtype,seg_size,seg_pe_ranges"
FAR, STRIPED = "it is on another disk, in part or as a whole", "it has 2 stripes"
DAMAGED = "LVM2's metadata is damaged"
TRUNCATED = "the volume ends before LVM2's metadata does"


class Plain:
    """A file, as a physical volume."""

    def __init__(self, path):
        self.content = pathlib.Path(path).read_bytes()
        self.size = len(self.content)

    def pread_into(self, view, offset):
        got = self.content[offset:offset + min(len(view), 700)]
        view[:len(got)] = got
        return len(got)


def found_in(path):
    """The pieces of each logical volume, or why it has none."""
    return {name: found.refusal or found.pieces
            for name, found in luksrd_lvm.logical_volumes(Plain(path)).items()}


def refused(path):
    """Why there are no logical volumes."""
    with pytest.raises(luksrd_lvm.Refused) as info:
        found_in(path)
    return str(info.value)


def metadata_place(image):
    """Where the text of the metadata is in its ring, and the ring's length."""
    with open(image, "rb") as file:
        file.seek(AREA + 32)
        size, start, length = struct.unpack("<3Q", file.read(24))
    return start, length, size


def wraps(image):
    """The metadata runs from the end of its ring, which is as small as LVM2 allows, to the start."""
    start, length, size = metadata_place(image)
    return start + length > size


def places(lvm, device):
    """The logical volumes that are linear and on this device alone, with their pieces, by lvs."""
    start, size = map(int, lvm(f"pvs --noheadings --units b --nosuffix -o pe_start,vg_extent_size "
                               f"{device}").split())
    found, elsewhere = {}, set()
    for row in lvm(f"lvs --segments --noheadings --units b --nosuffix -o {SEGMENTS} vg").splitlines():
        name, kind, length, extents = row.split(None, 3)
        on, _, extents = extents.partition(":")
        if (kind, on) != ("linear", device):
            elsewhere.add(name)
        place = start + int(extents.partition("-")[0]) * size
        found.setdefault(f"vg/{name}", []).append((place, int(length)))
    return {name: pieces for name, pieces in found.items() if name[3:] not in elsewhere}


@pytest.fixture
def group(loop, cached, tmp_path):
    """Two physical volumes of a group, `first` and `second`, `wrapped`, the first one with metadata
    that wraps, and the places that LVM2 reports of both."""
    def make(folder):
        folder.mkdir()
        devices = [loop(empty_file(folder / name, 32 * MIB)) for name in ("first", "second")]
        lvm = lvm_over(folder, *devices, settings="data_alignment_detection = 0 default_data_alignment = 0")
        for line in SETUP.replace("FIRST", devices[0]).replace("SECOND", devices[1]).splitlines():
            lvm(line)
        names = lvm("lvs --noheadings -o lv_name vg").split()
        assert sorted(names) == NAMES
        for name, device in zip(("first", "second"), devices):
            (folder / f"{name}.places").write_text(repr(places(lvm, device)))
        copy_of(folder / "first", folder / "unwrapped")
        tags = (f"vgchange -q --addtag tag{number}{400 * 'x'} vg" for number in range(60))
        while not wraps(folder / "first"):
            lvm(next(tags))

    folder = cached("lvm", make)
    return types.SimpleNamespace(
        first=folder / "unwrapped", wrapped=folder / "first", second=folder / "second",
        # pylint: disable-next=eval-used
        places={name: eval((folder / f"{name}.places").read_text()) for name in ("first", "second")})


# ---- without LVM2

@pytest.mark.parametrize("length", [0, 511, 2047, 2048, 100000])
def test_no_physical_volume(tmp_path, length):
    (tmp_path / "plain").write_bytes(bytes(length))
    assert refused(tmp_path / "plain") == (
        TRUNCATED if length < 2048 else "there is no physical volume of LVM2")


def test_pieces():
    plain = types.SimpleNamespace(pread_into=Plain("/dev/null").pread_into, size=0)
    plain = Plain("/dev/null")
    plain.content = bytes(range(100))
    joined = luksrd_lvm.Pieces(plain, [(90, 10), (0, 5), (50, 1)])
    assert joined.size == 16
    wanted, got = bytes([*range(90, 100), *range(5), 50]), b""
    while True:
        view = memoryview(bytearray(7))
        count = joined.pread_into(view, len(got))
        if not count:
            break
        got += bytes(view[:count])
    assert got == wanted


IDENTIFIER = "abcdefghijklmnopqrstuvwxyz012345"
# What LVM2 writes of a thin volume, of its pool, and of a striped one, for which it needs a device mapper
SEGMENT = {
    "linear": 'type = "striped" stripe_count = 1 stripes = ["pv0", 0]',
    "far": 'type = "striped" stripe_count = 1 stripes = ["pv1", 0]',
    "striped": 'type = "striped" stripe_count = 2 stripe_size = 128 stripes = ["pv0", 0, "pv1", 0]',
    "thin": 'type = "thin" thin_pool = "pool" transaction_id = 0 device_id = 1',
    "pool": 'type = "thin-pool" metadata = "pool_tmeta" pool = "pool_tdata" transaction_id = 1 chunk_size = 128',
    "mirror": 'type = "raid1" device_count = 2 region_size = 1024 raids = ["a", "b", "c", "d"]',
    "cut": 'type = "striped" stripe_count = 1 stripes = ["pv0", 999]',
    "none": None}
UNSUPPORTED = {"far": FAR, "striped": STRIPED, "thin": "its type is thin", "pool": "its type is thin-pool",
               "mirror": "its type is raid1", "cut": "it ends after the physical volume", "none": "it has no segments"}
VOLUME = """ {name} {{ id = "x" status = ["READ", "WRITE", "VISIBLE"] flags = [] segment_count = {count}
  segment1 {{ start_extent = 0 extent_count = 2 {segment} }} }}
"""
TEXT = ('vg0 {{ id = "x" seqno = 1 extent_size = 8\nphysical_volumes {{ pv0 {{ id = "{id}" pe_start = 128 }} '
        'pv1 {{ id = "other" pe_start = 128 }} }}\nlogical_volumes {{\n{volumes}}} }}\ncontents = "Text" # ..\n')


def with_area(physical, area):
    """The physical volume with this metadata area, and its checksum."""
    struct.pack_into("<I", area, 0, checksum(area[4:512]))
    physical[AREA:AREA + len(area)] = area
    return physical


def made_by_hand(data_areas=((AREA + 65536, 0),), areas=((AREA, 32768),), text_at=512, text_bytes=None):
    """A physical volume as LVM2 lays one out (label.h, format_text/layout.h), with all of these volumes."""
    listed = "".join(VOLUME.format(name=name, count=int(segment is not None), segment=segment or "")
                     for name, segment in SEGMENT.items())
    text = TEXT.format(id=IDENTIFIER, volumes=listed).encode() + b"\0"
    label = bytearray(512)
    struct.pack_into("<8sQII8s32sQ", label, 0, b"LABELONE", 1, 0, 32, b"LVM2 001", IDENTIFIER.encode(), 2 * MIB)
    rows = [*data_areas, (0, 0), *areas, (0, 0)]
    for number, row in enumerate(rows[:(512 - 72) // 16]):
        struct.pack_into("<QQ", label, 72 + 16 * number, *row)
    struct.pack_into("<I", label, 16, checksum(label[20:]))
    area = bytearray(32768)
    struct.pack_into("<I16sIQQQQII", area, 0, 0, b" LVM2 x[5A%r0N*>", 1, AREA, len(area), text_at,
                     len(text) if text_bytes is None else text_bytes, checksum(text), 0)
    area[512:512 + len(text)] = text
    # (in less, blkid looks for no LVM)
    physical = bytearray(2 * MIB)
    physical[512:1024] = label
    return with_area(physical, area)


@pytest.mark.parametrize("how, message", [
    ({"areas": ()}, "this physical volume has no metadata: LVM2 keeps it in another one"),
    ({"data_areas": [(MIB, 0)] * 40}, "LVM2's label is damaged"),
    ({"areas": [(AREA, 32768)] * 40}, "LVM2's label is damaged"),
    ({"areas": [(AREA, 16384)]}, "LVM2's metadata area is damaged"),
    *(({"text_at": at}, "LVM2's metadata area has no text") for at in (0, 511, 32768)),
    *(({"text_bytes": count}, "LVM2's metadata area has no text") for count in (0, 32768 - 511)),
    ({"text_bytes": 100}, DAMAGED)])
def test_what_is_refused(tmp_path, how, message):
    (tmp_path / "physical").write_bytes(made_by_hand(**how))
    assert refused(tmp_path / "physical") == message


@pytest.mark.needs("cc")
def test_volumes_that_are_not_supported(rescue, bad_sectors, tmp_path):
    """By name: without LVM2, also those for which its tools need a device mapper."""
    physical = made_by_hand()
    (tmp_path / "physical").write_bytes(physical)
    piece = physical[128 * 512:128 * 512 + 8192]
    assert found_in(tmp_path / "physical") == {
        "vg0/linear": [(128 * 512, 8192)], **{f"vg0/{name}": words for name, words in UNSUPPORTED.items()}}
    volumes.luks1(tmp_path / "disk.img", "aes-xts-plain64", "sha256", 512)
    volumes.fill1(tmp_path / "disk.img", bytes(physical))
    words = ["decrypt", "disk.img", "--key-file", "pass", "-o", "plain", "--lv"]
    for name, why in UNSUPPORTED.items():
        says(rescue(*words, name), f"luksrd-rescue: disk.img: vg0/{name} is not supported: {why}\n", status=1)
    listed = ", ".join(f"vg0/{name}" for name in sorted(SEGMENT))
    says(rescue(*words, "other"), f"disk.img: there is no logical volume 'other'; there are: {listed}\n", status=1)
    assert not (tmp_path / "plain").exists()
    says(rescue(*words, "linear"), status=0)
    assert (tmp_path / "plain").read_bytes() == piece
    says(rescue(*words, "linear", "--force", env=bad_sectors(tmp_path / "disk.img", [
        (volumes.payload_start(tmp_path / "disk.img"), 512)])), "disk.img: LVM's metadata, in the first bytes of the "
        "plaintext, cannot be read: Input/output error\n", status=6)
    for content, line in (physical, "  vg0/thin: not supported: its type is thin"), (
            made_by_hand(text_bytes=100), f"plain is LVM, but {DAMAGED}"):
        volumes.fill1(tmp_path / "disk.img", bytes(content))
        ended = rescue(*words[:-1], "--force")
        assert ended.status == 0 and line in ended.output.decode().splitlines(), ended


def test_no_lvm_in_the_volume(rescue, disk2, tmp_path):
    says(rescue("decrypt", disk2, "--key-file", "pass", "--lv", "root", "-o", "plain"),
         "disk.img: there is no physical volume of LVM2", status=1)
    assert not (tmp_path / "plain").exists()


# ---- over loop devices

@pytest.mark.xdist_group("alone")
@pytest.mark.needs("root", "loop", "lvm", "mke2fs")
class TestGroup:
    def test_places(self, group):
        for image in (group.first, group.wrapped):
            found = found_in(image)
            assert found == {**group.places["first"], "vg/far": FAR, "vg/both": FAR,
                             "vg/striped": STRIPED}
        # two of the three segments of this one touch
        assert {name: len(pieces) for name, pieces in group.places["first"].items()} == {
            "vg/root": 1, "vg/two": 2, "vg/swap.1-x": 1}
        assert {name: pieces for name, pieces in found_in(group.second).items()
                if not isinstance(pieces, str)} == group.places["second"]

    @pytest.mark.parametrize("name", ["vg/root", "root", "/dev/vg/root"])
    def test_names(self, group, name):
        assert luksrd_lvm.find(Plain(group.first), name).pieces == group.places["first"]["vg/root"]

    @pytest.mark.parametrize("at", [512, 536, 552, 612, AREA, AREA + 4, AREA + 24, AREA + 40, "text"])
    def test_damaged_byte(self, group, tmp_path, at):
        """Each of the first bytes matters, and none that is changed leads to an uncaught fault."""
        image = copy_of(group.wrapped, tmp_path / "image")
        at = AREA + metadata_place(image)[0] if at == "text" else at
        overwrite(image, at, bytes([image.read_bytes()[at] ^ 255]))
        assert "LVM2" in refused(image)

    def test_changed_lengths(self, group, tmp_path):
        (start, length), = group.places["first"]["vg/root"]
        changed = found_in(altered(group, tmp_path, "extent_count = 8", "extent_count = 9"))
        assert changed["vg/root"] == [(start, length + MIB)]
        changed = found_in(altered(group, tmp_path, "extent_count = 8", "extent_count =99"))
        assert changed["vg/root"] == "it ends after the physical volume"
        changed = found_in(altered(group, tmp_path, "root {", "0007 {"))
        assert changed["vg/0007"] == [(start, length)]

    @pytest.mark.parametrize("old, new", [
        ("extent_size = 2048", 'extent_size = "04"'), ("physical_volumes", "physical_volumex"),
        ("pe_start = 72", "pe_start = []"), ("logical_volumes {", "logical_volumes }"),
        ("segment_count = 1", "segment_count = {"), ('"VISIBLE"', '"VISIBLE('),
        ('striped"', 'stri\x1bed"'), ("segment_count = 2", 'segment_count="\x1b"'),
        ("segment_count = 2", "segment_count = x"), ("root {", '"r\x1b" {'), ("root {", "ro\x1bt {"),
        ("start_extent = 5", "start_extent = 6")])
    def test_damaged_metadata(self, group, tmp_path, old, new):
        assert refused(altered(group, tmp_path, old, new)) == DAMAGED

    def test_not_kept_up_to_date(self, group, tmp_path):
        assert refused(altered(group, tmp_path, "root", "root", flags=1)) == \
            "the metadata area is not kept up to date: LVM2 uses another one"

    def test_beyond_the_end(self, group, tmp_path):
        image = copy_of(group.first, tmp_path / "image")
        label = bytearray(image.read_bytes()[512:1024])
        struct.pack_into("<Q", label, 32 + 40 + 32, 1 << 63)
        struct.pack_into("<I", label, 16, checksum(label[20:]))
        overwrite(image, 512, label)
        assert refused(image) == TRUNCATED
        os.truncate(copy_of(group.first, image), 5000)
        assert refused(image) == TRUNCATED

    def test_decrypted_alone(self, rescue, group, tmp_path):
        """Each of one or of several pieces, and a part of one, out of a LUKS volume; others are refused by name."""
        physical = bytearray(group.first.read_bytes())
        for name, pieces in group.places["first"].items():
            for offset, length in pieces:
                physical[offset:offset + length] = os.urandom(length)
        volumes.luks1(tmp_path / "disk.img", "aes-xts-plain64", "sha256", 512)
        volumes.fill1(tmp_path / "disk.img", bytes(physical))
        words = ["decrypt", "disk.img", "--key-file", "pass", "--quiet", "-o", "out", "--force"]
        for name, pieces in group.places["first"].items():
            wanted = b"".join(physical[offset:offset + length] for offset, length in pieces)
            says(rescue(*words, "--lv", name), status=0)
            assert (tmp_path / "out").read_bytes() == wanted
            # (over the end of a piece, if there are several)
            first = pieces[0][1] - 100
            says(rescue(*words, "--lv", name, "--range", f"{first}:100"), status=0)
            assert (tmp_path / "out").read_bytes() == wanted[first:first + 100]
            if len(pieces) > 1:
                says(rescue(*words, "--lv", name, "--range", f"{first}:1000"), status=0)
                assert (tmp_path / "out").read_bytes() == wanted[first:first + 1000]
        for given, name, why in ("vg/striped", "striped", STRIPED), ("far", "far", FAR), ("both", "both", FAR):
            says(rescue(*words, "--lv", given), f": vg/{name} is not supported: {why}\n", status=1)
        ended = rescue(*words)
        says(ended, status=0)
        assert b"out is LVM:" in ended.output and all(name.encode() in ended.output for name in group.places["first"])


def checksum(content):
    return zlib.crc32(content, 0xF597A6CF ^ 0xFFFFFFFF) ^ 0xFFFFFFFF


def altered(group, folder, old, new, flags=0):
    """The first physical volume with another text of the same length in its metadata, and its
    checksums, and with these flags."""
    image = bytearray(group.wrapped.read_bytes())
    start, length, size = metadata_place(group.wrapped)
    area = memoryview(image)[AREA:AREA + size]
    ring = [at if at < size else at - size + 512 for at in range(start, start + length)]
    text = bytes(area[at] for at in ring)
    assert old.encode() in text and len(old) == len(new)
    text = text.replace(old.encode(), new.encode())
    for at, byte in zip(ring, text):
        area[at] = byte
    struct.pack_into("<II", area, 56, checksum(text), flags)
    struct.pack_into("<I", area, 0, checksum(area[4:512]))
    path = folder / "altered"
    path.write_bytes(image)
    return path
