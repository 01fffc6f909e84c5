"""What luksrd reads with --header, for volumes with a detached header, and for those with a damaged
start and a backup of their header, beside the plain bytes that were encrypted and what cryptsetup
reports about these headers."""
import os

import pytest
from payloads import (BEFORE, IN_AREA, MODES, NOT_LUKS, Volume, area_end, check_header,
                      check_truncated, check_volume, left_over)
from reported import reported
from support import expect
from volumes import copy_of, cryptsetup, overwrite, payload_start

pytestmark = pytest.mark.usefixtures("keys")


def check_rescue(luksrd, volume, replacement):
    """A backup of the header gives the plain bytes even if the start of the image is lost."""
    folder = luksrd.folder
    cryptsetup("luksHeaderBackup --header-backup-file backup", volume.image, cwd=folder)
    backup = Volume(volume.image, volume.plain, folder / "backup")
    expect(luksrd("luksCat --key-file pass", *backup.names), volume.plain)
    image = copy_of(volume.image, folder / "image")
    overwrite(image, 0, replacement(payload_start(image)))
    expect(luksrd("luksCat --key-file pass image"), message=NOT_LUKS, status=4)
    check_volume(luksrd, backup._replace(image=image))


LOST = pytest.mark.parametrize("replacement", [bytes, os.urandom], ids=["zeros", "noise"])


@LOST
@pytest.mark.parametrize("mode, bits, options", [
    *((mode, bits, "") for mode, bits in MODES),
    ("xts-plain64", 512, "--offset 5000"),
])
def test_backup_of_luks1(each_luksrd, made, mode, bits, options, replacement):
    check_rescue(each_luksrd, made.luks1(mode, bits, "sha256", *options.split()), replacement)


@LOST
@pytest.mark.parametrize("mode, bits, sector", [
    ("xts-plain64", 256, 512),
    ("xts-plain64", 256, 4096),
    ("xts-plain64", 512, 512),
    ("xts-plain64", 512, 4096),
    ("xts-plain", 512, 512),
    ("cbc-essiv:sha256", 256, 4096),
    ("cbc-plain64", 128, 512),
])
def test_backup_of_luks2(each_luksrd, made, mode, bits, sector, replacement):
    """Such a backup is itself a volume, whose payload is empty."""
    volume = made.luks2(mode, bits, sector)
    check_rescue(each_luksrd, volume, replacement)
    expect(each_luksrd("luksCat --key-file pass backup"))
    expect(each_luksrd("luksCat --key-file pass --header", volume.image, "backup"))


@pytest.mark.parametrize("mode, bits", MODES)
def test_luks1(each_luksrd, made, mode, bits):
    volume = made.formatted(1, mode, bits)
    for header in "header", "converted":
        check_volume(each_luksrd, volume._replace(header=volume.header.with_name(header)))


@pytest.mark.parametrize("sector", [512, 4096])
@pytest.mark.parametrize("mode, bits", MODES)
def test_luks2(each_luksrd, made, tmp_path, mode, bits, sector):
    """A header for existing bytes, one for bytes that are encrypted under it, and its backup."""
    encrypted = made.encrypted2(mode, bits, sector)
    backup = copy_of(encrypted.header, tmp_path / "header")
    cryptsetup("luksHeaderBackup --header-backup-file backup", backup, cwd=tmp_path)
    for volume in (made.formatted(2, mode, bits, sector), encrypted,
                   encrypted._replace(header=tmp_path / "backup")):
        check_volume(each_luksrd, volume)


@pytest.mark.parametrize("bits", [256, 512])
@pytest.mark.parametrize("version, sector", [(1, 512), (2, 512), (2, 4096)])
def test_payload_further_on(each_luksrd, made, version, bits, sector):
    check_volume(each_luksrd, made.moved(version, bits, sector))


def detached(made, version):
    if version == 1:
        return made.formatted(1, "xts-plain64", 512)
    return made.encrypted2("xts-plain64", 512, 4096)


# the version, the bytes of the header, how luksCat ends, and what the commands on headers report:
# this message, or, if it is empty, what they report about the whole header
CUT_HEADERS = [
    *((version, size, NOT_LUKS, NOT_LUKS) for version in (1, 2) for size in (0, 7)),
    *((version, "all but one", IN_AREA, "") for version in (1, 2)),
    *((version, "all", "", "") for version in (1, 2)),
    (1, 591, IN_AREA, IN_AREA),
    (1, 592, IN_AREA, ""),
    (2, 16383, NOT_LUKS, NOT_LUKS),
    (2, 16384, IN_AREA, None),
    (2, 32768, IN_AREA, ""),
]


@pytest.mark.parametrize("version, size, message, report", CUT_HEADERS)
def test_truncated_header(luksrd, made, tmp_path, version, size, message, report):
    """Nothing is written if a key area is cut."""
    whole = detached(made, version)
    short = copy_of(whole.header, tmp_path / "short")
    needed = area_end(whole.header)
    os.truncate(short, {"all": needed, "all but one": needed - 1}.get(size, size))
    ended = {"message": message, "status": 4} if message else {"output": whole.plain}
    expect(luksrd("luksCat --key-file pass2 --header short", whole.image), **ended)
    expect(luksrd("luksCat --key-file pass2 --header -", whole.image, stdin=short), **ended)
    if report == "":
        check_header(luksrd, whole._replace(header=short), reported(whole.header, whole.image))
    elif report:
        is_luks = {"message": IN_AREA, "status": 4} if report == IN_AREA else {"status": 1}
        expect(luksrd("isLuks --header short", whole.image), **is_luks)
        for command in "luksUUID", "luksDump", "luksCheck":
            expect(luksrd(command, "--header", "short", whole.image), message=report, status=4)


@pytest.fixture
def to_truncate(made, tmp_path):
    """A volume with a detached header, by a word and the bits of its key, or how its start is lost."""
    def get(kind, how):
        if kind == "further on":
            return made.moved(2, how, 4096)
        if kind != "lost start":
            return detached(made, kind)
        whole = made.luks1()
        cryptsetup("luksHeaderBackup --header-backup-file backup", whole.image, cwd=tmp_path)
        image = copy_of(whole.image, tmp_path / "image")
        overwrite(image, 0, how(payload_start(image)))
        return Volume(image, whole.plain, tmp_path / "backup")

    return get


# for each kind of volume: where the payload starts in the image, and where the image ends, from
# there; how many of the plain bytes that gives, and the message
TRUNCATED = {
    (1, None): (0, [(0, 0, ""), (1, 0, left_over(1)), (511, 0, left_over(511)), (512, 512, ""),
                    (100000, 99840, left_over(160))]),
    (2, None): (0, [(0, 0, ""), (1, 0, left_over(1)), (512, 0, left_over(512)), (4096, 4096, ""),
                    (100000, 98304, left_over(1696))]),
    **{("further on", bits): (4 << 20, [
        (0, 0, ""), (1, 0, left_over(1)), (512, 0, left_over(512)), (4096, 4096, ""),
        (100000, 98304, left_over(1696)),
        *((-1 - size, 0, BEFORE) for size in (0, 1, 512, 4096, 100000))]) for bits in (256, 512)},
    **{("lost start", how): (2 << 20, [
        (-1, 0, BEFORE), (0, 0, ""), (1023, 512, left_over(511)), (-2 << 20, 0, BEFORE)])
       for how in (bytes, os.urandom)},
}


@pytest.mark.parametrize("kind, how, size, plain_size, message", [
    (*kind, start + size, *row) for kind, (start, rows) in TRUNCATED.items() for size, *row in rows])
def test_truncated_image(luksrd, to_truncate, kind, how, size, plain_size, message):
    """All its whole sectors are written."""
    check_truncated(luksrd, to_truncate(kind, how), size, plain_size, message)


def test_files_in_other_places(luksrd, made):
    """One file as both, both swapped, a detached header alone, and the image or its header swapped
    with the key file."""
    attached = made.luks1()
    expect(luksrd("luksCat --key-file pass --header", attached.image, attached.image),
           attached.plain)
    expect(luksrd("luksCat --key-file", attached.image, "pass"), message=NOT_LUKS, status=4)
    volume = detached(made, 2)
    expect(luksrd("luksCat --key-file pass --header", volume.image, volume.header),
           message=NOT_LUKS, status=4)
    expect(luksrd("luksCat --key-file pass", volume.header), status=1,
           message="luksrd: segment refused: offset")
