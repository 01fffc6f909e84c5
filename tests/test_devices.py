"""Files and devices as a shell passes them: inputs that are the output, too, block devices, closed descriptors, full
devices, and file systems without /dev or /proc."""
import os
import pathlib

import pytest
from support import FULL, NO_KEY, USAGE, alone, checksum, expect, namespace, needs, run
from volumes import copy_of, overwrite

WRITE_FAILED = "luksrd: write failed"
# the end of the key material of the sample volume: 4000 stripes of 64 bytes, from sector 8 on
AREA_END = 8 * 512 + 64 * 4000


@pytest.fixture
def there(here):
    """The samples, and the header of one of them."""
    (here / "header").write_bytes((here / "volume").read_bytes()[:AREA_END])
    return here


def refused(program, line, named, output, stdin=None, flags=os.O_RDWR):
    """The run refuses the input of this name, and what it would write to is as before."""
    before = checksum(output.read_bytes())
    descriptor = os.open(output, flags)
    try:
        expect(program(line, stdin=stdin, stdout=descriptor), message=f"luksrd: cannot open {named}", status=4)
    finally:
        os.close(descriptor)
    assert checksum(output.read_bytes()) == before


# an input is the output, too: the file, the name that is refused, and the command
ONTO = [
    ("volume", "volume", "luksCat --key-file pass volume"),
    ("pass", "pass", "luksCat --key-file pass volume"),
    ("volume", "link", "luksCat --key-file pass link"),
    ("header", "header", "luksCat --key-file pass --header header volume"),
    ("header", "header", "luksDump --header header volume"),
    ("volume", "volume", "luksCat --key-file pass --header header volume"),
    ("volume", "-", "luksCat --key-file pass -"),
    ("volume", "-", "luksCat --key-file pass --header - header"),
]


@pytest.mark.parametrize("file, named, line", ONTO)
@pytest.mark.parametrize("flags", [os.O_RDWR, os.O_WRONLY | os.O_APPEND], ids=["into", "appended"])
def test_a_file_onto_itself(luksrd, there, file, named, line, flags):
    os.link(there / "volume", there / "link")
    refused(luksrd, line, named, there / file, there / file if named == "-" else None, flags)


def test_null_device_onto_itself(luksrd, here):
    expect(luksrd("isLuks /dev/null", stdout=pathlib.Path("/dev/null")), status=1)
    expect(luksrd("luksUUID /dev/null", stdout=pathlib.Path("/dev/null")), message="luksrd: not a LUKS image", status=4)


@alone
@needs("loop", "root")
def test_a_block_device_onto_itself(luksrd, there, loop, sample):
    """A device has many names, and a loop device and its file have the same bytes."""
    copy_of(there / "volume", there / "mapped")
    image, other = loop("mapped"), loop("mapped")
    os.mknod(there / "node", 0o60600, os.stat(image).st_rdev)
    for line, named, output in [
        (f"luksCat --key-file pass {image}", image, image),
        (f"luksCat --key-file pass {image}", image, "node"),
        ("luksCat --key-file pass node", "node", image),
        (f"luksCat --key-file pass {image}", image, "mapped"),
        ("luksCat --key-file pass mapped", "mapped", image),
        (f"luksCat --key-file pass {image}", image, other),
        ("luksCat --key-file mapped volume", "mapped", image),
        ("luksDump --header mapped volume", "mapped", image),
    ]:
        refused(luksrd, line, named, there / output)
    expect(luksrd("luksCat --key-file pass node"), sample.plain)


@alone
@needs("loop")
def test_a_block_device_onto_another(luksrd, here, loop, sample):
    (here / "blank").write_bytes(bytes(1 << 20))
    image, target = loop("volume"), pathlib.Path(loop("blank"))
    expect(luksrd("luksCat --key-file pass", image, stdout=target))
    assert target.read_bytes() == sample.plain + bytes((1 << 20) - len(sample.plain))


@alone
@needs("loop")
@pytest.mark.parametrize("blank", [" ", "\t", "\n", "\n\n"], ids=repr)
def test_a_loop_device_over_a_name_with_a_blank_at_its_end(luksrd, here, loop, blank):
    """The kernel shows this name with a newline after it."""
    file = copy_of(here / "volume", here / f"mapped{blank}")
    device = loop(file.name)
    refused(luksrd, f"luksCat --key-file pass {device}", device, file)
    before = checksum(file.read_bytes())
    ended = luksrd("luksCat --key-file pass", file.name, stdout=pathlib.Path(device))
    expect(ended, message=f"luksrd: cannot open {file.name}", status=4)
    assert checksum(file.read_bytes()) == before


# Closed descriptors

def closed(*descriptors):
    """How a run begins with these descriptors closed."""
    return {"preexec_fn": lambda: [os.close(descriptor) for descriptor in descriptors]}


@pytest.mark.parametrize("line, plain, message, status", [
    ("luksCat --key-file - volume", False, NO_KEY, 2),
    ("luksCat --key-file pass --header - volume", False, "luksrd: not a LUKS image", 4),
    ("luksCat --key-file pass volume", True, "", 0),
    ("luksCat --key-file pass --header header volume", True, "", 0),
])
def test_no_standard_input(luksrd, there, sample, line, plain, message, status):
    """No file takes its place."""
    expect(luksrd(line, **closed(0)), sample.plain if plain else b"", message, status)


@pytest.mark.parametrize("line", [
    "luksUUID volume", "luksDump volume", "luksCheck volume", "testPassphrase --key-file pass volume",
    "luksCat --key-file pass volume", "luksDump --header header volume",
    "luksCat --key-file pass --header header volume", "afSplit --hash sha256 --stripes 2 --random volume key",
    "afMerge --hash sha256 --stripes 1 --key-bytes 64 volume",
])
def test_no_standard_output(luksrd, there, line):
    (there / "key").write_bytes(bytes(64))
    expect(luksrd(line, **closed(1)), message=WRITE_FAILED, status=6)


def test_no_standard_output_is_needed(luksrd, there):
    expect(luksrd("isLuks volume", **closed(1)))
    expect(luksrd("isLuks pass", **closed(1)), status=1)
    expect(luksrd("isLuks --header - volume", **closed(0)), status=1)
    expect(luksrd("luksCat --key-file wrong volume", **closed(1)), message=NO_KEY, status=2)


def test_no_standard_error(luksrd, here, sample):
    expect(luksrd("luksCat --key-file pass volume", **closed(2)), sample.plain)
    expect(luksrd("luksCat --key-file pass volume", **closed(0, 1, 2)), status=6)
    expect(luksrd("isLuks volume", **closed(0, 1, 2)))


# File systems

@needs("mount")
def test_a_file_of_another_file_system_with_the_same_number(luksrd, here, sample):
    """File systems of their own number their files alike: that numbers agree makes no input an output."""
    (here / "one").mkdir()
    (here / "two").mkdir()
    script = """mount -t tmpfs none one && mount -t tmpfs none two && cp volume one/input && : >two/output || exit 99
        stat -c %i one/input two/output | uniq | wc -l >&2
        "$0" luksCat --key-file pass one/input 1<>two/output; status=$?; cat two/output; exit $status"""
    ended = run(*namespace(), "bash", "-c", script, luksrd.path, cwd=here)
    if ended.message.startswith("2\n"):
        pytest.skip("file systems number their files otherwise here")
    expect(ended, sample.plain, "1")


@needs("mount")
@pytest.mark.parametrize("folder", ["dev", "proc"])
@pytest.mark.parametrize("line, stdin, output, message, status", [
    ("luksCat --key-file pass -", "volume", "plain", "", 0),
    ("testPassphrase --key-file pass --header - volume", "volume", "opens", "", 0),
    ("luksCat --key-file - volume", "pass", "plain", "", 0),
    ("luksCat --key-file pass volume", None, "plain", "", 0),
    ("luksCat --key-file pass missing", None, None, "luksrd: cannot open missing", 4),
])
def test_an_empty_folder_of_the_system(luksrd, here, sample, folder, line, stdin, output, message, status):
    """In /dev there is neither /dev/null nor a name of standard input; without /proc nothing tells what that is."""
    script = f'mount -t tmpfs none /{folder} && exec "$0" "$@"'
    ended = run(*namespace(), "bash", "-c", script, *luksrd.command(line), stdin=stdin and here / stdin, cwd=here)
    expect(ended, getattr(sample, output) if output else b"", message, status)


@needs("mount")
def test_an_image_onto_itself_in_an_empty_dev(luksrd, here):
    def apart(line, **how):
        return run(*namespace(), "bash", "-c", 'mount -t tmpfs none /dev && exec "$0" "$@"', *luksrd.command(line),
                   cwd=here, **how)

    refused(apart, "luksCat --key-file pass volume", "volume", here / "volume")


# Two faults at once

def none(there):
    """No damage."""


def torn_sector(there):
    with open(there / "volume", "r+b") as file:
        file.truncate(os.fstat(file.fileno()).st_size - 1)


def torn_sector_after_many(there):
    torn_sector(there)
    os.truncate(there / "volume", os.stat(there / "volume").st_size + (200 << 10))


def finding(there):
    overwrite(there / "volume", 256, b"\0\0\0\1")


def short_area(there):
    os.truncate(there / "volume", AREA_END - 1)


IN_AREA = "luksrd: image ends inside the header or a key area"
TORN = "luksrd: image ends inside a sector: 511 bytes left over"
BESIDE = "luksCat --key-file pass --header header volume"
CAT = "luksCat --key-file pass volume"


@pytest.mark.parametrize("damage, line, message, status", [
    (torn_sector, CAT, WRITE_FAILED, 6),
    (torn_sector, BESIDE, WRITE_FAILED, 6),
    (torn_sector_after_many, CAT, WRITE_FAILED, 6),
    (finding, "luksCheck volume", WRITE_FAILED, 6),
    (none, "afSplit --hash sha256 --stripes 3 --random few key", WRITE_FAILED, 6),
    (short_area, CAT, IN_AREA, 4),
    (short_area, "luksCat --key-file wrong volume", IN_AREA, 4),
])
def test_a_fault_and_a_full_device(luksrd, there, damage, line, message, status):
    """Of what was written nothing is there, so this is what a run ends with, unless it wrote nothing."""
    (there / "key").write_bytes(bytes(64))
    (there / "few").write_bytes(bytes(100))
    damage(there)
    expect(luksrd(line, stdout=FULL), message=message, status=status)


@pytest.mark.parametrize("damage, line, output, message, status", [
    (none, "isLuks", b"", USAGE, 1),
    (finding, "luksCheck volume", b"slot 1: state\n", "luksrd: the header has findings", 1),
    (none, "luksCat --key-file wrong volume", b"", NO_KEY, 2),
    (none, "isLuks missing", b"", "luksrd: cannot open missing", 4),
    (none, "luksUUID pass", b"", "luksrd: not a LUKS image", 4),
    (torn_sector, CAT, 512, TORN, 4),
    (torn_sector, BESIDE, 512, TORN, 4),
])
def test_a_message_that_cannot_be_printed(luksrd, there, sample, damage, line, output, message, status):
    """It changes neither status nor output."""
    output = sample.plain[:output] if isinstance(output, int) else output
    damage(there)
    expect(luksrd(line), output, message, status)
    expect(luksrd(line, stderr=FULL), output, status=status)


def test_neither_output_nor_message_can_be_printed(luksrd, here, sample):
    expect(luksrd(CAT, stderr=FULL), sample.plain)
    expect(luksrd(CAT, stdout=FULL, stderr=FULL), status=6)


def test_a_signal_ends_a_long_derivation(luksrd, here):
    overwrite(here / "volume", 212, b"\xff" * 4)
    expect(run("timeout", "-k", "60", "1", *luksrd.command("testPassphrase --key-file pass volume"), cwd=here),
           status=124)
