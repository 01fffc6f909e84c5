"""The commands on the sample volumes, from files and pipes: what they print, and how they refuse."""
import os
import subprocess

import pytest
from support import FULL, NO_KEY, expect, reader_that_goes_away

NOT_LUKS = "luksrd: not a LUKS image"
IN_AREA = "luksrd: image ends inside the header or a key area"
WRITE_FAILED = "luksrd: write failed"


@pytest.mark.parametrize("line, stdin", [
    ("luksCat --key-file pass {}", None),
    ("luksCat --max-iterations=20000 --key-slot=0 --key-file=pass {}", None),
    ("luksCat --key-file pass -", "{}"),
    ("luksCat --key-file - {}", "pass"),
    ("luksCat --key-file pass --header {0} {0}", None),
])
@pytest.mark.parametrize("name, plain", [("volume", "plain"), ("volume2", "plain2")])
def test_plain_text(each_luksrd, here, sample, name, plain, line, stdin):
    given = stdin and here / stdin.format(name)
    expect(each_luksrd(line.format(name), stdin=given), getattr(sample, plain))


def test_no_volume(luksrd, here):
    """Noise, and a volume that is truncated inside its header."""
    (here / "noise").write_bytes(os.urandom(1 << 20))
    os.truncate(here / "volume", 591)
    for command in "luksCat --key-file pass", "luksUUID", "luksDump", "luksCheck":
        expect(luksrd(command, "noise"), message=NOT_LUKS, status=4)
        expect(luksrd(command, "volume"), message=IN_AREA, status=4)
    expect(luksrd("isLuks noise"), status=1)
    expect(luksrd("isLuks volume"), message=IN_AREA, status=4)


@pytest.mark.parametrize("line", ["luksCat --key-file pass volume", "luksDump volume", "luksUUID volume",
                                  "luksCheck volume", "testPassphrase --key-file pass volume"])
def test_full_device(luksrd, here, line):
    expect(luksrd(line, stdout=FULL), message=WRITE_FAILED, status=6)
    if "pass" in line:
        expect(luksrd(line.replace("pass volume", "wrong volume"), stdout=FULL), message=NO_KEY, status=2)


def test_a_reader_that_goes_away(luksrd, here, sample, start):
    """Whatever remains of the image, the run ends."""
    writer = start("cat", "volume", "/dev/zero", stdout=subprocess.PIPE)
    ended = reader_that_goes_away(luksrd, "luksCat --key-file pass -", writer.stdout)
    expect(ended, sample.plain[:10], WRITE_FAILED, 6)
