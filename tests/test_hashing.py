"""How much is hashed: the checksum of a header of LUKS2 is computed once, though the image is loaded in pieces."""
import re

import pytest
from support import expect, needs, run
from volumes import cryptsetup, overwrite, passphrases

COMPRESSION = "sha2::block256::compress"


def calls_of(function, profile):
    """How often this function is called, by a profile of callgrind: it writes `(7) name` where a name stands first and
    `(7)` from then on, and `calls=` below what is called."""
    names, called, calls = {}, None, 0
    for line in profile.splitlines():
        if match := re.match(r"(c?)fn=(\(\d+\))(?: (.*))?", line):
            if match[3]:
                names[match[2]] = match[3]
            if match[1]:
                called = match[2]
        elif match := re.match(r"calls=(\d+)", line):
            calls += int(match[1]) * (names[called] == function)
    return calls


@needs("cryptsetup", "valgrind")
@pytest.mark.parametrize("size", [16 << 10, 4 << 20])
@pytest.mark.parametrize("damaged, hashed", [
    ("no header", 2), ("the text of the primary", 2), ("the text of the secondary", 2),
    ("the magic of the primary", 1),  # no header is there
])
def test_each_header_is_hashed_once(luksrd, tmp_path, size, damaged, hashed):
    image, profile = tmp_path / "image", tmp_path / "profile"
    passphrases(tmp_path)
    with open(image, "wb") as file:
        file.truncate(32 << 20)
    cryptsetup("luksFormat --type luks2 --key-file pass --pbkdf pbkdf2 --pbkdf-force-iterations 1000 "
               "--luks2-keyslots-size 512k --luks2-metadata-size", str(size), image, cwd=tmp_path)
    offsets = {"the magic of the primary": 0, "the text of the primary": 8192, "the text of the secondary": size + 8192}
    if damaged in offsets:
        overwrite(image, offsets[damaged], b"damaged")
    expect(run("valgrind", "--quiet", "--tool=callgrind", f"--callgrind-out-file={profile}",
               *luksrd.command("isLuks image"), cwd=tmp_path))
    calls = calls_of(COMPRESSION, profile.read_text())
    # the checksum is SHA-256 of the whole header, which is padded by a block of 64 bytes (FIPS 180-4, section 5.1.1)
    assert calls == hashed * (size // 64 + 1)
