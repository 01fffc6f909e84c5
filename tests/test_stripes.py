"""The commands afSplit and afMerge, on files and on pipes. What is expected was computed by Python's hashlib."""
import hashlib
import os

import pytest
from support import FULL, expect, reader_that_goes_away

ZEROS, KEY, ONE = bytes(28), b"\xff" * 28, bytes(range(32))
# SHA-224's length, so that a stripe is one block: the hash of zeros, and the last of two stripes of KEY
HASHED = bytes.fromhex("66687aadf862bd776c8fc18b8e9f8e20089714856ee233b3902a591d")
LAST = bytes.fromhex("99978552079d428893703e74716071dff768eb7a911dcc4c6fd5a6e2")
# pieces of 20, 20, 20 and 4 bytes
LONG_KEY = bytes(range(64))
LONG_RANDOM = bytes((i * 7 + 3) % 256 for i in range(128))
LONG_LAST = bytes.fromhex("cd644aa621f85f393736148e266a9cf06f90ab4902ef320028d925a089e0670c"
                          "99aac1fafb836767fa39c85c017179f809aa2a3c0754ae9f4692ea80f48efa17")
TOO_FEW_RANDOM = "luksrd: random bytes are too few"
BAD_KEY = "luksrd: key must be 1 to 512 bytes"


@pytest.mark.parametrize("hash_, stripes, key, random, output, message, status", [
    ("sha256", 2, KEY, ZEROS, ZEROS + LAST, "", 0),
    ("sha256", 3, ZEROS, ZEROS + HASHED, ZEROS + HASHED + HASHED, "", 0),
    ("sha1", 3, LONG_KEY, LONG_RANDOM, LONG_RANDOM + LONG_LAST, "", 0),
    ("sha1", 1, b"12345", b"", b"12345", "", 0),
    ("sha256", 2, KEY, ZEROS[1:], b"", TOO_FEW_RANDOM, 4),
    ("sha256", 3, b"1234", b"abcdefg", b"abcd", TOO_FEW_RANDOM, 4),
    ("sha256", 2, b"", ZEROS, b"", BAD_KEY, 4),
    ("sha256", 2, bytes(513), bytes(513), b"", BAD_KEY, 4),
])
@pytest.mark.parametrize("is_pipe", [False, True])
def test_split(each_luksrd, tmp_path, hash_, stripes, key, random, output, message, status, is_pipe):
    (tmp_path / "key").write_bytes(key)
    (tmp_path / "random").write_bytes(random)
    line = f"afSplit --hash {hash_} --stripes {stripes} --random"
    ended = each_luksrd(line, "-", "key", stdin=random) if is_pipe else each_luksrd(line, "random", "key")
    expect(ended, output, message, status)


@pytest.mark.parametrize("hash_, stripes, stored, output, message, status", [
    ("sha256", 1, ONE, ONE, "", 0),
    ("SHA256", 1, ONE, ONE, "", 0),
    ("sha256", 2, ZEROS + LAST, KEY, "", 0),
    ("sha256", 3, ZEROS + HASHED + HASHED, ZEROS, "", 0),
    ("sha1", 3, LONG_RANDOM + LONG_LAST, LONG_KEY, "", 0),
    ("sha256", 2, (ZEROS + LAST)[:-1], b"", "luksrd: stripes are too few", 4),
])
@pytest.mark.parametrize("way", ["file", "standard input", "pipe"])
def test_merge(each_luksrd, tmp_path, hash_, stripes, stored, output, message, status, way):
    (tmp_path / "stripes").write_bytes(stored)
    line = f"afMerge --hash={hash_} --stripes={stripes} --key-bytes={len(output) or len(KEY)}"
    stdin = {"file": None, "standard input": tmp_path / "stripes", "pipe": stored}[way]
    expect(each_luksrd(line, "stripes" if way == "file" else "-", stdin=stdin), output, message, status)


def split(hash_, key, random):
    """The stripes of a key, as the LUKS1 standard has it, by hashlib."""
    size, chain = hashlib.new(hash_).digest_size, bytes(len(key))
    for at in range(0, len(random), len(key)):
        mixed = bytes(a ^ b for a, b in zip(chain, random[at:at + len(key)]))
        pieces = [mixed[begin:begin + size] for begin in range(0, len(key), size)]
        hashes = [hashlib.new(hash_, number.to_bytes(4, "big") + piece).digest()[:len(piece)]
                  for number, piece in enumerate(pieces)]
        chain = b"".join(hashes)
    return random + bytes(a ^ b for a, b in zip(chain, key))


@pytest.mark.parametrize("hash_", ["sha1", "sha224", "sha256", "sha384", "sha512"])
@pytest.mark.parametrize("length", [16, 64, 100])
def test_beside_hashlib(each_luksrd, tmp_path, hash_, length):
    key, random = bytes(range(length)), bytes(i * i % 251 for i in range(199 * length))
    (tmp_path / "key").write_bytes(key)
    stripes = split(hash_, key, random)
    expect(each_luksrd(f"afSplit --hash {hash_} --stripes 200 --random - key", stdin=random), stripes)
    expect(each_luksrd(f"afMerge --hash {hash_} --stripes 200 --key-bytes {length} -", stdin=stripes), key)


def test_the_rest_of_a_pipe_is_there_for_the_next_program(luksrd):
    reading, writing = os.pipe()
    os.write(writing, ZEROS + LAST + b"the rest")
    os.close(writing)
    with open(reading, "rb") as pipe:
        expect(luksrd("afMerge --hash sha256 --stripes 2 --key-bytes 28 -", stdin=pipe), KEY)
        assert pipe.read() == b"the rest"


def test_full_device(luksrd, tmp_path):
    (tmp_path / "stripes").write_bytes(ONE)
    expect(luksrd("afMerge --hash sha256 --stripes 1 --key-bytes 32 stripes", stdout=FULL),
           message="luksrd: write failed", status=6)
    expect(luksrd("afMerge --hash sha256 --stripes 9 --key-bytes 32 stripes", stdout=FULL),
           message="luksrd: stripes are too few", status=4)


def test_a_reader_that_goes_away(luksrd, tmp_path):
    (tmp_path / "key").write_bytes(bytes(512))
    line = "afSplit --hash sha512 --stripes 4000 --random /dev/zero key"
    expect(reader_that_goes_away(luksrd, line), bytes(10), "luksrd: write failed", 6)
