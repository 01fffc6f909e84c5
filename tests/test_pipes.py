"""What a run leaves in a pipe: nothing that it does not need is read."""
import os
import threading

import pytest
from support import NO_KEY, expect
from volumes import copy_of, edit_segment, payload_start

# the end of the key material of the sample volume: 4000 stripes of 64 bytes, from sector 8 on
AREA_END = 8 * 512 + 64 * 4000
REST = b"the rest"


@pytest.fixture
def consumed(luksrd, tmp_path):
    """consumed(LINE, CONTENT) gives how a run ends over the named pipe `pipe`, or standard input, into which this and
    more is written, and how many bytes of it the run consumed."""
    os.mkfifo(tmp_path / "pipe")

    def get(line, content):
        content += REST
        # both ends open at once through this; then the writer keeps one, and the reader what the run leaves
        both = os.open(tmp_path / "pipe", os.O_RDWR)
        reading = os.open(tmp_path / "pipe", os.O_RDONLY)
        writing = os.open(tmp_path / "pipe", os.O_WRONLY)
        os.close(both)

        def write():
            with open(writing, "wb", buffering=0) as pipe:
                left = memoryview(content)
                while left:
                    left = left[pipe.write(left):]

        writer = threading.Thread(target=write)
        writer.start()
        ended = luksrd(line, stdin=reading if "-" in line.split() else None)
        with open(reading, "rb") as pipe:
            rest = pipe.read()
        writer.join()
        assert rest == content[len(content) - len(rest):]
        return ended, len(content) - len(rest)

    return get


@pytest.mark.parametrize("line, count, output", [
    ("testPassphrase --key-file pass pipe", AREA_END, "opens"),
    ("testPassphrase --key-file pass -", AREA_END, "opens"),
    ("testPassphrase --key-file pass --header pipe volume", AREA_END, "opens"),
    ("luksCat --key-file pass --header pipe volume", AREA_END, "plain"),
    ("isLuks --header pipe volume", 592, None),
])
def test_no_more_than_the_key_areas(consumed, here, sample, line, count, output):
    ended, taken = consumed(line, sample.volume.read_bytes())
    expect(ended, getattr(sample, output) if output else b"")
    assert taken == count


@pytest.mark.parametrize("line, output, message, status", [
    ("luksCat --key-file wrong --header header pipe", b"", NO_KEY, 2),
    ("luksCat --key-file pass --header pass pipe", b"", "luksrd: not a LUKS image", 4),
    ("testPassphrase --key-file pass --header header pipe", b"Key slot 0 opens the volume.\n", "", 0),
    ("luksUUID --header header pipe", b"6c756b73-7264-4073-8616-d706c652e000\n", "", 0),
    ("luksCheck --header header pipe", b"clean\n", "", 0),
])
def test_nothing_of_an_image_beside_a_header(consumed, here, sample, line, output, message, status):
    """It is not read before a key was found, nor by a command that needs only the header."""
    (here / "header").write_bytes(sample.volume.read_bytes()[:AREA_END])
    ended, taken = consumed(line, sample.volume.read_bytes())
    expect(ended, output, message, status)
    assert taken == 0


def test_nothing_of_an_image_whose_header_is_dumped(consumed, luksrd, here, sample):
    (here / "header").write_bytes(sample.volume.read_bytes()[:AREA_END])
    dumped = luksrd("luksDump header")
    assert dumped.output.startswith(b"Version: 1\n")
    assert consumed("luksDump --header header pipe", sample.volume.read_bytes()) == (dumped, 0)
    for header, status in ("header", 0), ("wrong", 1):
        assert consumed(f"isLuks --header {header} pipe", sample.volume.read_bytes()) == ((status, b"", ""), 0)


@pytest.fixture
def extended(made2, tmp_path):
    """A volume of 400 sectors: its file, and the text."""
    plain = (bytes(range(251)) * 820)[:400 * 512]
    made = made2("aes-cbc-essiv:sha256", 128, "--sector-size", "512", plain=plain)
    (tmp_path / "pass").write_bytes(b"a passphrase")
    return copy_of(made, tmp_path / "extended"), plain


@pytest.mark.parametrize("sectors", [1, 2, 3, 127, 128, 129, 400])
@pytest.mark.parametrize("line", ["luksCat --key-file pass pipe", "luksCat --key-file pass -",
                                  "luksCat --key-file pass --header extended pipe"])
def test_nothing_past_the_end_of_a_payload(consumed, extended, line, sectors):
    """It is read ahead, but not past its end."""
    image, plain = extended
    edit_segment(image, size=str(sectors * 512))
    ended, taken = consumed(line, image.read_bytes())
    expect(ended, plain[:sectors * 512])
    assert taken == payload_start(image) + sectors * 512
