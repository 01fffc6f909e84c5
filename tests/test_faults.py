"""Reads and writes that fail or are interrupted, by strace: for each input of a run, each kind of input, and the first,
the middle and the last read of it. No read that fails is an end."""
import collections
import fcntl
import os
import random
import re
import threading

import pytest
from support import FULL, alone, expect, needs, run
from volumes import QUICK, copy_of, cryptsetup, edit_segment, fill1, metadata, payload_start

pytestmark = needs("strace")
READ_FAILED, WRITE_FAILED = "luksrd: read failed", "luksrd: write failed"
SECTORS = 400
draw = random.Random(1)
TEXT = draw.randbytes(SECTORS * 512)
# a passphrase that fills many sectors, so that it is read from a device in several calls, too
LONG = bytes(draw.choices(range(33, 127), k=384 * 512))
RANDOM = draw.randbytes((SECTORS - 1) * 512)


@pytest.fixture(scope="session")
def long_volume(cached):
    """A volume of LUKS1 with this passphrase."""

    def make(path):
        key = path.with_name("long")
        key.write_bytes(LONG)
        path.write_bytes(bytes(2 << 20))
        cryptsetup("luksFormat --type luks1 --hash sha256 --key-size 128 --cipher aes-cbc-essiv:sha256 --align-payload 8",
                   *QUICK, "--key-file", key, path)
        fill1(path, TEXT, key)

    return cached("long-volume", make)


@pytest.fixture
def inputs(made2, long_volume, tmp_path):
    """Volumes that fit into a pipe, so that the writer waits for nobody and each read of a run gets what it gets in any
    other one: image1, image2 and their headers, header1 and header2; their payloads start where `starts` has it."""
    image1 = copy_of(long_volume, tmp_path / "image1")
    image2 = copy_of(made2("aes-cbc-essiv:sha256", 128, "--sector-size", "512", plain=TEXT), tmp_path / "image2")
    content, old = image2.read_bytes(), payload_start(image2)
    areas = [slot["area"] for slot in metadata(image2)[0]["keyslots"].values()]
    end = max(int(area["offset"]) + int(area["size"]) for area in areas)
    image2.write_bytes(content[:end] + content[old:old + len(TEXT)])
    edit_segment(image2, offset=str(end))
    starts = {"1": payload_start(image1), "2": end}
    for number, image in ("1", image1), ("2", image2):
        (tmp_path / f"header{number}").write_bytes(image.read_bytes()[:starts[number]])
        assert image.stat().st_size == starts[number] + len(TEXT) < 1 << 20
    (tmp_path / "long").write_bytes(LONG)
    (tmp_path / "pass").write_bytes(b"a passphrase")
    (tmp_path / "random").write_bytes(RANDOM)
    (tmp_path / "key").write_bytes(RANDOM[:512])
    (tmp_path / "stripes").write_bytes(RANDOM + bytes(512))
    os.mkfifo(tmp_path / "fifo")
    return starts


def fill_pipe(descriptor, content):
    """Writes this into a pipe that holds all of it, at once."""
    with open(descriptor, "wb", buffering=0) as pipe:
        fcntl.fcntl(pipe, fcntl.F_SETPIPE_SZ, 1 << 20)
        assert pipe.write(content) == len(content)


class Offered:
    """An input of a kind, with the bytes of a file: its name for the program, and how strace shows it."""

    def __init__(self, program, kind, file, loop):
        self.program, self.kind, self.file = program, kind, program.folder / file
        if kind == "device":
            self.name = loop(self.file)
        else:
            self.name = {"file": file, "fifo": "fifo", "pipe": "-"}[kind]
        self.shown = "(0<pipe:[" if kind == "pipe" else f"<{program.folder / self.name}"

    def traced(self, line, *options, **how):
        """A run over it, @ in the command, whose reads are in the file trace."""
        command = ["strace", "-qq", "-y", "-o", "trace", "-e", "trace=read", *options,
                   *self.program.command(line.replace("@", self.name))]
        how["cwd"] = self.program.folder
        if self.kind == "pipe":
            reading, writing = os.pipe()
            fill_pipe(writing, self.file.read_bytes())
            with open(reading, "rb") as pipe:
                return run(*command, stdin=pipe, **how)
        if self.kind != "fifo":
            return run(*command, **how)
        fifo = self.program.folder / "fifo"

        def write():
            try:
                fill_pipe(os.open(fifo, os.O_WRONLY), self.file.read_bytes())
            except BrokenPipeError:
                pass

        writer = threading.Thread(target=write)
        writer.start()
        try:
            return run(*command, **how)
        finally:
            # the writer waits for a reader if the program has not opened the pipe
            os.close(os.open(fifo, os.O_RDONLY | os.O_NONBLOCK))
            writer.join()

    def trace(self):
        """The reads of the last run, each with whether it is one of this input."""
        lines = (self.program.folder / "trace").read_text(errors="replace").splitlines()
        return [(line, self.shown in line) for line in lines]

    def calls(self):
        """The numbers of the reads of this input among all of the last run, from 1 on."""
        return [number for number, (_, is_its) in enumerate(self.trace(), 1) if is_its]

    def consumed(self):
        """How many bytes its reads gave before the one that failed; None if none of them failed."""
        count = 0
        for line, is_its in self.trace():
            if is_its and "INJECTED" in line:
                return count
            if is_its:
                count += int(line.split()[-1])
        return None


Row = collections.namedtuple("Row", "file line output unit start", defaults=(b"", 1, None))
SPLIT = "afSplit --hash sha256 --stripes 400 --random"
# an input: its bytes, the command, and what of the output comes from it, in units of so many bytes, from where on
ROWS = {
    "image of luksCat, LUKS1": Row("image1", "luksCat --key-file long @", TEXT, 512, "1"),
    "image of luksCat, LUKS2": Row("image2", "luksCat --key-file pass @", TEXT, 512, "2"),
    "image beside a header, LUKS1": Row("image1", "luksCat --key-file long --header header1 @", TEXT, 512, "1"),
    "image beside a header, LUKS2": Row("image2", "luksCat --key-file pass --header header2 @", TEXT, 512, "2"),
    "header, LUKS1": Row("header1", "luksCat --key-file long --header @ image1"),
    "header, LUKS2": Row("header2", "luksCat --key-file pass --header @ image2"),
    "key file": Row("long", "luksCat --key-file @ image1"),
    "key file beside a header": Row("long", "testPassphrase --key-file @ --header header1 image1"),
    "image of testPassphrase, LUKS1": Row("image1", "testPassphrase --key-file long @"),
    "image of testPassphrase, LUKS2": Row("image2", "testPassphrase --key-file pass @"),
    "image of isLuks, LUKS1": Row("image1", "isLuks @"),
    "image of isLuks, LUKS2": Row("image2", "isLuks @"),
    "image of luksUUID": Row("image2", "luksUUID @"),
    "image of luksDump": Row("image1", "luksDump @"),
    "image of luksCheck": Row("image2", "luksCheck @"),
    "key of afSplit": Row("key", f"{SPLIT} random @"),
    "random file of afSplit": Row("random", f"{SPLIT} @ key", RANDOM, 512),
    "stripes of afMerge": Row("stripes", "afMerge --hash sha256 --stripes 400 --key-bytes 512 @"),
}


@pytest.mark.parametrize("kind", ["file", "fifo", "pipe", pytest.param("device", marks=[alone, needs("loop")])])
@pytest.mark.parametrize("name", ROWS)
def test_a_read_that_fails(luksrd, inputs, loop, name, kind):
    row = ROWS[name]
    offered = Offered(luksrd, kind, row.file, loop)
    whole = offered.traced(row.line)
    assert (whole.status, whole.message) == (0, "")
    assert whole.output.startswith(row.output)
    calls = offered.calls()
    middle = calls[(len(calls) - 1) // 2]
    assert offered.traced(row.line, "-e", f"inject=read:error=EINTR:when={middle}") == whole
    for call in sorted({calls[0], middle, calls[-1]}):
        # a number may differ from that of the run before, if the program is started in another way
        for _ in range(5):
            ended = offered.traced(row.line, "-e", f"inject=read:error=EIO:when={call}")
            count = offered.consumed()
            if count is not None:
                break
        begun = max(count - inputs.get(row.start, 0), 0) // row.unit * row.unit
        expect(ended, row.output[:begun], READ_FAILED, 6)


def test_a_read_that_fails_and_a_second_fault(luksrd, inputs):
    """A full device has nothing of what was written; a message that cannot be printed changes no status."""
    offered = Offered(luksrd, "file", "image1", None)
    line = "luksCat --key-file long @"
    expect(offered.traced(line), TEXT)
    last = f"inject=read:error=EIO:when={offered.calls()[-1]}"
    expect(offered.traced(line, "-e", last, stdout=FULL), message=WRITE_FAILED, status=6)
    expect(offered.traced(line, "-e", last, stderr=FULL), TEXT, status=6)


# Calls on one file

CAT = "luksCat --key-file pass volume"
BESIDE = "luksCat --key-file pass --header header volume"


@pytest.fixture
def tampered(luksrd, here, sample):
    """tampered(CALL, FILE, HOW, LINE): a run in which the calls on a file are tampered with."""
    (here / "header").write_bytes(sample.volume.read_bytes()[:260096])

    def ends(call, file, how, line, **further):
        return run("strace", "-qq", "-o", "trace", "-P", here / file, "-e", f"trace={call}", "-e",
                   f"inject={call}:{how}", *luksrd.command(line), cwd=here, **further)

    return ends


def calls_in(trace, call):
    return len(re.findall(rf"^{call}\(", trace.read_text(errors="replace"), re.MULTILINE))


@pytest.mark.parametrize("file, line", [("volume", CAT), ("pass", CAT), ("header", BESIDE), ("volume", BESIDE),
                                        ("pass", BESIDE)])
def test_interrupted_reads(tampered, here, sample, file, line):
    expect(tampered("read", file, "error=EINTR", line), message=READ_FAILED, status=6)
    assert calls_in(here / "trace", "read") == 101
    expect(tampered("read", file, "error=EINTR:when=1..100", line), sample.plain)
    expect(tampered("read", file, "error=EIO:when=1", line), message=READ_FAILED, status=6)


@pytest.mark.parametrize("how, calls, plain, message, status", [
    ("error=EINTR", 101, False, WRITE_FAILED, 6),
    ("error=EINTR:when=1..100", None, True, "", 0),
    ("error=ENOSPC:when=1", None, False, WRITE_FAILED, 6),
])
def test_interrupted_writes(tampered, here, sample, how, calls, plain, message, status):
    out = here / "out"
    out.touch()
    expect(tampered("write", out, how, CAT, stdout=out), message=message, status=status)
    assert out.read_bytes() == (sample.plain if plain else b"")
    assert calls is None or calls_in(here / "trace", "write") == calls


@pytest.mark.parametrize("file, line", [
    ("volume", "luksCat --key-file pass {}"),
    ("header", "luksCat --key-file missing --header {} volume"),
])
def test_a_file_that_may_not_be_read(tampered, here, file, line):
    expect(tampered("openat", file, "error=EACCES", line.format(here / file)),
           message=f"luksrd: cannot open {here / file}", status=4)


def test_fewer_reads_of_a_pipe_than_sectors(luksrd, inputs, loop):
    """A pipe may give as little as a page."""
    offered = Offered(luksrd, "fifo", "image2", loop)
    expect(offered.traced("luksCat --key-file pass @"), TEXT)
    assert 0 < len(offered.calls()) < SECTORS
