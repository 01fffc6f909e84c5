"""luksrd-rescue decrypt, interrupted and gone on with: killed at random moments, by Ctrl-C, by a full disk. strace
shows that data is on the disk before the map says so, and how much is read again."""
import os
import random
import re
import signal
import subprocess
import time
import types

import pytest
import volumes
from luksrd_rescue import terminal
from rescuing import Terminal, says
from support import PATIENCE, needs, shown, wait_until

LENGTH = 160 << 20
PIECE = 1 << 20


def make_large(path):
    """A volume of LUKS1 with a payload of random bytes, whatever they decrypt to."""
    volumes.passphrases(path.parent)
    with open(path, "wb") as file:
        file.truncate((2 << 20) + LENGTH)
    volumes.cryptsetup("luksFormat --type luks1 --key-file pass --pbkdf-force-iterations 1000 "
                       "--cipher aes-xts-plain64 --key-size 256", path, cwd=path.parent)
    assert volumes.payload_start(path) == 2 << 20
    chance = random.Random("large")
    with open(path, "r+b") as file:
        file.seek(2 << 20)
        for _ in range(LENGTH // PIECE):
            file.write(chance.randbytes(PIECE))


@pytest.fixture
def large(cached, tmp_path):
    """The volume, in the folder of the test as `disk.img`."""
    volume = cached("large", make_large)
    volumes.passphrases(tmp_path)
    os.symlink(volume, tmp_path / "disk.img")
    return volume


@pytest.fixture
def plain(cached, rescue, luks_cat, large):
    """Its plaintext, by luksCat."""

    def make(path):
        with open(path, "wb") as file:
            assert luks_cat("--key-file", "pass", "disk.img", stdout=file).status == 0

    return cached("plain", make)


COMMAND = ["decrypt", "disk.img", "--key-file", "pass", "-o", "plain"]


def same(one, other):
    """Whether two files have the same bytes."""
    if one.stat().st_size != other.stat().st_size:
        return False
    with open(one, "rb") as first, open(other, "rb") as second:
        return all(first.read(PIECE) == second.read(PIECE) for _ in range(-(-one.stat().st_size // PIECE)))


def has_come_to(run, condition):
    """Waits until this holds of a run, which must not end before."""
    wait_until(lambda: condition() or run.poll() is not None)
    assert run.poll() is None, run.communicate()


def blocks_of(path):
    """The blocks of a map, if it is there."""
    if not path.exists():
        return []
    rows = re.findall(r"^(0x\w+)\s+(0x\w+)\s+(\S)$", path.read_text(), re.MULTILINE)
    return [(int(start, 16), int(length, 16), status) for start, length, status in rows]


@pytest.mark.parametrize("number", range(10))
def test_killed(rescue, large, plain, number):
    """What the map calls done is right at each moment, and --resume gives the same bytes."""
    out, chance = rescue.folder / "plain", random.Random(number)
    for again in range(8):
        run = rescue.start(*COMMAND, "--quiet", *(["--resume"] if again else []), stdout=subprocess.DEVNULL,
                           stderr=subprocess.DEVNULL)
        time.sleep(chance.uniform(0.1, 1.5))
        run.kill()
        if run.wait() == 0:
            break
        check_map(rescue.folder, plain)
    else:
        says(rescue(*COMMAND, "--resume"), status=0)
    assert same(out, plain)


def check_map(folder, plain):
    """What the map of a run that was killed calls done is right."""
    if not (folder / "plain").exists():
        return
    with open(folder / "plain", "rb") as written, open(plain, "rb") as wanted:
        for start, length, status in blocks_of(folder / "plain.map"):
            if status == "+":
                written.seek(start), wanted.seek(start)
                assert shown(written.read(length)) == shown(wanted.read(length))


@pytest.mark.parametrize("number", [signal.SIGKILL, signal.SIGINT])
def test_ended_once(rescue, large, plain, number):
    run = rescue.start(*COMMAND, "--quiet")
    has_come_to(run, lambda: len(blocks_of(rescue.folder / "plain.map")) > 1)
    run.send_signal(number)
    _, message = run.communicate()
    if number == signal.SIGINT:
        assert run.returncode == 130
        wanted = r"luksrd-rescue: interrupted: [^\n]* are done; --resume goes on by plain\.map\n"
        assert re.fullmatch(wanted, message.decode())
    says(rescue(*COMMAND), "there is such a file", status=1)
    says(rescue(*COMMAND, "--resume"), status=0)
    assert same(rescue.folder / "plain", plain) and not (rescue.folder / "plain.map").exists()


def payload_read(line, volume):
    """What of the payload a line of strace reads: where, and how many bytes; nothing if it does not."""
    row = re.search(rf"preadv2?\(\d+<{re.escape(str(volume))}>.*, 1, (\d+)(?:, 0)?\) += (\d+)$", line)
    return (int(row[1]) - (2 << 20), int(row[2])) if row and int(row[1]) >= 2 << 20 else None


def calls_of(trace):
    """The calls in a trace of threads, each on one line, at the place of its end, after the thread's number."""
    begun, found = {}, []
    if not trace.exists():
        return []
    for line in trace.read_text(errors="replace").splitlines():
        thread, _, call = line.partition(" ")
        call = call.strip()
        if call.endswith("<unfinished ...>"):
            begun[thread] = call.removesuffix("<unfinished ...>").rstrip()
            found.append(f"{thread} BEGUN {call}")
            continue
        if call.startswith("<... "):
            call = begun.pop(thread, "") + call.partition("resumed>")[2]
        found.append(f"{thread} {call}")
    return found


def payload_reads(trace, volume):
    """The ranges of the payload that a run has read, in the order in which it did."""
    return [found for line in calls_of(trace) if (found := payload_read(line, volume))]


@needs("strace")
def test_order_of_the_disk_and_of_the_map(rescue, large, plain):
    """Reads and writes go forwards; the map is renamed only after the data that it calls done was synced; at most
    64 MiB were read that the map does not have."""
    trace = ["strace", "-f", "-y", "-qq", "-o", "trace", "-e",
             "trace=preadv,preadv2,pwrite64,fdatasync,fsync,rename,renameat,renameat2"]
    says(rescue(*COMMAND, "--quiet", before=trace), status=0)
    reads = payload_reads(rescue.folder / "trace", large)
    assert reads == sorted(reads) and sum(length for _, length in reads) == LENGTH
    written = synced = noted = read = renames = 0
    at_sync = {}
    for line in calls_of(rescue.folder / "trace"):
        thread = line.split()[0]
        if found := payload_read(line, large):
            read += found[1]
            assert read - noted <= 64 << 20
        elif found := re.search(r"pwrite64\(\d+<.*/plain>, .*, (\d+), (\d+)\) += (\d+)$", line):
            assert int(found[2]) == written
            written += int(found[3])
        elif "BEGUN fdatasync" in line:
            at_sync[thread] = written
        elif re.search(r" fdatasync\(\d+<.*/plain>\) += 0$", line):
            # (what was written before it began)
            synced = at_sync.pop(thread, written)
        elif re.search(r' rename\w*\(.*"plain.map"', line):
            noted, renames = synced, renames + 1
    assert renames > LENGTH >> 26 and written == LENGTH and noted == LENGTH
    assert same(rescue.folder / "plain", plain)


@needs("strace")
def test_what_is_read_again(rescue, large, plain):
    """Of what a killed run has read, the next one reads at most 64 MiB again."""
    trace = ["strace", "-f", "-y", "-qq", "-e", "trace=preadv,preadv2"]
    run = rescue.start(*COMMAND, "--quiet", before=[*trace, "-o", "trace1"])
    first = rescue.folder / "trace1"
    has_come_to(run, lambda: sum(length for _, length in payload_reads(first, large)) > 96 << 20)
    os.killpg(run.pid, signal.SIGKILL)
    run.communicate()
    says(rescue(*COMMAND, "--quiet", "--resume", before=[*trace, "-o", "trace2"]), status=0)
    both = payload_reads(first, large) + payload_reads(rescue.folder / "trace2", large)
    assert 0 <= sum(length for _, length in both) - LENGTH <= 64 << 20
    assert same(rescue.folder / "plain", plain)


def test_interrupted_while_deriving(rescue, tmp_path):
    """Ctrl-C does not wait for a key."""
    volumes.passphrases(tmp_path)
    with open(tmp_path / "slow", "wb") as file:
        file.truncate(4 << 20)
    volumes.cryptsetup("luksFormat --type luks1 --key-file pass --pbkdf-force-iterations 1000", "slow", cwd=tmp_path)
    # (the iterations of slot 0: hours)
    volumes.overwrite(tmp_path / "slow", 212, b"\xff\xff\xff\xff")
    run = rescue.start("decrypt", "slow", "--key-file", "pass", "-o", "plain", bufsize=0)
    assert b"trying key slot 0 (PBKDF2" in run.stderr.readline()
    run.send_signal(signal.SIGINT)
    assert (run.stderr.read(), run.wait()) == (b"luksrd-rescue: interrupted\n", 130)
    run.stdout.close(), run.stderr.close()
    assert not (tmp_path / "plain").exists()


@pytest.fixture
def begun(rescue, large, bad_sectors):
    """A run that a full disk has ended; more(WORD, ..) goes on with it."""
    ended = rescue(*COMMAND, env=bad_sectors(large, [], writes=40 << 20))
    says(ended, "write failed", status=6)
    return lambda *words, **how: rescue(*[*COMMAND, "--resume", *words], **how)


def test_other_volumes_are_refused(rescue, large, begun, tmp_path):
    before = (tmp_path / "plain.map").read_bytes()
    says(begun("--range", "0:1Mi"), "its length or range is", status=1)
    says(begun("--length", str(100 << 20)), "its length or range is", status=1)
    link = tmp_path / "disk.img"
    volume = os.readlink(link)
    link.unlink()
    with open(link, "wb") as file, open(volume, "rb") as source:
        file.write(source.read(2 << 20))
        file.truncate((2 << 20) + LENGTH)
    volumes.with_own_uuid(link)
    says(begun(), "its UUID is", status=1)
    (tmp_path / "shifted").write_bytes(bytes(512))
    with open(tmp_path / "shifted", "ab") as file, open(volume, "rb") as source:
        file.write(source.read(2 << 20))
        file.truncate((2 << 20) + 512 + LENGTH)
    ended = rescue("decrypt", "shifted", "--offset", "512", "--key-file", "pass", "-o", "plain", "--resume")
    says(ended, "its payload offset is", status=1)
    assert (tmp_path / "plain.map").read_bytes() == before


def test_other_names_are_not(rescue, large, plain, begun, tmp_path):
    """Image, output and map may have other names by then."""
    (tmp_path / "disk.img").rename(tmp_path / "renamed.img")
    (tmp_path / "plain").rename(tmp_path / "other")
    (tmp_path / "plain.map").rename(tmp_path / "other.map")
    says(rescue("decrypt", "renamed.img", "--key-file", "pass", "-o", "other", "--resume"), status=0)
    assert same(tmp_path / "other", plain)


def test_map_of_something_else(rescue, large, begun, tmp_path):
    (tmp_path / "plain.map").write_text(f"0 ?\n0 {LENGTH} +\n")
    says(begun(), "is not a map of luksrd-rescue", status=1)


def test_no_map(rescue, large, plain, begun, tmp_path):
    """Without a map it begins anew, but not over a file that is clearly another one."""
    (tmp_path / "plain.map").unlink()
    (tmp_path / "other").write_bytes(b"x" * 1000)
    says(begun("-o", "other"), "no map other.map", status=1)
    assert (tmp_path / "other").read_bytes() == b"x" * 1000
    says(begun(), status=0)
    assert same(tmp_path / "plain", plain)
    (tmp_path / "plain").unlink()
    says(begun(), status=0)
    assert same(tmp_path / "plain", plain)
    says(begun("-o", "other", "--force"), status=0)
    assert same(tmp_path / "other", plain)


def test_file_that_was_changed(rescue, large, plain, begun, tmp_path):
    """If it is gone, all begins anew, whatever the map says."""
    os.truncate(tmp_path / "plain", 100)
    says(begun(), "has 100 bytes, and the map is of a file of", status=1)
    (tmp_path / "plain").unlink()
    says(begun(), status=0)
    assert same(tmp_path / "plain", plain)


def test_old_bytes_are_overwritten(rescue, tmp_path):
    """What an earlier run may have left in the place of zeros does not stay."""
    volumes.passphrases(tmp_path)
    chance = random.Random("old")
    content = chance.randbytes(1 << 20) + bytes(1 << 20)
    volumes.luks2(tmp_path / "disk.img", content, "aes-xts-plain64", 512, "--sector-size", "4096")
    command = [*COMMAND, "--range", f"0:{2 << 20}"]
    says(rescue(*command, "--map", "map"), status=0)
    text = (tmp_path / "map").read_text()
    (tmp_path / "map").write_text(re.sub(r"^0x0+  0x0*200000  \+$", "0x0 0x80000 +\n0x80000 0x180000 ?", text,
                                         flags=re.MULTILINE))
    volumes.overwrite(tmp_path / "plain", 1 << 20, b"x" * (1 << 20))
    says(rescue(*command, "--map", "map", "--resume"), status=0)
    assert (tmp_path / "plain").read_bytes() == content


def test_progress(rescue, large):
    """On a terminal with rate and time left; --quiet shows nothing."""
    with Terminal(rescue, *COMMAND) as terminal:
        assert terminal.ended() == 0
        # (what is done at once has no rate yet)
        assert re.search(rb"\d+% .*\[\d+:\d+<(\?|\d+:\d+), .*B/s\]", terminal.shown) and rb"Traceback" not in terminal.shown
    (rescue.folder / "plain").unlink()
    with Terminal(rescue.changed("import sys; sys.modules['tqdm'] = None"), *COMMAND) as terminal:
        assert terminal.ended() == 0 and b"%" not in terminal.shown
    (rescue.folder / "plain").unlink()
    assert rescue(*COMMAND, "--quiet").message == ""
    # without a terminal a line each ten seconds, which are none here
    (rescue.folder / "plain").unlink()
    ended = rescue.changed("terminal._SECONDS = 0")(*COMMAND)
    lines = [line for line in ended.message.splitlines() if line.endswith(" left")]
    assert len(lines) > 2 and re.fullmatch(r"luksrd-rescue: 160 MiB of 160 MiB \(100 %\), .*iB/s, 0 s left", lines[-1])


def test_terminal_that_is_closed(rescue, large, plain):
    """A run that need not end with its terminal goes on without it."""
    ignoring = ["sh", "-c", "trap '' HUP; exec \"$@\"", "sh"]
    with Terminal(rescue, *COMMAND, before=ignoring, stdout=subprocess.DEVNULL) as terminal:
        terminal.until(rb"\d+%")
        os.dup2(os.open("/dev/null", os.O_RDWR), terminal.main)
        assert terminal.process.wait(PATIENCE) == 0
    assert same(rescue.folder / "plain", plain)


def test_progress_without_a_terminal(monkeypatch, capfd):
    """A line each ten seconds, by a clock that the test sets."""
    now, lines = [0.0], []
    monkeypatch.setattr(terminal, "time", types.SimpleNamespace(monotonic=lambda: now[0]))
    progress = terminal.Progress(100 << 20)
    for at, count in (0, 0), (4, 8), (9.9, 8), (10, 4), (12, 10), (19.9, 0), (20, 10), (45, 0), (4045, 0):
        now[0] = at
        progress.advance(count << 20)
        lines.append(capfd.readouterr().err.removeprefix("luksrd-rescue: "))
    assert lines == ["", "", "", "20 MiB of 100 MiB (20 %), 2 MiB/s, 40 s left\n", "", "",
                     "40 MiB of 100 MiB (40 %), 2 MiB/s, 30 s left\n",
                     "40 MiB of 100 MiB (40 %), 910.2 KiB/s, 1 min 08 s left\n",
                     "40 MiB of 100 MiB (40 %), 10.1 KiB/s, 1 h 41 min left\n"]
