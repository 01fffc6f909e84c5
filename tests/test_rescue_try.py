"""luksrd-rescue try over volumes that qemu-img and cryptsetup make: which line opens which key slot, one at a time and
many at once; a run that goes on after another one; what ends it. strace shows that no passphrase is an argument or is
written."""
import json
import os
import re
import signal
import subprocess

import pytest
import volumes
from disks import LUKS, MIB, disk, row
from kinds import VOLUME1, VOLUME2
from support import memory_of, needs, run, wait_until
from volumes import PASS, PASS2, by_qemu, copy_of, cryptsetup

# passphrases that a program could misread
ODD = [b"a passphrase", b"-n %s \\t\\\\ \"$(id)\" '*", b" blanks ", b"\xc3\xbc", b"--help"]
NONE = "luksrd-rescue: {}: none of {} lines opens the volume\n"


@pytest.fixture(scope="session")
def volume_of(cached):
    """volume_of(N) is a volume under the passphrase ODD[N]."""

    def get(number):
        def make(path):
            key = path.with_name("key")
            key.write_bytes(ODD[number])
            by_qemu(path, key_file=key)

        return cached(f"odd-{number}", make)

    return get


@pytest.fixture
def tries(rescue, volume_of, tmp_path):
    """tries(WORD..) tries the lines of `lines`, the fourth of which opens `volume`, unless other ones are named."""
    copy_of(volume_of(0), tmp_path / "volume")
    (tmp_path / "lines").write_bytes(b"\n".join([b"first", b"", b"x" + ODD[0], ODD[0], b"last", b""]))
    (tmp_path / "three").write_bytes(b"first\n\nxa passphrase\n")

    def ends(*words, image="volume", lines="lines", **how):
        return rescue("try", image, "--candidates", lines, *words, **how)

    return ends


def opens(ended, line=4, slot=0):
    """The line opens the slot, and no passphrase is printed."""
    assert (ended.status, ended.output.decode().splitlines()[:1]) == (0, [f"line {line} opens key slot {slot}"]), ended
    return ended


def state_of(path):
    return json.loads(path.read_text())["lines"]


@pytest.mark.parametrize("number", range(len(ODD)))
def test_odd_passphrases(tries, volume_of, tmp_path, number):
    (tmp_path / "odd").write_bytes(b"\n".join([b"first", b"", b"x" + ODD[number], ODD[number], b"last", b""]))
    opens(tries("--jobs", "1", image=volume_of(number), lines="odd"))


@pytest.mark.parametrize("options", [["--jobs", "2"], ["--jobs", "50"], ["--quiet"], []])
def test_many_at_once(tries, options):
    ended = opens(tries(*options))
    assert ended.message == ""


@pytest.mark.parametrize("image, passphrase, slot", [(VOLUME1, PASS, 0), (VOLUME1, PASS2, 5), (VOLUME2, PASS2, 1)])
def test_which_slot(tries, kinds, tmp_path, image, passphrase, slot):
    (tmp_path / "two").write_bytes(b"wrong\n" + passphrase)
    opens(tries(image=kinds / image, lines="two"), 2, slot)
    others = {0, 5} - {slot} if image == VOLUME1 else {0, 1} - {slot}
    for other in others:
        ended = tries("--key-slot", str(other), image=kinds / image, lines="two")
        assert (ended.status, ended.message) == (2, NONE.format("two", 2))


def test_the_next_command(tries, rescue, tmp_path):
    """The lines that follow give the plaintext."""
    (tmp_path / "it's the list").write_bytes(b"wrong\r\n" + ODD[0] + b"\r\n")
    ended = opens(tries(lines="it's the list"), 2)
    assert ended.message == ("luksrd-rescue: it's the list: line 1 ends with a carriage return, as Windows writes it: "
                             "it is taken off, and so are others\n")
    key, decrypt, remove = [line.strip() for line in ended.output.decode().splitlines()[2:]]
    assert run("bash", "-c", key, cwd=tmp_path) == (0, b"", "")
    assert ((tmp_path / "key").read_bytes(), (tmp_path / "key").stat().st_mode & 0o777) == (ODD[0], 0o600)
    assert decrypt == "luksrd-rescue decrypt volume --key-file key -o plain.img"
    assert rescue(*decrypt.split()[1:]).status == 0
    assert (tmp_path / "plain.img").stat().st_size == MIB
    assert run("bash", "-c", remove, cwd=tmp_path) == (0, b"", "") and not (tmp_path / "key").exists()
    # (a file with this name is another one)
    (tmp_path / "key").write_bytes(b"mine")
    assert all("key2" in line for line in opens(tries()).output.decode().splitlines()[2:])


@pytest.mark.parametrize("name", ["detached1", "detached2"])
def test_a_detached_header(tries, kinds, name):
    header = "header1" if name == "detached1" else "header2"
    opens(tries("--header", kinds / header, image=kinds / name), 4)
    opens(tries("--header", "/dev/stdin", image=kinds / name, stdin=kinds / header), 4)


def test_in_a_partition(tries, volume_of, tmp_path):
    content = volume_of(0).read_bytes()
    disk(tmp_path / "disk", "gpt", [row(MIB, 2 * MIB, LUKS), row(4 * MIB, 8 * MIB, LUKS)], {4 * MIB: content})
    opens(tries(image="disk"))
    ended = opens(tries("--partition", "2", image="disk"))
    assert "luksrd-rescue decrypt disk --partition 2 --key-file key -o plain.img" in ended.output.decode()
    opens(tries("--offset", "4Mi", image="disk"))
    ended = tries("--partition", "1", image="disk")
    assert (ended.status, ended.message) == (4, "luksrd-rescue: disk: there is no LUKS header\n")


def test_a_map_of_the_image(tries, volume_of, tmp_path):
    """A key area with sectors that were not read is not taken for key material, and the next command has the map."""
    size = volume_of(0).stat().st_size
    (tmp_path / "map").write_text(f"0 + 1\n0 {size - 512} +\n{size - 512} 512 -\n")
    ended = opens(tries("--image-map", "map"))
    assert "luksrd-rescue decrypt volume --image-map map --key-file key -o plain.img" in ended.output.decode()
    (tmp_path / "map").write_text(f"0 + 1\n0 4608 +\n4608 512 -\n5120 {size - 5120} +\n")
    ended = tries("--image-map", "map")
    assert (ended.status, ended.output) == (6, b"")
    assert "key slot 0 is left out: its key area has sectors that cannot be read" in ended.message
    assert "the key areas of all slots have sectors that cannot be read" in ended.message


def test_a_pipe_and_a_last_line_without_a_newline(tries):
    ended = opens(tries(lines="-", stdin=ODD[0]), 1)
    assert ended.output == b"line 1 opens key slot 0\n"
    opens(tries(lines="/dev/stdin", stdin=b"x\n" + ODD[0] + b"\ny"), 2)


def test_no_line_opens(tries):
    ended = tries(lines="three")
    assert ended == (2, b"", NONE.format("three", 3))
    assert tries(lines="/dev/null") == (2, b"", NONE.format("/dev/null", 0))


def test_a_state(tries, tmp_path):
    """A run goes on after one that found nothing; the state names the volume, and no passphrase."""
    options = "--state", "state", "--jobs", "2"
    assert tries(*options, lines="three").status == 2
    assert state_of(tmp_path / "state") == 3
    uuid = cryptsetup("luksUUID", tmp_path / "volume").strip()
    assert json.loads((tmp_path / "state").read_text()) == {"uuid": uuid, "offset": 0, "lines": 3}
    assert tries(*options, lines="three") == (2, b"", NONE.format("three", 3))
    opens(tries(*options))
    assert state_of(tmp_path / "state") == 3
    (tmp_path / "one").write_text("one\n")
    assert tries(*options, lines="one") == (
        4, b"", "luksrd-rescue: state: is of a file with more lines: one has 1, and 3 are done\n")


def test_a_state_of_something_else(tries, volume_of, kinds, tmp_path):
    for text in ("3\n", "{}", "nine", '{"uuid": "x", "offset": 0, "lines": -1}',
                 '{"uuid": 1, "offset": [], "lines": true}'):
        (tmp_path / "state").write_text(text)
        assert tries("--state", "state") == (4, b"", "luksrd-rescue: state: is no state of luksrd-rescue try\n")
    (tmp_path / "state").unlink()
    assert tries("--state", "state", lines="three").status == 2
    ended = tries("--state", "state", image=volume_of(1))
    assert (ended.status, "luksrd-rescue: state: is of another volume" in ended.message) == (1, True)
    ended = tries("--state", "absent/state", lines="three")
    assert (ended.status, ended.message) == (
        6, "luksrd-rescue: absent/state: cannot write: No such file or directory\n")


def test_a_line_that_is_too_long(tries, tmp_path):
    (tmp_path / "long").write_bytes(b"first\n" + bytes(8388609) + b"\n")
    ended = tries(lines="long")
    assert (ended.status, ended.message) == (1, "luksrd-rescue: long: line 2 is longer than 8388608 bytes\n")
    (tmp_path / "longest").write_bytes(b"first\n" + bytes(8388608) + b"\n" + ODD[0] + b"\n")
    opens(tries(lines="longest"), 3)


@pytest.mark.parametrize("words, image, message, status", [
    *(pytest.param(*row, marks=pytest.mark.of_script) for row in (
        ([], "absent", "absent: cannot open: No such file or directory", 4),
        ([], "lines", "lines: no LUKS header was found; see what is there: luksrd-rescue look lines", 4),
        (["--header", "absent"], "volume", "absent: cannot open: No such file or directory", 4))),
    (["--key-slot", "7"], "volume", "volume: key slot 7 is not in use", 1),
    (["--header", "lines"], "volume", "lines: no LUKS header", 4),
])
def test_refusals(tries, words, image, message, status):
    assert tries(*words, image=image) == (status, b"", f"luksrd-rescue: {message}\n")


def test_iterations(tries, kinds):
    ended = tries("--max-iterations", "999", image=kinds / VOLUME1)
    assert (ended.status, ended.output) == (1, b""), ended
    opens(tries("--max-iterations", "1000", image=kinds / VOLUME1))


@pytest.mark.of_script
@pytest.mark.parametrize("file, message", [("absent", "cannot open: No such file or directory"),
                                           ("/", "cannot open: Is a directory")])
def test_candidates_that_cannot_be_opened(tries, file, message):
    assert tries(lines=file) == (4, b"", f"luksrd-rescue: {file}: {message}\n")


def test_candidates_that_cannot_be_read(tries):
    ended = tries(lines="/proc/self/mem")
    assert ended == (6, b"", "luksrd-rescue: /proc/self/mem: read failed: Input/output error\n")


def test_candidates_from_an_offset_on(tries, tmp_path):
    """What another program has read of standard input is not tried, and is no line."""
    with open(tmp_path / "lines", "rb", buffering=0) as file:
        assert file.read(7) == b"first\n\n"
        opens(tries(lines="-", stdin=file), 2)


SECRETS = [f"candidate {number}, which is nowhere else in memory".encode() for number in range(4)]
STOP = "import sys; stop = lambda *_: [print('stopped', flush=True), sys.stdin.read()][2:]"
AT_THE_END = "trying._next_lines = stop"


@pytest.mark.parametrize("lines, there, wiped", [
    (["terminal.Progress.advance = stop"], {3}, {0}),
    ([AT_THE_END], set(), {0, 1, 2, 3}),
    ([AT_THE_END, "candidates.PIECE = 7"], set(), {0, 1, 2, 3}),
    ([AT_THE_END, "terminal.wipe = lambda _: None"], {2}, set())],
    ids=["after the first line", "at the end", "read by a few bytes", "not wiped"])
def test_candidates_are_overwritten(rescue, disk2, tmp_path, lines, there, wiped):
    """A line that was tried is not in memory any more, and in the end none is: not even the third one, which opens."""
    (tmp_path / "key").write_bytes(SECRETS[2])
    cryptsetup("luksAddKey --pbkdf pbkdf2 --pbkdf-force-iterations 1000 --key-file pass", disk2, "key", cwd=tmp_path)
    (tmp_path / "list").write_bytes(b"\r\n".join(SECRETS))
    run = rescue.changed(STOP, *lines).start("try", "disk.img", "--candidates", "list", "--jobs", "1", "--quiet",
                                             stdin=subprocess.PIPE)
    assert run.stdout.readline() == b"stopped\n", run.communicate()
    memory = b"".join(dict(memory_of(run.pid)).values())
    found = {number for number, secret in enumerate(SECRETS) if secret in memory}
    assert found >= there and not found & wiped
    assert b"line 3 opens key slot 2" in run.communicate(b"")[0] and run.returncode == 0


@pytest.fixture
def slow(tmp_path, cached):
    """A volume whose slot takes many seconds, and lines none of which opens it."""

    def make(path):
        path.with_name("pass").write_bytes(PASS)
        by_qemu(path)
        volumes.overwrite(path, 208 + 4, (1 << 30).to_bytes(4, "big"))

    copy_of(cached("slow", make), tmp_path / "slow")
    (tmp_path / "many").write_bytes(b"wrong\n" * 50)
    return "slow"


@pytest.mark.parametrize("number", [signal.SIGINT, signal.SIGTERM])
def test_a_signal_ends_it_within_a_second(rescue, slow, tmp_path, number):
    """Though threads derive keys."""
    process = rescue.start("try", slow, "--candidates", "many", "--state", "state", "--jobs", "2")
    task = f"/proc/{process.pid}/task"
    wait_until(lambda: len(os.listdir(task)) >= 3 and busy(process.pid))
    process.send_signal(number)
    # (a busy machine may take longer than a second; deriving one key takes minutes)
    output, message = process.communicate(timeout=60)
    assert output == b""
    if number == signal.SIGINT:
        assert (process.returncode, message) == (130, b"luksrd-rescue: interrupted\n")
        assert state_of(tmp_path / "state") == 0
    else:
        assert process.returncode == -signal.SIGTERM


def busy(process):
    """Whether a process has used the processor for half a second."""
    with open(f"/proc/{process}/stat", encoding="ascii") as file:
        return int(file.read().rpartition(")")[2].split()[11]) > os.sysconf("SC_CLK_TCK") // 2


JOBS = ["run = trying._Run.__init__",
        "def noted(self, file, arguments, attempt, jobs, state):",
        "    print('jobs', jobs, flush=True); run(self, file, arguments, attempt, jobs, state)",
        "trying._Run.__init__ = noted"]
MANY = len(os.sched_getaffinity(0))


@pytest.mark.parametrize("memory, rooms", [(None, {1000: MANY, 5: 1, 1: 1}), (64, {1000: MANY, 140: min(2, MANY), 1: 1})],
                         ids=["PBKDF2", "Argon2id"])
def test_memory(rescue, kinds, tmp_path, memory, rooms):
    """As many at once as there is memory for: Argon2 needs its own for each."""
    image, slot = (kinds / VOLUME1, 5) if memory is None else (copy_of(kinds / VOLUME2, tmp_path / "disk.img"), 1)
    if memory is not None:
        cryptsetup(f"luksConvertKey --key-slot 1 --pbkdf argon2id --pbkdf-memory {memory << 10} --pbkdf-parallel 1 "
                   "--pbkdf-force-iterations 4 --key-file pass2", image, cwd=volumes.passphrases(tmp_path))
    (tmp_path / "lines").write_bytes(b"wrong\n" + PASS2)
    for room, jobs in rooms.items():
        ended = rescue.changed(f"unlocking.available_memory = lambda: {room} << 20", *JOBS)(
            "try", image, "--candidates", "lines", "--quiet")
        assert ended.status == 0 and ended.output.startswith(b"jobs %d\nline 2 opens key slot %d\n" % (jobs, slot)), ended
        assert ("warning: each try needs" in ended.message) == (room == 1)


def test_memory_that_runs_out(rescue, kinds, tmp_path):
    """It goes on with fewer lines at once, and ends with 3 if one alone has too little."""
    lines = ["import threading, luksrd; real = luksrd.open",
             "def opens(*a, **k):",
             "    if not lock.acquire(blocking=False):",
             "        raise luksrd.LuksError(11, 3, 'luksrd: out of memory')",
             "    try:\n        return real(*a, **k)\n    finally:\n        lock.release()",
             "trying.luksrd.open = opens"]
    (tmp_path / "lines").write_bytes(b"wrong\n" * 20 + PASS2)
    for room, status in (1, 0), (2, 0), (0, 3):
        ended = rescue.changed(*lines, f"lock = threading.Semaphore({room})")(
            "try", kinds / VOLUME1, "--candidates", "lines", "--quiet", "--jobs", "4", "--state", f"state{room}")
        assert ended.status == status, ended
        if status == 0:
            assert ended.output.startswith(b"line 21 opens key slot 5\n")
        else:
            assert ended.message == "luksrd-rescue: out of memory\n" and state_of(tmp_path / "state0") == 0


@needs("strace")
def test_where_passphrases_go(tries, tmp_path):
    """No line is an argument, and none is written anywhere."""
    opens(tries("--state", "state", before=[
        "strace", "-f", "-s", "200", "-e", "trace=execve,write,writev,pwrite64,openat", "-o", "calls"]))
    calls = (tmp_path / "calls").read_text(errors="replace").splitlines()
    assert [line for line in calls if "openat" in line and '"lines"' in line]
    assert [line for line in calls if re.search(r"\b(execve|p?writev?(64)?)\(", line) and "a passphrase" in line] == []
    made = {re.search(r'"(.*?)"', line)[1] for line in calls if "O_CREAT" in line}
    assert made == {"state.new"}


def test_progress(tries, tmp_path, rescue):
    """On a terminal, if python3-tqdm is there; nothing of it with --quiet, or without a terminal before ten seconds."""
    (tmp_path / "many").write_bytes(b"wrong\n" * 30 + ODD[0])
    assert opens(tries(lines="many"), 31).message == ""
    process = rescue.start("try", "volume", "--candidates", "many", stderr=subprocess.PIPE)
    assert process.communicate()[0].startswith(b"line 31 opens")
