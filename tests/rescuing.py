"""luksrd-rescue as the tests run it: from the tree, over the built library and luksrd-audit, at a terminal or without
one, and with bad sectors in an image."""
import contextlib
import fcntl
import os
import pty
import re
import select
import subprocess
import sys
import termios
import time

import pytest
import volumes
from kinds import VOLUME1, VOLUME2
from support import PATIENCE, TOP, end_group, must, run, wait_until
from volumes import copy_of

COMMAND = TOP / "rescue/luksrd-rescue"
CHANGED = """
import sys
sys.path.insert(0, sys.argv.pop(1))
from luksrd_rescue import audit, candidates, command, decrypt, serve, terminal, tools, trying, unlocking, working
{}
sys.exit(command.main(sys.argv[1:]))
"""


class Rescue:
    """The command, which works in the folder of a test."""

    def __init__(self, folder, variables, begin=(str(COMMAND),)):
        self.folder, self.variables, self._begin = folder, {**os.environ, **variables}, begin

    def changed(self, *lines):
        """The same command with these lines of Python before it, which change its modules."""
        return Rescue(self.folder, self.variables, ("-c", CHANGED.format("\n".join(lines)), str(COMMAND.parent)))

    def command(self, *words):
        return [sys.executable, *self._begin, *map(os.fspath, words)]

    def __call__(self, *words, env=None, before=(), **how):
        """How a run ends; `before` is a command that runs it, such as strace."""
        return run(*before, *self.command(*words), env={**self.variables, **(env or {})}, **{"cwd": self.folder, **how})

    def start(self, *words, env=None, before=(), **how):
        """A run that the caller ends."""
        how = {"cwd": self.folder, "stdin": subprocess.DEVNULL, "stdout": subprocess.PIPE, "stderr": subprocess.PIPE,
               "start_new_session": True, **how}
        return subprocess.Popen([*before, *self.command(*words)], env={**self.variables, **(env or {})}, **how)


@pytest.fixture
def rescue(request, library, audit, tmp_path):
    return Rescue(tmp_path, {"LUKSRD_LIBRARY": str(library), "LUKSRD_AUDIT": str(audit.path)})


@pytest.fixture
def luks_cat(built, tmp_path):
    """luks_cat(WORD, ..): how luksCat ends."""
    return lambda *words, **how: run(built("luksrd"), "luksCat", *map(os.fspath, words), **{"cwd": tmp_path, **how})


class Terminal:
    """A run at a terminal of its own."""

    def __init__(self, rescue, *words, env=None, **how):
        self.main, side = pty.openpty()
        self.shown = b""

        def controlled():
            fcntl.ioctl(side, termios.TIOCSCTTY, 0)

        self.process = rescue.start(*words, env=env, preexec_fn=controlled,
                                    **{"stdin": side, "stdout": side, "stderr": side, **how})
        os.close(side)

    def __enter__(self):
        return self

    def __exit__(self, *_):
        if self.process.poll() is None:
            end_group(self.process)
        os.close(self.main)

    def _read(self):
        """Reads what is shown; False if the terminal has no more programs."""
        if not select.select([self.main], [], [], 0.05)[0]:
            return True
        try:
            self.shown += os.read(self.main, 65536)
        except OSError:
            return False
        return True

    def until(self, pattern, times=1):
        """Waits until this is shown so many times, with echo off if it is a prompt."""
        deadline = time.monotonic() + PATIENCE
        while len(re.findall(pattern, self.shown)) < times:
            assert self._read() and time.monotonic() < deadline, (pattern, self.shown)
        return self

    def asked(self, times=1):
        """Waits for so many prompts, and until nothing is echoed."""
        self.until(rb"Passphrase of [^\n]*: ", times)
        assert not self.echoes()
        return self

    def type(self, text):
        os.write(self.main, text)
        return self

    def echoes(self):
        return bool(termios.tcgetattr(self.main)[3] & termios.ECHO)

    def ended(self):
        """The status, once the run has ended, and all that was shown."""
        deadline = time.monotonic() + PATIENCE
        while self.process.poll() is None:
            assert time.monotonic() < deadline, self.shown
            self._read()
        while select.select([self.main], [], [], 0)[0] and self._read():
            pass
        return self.process.returncode

    def signal(self, number):
        os.kill(self.process.pid, number)
        return self



def make_failing_reads(path):
    must("cc", "-O1", "-Wall", "-Wextra", "-Werror", "-shared", "-fPIC", "-o", path, TOP / "tests/failing_reads.c",
         "-ldl")


@pytest.fixture
def bad_sectors(cached):
    """bad_sectors(FILE, [(START, LENGTH), ..], NAME=VALUE) gives the environment in which these bytes of the file
    cannot be read; tests/failing_reads.c has the names."""
    library = cached("failing_reads.so", make_failing_reads)

    def variables(file, places, **further):
        return {"LD_PRELOAD": str(library), "FAILING_FILE": str(file),
                "FAILING_BYTES": ",".join(f"{start}:{length}" for start, length in places),
                **{f"FAILING_{name.upper()}": str(value) for name, value in further.items()}}

    return variables


@contextlib.contextmanager
def disk_by_nbdfuse(image, places, folder):
    """The image as a file in this folder, of which these bytes cannot be read: nbdfuse shows what nbdkit serves, over
    the page cache of the kernel."""
    at, rows, size = 0, ["0 ? 1"], os.stat(image).st_size
    for start, length in places:
        rows += [f"{at} {start - at} +", f"{start} {length} -"]
        at = start + length
    rows.append(f"{at} {size - at} +")
    folder.mkdir()
    (folder.parent / "nbdkit.map").write_text("\n".join(rows) + "\n")
    disk = folder / image.name
    process = subprocess.Popen(["nbdfuse", "--readonly", disk, "--command", "nbdkit", "-s", "--filter=ddrescue", "file",
                                image, f"ddrescue-mapfile={folder.parent}/nbdkit.map"], stdin=subprocess.DEVNULL,
                               stderr=subprocess.DEVNULL)
    try:
        wait_until(lambda: disk.exists() or process.poll() is not None)
        yield disk
    finally:
        # (what is killed in place of this leaves a mount behind)
        while process.poll() is None:
            run("fusermount3", "-u", folder)
            time.sleep(0.1)


def merged(places):
    """Ranges of bytes in ascending order, each with its length, in as few as they are."""
    found = []
    for start, length in sorted(places):
        if found and start <= sum(found[-1]):
            found[-1] = (found[-1][0], max(sum(found[-1]), start + length) - found[-1][0])
        else:
            found.append((start, length))
    return found


def with_zeros(content, places):
    """The same bytes with zeros at these places."""
    content = bytearray(content)
    for start, length in places:
        content[start:start + length] = bytes(len(content[start:start + length]))
    return bytes(content)


def blocks_by_ddrescuelog(path, status):
    """The bytes with this status in a map, as ddrescuelog lists them by sectors of 512."""
    listed = must("ddrescuelog", f"--list-blocks={status}", "--block-size=512", path).decode().split()
    return merged((int(sector) * 512, 512) for sector in listed)


def says(ended, *texts, status):
    """The run ended with this status and with these texts in its messages, and without a traceback."""
    assert ended.status == status, ended
    assert "Traceback" not in ended.message
    for line in ended.message.splitlines():
        assert re.match("luksrd-rescue: |usage: |    ", line), ended.message
    assert all(text in ended.message for text in texts), ended.message


@pytest.fixture
def disk1(kinds, tmp_path):
    """A copy of a small volume of LUKS1, in the folder of the test, with its key files."""
    volumes.passphrases(tmp_path)
    return copy_of(kinds / VOLUME1, tmp_path / "disk.img")


@pytest.fixture
def disk2(kinds, tmp_path):
    """The same of LUKS2."""
    volumes.passphrases(tmp_path)
    return copy_of(kinds / VOLUME2, tmp_path / "disk.img")
