"""How the tests run a program and compare how it ended, and what they need of the system."""
import contextlib
import errno
import functools
import hashlib
import json
import os
import pathlib
import shutil
import signal
import subprocess
import threading
import time
import typing

import pytest

TOP = pathlib.Path(__file__).resolve().parents[1]
# The seconds after which a run or a wait hangs: at least ten times what an idle machine needs.
PATIENCE = 300
# the variable by which each process that a test has started is found, with the folder of the test
MARK = "LUKSRD_TEST"
USAGE = """\
usage: luksrd isLuks [--header FILE] IMAGE
       luksrd luksUUID [--header FILE] IMAGE
       luksrd luksDump [--header FILE] IMAGE
       luksrd luksCheck [--header FILE] IMAGE
       luksrd testPassphrase --key-file FILE [--key-slot N] [--max-iterations N] [--header FILE] IMAGE
       luksrd luksCat --key-file FILE [--key-slot N] [--max-iterations N] [--header FILE] IMAGE
       luksrd afSplit --hash HASH --stripes N --random FILE KEY
       luksrd afMerge --hash HASH --stripes N --key-bytes N STRIPES"""
FULL = pathlib.Path("/dev/full")
NO_KEY = "luksrd: no key opens the volume"

# Tests that install packages or make loop devices run one after the other.
alone = pytest.mark.xdist_group("alone")
needs = pytest.mark.needs


class Ended(typing.NamedTuple):
    """How a run ended: its status (minus the signal that ended it), standard output and standard error."""

    status: int
    output: bytes
    message: str


def end_group(process):
    """Ends a process that leads its group, and what it started."""
    try:
        os.killpg(process.pid, signal.SIGKILL)
    except ProcessLookupError:
        pass
    process.wait()


def run(*command, stdin=None, stdout=subprocess.PIPE, stderr=subprocess.PIPE, patience=PATIENCE, **how):
    """Runs a command to its end. Standard input is nothing, bytes on a pipe, what is at a path, or an open file; what is
    at a path can be the outputs, too, which are opened for reading and writing and not truncated."""
    with contextlib.ExitStack() as kept:
        def opened(stream, flags):
            if not isinstance(stream, pathlib.Path):
                return stream
            descriptor = os.open(stream, flags)
            kept.callback(os.close, descriptor)
            return descriptor

        given = stdin if isinstance(stdin, bytes) else None
        source = subprocess.DEVNULL if stdin is None else opened(stdin, os.O_RDONLY)
        process = subprocess.Popen(
            [os.fspath(word) if isinstance(word, pathlib.Path) else word for word in command], start_new_session=True,
            stdin=subprocess.PIPE if given is not None else source, stdout=opened(stdout, os.O_RDWR),
            stderr=opened(stderr, os.O_RDWR), **how)
        try:
            output, message = process.communicate(given, timeout=patience)
        except subprocess.TimeoutExpired:
            pytest.fail(f"no end within {patience} seconds: {command}")
        finally:
            if process.poll() is None:
                end_group(process)
    return Ended(process.returncode, output or b"", (message or b"").decode(errors="backslashreplace"))


def checksum(content):
    return hashlib.sha256(content).hexdigest()


def shown(content):
    """Bytes as a comparison shows them: the whole, or the beginning and the checksum of what is long."""
    if len(content) <= 2000:
        return content
    return f"{len(content)} bytes, {content[:40]!r}.., sha256 {checksum(content)}"


def expect(ended, output=b"", message="", status=0):
    """The run ended with this output, this message on a line of its own, and this status."""
    output = output.encode() if isinstance(output, str) else output
    message = message + "\n" if message else ""
    assert (ended.status, ended.message, shown(ended.output)) == (status, message, shown(output))


class Program:
    """A program that works in the folder of a test: the first argument is split at its blanks, the others are not."""

    def __init__(self, path, folder):
        self.path, self.folder = pathlib.Path(path), folder

    def command(self, line, *arguments):
        return [str(self.path), *line.split(), *arguments]

    def __call__(self, line, *arguments, **how):
        return run(*self.command(line, *arguments), **{"cwd": self.folder, **how})


@functools.cache
def schema_of_lines():
    """The JSON Schema of the lines of luksrd-audit."""
    import jsonschema

    return jsonschema.Draft202012Validator(json.loads((TOP / "docs/luksrd-audit.schema.json").read_text()))


def audit_lines(output):
    """The objects in the output of luksrd-audit: the schema has all that they are."""
    found = [json.loads(line) for line in output.splitlines()]
    for each in found:
        schema_of_lines().validate(each)
    return found


class Audit(Program):
    """luksrd-audit: each JSON line of its output is one of the schema."""

    def __call__(self, line, *arguments, **how):
        ended = super().__call__(line, *arguments, **how)
        audit_lines(b"".join(text for text in ended.output.splitlines(True) if text.startswith(b"{")))
        return ended


def must(*command, **how):
    """The standard output of a command that has to succeed, one that makes what a test needs."""
    ended = run(*command, **how)
    assert ended.status == 0, (command, ended)
    return ended.output


def limited(option, kib):
    """The command before one that gets so many KiB of this by ulimit."""
    return ["bash", "-c", f'ulimit {option} {kib}; exec "$@"', "bash"]


def memory_of(process, rights="r"):
    """What is in the memory of a process with these rights: where each range starts, and its bytes. What may be written
    can be read, unless it was given back meanwhile; what has other rights may be a page of the kernel."""
    with open(f"/proc/{process}/maps", encoding="utf-8") as maps, open(f"/proc/{process}/mem", "rb", 0) as memory:
        for addresses, has, *names in map(str.split, maps):
            if not has.startswith(rights) or names[-1] in ("[vvar]", "[vsyscall]"):
                continue
            start, end = (int(digits, 16) for digits in addresses.split("-"))
            memory.seek(start)
            try:
                content = memory.read(end - start)
            except OSError:
                with open(f"/proc/{process}/maps", encoding="utf-8") as now:
                    assert "w" not in has or addresses not in now.read(), (addresses, has, names)
                continue
            yield start, content


def fails_from(monkeypatch, path, end):
    """os.readv gives the bytes of this file before this one, and then fails."""
    readv, file = os.readv, os.stat(path)

    def failing(descriptor, buffers):
        if not os.path.samestat(os.fstat(descriptor), file):
            return readv(descriptor, buffers)
        there = end - os.lseek(descriptor, 0, os.SEEK_CUR)
        if there <= 0:
            raise OSError(errno.EIO, "a part of the disk is gone")
        return readv(descriptor, [buffers[0][:there]])

    monkeypatch.setattr(os, "readv", failing)


def reader_that_goes_away(program, line, stdin=None):
    """How a run ends whose reader takes ten bytes and closes the pipe."""
    reading, writing = os.pipe()
    taken = []

    def take():
        taken.append(os.read(reading, 10))
        os.close(reading)

    reader = threading.Thread(target=take)
    reader.start()
    ended = program(line, stdin=stdin, stdout=writing)
    os.close(writing)
    reader.join()
    return ended._replace(output=taken[0])


def wait_until(condition, patience=PATIENCE):
    """Waits until this gives something that is true, and returns that."""
    deadline = time.monotonic() + patience
    while not (result := condition()):
        assert time.monotonic() < deadline, "nothing came of it"
        time.sleep(0.02)
    return result


def processes_of(folder):
    """The numbers of the processes that the test with this folder has started and that still run."""
    mark = f"{MARK}={folder}".encode()
    found = []
    for name in filter(str.isdigit, os.listdir("/proc")):
        try:
            environment = pathlib.Path("/proc", name, "environ").read_bytes().split(b"\0")
        except OSError:
            continue
        if mark in environment and int(name) != os.getpid():
            found.append(int(name))
    return found


@functools.cache
def runs_v3():
    """This processor runs what is built for x86-64-v3, as the loader has it."""
    return b"x86-64-v3 (supported" in run("/lib64/ld-linux-x86-64.so.2", "--help").output


@functools.cache
def has_loop_devices():
    try:
        shown_device = run("losetup", "-f", "--show", __file__)
    except OSError:
        return False
    if shown_device.status == 0:
        run("losetup", "-d", shown_device.output.decode().strip())
    return shown_device.status == 0


@functools.cache
def namespace():
    """The command before one that mounts file systems, which are gone when that has ended; None if none can be."""
    for command in ["unshare", "-m"], ["unshare", "-Urm"]:
        if run(*command, "mount", "-t", "tmpfs", "none", "/dev").status == 0:
            return command
    return None


@functools.cache
def can_trace():
    return bool(shutil.which("strace")) and run("strace", "-qq", "-o", "/dev/null", "true").status == 0


# what a test needs that is no tool: whether it is here, and why the test is skipped if not
NEEDS = {
    "loop": (has_loop_devices, "no loop device can be made here"),
    "root": (lambda: os.geteuid() == 0, "only root can do this"),
    "mount": (namespace, "no file system can be mounted here"),
    "strace": (can_trace, "strace cannot trace here"),
    "fuse": (lambda: os.access("/dev/fuse", os.R_OK | os.W_OK), "nothing can be mounted by FUSE"),
    "v3": (runs_v3, "this processor is older"),
}


def lack_of(tool):
    """Why a test that needs this is skipped, or nothing if it is here."""
    if tool in NEEDS:
        here, reason = NEEDS[tool]
        return "" if here() else reason
    return "" if shutil.which(tool) or os.path.exists(tool) else f"{tool} is not installed"
