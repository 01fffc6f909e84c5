"""Volumes that are served by nbdkit, by the plugin or by the filter over nbdkit's file plugin, and
clients over libnbd that compare what they read with the plaintext."""

import concurrent.futures
import errno
import os
import random
import subprocess

import nbd
import pytest
from kinds import KINDS
from support import needs, run

CONNECTIONS = 8
MAX_COUNT = 70000
SIZE = 'nbdinfo --size "$uri"'
needs_nbdkit = needs("nbdkit", "nbdinfo", "nbdcopy")


class Server:
    """A running nbdkit, and what it has said."""

    def __init__(self, process, uri, said):
        self.process, self.uri, self._said = process, uri, said

    def said(self):
        return self._said.read_text(errors="replace")

    def stop(self):
        """Ends it as its user would."""
        self.process.terminate()
        assert self.process.wait(300) in (0, -15)
        return self.said()


class Way:
    """A way to serve volumes, with a command before nbdkit; paths are below the folder of volumes of all kinds."""

    def __init__(self, name, arguments, start, kinds, tmp_path, before=()):
        self.name, self.arguments, self.start, self.kinds = name, arguments, start, kinds
        self.folder, self.how, self.served, self.before = tmp_path, {"cwd": kinds.folder}, 0, before

    def named(self, image):
        """How a message on the image of this name begins. The filter does not know the name."""
        return "" if self.name == "filter" else f"{image}: "

    def run(self, command, *arguments, before=(), **how):
        """Runs a command of the shell while the volume is served; messages are in its output. What is loaded before
        nbdkit's own libraries is not for that command."""
        words = [*self.before, *before, "nbdkit", "-U", "-", *self.arguments, *arguments, "--run",
                 f"unset LD_PRELOAD; {command}"]
        return run(*words, stderr=subprocess.STDOUT, **(self.how | how))

    def refuses(self, message, *arguments, **how):
        """The volume is not served, and this is among the messages."""
        ended = self.run(SIZE, *arguments, **how)
        assert (ended.status, message in ended.output.decode()) == (1, True), ended

    def serve(self, *arguments, before=(), **how):
        """A server, which is gone after the test."""
        self.served += 1
        pid, socket, said = (self.folder / f"{name}{self.served}" for name in ("pid", "socket", "said"))
        with open(said, "wb") as file:
            process = self.start(*self.before, *before, "nbdkit", "-f", "-U", socket, "-P", pid, *self.arguments,
                                 *arguments, until=lambda: pid.exists() and pid.read_text(),
                                 **({"stdout": file, "stderr": file} | self.how | how))
        return Server(process, f"nbd+unix:///?socket={socket}", said)

    def gives(self, text, *arguments, **how):
        """The volume is served with this text; gives what nbdkit has said."""
        server = self.serve(*arguments, **how)
        assert read_all(server.uri) == text
        return server.said()

    def gives_kind(self, image, *arguments, **how):
        return self.gives(self.kinds.text(image), *arguments, **how)


def way_fixture(names, below=("file",)):
    @pytest.fixture(params=names)
    def way(request, plugin, filter, start, kinds, tmp_path):
        arguments = [plugin] if request.param == "plugin" else [f"--filter={filter}", *below]
        return Way(request.param, arguments, start, kinds, tmp_path)

    return way


way = way_fixture(["plugin", "filter"])
by_plugin = way_fixture(["plugin"])
# what is below is next
by_filter = way_fixture(["filter"], [])


def by_kind(image):
    """The parameters for a volume of this kind."""
    kind = KINDS[image]
    return [image, f"key-file={kind.key}", *([f"header={kind.header}"] if kind.header else [])]


def connected(uri):
    """A connection that lets the server refuse requests."""
    handle = nbd.NBD()
    handle.set_strict_mode(0)
    handle.connect_uri(uri)
    return handle


def read(handle, count, offset):
    """The bytes of a range, or the number of an error."""
    try:
        return bytes(handle.pread(count, offset))
    except nbd.Error as error:
        return error.errnum


def read_all(uri):
    handle = connected(uri)
    size = handle.get_size()
    return b"".join(read(handle, min(1 << 20, size - at), at) for at in range(0, size, 1 << 20))


def in_threads(work, count=CONNECTIONS):
    """Calls work(number) for each of so many threads; what they raise is raised here."""
    with concurrent.futures.ThreadPoolExecutor(count) as threads:
        return list(threads.map(work, range(count)))


def some_range(chance, size):
    """A range: at either end, past the end, within a sector or over several, at a sector's edge or
    anywhere."""
    count = chance.choice((1, 2, 511, 512, 513, 4095, 4096, 4097, chance.randrange(1, 600),
                           chance.randrange(1, MAX_COUNT)))
    offset = chance.choice((0, chance.randrange(0, 600), size - min(count, size),
                            size - chance.randrange(0, 600), size, size + 1, size + 2 ** 40,
                            chance.randrange(0, size + 1),
                            chance.randrange(0, size + 1) // 512 * 512))
    return count, max(0, offset)


def reads_ranges(uri, text, count):
    """Each of so many ranges, from 8 connections, is the text's; one past its end is refused."""
    def work(number):
        chance, handle = random.Random(f"{count} {number}"), connected(uri)
        assert handle.get_size() == len(text)
        for _ in range(count // CONNECTIONS):
            size, offset = some_range(chance, len(text))
            wanted = text[offset:offset + size] if offset + size <= len(text) else errno.EINVAL
            assert read(handle, size, offset) == wanted, f"{size} bytes at {offset}"

    in_threads(work)


def reads_shorter(uri, text, image):
    """After the image has lost its last 2000 bytes, those are not read, and the first ones are."""
    handle = connected(uri)
    assert read(handle, 2000, len(text) - 2000) == text[-2000:]
    os.truncate(image, os.stat(image).st_size - 2000)
    assert read(handle, 2000, len(text) - 2000) == errno.EIO
    assert read(handle, 1000, 100) == text[100:1100]
