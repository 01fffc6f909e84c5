"""What the filter for nbdkit makes of what is below it: which bytes it reads, and how often; its
block sizes, holes, exports and failures; and that no read waits for another."""

import errno
import os
import random
import re
import resource
import socket
import struct
import threading

import nbd
import pytest
from kinds import START, VOLUME1, VOLUME2
from serving import (by_filter, connected, in_threads, needs_nbdkit, read, read_all,  # noqa: F401
                     reads_ranges)
from support import limited, must, needs
from volumes import copy_of, cryptsetup, edit_metadata, nested_header, overwrite, with_own_uuid

pytestmark = needs_nbdkit
PASS = "key-file=pass"
NO_LUKS = "luksrd: not a LUKS image"
REFUSED_BEFORE = "luksrd: this image was refused before"
OTHER_EXPORT = "luksrd: this server has opened another export, and serves no second one"
OTHER_VOLUME = "luksrd: the export has another volume than the one that is open"
SIZE1, SIZE2 = 300032, 303104


def logged(log, call):
    """The ranges of the calls of this kind in the log of nbdkit's filter `log`."""
    pattern = rf" {call} .*offset=0x([0-9a-f]+) count=0x([0-9a-f]+) "
    return [tuple(int(digits, 16) for digits in found)
            for found in re.findall(pattern, log.read_text())]


@pytest.fixture
def log(tmp_path):
    return tmp_path / "log"


@pytest.fixture
def logging(by_filter, log):
    """A server of VOLUME2 over a log of what it asks for."""
    return by_filter.serve("--filter=log", "file", VOLUME2, f"logfile={log}", PASS)


def test_header_is_read_once(logging, log):
    """Though all connect at once; each later one compares the first 4096 bytes."""
    gate = threading.Barrier(16)

    def size(_):
        gate.wait()
        return connected(logging.uri).get_size()

    assert in_threads(size, 16) == [SIZE2] * 16
    reads = logged(log, "Read")
    assert reads.count((0, 4096)) == 15
    others = [range_ for range_ in reads if range_ != (0, 4096)]
    whole = START + SIZE2
    assert others == [(at, min(1 << 20, whole - at)) for at in range(0, whole, 1 << 20)]


def test_reads_no_other_sector(logging, log):
    assert len(read(connected(logging.uri), 2, 4095)) == 2
    assert logged(log, "Read")[-2:] == [(START, 4096), (START + 4096, 4096)]


def test_caches_whole_sectors(logging, log):
    connected(logging.uri).cache(4096, 8192)
    assert logged(log, "Cache") == [(START + 8192, 4096)]


def blocks(minimum, preferred, maximum):
    """nbdkit's filter that refuses other requests, below."""
    return [f"blocksize-minimum={minimum}", f"blocksize-preferred={preferred}",
            f"blocksize-maximum={maximum}", "blocksize-error-policy=error"]


@pytest.mark.parametrize("sizes", [
    (4096, 4096, 8192), (65536, 65536, 65536), (512, 512, 512), (512, 4096, 4294967295),
    (1024, 1048576, 4194304)], ids=str)
def test_blocks(by_filter, tmp_path, sizes):
    """It reads whole blocks, as many as are allowed at once."""
    image = copy_of(by_filter.kinds / VOLUME1, tmp_path / "image")
    os.truncate(image, -(-(START + SIZE1) // 65536) * 65536)
    policy = ["--filter=blocksize-policy", "file", image, PASS, *blocks(*sizes)]
    server = by_filter.serve(*policy)
    text = read_all(server.uri)
    assert text[:SIZE1] == by_filter.kinds.text(VOLUME1)
    reads_ranges(server.uri, text, 400)
    preferred = f'"block_size_preferred": {max(sizes[1], 4096)},'
    assert preferred in must("nbdinfo", "--json", server.uri).decode()


# ---- holes

@pytest.fixture
def sparse(by_filter, tmp_path):
    """VOLUME2 with a hole up to 8 MiB."""
    image = tmp_path / "sparse"
    image.write_bytes((by_filter.kinds / VOLUME2).read_bytes())
    os.truncate(image, 8 << 20)
    return image


@needs("qemu-img")
def test_a_hole_reads_as_no_zeros(by_filter, sparse, tmp_path):
    server = by_filter.serve("file", sparse, PASS)
    text = read_all(server.uri)
    assert text[:SIZE2] == by_filter.kinds.text(VOLUME2) and len(text) == (8 << 20) - START
    assert not any(text[at:at + 512] == bytes(512) for at in range(SIZE2, len(text), 512))
    must("qemu-img", "convert", "-f", "raw", "-O", "raw", server.uri, tmp_path / "copy")
    assert (tmp_path / "copy").read_bytes() == text


@pytest.mark.parametrize("below, wanted", [
    ([], [(0, SIZE2, "data"), (SIZE2, (8 << 20) - START - SIZE2, "hole")]),
    (["--filter=noextents"], [(0, (8 << 20) - START, "data")])], ids=["extents", "none"])
def test_map(by_filter, sparse, below, wanted):
    said = by_filter.run('nbdinfo --map "$uri"', *below, "file", sparse, PASS).output.decode()
    found = re.findall(r"^ *(\d+) +(\d+) +\d+ +(\S+)", said, re.MULTILINE)
    assert [(int(at), int(size), kind) for at, size, kind in found] == wanted


def holes(uri, flags=0):
    """The holes of a volume, by requests with these flags of libnbd."""
    handle, found, at = nbd.NBD(), [], 0
    handle.add_meta_context("base:allocation")
    handle.connect_uri(uri)
    size = handle.get_size()

    def note(name, offset, entries, error):
        nonlocal at
        for length, kind in zip(entries[::2], entries[1::2]):
            end = min(at + length, size)
            if kind & 1 and found and found[-1][1] == at:
                found[-1][1] = end
            elif kind & 1:
                found.append([at, end])
            at = end

    while at < size:
        handle.block_status(size - at, at, note, flags)
    return found


@pytest.mark.parametrize("minimum", [1, 4096, 65536])
@pytest.mark.parametrize("flags", [0, 8], ids=["", "one extent"])
def test_holes_in_blocks(by_filter, sparse, minimum, flags):
    """A block of what is below has data and holes: the same holes are found as without blocks."""
    for at in range(40, 401, 7):
        overwrite(sparse, (at * 4 + at % 4) * 4096, b"data")
    wanted = holes(by_filter.serve("file", sparse, PASS).uri)
    assert len(wanted) > 10
    policy = ["--filter=blocksize-policy", "file", sparse, PASS, *blocks(minimum, 65536, 65536)]
    assert holes(by_filter.serve(*policy[:-1]).uri, flags) == wanted


# ---- exports

@pytest.fixture
def exports(by_filter, tmp_path):
    """exports(NAMES, PARAMETER..) gives the sizes of these exports of a folder, asked for one after
    another, or None, and what nbdkit said."""
    folder = tmp_path / "exports"
    folder.mkdir()
    for name, image in {"one": VOLUME1, "copy": VOLUME1, "damaged": VOLUME1, "two": VOLUME2,
                        "plain": "plain", "other1": "encrypted1", "shorter": "detached2",
                        "cut": "short", "detached1": "detached1", "cloned": VOLUME1,
                        "unmarked": VOLUME2, "similar": VOLUME2}.items():
        copy_of(by_filter.kinds / image, folder / name)
    os.truncate(folder / "shorter", 200704)
    overwrite(folder / "damaged", 4096, bytes(300 * 4096))
    overwrite(folder / "unmarked", 0, b"unmarked")
    overwrite(folder / "similar", 0, b"similar")

    def get(names, *parameters, below=("file", f"dir={folder}"), between=()):
        server = by_filter.serve(*below, PASS, *parameters)
        between, sizes = dict(between), []
        for number, name in enumerate(names.split(" ")):
            between.get(number, lambda: None)()
            sizes.append(export_size(server.uri, name))
        return sizes, server.said()

    get.folder = folder
    return get


def export_size(uri, name):
    try:
        return connected(uri.replace("///", f"///{name}")).get_size()
    except nbd.Error:
        return None


@pytest.mark.parametrize("names, wanted, messages, parameters", [
    # the first that is opened, also by another name
    ("one two copy one", [SIZE1, None, SIZE1, SIZE1], {OTHER_EXPORT: 1}, []),
    # the clients of others end nothing
    ("plain plain two plain one", [None, None, SIZE2, None, None],
     {NO_LUKS: 1, REFUSED_BEFORE: 1, OTHER_EXPORT: 2}, []),
    ("cut damaged one", [None, None, SIZE1], {}, []),
    ("detached1 other1 shorter detached1", [SIZE2, SIZE2, None, SIZE2], {OTHER_EXPORT: 1},
     ["header=header1"]),
    # without a first header
    ("unmarked similar unmarked", [SIZE2, None, SIZE2], {OTHER_EXPORT: 1}, [])])
def test_exports(exports, names, wanted, messages, parameters):
    sizes, said = exports(names, *parameters)
    assert sizes == wanted, said
    assert {message: said.count(message) for message in messages} == messages


@pytest.mark.parametrize("below, names, wanted, parameters", [
    (VOLUME1, "any name of ", [SIZE1] * 4, []),
    ("detached1", "any ", [SIZE2] * 2, ["header=header1"])])
def test_a_plugin_that_looks_at_no_names(exports, below, names, wanted, parameters):
    assert exports(names, *parameters, below=("file", below))[0] == wanted


def test_a_second_connection(exports):
    sizes, said = exports("a b", below=("file", "plain"))
    assert (sizes, said.count(NO_LUKS), said.count(REFUSED_BEFORE)) == ([None, None], 1, 1)


@pytest.mark.parametrize("key", ["pass2", "wrong"])
def test_refused_memory_of_argon2(by_filter, tmp_path, key):
    """The header asks for it each time, so the second client is refused at once: no key is derived for it."""
    image = copy_of(by_filter.kinds / "argon2", tmp_path / "image")
    edit_metadata(image, lambda tree: tree["keyslots"]["1"]["kdf"].update(memory=4194304))
    server = by_filter.serve("file", image, f"key-file={key}", before=limited("-Sv", 2000000))
    assert [export_size(server.uri, "") for _ in range(3)] == [None] * 3
    said = server.said()
    assert said.count("luksrd: out of memory: Argon2 needs 4194304 KiB for key slot 1\n") == 1, said
    assert said.count(REFUSED_BEFORE) == 2


def test_other_memory_that_is_short(by_filter, tmp_path):
    """If there is none for what is in the header, each later client tries again."""
    image = tmp_path / "image"
    image.write_bytes(nested_header(4 << 20, b'{"":' * 100 + b"0" + b"}" * 100, 8300))
    server = by_filter.serve("file", image, PASS, before=limited("-Sv", 400000))
    assert [export_size(server.uri, "") for _ in range(2)] == [None] * 2
    assert server.said().count("luksrd: out of memory\n") == 2, server.said()
    resource.prlimit(server.process.pid, resource.RLIMIT_AS, (resource.RLIM_INFINITY, resource.RLIM_INFINITY))
    assert export_size(server.uri, "") is None
    said = server.said()
    assert (said.count("luksrd: segment refused: segments\n"), said.count(REFUSED_BEFORE)) == (1, 0), said


def test_refused_at_once(by_filter, exports):
    uri = by_filter.serve("file", f"dir={exports.folder}", PASS).uri
    names = ["plain", "plain", "plain", "two"]
    assert in_threads(lambda number: export_size(uri, names[number]), 4) == [None] * 3 + [SIZE2]


def test_replaced(exports):
    """Another volume under the same name is refused, but not the same one with another key slot."""
    moved, moving = exports.folder / "two", exports.folder / "one"
    sizes, said = exports("one one one", between={1: lambda: overwrite(moving, 560, b"x"),
                                                  2: lambda: moved.rename(moving)})
    assert sizes == [SIZE1, SIZE1, None] and OTHER_VOLUME in said


def test_another_digest(exports):
    """Nor is one served under the same UUID with another digest of the volume key."""
    change = {1: lambda: overwrite(exports.folder / "cloned", 107, b"x")}
    sizes, said = exports("cloned cloned", between=change)
    assert sizes == [SIZE1, None] and OTHER_VOLUME in said


@needs("cryptsetup")
def test_changed_in_place(exports, by_filter, tmp_path):
    """A volume with a new key slot is served. Once it is reencrypted it has the same UUID, and its old key
    would give noise."""
    image = with_own_uuid(exports.folder / "two")
    old, new = by_filter.kinds / "pass", tmp_path / "new"
    new.write_bytes(b"another passphrase")
    derivation = "--pbkdf pbkdf2 --pbkdf-force-iterations 1000"
    sizes, said = exports("two two two two two", between={
        1: lambda: cryptsetup(f"luksAddKey {derivation} --key-file", old, image, new),
        3: lambda: cryptsetup(f"reencrypt --force-offline-reencrypt --key-slot 0 {derivation} --key-file",
                              old, image)})
    assert sizes == [SIZE2] * 3 + [None] * 2
    assert said.count(OTHER_VOLUME) == 2


@pytest.mark.parametrize("parameters", [
    ["file", VOLUME1, PASS], ["file", VOLUME1, "passphrase=secret", "partition=1"]])
def test_twice(by_filter, parameters):
    """Two of these filters would share the volume."""
    ours, = by_filter.arguments
    by_filter.arguments = [ours, *(["--filter=partition"] if len(parameters) > 3 else []), ours]
    by_filter.refuses("luksrd: this filter can be used only once", *parameters)


def test_size_below(by_filter):
    """A parameter of what is below has the name of one of the filter's."""
    by_filter.refuses(NO_LUKS, "memory", "size=65536", PASS)


# ---- reads that fail, and that wait

@pytest.fixture
def failing(by_filter, tmp_path):
    """A server below which each read fails while a file is there, and that file."""
    fail = tmp_path / "fail"
    fail.touch()
    return by_filter.serve("--filter=error", "file", VOLUME1, PASS, "error-pread-rate=100%",
                           f"error-pread-file={fail}"), fail


def test_a_header_that_fails(failing):
    """It ends the connection, and a later one opens the volume."""
    server, fail = failing
    assert export_size(server.uri, "") is None
    fail.unlink()
    assert export_size(server.uri, "") == SIZE1
    assert "luksrd: reading the first " in server.said()


@pytest.mark.parametrize("count", [512, 700, 70000])
def test_a_sector_that_fails(by_filter, failing, count):
    """It ends the request, which gives no bytes, and the next one is not affected."""
    server, fail = failing
    fail.unlink()
    handle = connected(server.uri)
    fail.touch()
    assert read(handle, count, 0) == errno.EIO
    fail.unlink()
    assert read(handle, count, 0) == by_filter.kinds.text(VOLUME1)[:count]
    assert f"luksrd: reading {count // 512 * 512} bytes at offset {START}: " in server.said()


def shell_plugin(by_filter, condition):
    """What is below: nbdkit's plugin eval, which reads VOLUME1 once this command has succeeded."""
    image = by_filter.kinds / VOLUME1
    reads = f"tail -c +$(($4 + 1)) '{image}' | head -c $3"
    return by_filter.serve("eval", "thread_model=echo parallel", f"get_size=stat -c %s '{image}'",
                           f"pread={condition}; {reads}", PASS)


@pytest.mark.parametrize("end, opens", [(START + 102400, True), (4096, False), (0, False)])
def test_bytes_after_the_header_fail(by_filter, end, opens):
    """They do not keep the volume from being opened."""
    server = shell_plugin(by_filter, f"[ $(($3 + $4)) -le {end} ] || "
                          "{ echo EIO no such sectors >&2; exit 1; }")
    size = export_size(server.uri, "")
    assert size == (SIZE1 if opens else None)
    if opens:
        text = by_filter.kinds.text(VOLUME1)
        assert read(connected(server.uri), 4096, 8192) == text[8192:][:4096]
    assert f"luksrd: reading the first {START + SIZE1} bytes: after {end}: " in server.said()


@pytest.fixture
def waiting(by_filter, tmp_path):
    """A server below which reads of the last bytes wait for a file, and that file."""
    go = tmp_path / "go"
    return shell_plugin(by_filter, f"[ $4 -lt {START + 200000} ] || "
                        f"until [ -e '{go}' ] || [ ! -d '{tmp_path}' ]; do sleep 0.05; done"), go


def test_a_read_that_waits(by_filter, waiting):
    """Others are answered, and the volume opens for others."""
    (server, go), text = waiting, by_filter.kinds.text(VOLUME1)
    handle, buffer = connected(server.uri), nbd.Buffer(1000)
    cookie = handle.aio_pread(buffer, SIZE1 - 1000)
    for other in connected(server.uri), handle, connected(server.uri):
        assert read(other, 5000, 300) == text[300:5300]
    assert not handle.aio_command_completed(cookie)
    go.touch()
    while not handle.aio_command_completed(cookie):
        handle.poll(-1)
    assert bytes(buffer.to_bytearray()) == text[-1000:]


FLAGS, OPTION = struct.pack(">I", 1), b"IHAVEOPT" + struct.pack(">I", 1)
CHOSEN = FLAGS + OPTION + struct.pack(">I", 0)


def request(kind, offset, count, magic=0x25609513, bits=0):
    return struct.pack(">IHHQQI", magic, bits, kind, 1, offset, count)


# what clients say after the server's greeting that are interrupted, or mean harm
HOSTILE = {
    "nothing": b"",
    "nonsense": random.Random(1).randbytes(4096),
    "half of a choice": CHOSEN[:9],
    "a name that is too long": FLAGS + OPTION + struct.pack(">I", 2 ** 32 - 1),
    "a name without an end": FLAGS + OPTION + struct.pack(">I", 100) + b"name",
    "half of a request": CHOSEN + request(0, 0, 4096)[:-8],
    "the longest request": CHOSEN + request(0, 0, 2 ** 32 - 1),
    "a request past the end": CHOSEN + request(0, 2 ** 63, 1),
    "a request of nothing": CHOSEN + request(0, 0, 0),
    "a write": CHOSEN + request(1, 0, 4096) + bytes(4096),
    "half of a write": CHOSEN + request(1, 0, 2 ** 26),
    "an unknown request": CHOSEN + request(999, 0, 1, bits=65535),
    "no request": CHOSEN + request(0, 0, 1, magic=0),
    "many requests": CHOSEN + request(0, 0, 65536) * 100,
}


def speak(uri, said):
    """A client that says this after the server's greeting, and then no more."""
    with socket.socket(socket.AF_UNIX) as client:
        client.settimeout(60)
        client.connect(uri.partition("socket=")[2])
        client.recv(18)
        try:
            client.sendall(said)
            client.shutdown(socket.SHUT_WR)
            while client.recv(4096):
                pass
        except (BrokenPipeError, ConnectionResetError):
            pass


def test_beside_others(by_filter, waiting):
    """What clients do that are interrupted, or do not speak the protocol, changes nothing for
    others."""
    (server, go), text = waiting, by_filter.kinds.text(VOLUME1)
    for name, said in HOSTILE.items():
        speak(server.uri, said)
        # the volume is opened by one of those that say more
        if name != "nothing":
            assert read(connected(server.uri), 5000, 300) == text[300:5300], name
    interrupted, buffer = connected(server.uri), nbd.Buffer(1000)
    interrupted.aio_pread(buffer, SIZE1 - 1000)
    with socket.socket(fileno=os.dup(interrupted.aio_get_fd())) as line:
        line.shutdown(socket.SHUT_RDWR)
    assert read(connected(server.uri), 5000, 300) == text[300:5300]
    go.touch()
    assert read(connected(server.uri), 1000, SIZE1 - 1000) == text[-1000:]
