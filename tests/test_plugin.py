"""Volumes that nbdkit serves, by the plugin and by the filter: what clients read is the plaintext;
what is refused, what stays in memory, and the C of both under valgrind and AddressSanitizer."""

import errno
import os
import random
import re
import shutil
import signal
import subprocess
import termios
import threading
import time

import pytest
from kinds import (BY_VOLUME_KEY, NO_KEY, NO_LUKS, REFUSED, START, VOLUME1, VOLUME2,
                   each_kind, volume_key_options)
from serving import (SIZE, Way, by_filter, by_kind, by_plugin, connected, in_threads,  # noqa: F401
                     needs_nbdkit, read, reads_ranges, reads_shorter, way)
from support import TOP, alone, expect, limited, memory_of, must, needs, run, wait_until
from volumes import copy_of, cryptsetup, overwrite, with_checksum

pytestmark = needs_nbdkit
PASS, WRONG = "key-file=pass", "key-file=wrong"
OTHER_KEY = "luksrd: volume key does not match the digest in the header"
LONG_KEY_FILE = "luksrd: key file is longer than 8388608 bytes"
ABSENT = "luksrd: cannot open absent: No such file or directory"
IS_FOLDER = "luksrd: cannot open .: Is a directory"
NEED_VOLUME_KEY = ("cipher=, payload-offset=, sector-size=, iv-offset= and size= need "
                   "volume-key-file=")
KEY1, KEY2 = (f"volume-key-file={image}.key" for image in (VOLUME1, VOLUME2))
AT, PAGES = f"payload-offset={START}", "sector-size=4096"
LOST2 = [f"{VOLUME2}.lost", KEY2, PAGES]


@pytest.fixture
def piped(start):
    """piped(FILE) is the name of a pipe with the contents of a file, and how a server gets it."""
    def get(path):
        descriptor = start("cat", path, stdout=subprocess.PIPE).stdout.fileno()
        return f"/dev/fd/{descriptor}", {"pass_fds": [descriptor], "stdin": descriptor}

    return get


@each_kind
def test_kinds(way, kind, each_library, tmp_path):
    library = shutil.copy(each_library, tmp_path / "libluksrd.so.2")
    server = way.serve(*by_kind(kind.image), env=os.environ | {"LD_LIBRARY_PATH": str(tmp_path)})
    with open(f"/proc/{server.process.pid}/maps") as maps:
        assert str(library) in maps.read()
    text = way.kinds.text(kind.image)
    must("nbdcopy", server.uri, tmp_path / "copy")
    assert (tmp_path / "copy").read_bytes() == text
    said = server.said()
    if kind.message:
        assert way.named(kind.image) + kind.message in said
        assert f": only its whole sectors are served: {len(text)} bytes" in said
    else:
        assert said == ""
    reads_ranges(server.uri, text, 40)


@pytest.mark.parametrize("image, blocks", [
    *((image, []) for image in (VOLUME1, "luks2 xts-plain64 512 512", VOLUME2,
                                "luks2 xts-plain64 256 1024", "luks2 xts-plain64 512 2048")),
    (VOLUME2, ["--filter=blocksize", "minblock=4096", "maxdata=4096"])], ids=str)
def test_many_ranges(way, image, blocks):
    reads_ranges(way.serve(image, PASS, *blocks).uri, way.kinds.text(image), 2000)


def test_announced(way):
    """What is announced by a request to cache it is not changed by that."""
    text = way.kinds.text(VOLUME2)
    handle = connected(way.serve(VOLUME2, PASS).uri)
    for offset in range(0, len(text), 65536):
        count = min(65536, len(text) - offset)
        handle.cache(count, offset)
        assert read(handle, count, offset) == text[offset:offset + count]


@needs("qemu-img")
def test_compared_by_qemu(way, tmp_path):
    server, text = way.serve(VOLUME1, PASS), way.kinds.text(VOLUME1)
    plain = tmp_path / "plain"
    compare = ["qemu-img", "compare", "-f", "raw", "-F", "raw", server.uri, plain]
    plain.write_bytes(text)
    expect(run(*compare), "Images are identical.\n")
    plain.write_bytes(text[:-1] + bytes([text[-1] ^ 255]))
    assert run(*compare).status == 1


@alone
@needs("root", "loop")
def test_block_device(way, loop):
    way.gives_kind(VOLUME1, loop(way.kinds / VOLUME1), PASS)


# ---- passphrases, headers and volume keys

@pytest.mark.parametrize("parameters", [
    ["passphrase=a passphrase"], ["passphrase=+pass"], ["passphrase=+zero"],
    ["key-file=pass2", "key-slot=5"], ["key-file=pass2", "key-slot=0000000005"],
    [PASS, "max-iterations=1000"], [PASS, "max-iterations=4294967295"]], ids=str)
def test_opens(way, parameters):
    way.gives_kind(VOLUME1, VOLUME1, *parameters)


@pytest.fixture
def of_one_mib(way, cached):
    """A copy of VOLUME2 whose slot 1 takes 1 MiB in 5 passes."""
    def make(path):
        copy_of(way.kinds / VOLUME2, path)
        cryptsetup("luksConvertKey --key-slot 1 --pbkdf argon2id --pbkdf-memory 1024 --pbkdf-parallel 1 "
                   "--pbkdf-force-iterations 5 --key-file", way.kinds / "pass2", path)

    return cached("of-one-mib", make)


@pytest.mark.parametrize("parameters, reason", [
    ([], ""), (["argon2=yes"], ""), (["argon2=on", "argon2-memory=4G", "argon2-fill=64G"], ""),
    (["argon2-memory=1M"], ""), (["argon2-memory=1024K"], ""), (["argon2-memory=2048s"], ""),
    (["argon2-memory=1023K"], "argon2 memory limit, asks for 1024 KiB"),
    (["argon2-memory=1048575"], "argon2 memory limit, asks for 1024 KiB"),
    (["argon2-fill=5M"], ""), (["argon2-fill=5120K"], ""), (["argon2-fill=1T"], ""),
    (["argon2-fill=4M"], "argon2 fill limit, asks for 5120 KiB"),
    (["argon2-fill=5119K"], "argon2 fill limit, asks for 5120 KiB"),
    (["argon2=no"], "argon2id"), (["argon2=off", "argon2-memory=1M"], "argon2id")], ids=str)
def test_argon2(way, of_one_mib, parameters, reason):
    """A size may have a suffix; 2,048 sectors of 512 bytes are 1 MiB, too."""
    if reason:
        way.refuses(f"{NO_KEY}; skipped: 1 ({reason})", of_one_mib, "key-file=pass2", *parameters)
    else:
        way.gives(way.kinds.text(VOLUME2), of_one_mib, "key-file=pass2", *parameters)


@pytest.mark.parametrize("image, file, parameters", [
    (VOLUME1, "pass", ["key-file={name}"]), (VOLUME1, "pass", ["key-file=/dev/stdin"]),
    (VOLUME1, "pass", ["passphrase=-{number}"]),
    ("detached1", "header1", ["header={name}", PASS]), ("detached2", "header2", ["header={name}", PASS]),
    (f"{VOLUME1}.lost", f"{VOLUME1}.key", ["volume-key-file={name}", AT])], ids=str)
def test_from_a_pipe(way, piped, image, file, parameters):
    name, how = piped(way.kinds / file)
    given = [parameter.format(name=name, number=how["stdin"]) for parameter in parameters]
    way.gives_kind(image.removesuffix(".lost"), image, *given, **how)


def typed(answer):
    """A terminal on which this passphrase is typed once the echo is off; before, it would be
    lost."""
    terminal, its_end = os.openpty()

    def types():
        wait_until(lambda: not termios.tcgetattr(terminal)[3] & termios.ECHO)
        os.write(terminal, answer + b"\n")

    threading.Thread(target=types, daemon=True).start()
    return {"stdin": its_end}


def test_typed_passphrase(way):
    way.gives_kind(VOLUME1, VOLUME1, "passphrase=-", **typed(b"a passphrase"))
    way.refuses(NO_KEY, VOLUME1, "passphrase=-", **typed(b"a wrong one"))


def of_options(options):
    """The parameters for options of luksrd.open; a number may have zeros before it."""
    return [f"{name.replace('_', '-')}={f'{value:010}' if name == 'iv_offset' else value}"
            for name, value in options.items()]


@pytest.mark.parametrize("of, image, options, first, end, message", BY_VOLUME_KEY, ids=str)
def test_volume_key(way, of, image, options, first, end, message):
    said = way.gives(way.kinds.text(of)[first:end], image,
                     *of_options(volume_key_options(of, options)))
    assert message in said and (message or said == "")
    if message and " ends " not in message:
        assert f"{of}.key: the volume key is not compared with a header" in said


@pytest.mark.parametrize("size, message, parameters", [
    (300032, "", [AT, "iv-offset=18446744073709551615", "size=9223372036854775296"]),
    (0, "luksrd: image ends before the payload", ["payload-offset=9223372036854775807"])])
def test_greatest_numbers(way, size, message, parameters):
    ended = way.run(SIZE, VOLUME1, KEY1, *parameters)
    said = ended.output.decode()
    assert ended.status == 0 and str(size) in said.splitlines() and message in said


# ---- what is refused: a message, which begins with the image's name after *, and the parameters

WRONG_PARAMETERS = [
    # files
    (ABSENT, VOLUME1, "header=absent", PASS),
    (IS_FOLDER, VOLUME1, "header=.", PASS),
    ("luksrd: cannot open -: No such file or directory", VOLUME1, "key-file=-"),
    (ABSENT, VOLUME1, "key-file=absent"),
    (IS_FOLDER, VOLUME1, "key-file=."),
    (f"huge: {LONG_KEY_FILE}", VOLUME1, "key-file=huge"),
    (LONG_KEY_FILE, VOLUME1, "key-file=/dev/zero"),
    ("key-file=FILE or passphrase=PASSPHRASE is needed", VOLUME1),
    ("key-file= and passphrase= do not go together", VOLUME1, PASS, "passphrase=+pass"),
    # volume keys
    (f"*{OTHER_KEY}", VOLUME2, "volume-key-file=other_key", PAGES, AT),
    (f"*{OTHER_KEY}", VOLUME2, KEY1, PAGES, AT),
    (f"header2: {OTHER_KEY}", *LOST2, AT, "header=header2"),
    ("volume-key-file= needs payload-offset=", VOLUME1, KEY1),
    *((NEED_VOLUME_KEY, VOLUME1, PASS, more) for more in (
        "payload-offset=512", "cipher=aes-xts-plain64", "sector-size=512", "iv-offset=0")),
    *(("volume-key-file= does not go with key-file=, passphrase= or key-slot=", VOLUME1, KEY1,
       "payload-offset=512", more) for more in (PASS, "passphrase=+pass", "key-slot=0")),
    *(("volume-key-file= does not go with argon2=, argon2-memory= or argon2-fill=", VOLUME1, KEY1,
       "payload-offset=512", more) for more in ("argon2=yes", "argon2-memory=1K", "argon2-fill=1M")),
    ("cipher=aes-ecb: none of aes-xts-plain64 aes-xts-plain aes-cbc-essiv:sha256 aes-cbc-plain64",
     VOLUME1, KEY1, "payload-offset=512", "cipher=aes-ecb"),
    (f"{VOLUME1}.key: a key of 64 bytes, this cipher and this sector size do not go together",
     VOLUME1, KEY1, "payload-offset=512", "cipher=aes-cbc-plain64"),
    *((f"{key}: longer than the longest volume key, 64 bytes", VOLUME1, f"volume-key-file={key}",
       "payload-offset=512") for key in ("plain", "huge")),
    *((f"sector-size={size}: none of 512 1024 2048 4096", VOLUME1, KEY1, f"sector-size={size}")
      for size in (513, 1536, 4095)),
    ("size=513: not a multiple of the sector size, 512", VOLUME1, KEY1, "payload-offset=512",
     "size=513"),
    ("size=512: not a multiple of the sector size, 4096", VOLUME1, KEY1, "payload-offset=512",
     "size=512", PAGES),
    ("size= is given twice", VOLUME1, KEY1, "size=512", "size=512"),
    # one twice
    *((f"{twice.partition('=')[0]}= is given twice", VOLUME1, twice, twice) for twice in (
        "header=pipe", PASS, "key-slot=5", "max-iterations=9", "passphrase=+pass",
        "argon2-memory=1M", "argon2-fill=1G", "argon2=no", "argon2=yes",
        "volume-key-file=pass", "payload-offset=512", "cipher=aes-xts-plain64", "sector-size=512",
        "iv-offset=0")),
]
NO_PLACE = "|1M|-1|+1| 1|1x|0x1|9223372036854775808|18446744073709551617|00000000000000000001"
# values of a parameter, what is said of each, and what goes with it
WRONG_VALUES = [
    ("key-slot", "|32|-1|+1| 1|1x|0x1|00000000001|4294967296", "not a number from 0 to 31", PASS),
    ("max-iterations", "|0|-1|1x|4294967296|00000000001", "not a number from 1 to 4294967295", PASS),
    ("payload-offset", NO_PLACE, "not a number from 0 to 9223372036854775807", KEY1),
    ("size", NO_PLACE, "not a number from 0 to 9223372036854775807", KEY1),
    ("iv-offset", "|1M|-1|18446744073709551616|99999999999999999999|000000000000000000001",
     "not a number from 0 to 18446744073709551615", KEY1),
    ("sector-size", "|511|4097|1k", "not a number from 512 to 4096", KEY1),
    ("argon2-memory", "|0|1023|-1K|1Q|many|4T|16E", "not a size from 1024 to 4398046510080 bytes", PASS),
    ("argon2-fill", "|0|1023K|1048575|-1|1.5G|4P|99999999999999999999",
     "not a size from 1048576 to 4503599626321920 bytes", PASS),
    ("argon2", "|2|never", "neither yes nor no", PASS)]
WRONG_PARAMETERS += [(f"{name}={value}: {said}", VOLUME1, by, f"{name}={value}")
                     for name, values, said, by in WRONG_VALUES for value in values.split("|")]


@pytest.mark.parametrize("row", WRONG_PARAMETERS, ids=lambda row: " ".join(row[1:]))
def test_wrong_parameters(way, row):
    message, *parameters = row
    way.refuses(message.replace("*", way.named(parameters[0])), *parameters)


@pytest.mark.parametrize("image, options, code, status, message", REFUSED, ids=str)
def test_refused(way, image, options, code, status, message):
    """The message has the name of what it is about: of the key file, the header or the image."""
    options = {"key_file": "pass"} | options
    about = f"{options['key_file']}: " if code == 9 else way.named(image)
    about = f"{options['header']}: " if "header" in options else about
    way.refuses(about + message, image, *of_options(options))


@pytest.mark.parametrize("message, parameters", [
    (ABSENT, ["absent", PASS]),
    (IS_FOLDER, [".", PASS]),
    *((f"luksrd: cannot open {image}: neither a regular file nor a block device", [image, PASS])
      for image in ("pipe", "/dev/null")),
    ("file=IMAGE is needed", [PASS]),
    ("file= is given twice", [VOLUME1, "file=plain", PASS]),
    ("unknown parameter 'keyfile'", [VOLUME1, "keyfile=pass"]),
    (NEED_VOLUME_KEY, [VOLUME1, PASS, "size=512"])])
def test_refused_by_the_plugin(by_plugin, message, parameters):
    by_plugin.refuses(message, *parameters)


# ---- images that change, and reads that fail

def test_shrinks(by_plugin, tmp_path):
    """While the image becomes shorter, the bytes read are the text's, or the read failed with EIO,
    as every read of the missing part does; the payload ends with the image."""
    text, image = by_plugin.kinds.text(VOLUME1), copy_of(by_plugin.kinds / VOLUME1, tmp_path / "image")
    server, remaining = by_plugin.serve(image, PASS), [len(text)]

    def work(number):
        chance, handle = random.Random(number), connected(server.uri)
        while remaining[0] > 0:
            count = chance.randrange(1, 20000)
            offset = chance.randrange(0, len(text) - count)
            gone = remaining[0] < offset + 1
            got = read(handle, count, offset)
            assert got == errno.EIO or (not gone and got == text[offset:offset + count])
        assert read(handle, 1, 0) == errno.EIO

    def shrink():
        for size in [*range(len(text), 0, -(len(text) // 241 + 1)), 0]:
            os.truncate(image, START + size)
            remaining[0] = size
            time.sleep(0.005)

    shrinking = threading.Timer(0.2, shrink)
    shrinking.start()
    in_threads(work)
    shrinking.join()
    assert f"{image}: reading " in server.said()
    assert ": the image has become shorter" in server.said()


@needs("strace")
@pytest.mark.parametrize("call, status, after", [(1, 1, 0), (2, 0, START + 300032)])
def test_a_read_fails(by_plugin, tmp_path, call, status, after):
    """Bytes after the header that cannot be read do not keep a volume from being opened."""
    trace = ["strace", "-f", "-qq", "-o", tmp_path / "trace", "-P", by_plugin.kinds / VOLUME1,
             "-e", "trace=read", "-e", f"inject=read:error=EIO:when={call}"]
    ended = by_plugin.run(SIZE, VOLUME1, PASS, before=trace)
    assert ended.status == status
    said = ended.output.decode()
    assert ("300032" in said.splitlines()) == (status == 0)
    assert f"{VOLUME1}: luksrd: read failed: after {after} bytes: " in said


# ---- little stack, signals and no threads

@pytest.mark.parametrize("kib", [128, 256])
@pytest.mark.parametrize("secret", [[PASS], ["passphrase=+pass"], [KEY1, AT]], ids=str)
def test_little_stack(way, secret, kib):
    """A volume opens where nbdkit's file plugin runs, which needs less stack than the library."""
    little = limited("-s", kib)
    expect(run(*little, "nbdkit", "-U", "-", "file", VOLUME1, "--run", "true", cwd=way.kinds.folder))
    way.gives_kind(VOLUME1, VOLUME1, *secret, before=little)


def test_little_stack_and_a_wrong_passphrase(way):
    way.refuses(NO_KEY, VOLUME1, WRONG, before=limited("-s", 256))


@needs("strace")
def test_no_thread(by_plugin):
    """The volume is refused with a sentence if no thread can be started."""
    failing = ["strace", "-qq", "-f", "-o", "/dev/null", "-e", "trace=clone3", "-e",
               "inject=clone3:error=EAGAIN:when=1"]
    by_plugin.refuses("luksrd: no thread to derive keys on: Resource temporarily unavailable", VOLUME1,
                      PASS, before=failing)


@needs("strace")
@pytest.mark.parametrize("name", [VOLUME1, "pass"])
def test_signal_while_a_file_is_opened(by_plugin, tmp_path, name):
    """It is opened again."""
    calls, whole = tmp_path / "calls", {name: by_plugin.kinds / name}
    interrupted = ["strace", "-qq", "-f", "-o", calls, "-P", whole[name], "-e", "trace=openat", "-e",
                   "inject=openat:error=EINTR:when=1..3"]
    ended = by_plugin.run(SIZE, whole.get(VOLUME1, VOLUME1), f"key-file={whole.get('pass', 'pass')}",
                          before=interrupted)
    assert (ended.status, ended.output, calls.read_text().count("EINTR")) == (0, b"300032\n", 3)


@pytest.fixture
def slow(kinds, tmp_path):
    """A volume whose slot asks for as many iterations as there can be: PBKDF2 would take an hour or
    more."""
    image = copy_of(kinds / VOLUME1, tmp_path / "slow")
    overwrite(image, 208 + 4, b"\xff" * 4)
    return image


def busy(process):
    """Whether a process, which still runs, has used the processor for a second."""
    assert process.poll() is None
    with open(f"/proc/{process.pid}/stat") as file:
        return int(file.read().rpartition(")")[2].split()[11]) >= 100


@pytest.mark.parametrize("number", [signal.SIGTERM, signal.SIGINT])
def test_signal_while_the_plugin_derives_a_key(by_plugin, slow, number):
    """It ends nbdkit at once."""
    process = by_plugin.start("nbdkit", "-f", "-U", "socket", *by_plugin.arguments, slow,
                              f"key-file={by_plugin.kinds / 'pass'}")
    wait_until(lambda: busy(process))
    process.send_signal(number)
    assert process.wait(60) == -number


def test_signals_while_the_filter_derives_a_key(by_filter, slow):
    """SIGTERM waits for the derivation, and SIGKILL ends it."""
    server = by_filter.serve("file", slow, PASS)
    by_filter.start("nbdinfo", "--size", server.uri, stdout=subprocess.DEVNULL, stderr=subprocess.DEVNULL)
    wait_until(lambda: busy(server.process))
    server.process.terminate()
    time.sleep(2)
    assert server.process.poll() is None
    server.process.kill()
    assert server.process.wait(60) == -signal.SIGKILL


# ---- what they report about themselves

@pytest.mark.parametrize("line", [
    "name=luksrd", "magic_config_key=file", "max_thread_model=parallel",
    r"luksrd_library_version=[0-9]*\.[0-9]*\.[0-9]*", "luksrd_formats=luks1 luks2"])
def test_dump_plugin(plugin, line):
    assert re.search(f"^{line}$", must("nbdkit", plugin, "--dump-plugin").decode(), re.MULTILINE)


def test_help(way):
    said = must("nbdkit", *way.arguments, "--help").decode()
    for parameter in ("key-file", "passphrase", "header", "key-slot", "max-iterations", "cipher",
                      "argon2-memory", "argon2-fill", "argon2",
                      "volume-key-file", "payload-offset", "sector-size", "iv-offset", "size"):
        assert len(re.findall(f"^{parameter}=", said, re.MULTILINE)) == 1
    assert way.name == "filter" or "\nfile=" in said


def test_properties(way):
    said = way.run('nbdinfo --json "$uri"', VOLUME2, PASS).output.decode()
    for line in ('"is_read_only": true', '"can_multi_conn": true', '"can_cache": true',
                 '"can_flush": false', '"can_trim": false', '"can_zero": false',
                 '"can_fua": false', '"block_size_minimum": 1', '"block_size_preferred": 4096',
                 '"block_size_maximum": 4294967295'):
        assert line in said


# ---- what stays in memory

def found(secret, process):
    """Whether a piece of the secret, 16 bytes, is in the memory that the process may write to:
    `everywhere`, in its `arguments` alone, or `nowhere`. What frees memory may write over a part
    of the secret."""
    pieces = [secret[first:first + 16] for first in range(0, len(secret) - 15, 16)]
    with open(f"/proc/{process}/stat", "rb") as stat:
        # fields 48 and 49; the second is a name in brackets
        first, end = map(int, stat.read().rsplit(b")", 1)[1].split()[45:47])
    places = {first <= start + match.start() < end
              for start, content in memory_of(process, "rw") for piece in map(re.escape, pieces)
              for match in re.finditer(piece, content)}
    return "everywhere" if False in places else "arguments" if places else "nowhere"


@pytest.mark.parametrize("form, wanted", [
    ("key-file={file}", "nowhere"), ("passphrase=+{file}", "nowhere"), ("-9", "nowhere"),
    ("typed", "nowhere"), ("passphrase={secret}", "arguments"), ("passphrase=+{both}", "nowhere")])
@pytest.mark.parametrize("length", [80, 400])
def test_memory(way, piped, tmp_path, length, form, wanted):
    """While the volume is served, no piece of its passphrase is in memory, but for one that is an
    argument. The volume key is, which shows that it would be found."""
    secret = random.Random(length).randbytes(length // 2).hex()
    file, both = tmp_path / "secret", tmp_path / "both"
    file.write_text(secret)
    both.write_text(f"{secret}\0{'and what follows it ' * 20}")
    image = copy_of(way.kinds / VOLUME1, tmp_path / "image")
    cryptsetup("luksAddKey --pbkdf-force-iterations 1000 --key-file", way.kinds / "pass", image, file)
    if form == "typed":
        server = way.serve(image, "passphrase=-", **typed(secret.encode()))
    elif form == "-9":
        _, how = piped(file)
        server = way.serve(image, f"passphrase=-{how['stdin']}", **how)
    else:
        server = way.serve(image, form.format(file=file, both=both, secret=secret))
    process, handle = server.process.pid, connected(server.uri)
    assert handle.get_size() == 300032
    assert found(secret.encode(), process) == wanted
    if form.endswith("{both}"):
        assert found(b"and what follows it " * 20, process) == "nowhere"
    assert found((way.kinds / f"{VOLUME1}.key").read_bytes(), process) == "everywhere"


@needs("gcc", "qemu-x86_64")
@pytest.mark.parametrize("on", [[], ["qemu-x86_64", "-cpu", "Nehalem"]], ids=["here", "no AVX"])
def test_registers(library, tmp_path, on):
    """What copies leave in the vector registers is cleared, with AVX and without."""
    shutil.copy(library, tmp_path / "libluksrd.so.2")
    program = tmp_path / "registers"
    must("gcc", "-O0", "-std=c11", "-D_GNU_SOURCE", "-Wno-unused", f"-I{TOP}/nbdkit", f"-I{TOP}/c",
         "-o", program, TOP / "tests/registers.c", library, f"-Wl,-rpath,{tmp_path}")
    expect(run(*on, program), "0\n")
    expect(run(*on, program, "left"), "16\n")


def test_out_of_memory(way):
    """With less memory they end with a message, not by a signal."""
    def within(mib, *arguments):
        command = f'ulimit -Sv {mib * 1024}; exec nbdkit -U - "$@" --run "ulimit -Sv unlimited; $0"'
        return run("bash", "-c", command, SIZE, *arguments, cwd=way.kinds.folder,
                   stderr=subprocess.STDOUT)

    # with too little for nbdkit alone, that ends by a signal
    first = next(mib for mib in range(8, 300, 4) if within(mib, "null").status == 0)
    starved = 0
    for mib in range(first, 300, 2):
        ended = within(mib, *way.arguments, VOLUME1, PASS)
        if ended.status == 0:
            break
        starved += b"luksrd: out of memory" in ended.output
        assert 0 < ended.status < 124 and ended.output, ended
    assert ended.status == 0 and starved > 0


# ---- the C of both

# nbdkit loses some memory of its own if it ends while clients are connected, and the loader
# compares words of which the end may be no part of a name
SUPPRESSED = """
{
    what nbdkit itself takes
    Memcheck:Leak
    fun:*alloc
    obj:*/nbdkit
}
{
    a thread of nbdkit that still runs when it ends
    Memcheck:Leak
    fun:calloc
    ...
    fun:pthread_create*
    obj:*/nbdkit
}
{
    the loader looks for $ORIGIN in the names of the plugin's folders, eight bytes at a time
    Memcheck:Addr8
    fun:strncmp
    fun:is_dst
    ...
    fun:_dl_map_object
}
"""
SANITIZED = "-O1 -g -fsanitize=address,undefined -fno-sanitize-recover=all"
CHECKERS = [pytest.param(name, marks=needs("valgrind", "gcc", "make", "pkg-config"))
            for name in ("valgrind", "AddressSanitizer")]


@pytest.fixture(params=CHECKERS)
def checked(request, way, library, tmp_path):
    """A way whose C is built again, and runs under valgrind or with AddressSanitizer, which find
    nothing."""
    if request.param == "as built":
        yield way
        return
    flags = "-O1 -g" if request.param == "valgrind" else SANITIZED
    built = [tmp_path / "plugin.so", tmp_path / "filter.so"]
    shutil.copy(library, tmp_path / "libluksrd.so.2")
    must("make", "-s", "-C", TOP, f"PLUGIN={built[0]}", f"FILTER={built[1]}", f"SHARED={library}",
         f"CFLAGS={flags}", *built)
    suppressed, log = tmp_path / "suppressed", tmp_path / "log"
    suppressed.write_text(SUPPRESSED)
    if request.param == "valgrind":
        before = ["valgrind", "-q", "--leak-check=full", f"--suppressions={suppressed}",
                  f"--log-file={log}.%p"]
    else:
        before = sanitized_by(tmp_path)
    arguments = built[:1] if way.name == "plugin" else [f"--filter={built[1]}", "file"]
    yield Way(way.name, arguments, way.start, way.kinds, tmp_path, before)
    reports = [path.read_text() for path in tmp_path.glob("log.*")]
    assert not "".join(reports)


def sanitized_by(folder):
    """The command before one that is built with AddressSanitizer. valgrind checks for leaks. Under
    the sanitizer the C library's strerror leaves a lock that libraries of nbdkit wait for at the
    end, to free a locale; here freeing one does nothing."""
    must("gcc", "-shared", "-fPIC", "-x", "c", "-", "-o", folder / "left.so",
         stdin=b"void freelocale(void *locale) { (void)locale; }")
    libraries = [must("gcc", f"-print-file-name={name}").decode().strip()
                 for name in ("libasan.so", "libubsan.so")]
    return ["env", f"ASAN_OPTIONS=log_path={folder}/log:detect_leaks=0",
            f"LD_PRELOAD={' '.join(libraries)} {folder}/left.so"]


@pytest.mark.parametrize("image", [VOLUME1, VOLUME2])
def test_checked_ranges(checked, image):
    server = checked.serve(image, PASS)
    reads_ranges(server.uri, checked.kinds.text(image), 200)
    server.stop()


@pytest.mark.parametrize("checked", ["as built", *CHECKERS], indirect=True)
def test_shorter(checked, tmp_path):
    image = copy_of(checked.kinds / VOLUME1, tmp_path / "image")
    server = checked.serve(image, PASS)
    reads_shorter(server.uri, checked.kinds.text(VOLUME1), image)
    assert ": reading " in server.stop()


def test_checked_openings(checked):
    text = checked.kinds.text(VOLUME2)
    for wanted, parameters in [
            (checked.kinds.text("detached2"), ["detached2", "header=header2", PASS]),
            (text[8192:][:200704], [*LOST2, "header=plain", "iv-offset=16", "size=200704",
                                    f"payload-offset={START + 8192}"])]:
        server = checked.serve(*parameters)
        assert read(connected(server.uri), len(wanted), 0) == wanted
        server.stop()
    names = "; ".join(f'nbdinfo --size "nbd+unix:///{name}?socket=$unixsocket"' for name in "ab")
    ended = checked.run(names, VOLUME2, PASS)
    assert (ended.status, ended.output.decode()) == (0, f"{len(text)}\n" * 2)


@pytest.mark.parametrize("message, parameters", [
    (NO_KEY, [VOLUME1, WRONG]), (LONG_KEY_FILE, [VOLUME1, "key-file=long"]),
    (NO_KEY, [VOLUME1, "passphrase=+wrong"]), (ABSENT, [VOLUME1, "key-file=absent"]),
    ("not a number", [VOLUME1, "key-slot=x"]), (NO_LUKS, [VOLUME1, PASS, "header=wrong"]),
    (OTHER_KEY, [VOLUME2, "volume-key-file=other_key", AT, PAGES]),
    ("longer than", [VOLUME2, "volume-key-file=huge", AT, PAGES])], ids=str)
def test_checked_refusals(checked, message, parameters):
    ended = checked.run(f"{SIZE}; {SIZE}", *parameters)
    assert (ended.status, message in ended.output.decode()) == (1, True), ended


def damaged_headers(path):
    """Copies of a header with other bytes in the fields that a reader takes apart, at places and
    with values that follow from a count. The checksum of LUKS2 is made again, so that it does not
    hide them, and no second header is left."""
    whole = path.read_bytes()
    size = int.from_bytes(whole[8:16], "big")
    for count in range(40):
        header = bytearray(whole)
        if header[7] == 1:
            header[count * 79 % 592] ^= 1 << count % 8
        elif count % 4 == 0:
            header[count * 53 % 512] ^= 1 << count % 8
        else:
            text = range(4096, header.index(0, 4096))
            digits = [place for place in text if chr(header[place]).isdigit()]
            places = digits if count % 4 == 1 else text
            header[places[count * 7919 % len(places)]] = ord("0123456789-.e"[count % 13])
        if header[7] == 2:
            header[:size] = with_checksum(header[:size])
            header[size:size + 8] = bytes(8)
        yield bytes(header)


@pytest.mark.parametrize("checked", CHECKERS[1:], indirect=True)
@pytest.mark.parametrize("version", [1, 2])
def test_damaged_headers(checked, luksrd, version, tmp_path):
    """Both refuse what luksCat refuses, by the same message, and serve what it writes."""
    opens = []
    for number, header in enumerate(damaged_headers(checked.kinds / f"header{version}")):
        path = tmp_path / f"header{number}"
        path.write_bytes(header)
        image = checked.kinds / f"detached{version}"
        wanted = luksrd("luksCat --max-iterations 5000 --key-file", checked.kinds / "pass",
                        "--header", path, image)
        copy = tmp_path / f"copy{number}"
        ended = checked.run(f'nbdcopy "$uri" "{copy}"', image, f"header={path}", PASS,
                            "max-iterations=5000")
        message = wanted.message.strip()
        if re.fullmatch("(luksrd: image ends (inside a sector|.*before the ).*)?", message):
            assert (ended.status, copy.read_bytes()) == (0, wanted.output)
        else:
            assert (ended.status, f"{path}: {message}" in ended.output.decode()) == (1, True)
        opens.append(ended.status == 0)
    assert True in opens and False in opens
