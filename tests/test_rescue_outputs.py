"""luksrd-rescue decrypt: which outputs are made, and which are refused; arguments and images that cannot be."""
import errno
import json
import os
import re
import stat
import types

import pytest
from kinds import START, VOLUME1, VOLUME2
from luksrd_rescue import related
from luksrd_rescue.command import number
from rescuing import Terminal, says, with_zeros
from support import FULL, alone, must, namespace, needs, run, shown
from volumes import copy_of


def test_file_is_private_and_new(rescue, disk1, kinds):
    plain = rescue.folder / "plain"
    os.umask(0)
    try:
        assert rescue("decrypt", disk1, "--key-file", "pass", "-o", "plain").status == 0
    finally:
        os.umask(0o022)
    assert stat.S_IMODE(plain.stat().st_mode) == 0o600
    says(rescue("decrypt", disk1, "--key-file", "pass", "-o", "plain"), "there is such a file", status=1)
    plain.write_bytes(b"x" * (1 << 20))
    plain.chmod(0o644)
    says(rescue("decrypt", disk1, "--key-file", "wrong", "-o", "plain", "--force"), status=2)
    assert plain.read_bytes() == b"x" * (1 << 20)
    assert rescue("decrypt", disk1, "--key-file", "pass", "-o", "plain", "--force").status == 0
    assert plain.read_bytes() == kinds.text(VOLUME1) and stat.S_IMODE(plain.stat().st_mode) == 0o600


@pytest.mark.of_script
@pytest.mark.parametrize("how", ["itself", "link", "symbolic link", "header", "key file", "image map",
                                 "standard output", "map"])
def test_output_is_an_input(rescue, disk2, how):
    folder = rescue.folder
    words = {"itself": "disk.img", "link": "link", "symbolic link": "symlink", "header": "header", "key file": "pass",
             "image map": "disk.map", "standard output": "-", "map": "plain"}[how]
    copy_of(disk2, folder / "header")
    os.link(disk2, folder / "link")
    os.symlink("disk.img", folder / "symlink")
    (folder / "disk.map").write_text(f"0 + 1\n0 {disk2.stat().st_size} +\n")
    before = {name: (folder / name).read_bytes() for name in ("disk.img", "header", "pass", "disk.map")}
    more = ["--map", "disk.img"] if how == "map" else []
    with open(disk2, "ab") as appended:
        ended = rescue("decrypt", "disk.img", "--key-file", "pass", "--header", "header", "--image-map", "disk.map",
                       "--force", "-o", words, *more, **({"stdout": appended} if how == "standard output" else {}))
    says(ended, status=1)
    assert {name: (folder / name).read_bytes() for name in before} == before


@pytest.mark.of_script
@pytest.mark.parametrize("output, text", [
    ("folder", "is a folder"), ("no/such", "no: there is no such folder"),
    ("fifo", "is neither a file nor a block device"), ("dangling", "is a link to a file that is not there"),
    ("/dev/full", "is neither a file nor a block device"), ("pass/x", "pass/x: cannot be written: Not a directory"),
    ("x" * 300, ": cannot be written: File name too long"),
    ("x --map pass", "pass: cannot be the map: it is pass"),
    ("x --map disk.img", "disk.img: cannot be the map: it is disk.img"),
    ("x --map pass/x", "pass/x: cannot be the map: Not a directory"),
    ("x --map fifo", "fifo: cannot be the map: it is not a regular file"),
    ("old --map old", "old: cannot be the map: it is old")])
def test_output_that_cannot_be(rescue, disk1, output, text):
    (rescue.folder / "folder").mkdir()
    (rescue.folder / "old").write_bytes(b"x")
    os.mkfifo(rescue.folder / "fifo")
    os.symlink("nowhere", rescue.folder / "dangling")
    says(rescue("decrypt", "disk.img", "--key-file", "pass", "--force", "-o", *output.split()), text, status=1)
    assert not (rescue.folder / "x").exists() and (rescue.folder / "old").read_bytes() == b"x"


@pytest.mark.parametrize("words, lines, text, status", [
    (["--map", "no/such"], [], "no/such: cannot write the map: No such file or directory", 6),
    (["--map", "old"], [], "old: there is such a file, and the map would be written there: --resume goes on by it, "
     "--force overwrites it, and --map names another one", 1),
    (["--resume", "--map", "bytes"], [], "bytes: is of 100 bytes, not", 1),
    (["--retry", "none"], [], "none: there is no such map", 1),
    (["--retry", "map"], [], "plain: there is no such file, in which what is lost could be filled in", 1),
    ([], ["from luksrd_rescue import writing; begin = writing.Target.open",
          "writing.Target.open = lambda self, *how: [open(self.path, 'x').close(), begin(self, *how)][1]"],
     "plain: another program has just made this file", 1)])
def test_output_that_is_not_made(rescue, disk1, words, lines, text, status):
    """The volume opens, and then there is no file or no map of it."""
    (rescue.folder / "old").write_bytes(b"x")
    command = ["decrypt", "disk.img", "--key-file", "pass", "-o", "plain"]
    says(rescue(*command, "--map", "map"), status=0)
    (rescue.folder / "plain").unlink()
    text_of_map = (rescue.folder / "map").read_text()
    (rescue.folder / "bytes").write_text(re.sub(r"^0x0+  0x\w+  \+$", "0 100 +", text_of_map, flags=re.MULTILINE))
    says(rescue.changed(*lines)(*command, *words), text, status=status)
    assert (rescue.folder / "plain").exists() == bool(lines) and (rescue.folder / "old").read_bytes() == b"x"


@pytest.mark.of_script
@needs("setpriv", "root")
def test_folder_in_which_nothing_can_be_made(rescue, disk1):
    user = ["setpriv", "--reuid", "65534", "--regid", "65534", "--clear-groups"]
    says(rescue("decrypt", "/dev/stdin", "-o", "/plain", before=user, stdin=disk1),
         "/: no file can be made in this folder: Permission denied", status=1)


# Standard output, and messages

def of_script(*row):
    """A row for which it does not matter what is built."""
    return pytest.param(*row, marks=pytest.mark.of_script)


@pytest.fixture
def short(disk1):
    """That volume, truncated inside the second sector of the payload."""
    image = copy_of(disk1, disk1.parent / "short.img")
    os.truncate(image, START + 700)
    return image


DECRYPTS, SHORT = "decrypt disk.img --key-file pass --quiet -o", "decrypt short.img --key-file pass --quiet -o"


def is_closed(run, *words):
    return run(*words, preexec_fn=lambda: os.close(1))


def is_full(run, *words):
    return run(*words, stdout=FULL)


def has_no_reader(run, *words):
    reading, writing = os.pipe()
    os.close(reading)
    with open(writing, "wb") as pipe:
        return run(*words, stdout=pipe)


@pytest.mark.parametrize("ends, why", [(is_closed, "Bad file descriptor"), (is_full, "No space left on device"),
                                       (has_no_reader, "Broken pipe")])
@pytest.mark.parametrize("line, besides, made", [
    *(of_script(line, "", []) for line in (
        "--help", "--version", "decrypt --help", "look disk.img", "look --json disk.img", "look --json none")),
    (f"{DECRYPTS} -", "", []), (f"{DECRYPTS} plain", "; plain is complete", ["plain"]),
    (f"{DECRYPTS} plain --map map", "; plain is complete", ["map", "plain"]),
    (f"{SHORT} plain", "; plain is written", ["plain"]),
    ("try disk.img --candidates pass --state done", "; line 1 opens key slot 0", ["done"])])
def test_standard_output_that_cannot_be_written(rescue, short, kinds, line, besides, made, ends, why):
    """One line says that, and the status is 6, as of luksrd. A file has all bytes, and its map is gone."""
    before = set(rescue.folder.iterdir())
    ended = ends(rescue, *line.split())
    says(ended, status=6)
    *others, last = ended.message.splitlines()
    assert (len(others), last) == (
        line.startswith(SHORT), f"luksrd-rescue: standard output: write failed: {why}{besides}")
    assert sorted(path.name for path in set(rescue.folder.iterdir()) - before) == made
    if "plain" in made:
        wanted = kinds.text(VOLUME1)[:512 if line.startswith(SHORT) else None]
        assert shown((rescue.folder / "plain").read_bytes()) == shown(wanted)
    if "done" in made:  # the line that opens is tried again
        assert json.loads((rescue.folder / "done").read_text())["lines"] == 0


@pytest.mark.parametrize("how", [{"stderr": FULL}, {"preexec_fn": lambda: os.close(2)}], ids=["full", "closed"])
@pytest.mark.parametrize("line, status", [
    of_script("", 1), of_script("nonsense", 1), of_script("decrypt disk.img", 1), of_script("look none", 4),
    of_script(f"{DECRYPTS} pass", 1), of_script(f"{SHORT} plain", 4), (f"{DECRYPTS} plain", 0),
    ("decrypt disk.img --key-file wrong -o plain", 2), ("try disk.img --candidates pass", 0)])
def test_messages_that_cannot_be_printed(rescue, short, line, status, how):
    """They change nothing."""
    assert rescue(*line.split(), **how).status == status


@pytest.mark.of_script
def test_standard_output_that_is_a_terminal(rescue, disk1):
    with Terminal(rescue, "decrypt", "disk.img", "--key-file", "pass", "-o", "-") as terminal:
        assert terminal.ended() == 1 and b"standard output is a terminal" in terminal.shown


def test_pipe(rescue, disk2, kinds):
    ended = rescue("decrypt", disk2, "--key-file", "pass", "-o", "-", "--quiet")
    assert (ended.status, ended.message, shown(ended.output)) == (0, "", shown(kinds.text(VOLUME2)))
    says(rescue("decrypt", disk2, "--key-file", "pass", "-o", "-", "--resume"), "cannot be gone on with", status=1)


def test_closed_streams(rescue, disk2):
    """No file gets the number of standard output, and so no message."""
    rescue("decrypt", disk2, "--key-file", "pass", "-o", "plain",
           preexec_fn=lambda: [os.close(it) for it in (0, 1, 2)])
    assert b"luksrd-rescue" not in (rescue.folder / "plain").read_bytes()


@alone
@needs("loop")
def test_devices(rescue, disk2, kinds, loop, bad_sectors, tmp_path):
    """A device gets the zeros, too, if it is large enough and has nothing to do with the image."""
    content = kinds.text(VOLUME2)
    (tmp_path / "target").write_bytes(b"x" * (len(content) + 4096))
    (tmp_path / "small").write_bytes(b"x" * (len(content) - 4096))
    image, target, small, other = (loop(tmp_path / name) for name in ("disk.img", "target", "small", "disk.img"))
    words = ["decrypt", "disk.img", "--key-file", "pass"]
    says(rescue(*words, "-o", target), "is a device: --force overwrites all that is on it", status=1)
    says(rescue(*words, "--force", "-o", small), "and the plaintext", status=1)
    says(rescue(*words, "--force", "-o", target, "--resume"),
         "--resume: needs --map here: a device has no map beside it", status=1)
    gone = bad_sectors(image, [(START + 4096, 512)], error=errno.ENXIO)
    says(rescue("decrypt", image, "--key-file", "pass", "-o", "plain", env=gone), f"{image}: the disk is gone: No such "
         "device or address; what is written is kept, and --resume goes on with it by plain.map\n", status=6)
    for from_, to in (("disk.img", image), (image, "disk.img"), (image, other), (image, image)):
        says(rescue("decrypt", from_, "--key-file", "pass", "--force", "-o", to), "nothing is written there", status=1)
    for places in [(START + 4096 + 512, 512)], []:
        ended = rescue("decrypt", image, "--key-file", "pass", "--force", "-o", target, env=bad_sectors(image, places))
        assert ended.status == (6 if places else 0)
        must("blockdev", "--flushbufs", target)
        lost = [(start - 512 - START, 4096) for start, _ in places]
        assert shown((tmp_path / "target").read_bytes()) == shown(with_zeros(content, lost) + b"x" * 4096)


@alone
@pytest.mark.of_script
@needs("loop", "mount", "mke2fs")
def test_device_that_is_mounted(rescue, disk2, loop, tmp_path):
    (tmp_path / "target").write_bytes(bytes(16 << 20))
    target = loop(tmp_path / "target")
    must("mke2fs", "-q", target)
    script = 'mount "$1" /mnt; shift; "$@"'
    words = rescue.command("decrypt", "disk.img", "--key-file", "pass", "--force", "-o", target)
    ended = run(*namespace(), "sh", "-c", script, "sh", target, *words, cwd=tmp_path, env=rescue.variables)
    if "unknown filesystem type" in ended.message:
        pytest.skip("this kernel has no such file system")
    says(ended, f"{target}: is in use: mounted on /mnt", status=1)


# A disk, two partitions of it, a loop device over an image on the first one, and what the device mapper makes of them:
# `crypt` of the second partition, two logical volumes in that, and a striped one over both partitions.
DEVICES = {"8:0": "sda", "8:1": "sda/sda1", "8:2": "sda/sda2", "7:0": "loop0", "253:0": "crypt", "253:1": "root",
           "253:2": "home", "253:3": "striped"}
SLAVES = {"crypt": ["sda/sda2"], "root": ["crypt"], "home": ["crypt"], "striped": ["sda/sda1", "sda/sda2"]}


@pytest.fixture
def devices(tmp_path, monkeypatch):
    """devices(NAME): one of these devices as os.stat shows it, by a folder like /sys."""
    (tmp_path / "sys/dev/block").mkdir(parents=True)
    for pair, name in DEVICES.items():
        folder = tmp_path / "sys/devices" / name
        folder.mkdir(parents=True)
        (folder / "dev").write_text(f"{pair}\n")
        if "/" in name:
            (folder / "partition").write_text("1\n")
        (tmp_path / "sys/dev/block" / pair).symlink_to(folder)
    for name, below in SLAVES.items():
        (tmp_path / "sys/devices" / name / "slaves").mkdir()
        for each in below:
            (tmp_path / "sys/devices" / name / "slaves" / os.path.basename(each)).symlink_to(
                tmp_path / "sys/devices" / each)
    (tmp_path / "backing").touch()
    (tmp_path / "sys/devices/loop0/loop").mkdir()
    (tmp_path / "sys/devices/loop0/loop/backing_file").write_text(f"{tmp_path}/backing\n")
    monkeypatch.setattr(related, "SYSTEM", str(tmp_path / "sys"))
    numbers = {os.path.basename(name): os.makedev(*map(int, pair.split(":"))) for pair, name in DEVICES.items()}

    def stated(name):
        if name == "backing":
            return os.stat(tmp_path / name)
        if name.startswith("file on "):
            return types.SimpleNamespace(st_mode=stat.S_IFREG, st_dev=numbers[name[8:]], st_ino=5)
        return types.SimpleNamespace(st_mode=stat.S_IFBLK, st_rdev=numbers[name], st_dev=6, st_ino=numbers[name])

    return stated


@pytest.mark.parametrize("one, other, are_related", [
    ("crypt", "crypt", True), ("crypt", "sda2", True), ("crypt", "sda", True), ("root", "sda", True),
    ("root", "sda2", True), ("root", "crypt", True), ("striped", "sda1", True), ("striped", "sda2", True),
    ("sda1", "sda", True), ("loop0", "backing", True), ("crypt", "sda1", False), ("root", "home", False),
    ("root", "sda1", False), ("sda1", "sda2", False), ("loop0", "sda", False), ("backing", "sda", False)])
def test_devices_below_and_above(devices, one, other, are_related):
    """What the device mapper puts on a device has its bytes; two volumes on the same one have different bytes."""
    assert related.are_related(devices(one), devices(other)) is are_related
    assert related.are_related(devices(other), devices(one)) is are_related


@pytest.mark.parametrize("folder, image, is_inside", [
    ("file on root", "root", True), ("file on root", "crypt", True), ("file on root", "sda2", True),
    ("file on striped", "sda1", True), ("file on sda1", "sda1", True), ("file on root", "sda1", False),
    ("file on root", "home", False), ("file on sda1", "sda2", False), ("sda1", "sda1", False)])
def test_output_on_a_file_system_in_the_image(devices, folder, image, is_inside):
    assert related.is_inside(devices(folder), devices(image)) is is_inside


@pytest.mark.parametrize("device, users", [
    ("root", ["/mnt"]), ("crypt", ["/mnt"]), ("sda2", ["/mnt"]), ("sda", ["/mnt"]), ("sda1", []), ("home", []),
    ("loop0", ["swap"])])
def test_users_of_a_device(devices, monkeypatch, device, users):
    """What is mounted on what the device mapper puts on it, or swapped to."""
    texts = {"/proc/self/mountinfo": "22 1 0:5 / /proc rw - proc proc rw\n36 22 253:1 / /mnt rw - ext4 /dev/root rw",
             "/proc/swaps": "Filename Type Size Used Priority\n/gone file 1 0 -2\n/dev/loop0 partition 1 0 -2"}
    read, stat_of = related._read, os.stat
    monkeypatch.setattr(related, "_read", lambda path: texts.get(path) or read(path))
    monkeypatch.setattr(related.os, "stat", lambda path, **how: devices("loop0") if path == "/dev/loop0" else stat_of(
        path, **how))
    assert related.mounted_on(devices(device).st_rdev) == users


def described(system, device):
    """A folder for this device, in one like /sys."""
    pair = f"{os.major(device)}:{os.minor(device)}"
    folder = system / "dev/block" / pair
    (folder / "slaves").mkdir(parents=True)
    (folder / "dev").write_text(f"{pair}\n")
    return folder


@alone
@pytest.mark.of_script
@needs("loop")
def test_output_above_the_image(rescue, disk2, loop, tmp_path):
    """A device that is not the image, and is on it by what the kernel says, gets nothing."""
    (tmp_path / "target").write_bytes(b"x" * (8 << 20))
    image, target = loop(tmp_path / "disk.img"), loop(tmp_path / "target")
    below, above = (described(tmp_path / "sys", os.stat(device).st_rdev) for device in (image, target))
    (above / "slaves/image").symlink_to(below)
    fake = rescue.changed("from luksrd_rescue import related", f"related.SYSTEM = {str(tmp_path / 'sys')!r}")
    for one, other in (image, target), (target, image):
        says(fake("decrypt", one, "--offset", "0", "--key-file", "pass", "--force", "-o", other),
             f"{other}: is {one} itself, a part of it, or what it is a part of: nothing is written there", status=1)
    assert (tmp_path / "target").read_bytes() == b"x" * (8 << 20)


@pytest.mark.parametrize("word, value", [
    ("0", 0), ("512", 512), ("2s", 1024), ("1k", 1000), ("1kB", 1000), ("1Ki", 1024), ("1KiB", 1024), ("1M", 10 ** 6),
    ("1Mi", 1 << 20), ("0x10", 16), ("010", 8), ("2G", 2 * 10 ** 9), ("1Ti", 1 << 40)])
def test_numbers(word, value):
    """ddrescue's suffixes."""
    assert number(word) == value


@pytest.mark.of_script
@pytest.mark.parametrize("word", ["", "1K", "1m", "x", "-1", "1 ", "1e3", "9223372036854775808", "08", "1.5M"])
def test_no_numbers(rescue, disk1, word):
    says(rescue("decrypt", disk1, f"--offset={word}", "-o", "plain"), "--offset", status=1)


DECRYPT, SERVE, TRY = "decrypt disk.img -o x", "serve disk.img x", "try disk.img --candidates pass"


@pytest.mark.of_script
@pytest.mark.parametrize("line, text", [
    ("", "usage"), ("nonsense", "usage"), ("decrypt", "decrypt"), ("decrypt disk.img", "decrypt"), ("look", "look"),
    ("look --x disk.img", "--x"), ("look --jso disk.img", "--jso"), ("serve", "serve"), ("serve disk.img", "serve"),
    ("try disk.img", "--candidates"), ("try --candidates pass", "IMAGE"),
    *((f"{command} --key-slot 32", "--key-slot: '32' is not a number from 0 to 31") for command in (DECRYPT, SERVE)),
    (f"{TRY} --key-slot 32", "--key-slot: 32 is not from 0 to 31"),
    *((f"{command} --key-file a --volume-key-file b", "not allowed with") for command in (DECRYPT, SERVE)),
    (f"{TRY} --jobs 0", "--jobs: 0 is not from 1 to 1024; luksrd-rescue try --help explains"),
    (f"{TRY} --max-iterations 0", "--max-iterations: 0 is not from 1 to 4294967295"),
    (f"{DECRYPT} --range 1", "--range: '1' is not OFFSET:LENGTH, such as 0:1Mi"), (f"{DECRYPT} --cipher a", "--cipher"),
    (f"{DECRYPT} --resume --retry m", "not allowed with"), (f"{DECRYPT} --offset 8Ei", "'8Ei' is 2^63 or more"),
    (f"{DECRYPT} --length 0x", "--length: '0x' is no number of bytes, such as 1048576, 0x100000, 2048s, 1Mi or 500G")])
def test_arguments_that_cannot_be(rescue, disk1, line, text):
    ended = rescue(*line.split())
    says(ended, "usage: luksrd-rescue", text, status=1)
    assert (ended.output, (rescue.folder / "x").exists()) == (b"", False)


@pytest.mark.of_script
@pytest.mark.parametrize("image, text, status", [
    ("missing", "missing: cannot open: No such file or directory", 4), (".", "is a folder", 4),
    ("/dev/null", "is neither", 4),
    ("pass", "no LUKS header", 4), ("empty", "no LUKS header", 4), ("-", "standard input cannot be an image", 4),
    ("/dev/stdin", "is neither", 4)])
def test_images_that_cannot_be(rescue, disk1, image, text, status):
    (rescue.folder / "empty").touch()
    says(rescue("decrypt", image, "--key-file", "pass", "-o", "plain"), text, status=status)
    assert not (rescue.folder / "plain").exists()
