"""luksrd-rescue serve: the plaintext as a file by nbdkit and nbdfuse, compared with the plaintext of volumes of all
kinds; how it ends, what it leaves, and what it says if something is missing."""
import contextlib
import errno
import os
import re
import signal
import types

import pytest
from disks import LUKS, MIB, disk, row
from kinds import ESSIV, KINDS, VOLUME1, VOLUME2, volume_key_options
from rescuing import Terminal, says
from support import FULL, must, needs, processes_of, run, wait_until
from volumes import PASS, copy_of

pytestmark = needs("nbdkit", "nbdfuse", "fusermount3", "fuse")
SERVED = [VOLUME1, VOLUME2, ESSIV, "of fixed size", "detached1", "detached2", "truncated inside a sector of 4096",
          "luks2 xts-plain64 512 4096, further on"]
READY = b"ends it."


@pytest.fixture
def serve(rescue, filter, tmp_path):
    """serve(IMAGE, WORD..) serves the plaintext in the folder `plain` until the end of the block; said() is what it
    prints."""
    rescue.variables["LUKSRD_FILTER"] = str(filter)

    @contextlib.contextmanager
    def serves(image, *words, env=None, folder="plain", before=()):
        printed = tmp_path / "printed"
        with open(printed, "wb") as file:
            process = rescue.start("serve", image, folder, *words, stdout=file, stderr=file, env=env, before=before)
        served = types.SimpleNamespace(process=process, path=tmp_path / folder / "plain", folder=tmp_path / folder,
                                       said=lambda: printed.read_text(errors="replace"))
        try:
            wait_until(lambda: READY in printed.read_bytes() or process.poll() is not None)
            yield served
            if process.poll() is None:
                process.send_signal(signal.SIGINT)
            served.status = process.wait(300)
        finally:
            if process.poll() is None:
                process.terminate()
                process.wait(300)
        assert not os.path.ismount(tmp_path / folder)

    return serves


def key_words(image, kinds):
    kind = KINDS[image]
    return ["--key-file", kinds / kind.key, *(["--header", kinds / kind.header] if kind.header else [])]


@pytest.mark.parametrize("image", SERVED)
def test_kinds(serve, kinds, image):
    text = kinds.text(image)
    with serve(kinds / image, *key_words(image, kinds)) as served:
        assert served.process.poll() is None, served.said()
        assert served.path.read_bytes() == text
        assert served.path.stat().st_mode & 0o222 == 0
        with pytest.raises(OSError), open(served.path, "r+b"):
            pass
    assert served.status == 0
    # (it was made for this)
    assert not served.folder.exists()


def test_by_the_volume_key(serve, kinds):
    options = volume_key_options(VOLUME2, {})
    words = ["--volume-key-file", kinds / options["volume_key_file"],
             "--payload-offset", str(options["payload_offset"]), "--sector-size", str(options["sector_size"])]
    with serve(kinds / f"{VOLUME2}.lost", "--offset", "0", *words) as served:
        assert served.path.read_bytes() == kinds.text(VOLUME2)
    with serve(kinds / VOLUME2, *words[:2]) as served:
        assert served.path.read_bytes() == kinds.text(VOLUME2)


def test_in_a_partition(serve, kinds, tmp_path):
    content = (kinds / VOLUME2).read_bytes()
    length = -(-len(content) // MIB) * MIB
    disk(tmp_path / "disk", "gpt", [row(MIB, length, LUKS)], {MIB: content + os.urandom(length - len(content))})
    for words in [], ["--partition", "1"], ["--offset", "1Mi", "--length", str(length)]:
        with serve("disk", "--key-file", kinds / "pass", *words) as served:
            plain = served.path.read_bytes()
            assert len(plain) == length - kinds.start(VOLUME2)
            assert plain[:len(kinds.text(VOLUME2))] == kinds.text(VOLUME2)
    # the copy of the disk ends inside the partition
    os.truncate(tmp_path / "disk", MIB + len(content))
    with serve("disk", "--key-file", kinds / "pass") as served:
        assert served.path.read_bytes() == kinds.text(VOLUME2)


def test_a_map_of_the_image(serve, kinds, tmp_path):
    """What it does not have is a read error, and no noise."""
    image, start, text = kinds / VOLUME1, kinds.start(VOLUME1), kinds.text(VOLUME1)
    size = image.stat().st_size
    (tmp_path / "map").write_text("# Mapfile\n0x0 + 1\n"
                                  f"0x0 0x{start + 8192:x} +\n0x{start + 8192:x} 0x1000 -\n"
                                  f"0x{start + 12288:x} 0x{size - start - 12288:x} +\n")
    with serve(image, "--key-file", kinds / "pass2", "--image-map", "map") as served:
        with open(served.path, "rb", buffering=0) as file:
            assert os.pread(file.fileno(), 8192, 0) == text[:8192]
            with pytest.raises(OSError) as info:
                os.pread(file.fileno(), 4096, 8192)
            assert info.value.errno == errno.EIO
            assert os.pread(file.fileno(), 4096, 1 << 17) == text[1 << 17:(1 << 17) + 4096]


def test_a_map_beside_the_image(serve, kinds, tmp_path):
    """It warns that the map is not used."""
    image = copy_of(kinds / VOLUME1, tmp_path / "disk.img")
    (tmp_path / "disk.map").write_text("# Mapfile. Created by GNU ddrescue version 1.27\n0 + 1\n0 512 -\n")
    with serve("disk.img", "--key-file", kinds / "pass2") as served:
        assert served.path.stat().st_size == len(kinds.text(VOLUME1))
        assert "disk.map: is beside the image, and lists sectors that were not read: " in served.said()
    assert image.exists()


def test_a_header_alone(rescue, serve, kinds, tmp_path):
    ended = rescue("serve", kinds / "truncated at the payload", "plain", "--key-file", kinds / "pass2")
    says(ended, "is a backup of a LUKS header", "luksrd-rescue decrypt IMAGE --header ", status=4)
    assert not (tmp_path / "plain").exists()


@pytest.mark.of_script
@needs("qemu-img")
def test_another_form(rescue, serve, kinds, tmp_path):
    must("qemu-img", "convert", "-f", "raw", "-O", "qcow2", kinds / VOLUME1, tmp_path / "disk.qcow2")
    says(rescue("serve", "disk.qcow2", "plain"), "disk.qcow2: is a qcow2 image (if not, ", "Write the image out first:",
         "    luksrd-rescue look disk.img", status=4)
    assert not (tmp_path / "plain").exists()


def test_a_bad_sector_in_the_header(serve, kinds, bad_sectors, tmp_path):
    """The other header is used, by nbdkit too."""
    image = copy_of(kinds / VOLUME2, tmp_path / "disk.img")
    with serve("disk.img", "--key-file", kinds / "pass", env=bad_sectors(image, [(4096, 512)])) as served:
        assert served.process.poll() is None, served.said()
        assert served.path.read_bytes() == kinds.text(VOLUME2)


@pytest.mark.parametrize("how", ["umount", "fusermount3", signal.SIGINT, signal.SIGTERM, signal.SIGHUP])
def test_ends(serve, kinds, tmp_path, how):
    """Nothing stays: no mount, no process, and no folder that it made."""
    (tmp_path / "there").mkdir()
    for folder in "there", "new":
        with serve(kinds / VOLUME1, "--key-file", kinds / "pass2", folder=folder) as served:
            if how == "umount" and os.geteuid() == 0:
                assert run("umount", served.folder).status == 0
            elif isinstance(how, str):
                assert run("fusermount3", "-u", served.folder).status == 0
            else:
                served.process.send_signal(how)
            assert served.process.wait(300) == 0
        wait_until(lambda: not processes_of(tmp_path))
    assert ((tmp_path / "there").exists(), (tmp_path / "new").exists()) == (True, False)


def test_in_use(serve, kinds):
    """Ctrl-C says so; the second one ends it all the same."""
    with serve(kinds / VOLUME1, "--key-file", kinds / "pass2") as served:
        with open(served.path, "rb") as file:
            served.process.send_signal(signal.SIGINT)
            wait_until(lambda: "plain: is in use" in served.said())
            assert file.read(512) == kinds.text(VOLUME1)[:512]
            served.process.send_signal(signal.SIGINT)
            wait_until(lambda: not os.path.ismount(served.folder))
        assert served.process.wait(300) == 0


ROOT = ("Root cannot read plain/plain, since FUSE shows it to you alone. To mount it, serve it as root, or first add "
        "the line user_allow_other to {}.")


@pytest.mark.parametrize("config, is_said", [(None, False), ("absent", True), ("# user_allow_other\n", True),
                                             (" user_allow_other\n", False)])
def test_what_is_printed(serve, rescue, kinds, tmp_path, config, is_said):
    """What is in it, and what to type next; to a user who is not root also whether root can read it."""
    if config not in (None, "absent"):
        (tmp_path / "fuse.conf").write_text(config)
    if config is not None:
        user = rescue.changed("import os; os.geteuid = lambda: 1000", f"serve.FUSE_CONFIG = '{tmp_path}/fuse.conf'")
        rescue.command = user.command
    with serve(kinds / VOLUME1, "--key-file", kinds / "pass2") as served:
        said = served.said()
    assert "plain/plain is nothing that blkid knows" in said
    assert (ROOT.format(tmp_path / "fuse.conf") in said) == is_said == ("Root cannot" in said)
    assert "Ctrl-C here, or umount plain elsewhere, ends it.\n" in said


def test_standard_output_that_cannot_be_written(rescue, filter, kinds, tmp_path):
    """It ends, and nothing stays."""
    ended = rescue("serve", kinds / VOLUME1, "plain", "--key-file", kinds / "pass2", "--quiet", stdout=FULL,
                   env={"LUKSRD_FILTER": str(filter)})
    assert ended == (6, b"", "luksrd-rescue: standard output: write failed: No space left on device\n")
    assert not (tmp_path / "plain").exists()


# ---- the passphrase

def test_typed(rescue, filter, kinds, tmp_path):
    """It is asked for; a wrong one costs a line. Ctrl-C at the terminal ends it."""
    rescue.variables["LUKSRD_FILTER"] = str(filter)
    with Terminal(rescue, "serve", kinds / VOLUME1, "plain") as terminal:
        terminal.asked().type(b"wrong\n").asked(2).type(PASS + b"\n").until(re.escape(READY))
        assert PASS not in terminal.shown
        assert (tmp_path / "plain/plain").read_bytes() == kinds.text(VOLUME1)
        terminal.type(b"\x03")
        assert terminal.ended() == 0
    assert not (tmp_path / "plain").exists()


@needs("strace")
def test_where_the_passphrase_goes(serve, kinds, tmp_path):
    """Through a pipe, and into no argument; nbdkit derives the key of the slot that has opened alone."""
    with serve(kinds / VOLUME1, "--key-file", kinds / "pass2", before=[
            "strace", "-f", "-qq", "-s", "2000", "-e", "trace=execve,write", "-o", "calls"]) as served:
        # strace does not pass signals on
        run("fusermount3", "-u", served.folder)
        served.process.wait(300)
    calls = (tmp_path / "calls").read_text(errors="replace").splitlines()
    runs = [line for line in calls if "execve(" in line and "nbdkit" in line and line.endswith("= 0")]
    assert runs and all("key-file=/dev/fd/" in line and "key-slot=5" in line for line in runs)
    assert [line for line in calls if "execve(" in line and "another one" in line] == []
    assert len([line for line in calls if "write(" in line and '"another one"' in line]) == 1


# ---- refusals

@pytest.mark.of_script
@pytest.mark.parametrize("missing, package, words", [
    ("nbdkit", "nbdkit", ["serve", "plain"]), ("nbdfuse", "libnbd-bin", ["serve", "plain"]),
    ("fusermount3", "fuse3", ["serve", "plain"]), ("partx", "util-linux", ["look"]), ("blkid", "util-linux", ["look"]),
    ("luksrd-audit", "luksrd-audit", ["look"])])
def test_a_missing_program(rescue, kinds, tmp_path, missing, package, words):
    ended = rescue.changed("found, tools.TREE = tools.found, None",
                           f"tools.found = lambda it: None if it == {missing!r} else found(it)")(
        words[0], kinds / VOLUME1, *words[1:], env={"LUKSRD_AUDIT": ""})
    assert ended == (1, b"", f"luksrd-rescue: {missing}: is not installed: run apt-get install {package}\n")
    assert not (tmp_path / "plain").exists()


@pytest.mark.of_script
def test_no_filter(rescue, kinds):
    ended = rescue.changed("tools.nbdkit_filter = lambda: None")("serve", kinds / VOLUME1, "plain")
    assert ended == (1, b"", "luksrd-rescue: nbdkit: luksrd's filter is not installed: run apt-get install "
                     "nbdkit-plugin-luksrd, or make nbdkit in the sources\n")


ONCE = "luksrd-rescue: --volume-key-file: is read twice, so it has to be a file\n"


@pytest.mark.parametrize("make, key, status, message", [
    (lambda path: (path.mkdir(), (path / "x").touch()), "pass2", 1, "luksrd-rescue: plain: is not empty"),
    (lambda path: path.touch(), "pass2", 1, "luksrd-rescue: plain: Not a directory"),
    (None, "wrong", 2, "no key slot opens by this key file"),
    *(pytest.param(None, key, 1, ONCE, marks=pytest.mark.of_script) for key in ("-", "/proc/self/fd/0"))])
def test_refused(rescue, filter, kinds, tmp_path, make, key, status, message):
    if make:
        make(tmp_path / "plain")
    words = ["--volume-key-file", key] if message == ONCE else ["--key-file", kinds / key]
    ended = rescue("serve", kinds / VOLUME1, "plain", *words, env={"LUKSRD_FILTER": str(filter)},
                   stdin=(kinds / f"{VOLUME1}.key").read_bytes())
    says(ended, message, status=status)
    assert ended.output == b"" and (tmp_path / "plain").exists() == bool(make)


def test_a_folder_that_is_served(serve, rescue, kinds):
    with serve(kinds / VOLUME1, "--key-file", kinds / "pass2") as served:
        ended = rescue("serve", kinds / VOLUME1, "plain", "--key-file", kinds / "pass2")
        assert ended == (1, b"", "luksrd-rescue: plain: something is mounted there: umount plain\n")
        assert served.path.read_bytes() == kinds.text(VOLUME1)


@pytest.mark.of_script
def test_no_fuse(rescue, filter, kinds):
    ended = rescue.changed("import os; real = os.access",
                           "os.access = lambda path, how: path != '/dev/fuse' and real(path, how)")(
        "serve", kinds / VOLUME1, "plain", env={"LUKSRD_FILTER": str(filter)})
    assert ended == (1, b"", "luksrd-rescue: /dev/fuse: cannot be used here: as root, run modprobe fuse\n")


def test_a_server_that_fails(rescue, filter, kinds, tmp_path):
    """What it has said by then, and its status."""
    (tmp_path / "nbdfuse").write_text("#!/bin/sh\n: > plain/plain\nsleep 1\necho the disk is gone >&2\nexit 3\n")
    (tmp_path / "nbdfuse").chmod(0o755)
    ended = rescue("serve", kinds / VOLUME1, "plain", "--key-file", kinds / "pass2", "--quiet",
                   env={"LUKSRD_FILTER": str(filter), "PATH": f"{tmp_path}:{os.environ['PATH']}"})
    says(ended, "nbdfuse: ended with status 3: the disk is gone\n", status=6)
    assert b"ends it." in ended.output


def test_a_server_that_does_not_begin(rescue, kinds, tmp_path):
    """What nbdkit says is shown, and nothing stays."""
    (tmp_path / "filter.so").write_bytes(b"no filter")
    ended = rescue("serve", kinds / VOLUME1, "plain", "--key-file", kinds / "pass2",
                   env={"LUKSRD_FILTER": str(tmp_path / "filter.so")})
    assert (ended.status, ended.output) == (6, b"")
    assert "luksrd-rescue: nbdkit: cannot serve the volume: " in ended.message and "filter.so" in ended.message
    assert not (tmp_path / "plain").exists()
