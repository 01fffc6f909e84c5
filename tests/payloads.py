"""Volumes with what is encrypted in them, with an attached or a detached header, and how luksrd's
reading of one is compared with that and with what cryptsetup reports.

cryptsetup encrypts and decrypts LUKS2 in user space. It does neither with LUKS1: qemu-img fills the
volumes with an attached header, and for a detached one the plain bytes are those that cryptsetup
decrypts under a copy of the header that it has converted to LUKS2. qemu-img accepts detached
headers from version 9 on, which Debian 12 does not have."""
import contextlib
import os
import random
import subprocess
import typing
from pathlib import Path

import volumes
from reported import dump_of, reported
from support import NO_KEY, expect
from volumes import (copy_of, cryptsetup, empty_file, passphrases, payload_start, slot_by_cryptsetup,
                     with_own_uuid)

PLAIN = random.Random("plain").randbytes(303104)
# whole sectors of 512 bytes, but not of 1024
PLAIN1 = PLAIN[:300032]
NOISE = random.Random("noise").randbytes(len(PLAIN))
NOT_LUKS = "luksrd: not a LUKS image"
IN_AREA = "luksrd: image ends inside the header or a key area"
BEFORE = "luksrd: image ends before the payload"
FIRST = "Key slot 0 opens the volume.\n"
MODES = [("xts-plain64", 256), ("xts-plain64", 512), ("xts-plain", 256), ("xts-plain", 512),
         ("cbc-essiv:sha256", 128), ("cbc-essiv:sha256", 256), ("cbc-plain64", 128),
         ("cbc-plain64", 256)]
KEYS = ("pass", "pass2")
FAST = "--pbkdf pbkdf2 --pbkdf-force-iterations 1000"
ARGON2 = "--pbkdf-force-iterations 4 --pbkdf-parallel 1 --pbkdf-memory"
OF_LUKS1 = "--type luks1 --pbkdf-force-iterations 1000 --key-file pass"
OF_LUKS2 = f"--type luks2 {FAST} --key-file pass"
SMALL = "--luks2-metadata-size 16k --luks2-keyslots-size 1m"


TOKEN = r'{"type":"mine\t\"","keyslots":["0","10"],"x":{"\"}":[-1,null,"\u0007"]}}'


class Volume(typing.NamedTuple):
    """An image, its payload, and its header if that is detached."""

    image: Path
    plain: bytes = b""
    header: Path = None

    @property
    def names(self):
        """The arguments after the command and its options."""
        return ["--header", self.header, self.image] if self.header else [self.image]


class Volumes:
    """Makes volumes, each once. pass opens slot 0 of each, and pass2 another slot."""

    def __init__(self, cached):
        self.cached = cached

    def luks1(self, mode="xts-plain64", bits=512, hash_="sha256", *options):
        """qemu-img encrypts under a header of cryptsetup."""
        def make(image):
            volumes.luks1(image, f"aes-{mode}", hash_, bits, *options)
            volumes.fill1(image, PLAIN1)

        name = " ".join(["luks1", mode, str(bits), hash_, *options])
        return Volume(self.cached(name, make), PLAIN1)

    def luks2(self, mode="xts-plain64", bits=512, sector=512, *options):
        """cryptsetup encrypts in place. Then the payload has more bytes, which are cut off."""
        options = ["--sector-size", str(sector), *options]

        def make(image):
            volumes.luks2(image, PLAIN, f"aes-{mode}", bits, *options)
            os.truncate(image, payload_start(image) + len(PLAIN))

        return Volume(self.cached(" ".join(["luks2", mode, str(bits), *options]), make), PLAIN)

    def in_folder(self, name, make):
        """A volume in a folder of its own, with its header in a file. MAKE makes it there, and
        gives its payload."""
        def make_all(folder):
            folder.mkdir()
            passphrases(folder)
            (folder / "plain").write_bytes(make(folder))

        folder = self.cached(name, make_all)
        return Volume(folder / "image", (folder / "plain").read_bytes(), folder / "header")

    def formatted(self, version, mode, bits, sector=512):
        """A detached header for an image of noise, and that header as LUKS2."""
        def make(folder):
            (folder / "image").write_bytes(NOISE)
            format_header(folder, version, mode, bits, sector)
            copy_of(folder / "header", folder / "converted")
            if version == 1:
                cryptsetup("convert --type luks2 converted", cwd=folder)
            return decrypted(folder, "converted")

        return self.in_folder(f"formatted{version} {mode} {bits} {sector}", make)

    def encrypted2(self, mode, bits, sector):
        """A detached LUKS2 header for an image that cryptsetup encrypts under it."""
        def make(folder):
            (folder / "image").write_bytes(PLAIN)
            cryptsetup(f"reencrypt --encrypt --force-offline-reencrypt {OF_LUKS2} {SMALL} --cipher "
                       f"aes-{mode} --key-size {bits} --sector-size {sector} --header header image",
                       cwd=folder)
            add_key(folder, "--pbkdf pbkdf2")
            assert decrypted(folder, "header") == PLAIN
            return PLAIN

        return self.in_folder(f"encrypted2 {mode} {bits} {sector}", make)

    def moved(self, version, bits, sector=512):
        """A detached header with the key of another volume, whose payload starts at sector 8192 of
        the image. cryptsetup decrypts no such image."""
        mode = "xts-plain64"
        whole = (self.formatted(1, mode, bits) if version == 1 else
                 self.encrypted2(mode, bits, sector))

        def make(folder):
            cryptsetup("luksDump --dump-volume-key --volume-key-file key --key-file pass",
                       whole.header, cwd=folder)
            noise = random.Random("moved").randbytes(8192 * 512)
            (folder / "image").write_bytes(noise + whole.image.read_bytes())
            format_header(folder, version, mode, bits, sector,
                          "--offset 8192 --volume-key-file key")
            return whole.plain

        return self.in_folder(f"moved{version} {bits} {sector}", make)


def format2(image, line):
    """An empty LUKS2 volume of 20 MiB."""
    cryptsetup(f"luksFormat {OF_LUKS2} {line}", empty_file(image, 20 << 20), cwd=passphrases(image.parent))


def make_several(image):
    """A LUKS2 volume with labels, priorities, tokens, and slots by PBKDF2 and Argon2."""
    format2(image, "--subsystem subsystem")
    cryptsetup("config --label", 'a "label"', image)
    for slot, line in {
        1: FAST,
        2: f"--pbkdf argon2id {ARGON2} 65536",
        10: FAST,
        31: f"--pbkdf argon2i {ARGON2} 65535",
    }.items():
        cryptsetup(f"luksAddKey {line} --key-slot {slot} --key-file pass", image, "pass2",
                   cwd=image.parent)
    for slot, priority in {1: "prefer", 2: "ignore", 10: "ignore"}.items():
        cryptsetup(f"config --key-slot {slot} --priority {priority}", image)
    cryptsetup("token add --key-description luksrd --key-slot 0", image)
    (image.parent / "token").write_text(TOKEN)
    cryptsetup("token import --token-id 3 --json-file token", image, cwd=image.parent)


def format_header(folder, version, mode, bits, sector, options=""):
    """A detached header for the file image."""
    line = OF_LUKS1 if version == 1 else f"{OF_LUKS2} {SMALL} --sector-size {sector}"
    cryptsetup(f"luksFormat {line} --cipher aes-{mode} --key-size {bits} {options} --header header "
               "image", cwd=folder)
    add_key(folder, "--key-slot 5" if version == 1 else "--pbkdf pbkdf2")


def add_key(folder, options):
    """The passphrase in pass2 opens the file header too."""
    cryptsetup(f"luksAddKey --pbkdf-force-iterations 1200 --key-file pass {options} header pass2",
               cwd=folder)


def decrypted(folder, header):
    """What cryptsetup decrypts in a copy of the image, under a copy of this LUKS2 header."""
    with_own_uuid(copy_of(folder / header, folder / "copied header"))
    copy = copy_of(folder / "image", folder / "copy")
    cryptsetup("reencrypt --decrypt --force-offline-reencrypt --key-file pass --header",
               "copied header", copy, cwd=folder)
    return copy.read_bytes()


@contextlib.contextmanager
def pipe_of(file):
    """A pipe from which a file is read in odd pieces."""
    line = ["dd", f"if={file}", "bs=777", "status=none"]
    with subprocess.Popen(line, stdout=subprocess.PIPE) as process:
        yield process.stdout


def with_pipes(program, line, *arguments):
    """Runs a program with each file among the arguments in a pipe of its own."""
    with contextlib.ExitStack() as stack:
        pipes = {file: stack.enter_context(pipe_of(file))
                 for file in arguments if isinstance(file, Path)}
        names = [f"/dev/fd/{pipes[word].fileno()}" if word in pipes else word
                 for word in arguments]
        return program(line, *names, pass_fds=[pipe.fileno() for pipe in pipes.values()])


def check_header(luksrd, volume, header=None):
    """luksrd reports about a header what cryptsetup does, and has no findings."""
    file = volume.header or volume.image
    header = header or reported(file, volume.header and volume.image)
    wanted = {"isLuks": "", "luksUUID": header["uuid"] + "\n", "luksDump": dump_of(header),
              "luksCheck": "clean\n"}
    for command, output in wanted.items():
        expect(luksrd(command, *volume.names), output)
        piped = ["--header", "-", volume.image] if volume.header else ["-"]
        with pipe_of(file) as pipe:
            expect(luksrd(command, *piped, stdin=pipe), output)


def check_payload(luksrd, volume, key):
    """luksrd gives the plain bytes, from files and from pipes, by the passphrase in this file.
    cryptsetup opens a copy, since it repairs a damaged header."""
    key_file = luksrd.folder / key
    *options, whole = volume.names
    copy = copy_of(volume.header or whole, luksrd.folder / "repaired")
    slot = slot_by_cryptsetup(*([whole, key_file, "--header", copy] if options else
                                [copy, key_file]))
    assert slot
    expect(luksrd("testPassphrase --key-file", key, *volume.names), slot)
    line = "luksCat --key-file"
    expect(luksrd(line, key, *volume.names), volume.plain)
    expect(luksrd(line, "-", *volume.names, stdin=key_file), volume.plain)
    with pipe_of(whole) as pipe:
        expect(luksrd(line, key, *options, "-", stdin=pipe), volume.plain)
    if options:
        with pipe_of(volume.header) as pipe:
            expect(luksrd(line, key, "--header=-", whole, stdin=pipe), volume.plain)
    expect(with_pipes(luksrd, line, key_file, *volume.names), volume.plain)


def area_end(header):
    """The end of the key area that the passphrase in pass2 opens, as cryptsetup reports; luksrd
    reads whole sectors of it."""
    slot = [slot for slot in reported(header)["slots"] if "iterations" in slot][-1]
    return slot["area_offset"] + -(-slot["stripes"] * slot["key_bytes"] // 512) * 512


def left_over(count):
    """The message on an image that ends inside a sector."""
    return f"luksrd: image ends inside a sector: {count} bytes left over"


def check_truncated(luksrd, volume, size, plain_size, message):
    """The image truncated to this size gives so many of the plain bytes, and this message. It opens
    all the same if its key areas are whole."""
    cut = copy_of(volume.image, luksrd.folder / "cut")
    os.truncate(cut, size)
    ended = {"output": volume.plain[:plain_size], "message": message, "status": 4 if message else 0}
    *names, _ = volume.names
    expect(luksrd("luksCat --key-file pass2", *names, cut), **ended)
    expect(luksrd("luksCat --key-file pass2", *names, "-", stdin=cut), **ended)
    if message not in (NOT_LUKS, IN_AREA):
        expect(luksrd("testPassphrase --key-file pass", *names, cut), FIRST)


def check_volume(luksrd, volume):
    """luksrd reports about the header what cryptsetup does; both passphrases open the volume, and
    no other does."""
    check_header(luksrd, volume)
    check_opening(luksrd, volume)


def check_opening(luksrd, volume):
    """Both passphrases open the volume, and no other does."""
    for key in KEYS:
        check_payload(luksrd, volume, key)
    for command in "luksCat", "testPassphrase":
        expect(luksrd(f"{command} --key-file wrong", *volume.names), message=NO_KEY, status=2)
