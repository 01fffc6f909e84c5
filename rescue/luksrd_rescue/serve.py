"""luksrd-rescue serve: the plaintext of a volume as a read-only file, without a copy.

nbdkit decrypts, by luksrd's filter, and nbdfuse shows what it serves as a file."""

from __future__ import annotations

import argparse
import contextlib
import os
import signal
import subprocess
import tempfile
import threading
import time
from typing import Iterator, NamedTuple, Optional

from . import choosing, contents, terminal, tools, unlocking
from .command import FAILED, USAGE, Refusal, say, subcommand, tell
from .image import open_image
from .words import quoted

EXAMPLES = """examples:
  luksrd-rescue serve laptop.img plain      the plaintext as the file plain/plain
  mount -o loop,ro,noload plain/plain /mnt  as root, if root serves it
  umount plain                              ends it, as Ctrl-C does"""

FILE = "plain"
# How often the state of the children is looked at, in seconds
WAIT_SECONDS = 0.1
FUSE_CONFIG = "/etc/fuse.conf"
ENDING = (signal.SIGINT, signal.SIGTERM, signal.SIGHUP)


def register(subparsers) -> None:
    """Adds the command to those of luksrd-rescue."""
    parser = subcommand(
        subparsers, "serve", run, EXAMPLES, "show the plaintext as a file, without a copy",
        "Show the plaintext of a volume as the read-only file DIR/plain, until Ctrl-C or "
        "`umount DIR`.\nA read of what is lost fails. It needs nbdkit, nbdfuse and luksrd's filter "
        "for nbdkit.")
    parser.add_argument("folder", metavar="DIR",
                        help="an empty folder, or one that is not there yet")
    parser.add_argument("--quiet", action="store_true", help="show no progress")
    choosing.add_options(parser)
    unlocking.add_options(parser)


class Programs(NamedTuple):
    """What serves a volume."""

    nbdkit: str
    nbdfuse: str
    fusermount: str
    filter: str


def run(arguments: argparse.Namespace) -> int:
    """Serves the volume until it is unmounted."""
    programs = _programs()
    key = arguments.volume_key_file
    if key is not None and os.path.lexists(key) and not os.path.isfile(key) or key == "-":
        # (here, and then by nbdkit)
        raise Refusal(USAGE, "--volume-key-file", "is read twice, so it has to be a file")
    with contextlib.ExitStack() as cleanup:
        image = cleanup.enter_context(open_image(arguments.image, arguments.image_map))
        volume = choosing.choose(image.patched(), arguments)
        _check_folder(arguments.folder)
        unlocked = unlocking.unlock(image, volume, arguments)
        opened, passphrase = unlocked.volume, unlocked.passphrase
        cleanup.callback(opened.close)
        cleanup.callback(terminal.wipe, passphrase)
        cleanup.enter_context(_folder(arguments.folder))
        server = _Server(programs, arguments.folder, cleanup)
        server.start(_Parameters(image, volume, arguments, opened, cleanup), passphrase)
        terminal.wipe(passphrase)
        server.wait_until_there()
        plain = os.path.join(arguments.folder, FILE)
        tell(*_lines(plain, opened, arguments, server.is_for_root))
        return server.wait()


def _programs() -> Programs:
    """What is needed, or what to install."""
    nbdkit, nbdfuse = tools.find("nbdkit"), tools.find("nbdfuse")
    fusermount = tools.find("fusermount3")
    found = tools.nbdkit_filter()
    if found is None:
        raise Refusal(USAGE, "nbdkit", "luksrd's filter is not installed: run apt-get install "
                      "nbdkit-plugin-luksrd, or make nbdkit in the sources")
    if not os.access("/dev/fuse", os.R_OK | os.W_OK):
        raise Refusal(USAGE, "/dev/fuse", "cannot be used here: as root, run modprobe fuse")
    return Programs(nbdkit, nbdfuse, fusermount, found)


def _check_folder(folder: str) -> None:
    """The folder is empty, or not there."""
    try:
        if os.path.ismount(folder):
            raise Refusal(USAGE, folder, f"something is mounted there: umount {quoted(folder)}")
        if os.listdir(folder):
            raise Refusal(USAGE, folder, "is not empty")
    except FileNotFoundError:
        pass
    except OSError as error:
        # (what is left of a server that was killed)
        raise Refusal(USAGE, folder, f"{error.strerror}; if something is mounted there: "
                      f"fusermount3 -u {quoted(folder)}") from error


@contextlib.contextmanager
def _folder(folder: str) -> Iterator[None]:
    """Makes the folder, if it is not there, and then removes it in the end."""
    is_new = not os.path.exists(folder)
    if is_new:
        os.mkdir(folder, 0o700)
    try:
        yield
    finally:
        if is_new:
            with contextlib.suppress(OSError):
                os.rmdir(folder)


class _Parameters:
    """What nbdkit is told of a volume. No passphrase is in it: that goes through a pipe."""

    def __init__(self, image, volume: choosing.Volume, arguments: argparse.Namespace, opened,
                 cleanup: contextlib.ExitStack) -> None:
        self._image, self._volume, self._arguments = image, volume, arguments
        self._opened, self._cleanup = opened, cleanup
        self.kept: list[int] = []

    def secret(self, passphrase: Optional[bytearray]) -> bytearray:
        """What nbdkit reads as the key file: the passphrase, or the volume key."""
        if passphrase is not None:
            return bytearray(passphrase)
        return terminal.read_key_file(self._arguments.volume_key_file)

    def words(self, found_filter: str, key_file: str) -> list[str]:
        """The arguments after nbdkit's own: filters, the plugin, and their parameters."""
        arguments, volume = self._arguments, self._volume
        filters, parameters = [found_filter], []
        rest = self._image.size - volume.offset
        if volume.offset or volume.length not in (None, rest):
            filters.append("offset")
            parameters += [f"offset={volume.offset}", f"range={min(rest, volume.length or rest)}"]
        if arguments.image_map is not None:
            filters.append("ddrescue")
            parameters.append(f"ddrescue-mapfile={os.path.abspath(arguments.image_map)}")
        # (the key first: `size` goes to luksrd's filter only after it)
        return [*(f"--filter={each}" for each in filters), "file",
                f"file={os.path.abspath(self._image.path)}", *self._key(key_file),
                *self._header(), *parameters]

    def _key(self, key_file: str) -> list[str]:
        facts, opened = self._volume.facts, self._opened.key_slot
        if self._arguments.volume_key_file is None:
            limits = next(slot.limits for slot in facts.slots if slot.number == opened)
            return [f"key-file={key_file}", *_words({"key_slot": opened, **limits})]
        geometry = unlocking.geometry(self._arguments, facts, self._image.path)
        return [f"volume-key-file={key_file}", *_words(geometry)]

    def _header(self) -> list[str]:
        """The detached header, or a copy of one that cannot be read as a whole, in memory."""
        name = self._arguments.header
        if self._volume.facts is None:
            return []
        head = unlocking.head_of(self._image, self._volume, name)
        if name is None and not head.lost:
            return []
        self.kept.append(int(os.path.basename(unlocking.in_memory(head.content, self._cleanup))))
        return [f"header=/dev/fd/{self.kept[-1]}"]


def _words(values: dict[str, object]) -> list[str]:
    """These as parameters of nbdkit, but for those that are None."""
    return [f"{name.replace('_', '-')}={value}" for name, value in values.items()
            if value is not None]


class _Server:
    """nbdkit and nbdfuse, in a session of their own, so that Ctrl-C at the terminal does not reach
    them: nbdfuse must not be killed, but unmounted."""

    def __init__(self, programs: Programs, folder: str, cleanup: contextlib.ExitStack) -> None:
        self._programs, self._folder = programs, folder
        self._said = cleanup.enter_context(tempfile.TemporaryFile())
        self._process: Optional[subprocess.Popen] = None
        self._signals: list[int] = []
        self.is_for_root = os.geteuid() == 0 or _allows_others()
        for number in ENDING:
            before = signal.signal(number, lambda got, _: self._signals.append(got))
            cleanup.callback(signal.signal, number, before)
        cleanup.callback(self._stop)

    def start(self, parameters: _Parameters, passphrase: Optional[bytearray]) -> None:
        """Starts both. nbdkit reads the passphrase from a pipe."""
        reading, writing = os.pipe()
        words = parameters.words(self._programs.filter, f"/dev/fd/{reading}")
        show = ["-o", "allow_root"] if self.is_for_root and os.geteuid() else []
        command = [self._programs.nbdfuse, "--readonly", *show, f"{self._folder}/{FILE}",
                   "--command", self._programs.nbdkit, "--single", "--readonly",
                   "--exit-with-parent", *words]
        try:
            self._process = subprocess.Popen(
                command, stdin=subprocess.DEVNULL, stdout=self._said, stderr=self._said,
                start_new_session=True, pass_fds=(reading, *parameters.kept))
        finally:
            os.close(reading)
        _write(writing, parameters.secret(passphrase))

    def wait_until_there(self) -> None:
        """Waits until the file is there."""
        path = os.path.join(self._folder, FILE)
        while not os.path.exists(path):
            if self._process.poll() is not None:
                raise Refusal(FAILED, "nbdkit", f"cannot serve the volume: {self._complaint()}")
            if self._signals:
                raise KeyboardInterrupt
            time.sleep(WAIT_SECONDS)

    def _complaint(self) -> str:
        """What the two have said."""
        self._said.seek(0)
        said = self._said.read().decode(errors="backslashreplace").strip()
        return said or "it ended without a message"

    def wait(self) -> int:
        """Waits for Ctrl-C, or until somebody else unmounts it."""
        asked = 0
        while self._process.poll() is None:
            if len(self._signals) > asked:
                asked = len(self._signals)
                is_last = asked > 1 or self._signals[-1] != signal.SIGINT
                if self._unmount(is_last):
                    break
                say(self._folder, "is in use: end what uses it, such as a mount of the file in it, "
                    "and press Ctrl-C again")
            time.sleep(WAIT_SECONDS)
        status = self._process.wait()
        if status:
            say("nbdfuse", f"ended with status {status}: {self._complaint()}")
        return FAILED if status else 0

    def _unmount(self, even_if_used: bool) -> bool:
        """Unmounts it; whether it is no longer there for new users."""
        program = self._programs.fusermount
        if tools.run(program, "-u", "--", self._folder).status == 0:
            return True
        return even_if_used and tools.run(program, "-u", "-z", "--", self._folder).status == 0

    def _stop(self) -> None:
        """Leaves nothing mounted, whatever happened."""
        if self._process is None or self._process.poll() is not None:
            return
        while self._process.poll() is None:
            if not self._unmount(True) and not os.path.ismount(self._folder):
                # (it has not got as far as a mount)
                os.killpg(self._process.pid, signal.SIGTERM)
            with contextlib.suppress(subprocess.TimeoutExpired):
                self._process.wait(WAIT_SECONDS)
        self._unmount(True)


def _write(descriptor: int, secret: bytearray) -> None:
    """Writes a secret into a pipe, whose reader may not have begun, closes it, and overwrites the
    secret."""

    def work() -> None:
        try:
            with contextlib.suppress(BrokenPipeError), open(descriptor, "wb", buffering=0) as pipe:
                done = 0
                while done < len(secret):
                    with memoryview(secret) as view:
                        done += pipe.write(view[done:])
        finally:
            terminal.wipe(secret)

    threading.Thread(target=work, daemon=True).start()


def _allows_others() -> bool:
    """Whether FUSE lets users show their files to root."""
    try:
        with open(FUSE_CONFIG, encoding="utf-8", errors="replace") as file:
            return any(line.strip() == "user_allow_other" for line in file)
    except OSError:
        return False


def _lines(plain: str, opened, arguments: argparse.Namespace, can_mount: bool) -> list[str]:
    """What is in the file, and what to type next."""
    decrypt = f"luksrd-rescue decrypt {choosing.again(arguments)}"
    lines = contents.lines(contents.identify(opened, plain), decrypt, can_mount)
    if not can_mount:
        lines.append(f"Root cannot read {plain}, since FUSE shows it to you alone. To mount it, "
                     f"serve it as root, or first add the line user_allow_other to {FUSE_CONFIG}.")
    return [*lines, f"Ctrl-C here, or umount {quoted(arguments.folder)} elsewhere, ends it."]
