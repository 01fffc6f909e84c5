"""Opening a volume of an image: by a passphrase, a key file or the volume key.

Key slots are tried one by one, in luksrd's order. A slot whose key area cannot be read is left out:
zeros are never used as key material."""

from __future__ import annotations

import argparse
import contextlib
import os
import warnings
from typing import Callable, NamedTuple, Optional

from . import choosing, terminal, tools
from .audit import Found, Slot
from .command import FAILED, IMAGE, MEMORY, NO_KEY, USAGE, Refusal, number, say, shown, sized
from .contents import free_name
from .image import Image, Loaded, Lost, open_image
from .words import quoted

tools.prepare_library()
import luksrd  # noqa: E402  pylint: disable=wrong-import-position,wrong-import-order

# luksrd looks at no more of an image to open it
HEADER_BYTES = 32 << 20
TRIES = 3
# where the header of LUKS1 has its key slots, of so many bytes each
_SLOTS1, _SLOT1_BYTES = 208, 48
CIPHERS = ["aes-xts-plain64", "aes-xts-plain", "aes-cbc-essiv:sha256", "aes-cbc-plain64"]
KEYBOARD = ("Check Caps Lock and Num Lock. At boot the layout may have been another, often US: "
            "press the same keys as at boot")
NEWLINE = ("the key file ends with a newline, which counts: that is probably why. Make it without "
           "one")


class Unlocked(NamedTuple):
    """An open volume, the passphrase that opened it, which the caller overwrites, or None if it was
    opened by its volume key; and where its payload begins, after the volume's first byte."""

    volume: luksrd.Volume
    passphrase: Optional[bytearray]
    payload: int


class Head(NamedTuple):
    """The first bytes of a volume, and which of them cannot be read, as offsets in the volume."""

    content: bytearray
    lost: list[Lost]

    def is_lost(self, offset: int, length: int) -> bool:
        """Whether any of these bytes cannot be read."""
        return any(it.offset < offset + length and offset < it.offset + it.length
                   for it in self.lost)


def add_options(parser: argparse.ArgumentParser) -> None:
    """The options that say by which key the volume opens."""
    group = parser.add_argument_group("the key (without these the passphrase is asked for)")
    keys = group.add_mutually_exclusive_group()
    keys.add_argument("--key-file", metavar="FILE",
                      help="all bytes of FILE are the passphrase; - is standard input")
    keys.add_argument("--volume-key-file", metavar="FILE", help="FILE has the volume key")
    group.add_argument("--key-slot", metavar="N", type=_slot_number, help="try only this key slot")
    group.add_argument("--cipher", choices=CIPHERS, help="with --volume-key-file, if the header is "
                       "lost; aes-xts-plain64 without it")
    group.add_argument("--payload-offset", metavar="BYTES", type=number,
                       help="with that key: where the payload begins, after the volume's first "
                       "byte")
    group.add_argument("--sector-size", metavar="BYTES", type=int, choices=(512, 1024, 2048, 4096),
                       help="with that key: of the encryption, 512 without it")


def _slot_number(word: str) -> int:
    if not word.isdecimal() or int(word) > 31:
        raise argparse.ArgumentTypeError(f"{word!r} is not a number from 0 to 31")
    return int(word)


def check_options(arguments: argparse.Namespace) -> None:
    """The options go together."""
    given = [name for name in ("cipher", "payload_offset", "sector_size")
             if getattr(arguments, name) is not None]
    if arguments.volume_key_file is None:
        for name in given:
            raise Refusal(USAGE, f"--{name.replace('_', '-')}", "goes with --volume-key-file alone")
    elif arguments.key_slot is not None:
        raise Refusal(USAGE, "--key-slot", "does not go with --volume-key-file")


def unlock(image: Image, volume: choosing.Volume, arguments: argparse.Namespace,
           source: Optional[Loaded] = None) -> Unlocked:
    """Opens the volume, asking for the passphrase up to three times if the options name no key. Its
    payload is read from `source`, or else from the image."""
    check_options(arguments)
    if arguments.header is None and arguments.payload_offset is None and volume.is_header_only:
        raise Refusal(IMAGE, image.path, f"is {volume.role}. With IMAGE, the file or disk that it "
                      f"belongs to: luksrd-rescue decrypt IMAGE --header {quoted(image.path)} -o "
                      f"{free_name('plain.img')}")
    try:
        luksrd.library_version()
    except (OSError, AttributeError) as error:  # (an older library lacks functions)
        raise Refusal(USAGE, "", "the library of luksrd is not found, or too old: install "
                      f"libluksrd2, or name its file by LUKSRD_LIBRARY ({error})") from error
    with contextlib.ExitStack() as cleanup:
        attempt = _Attempt(image, volume, arguments, source or image, cleanup)
        if arguments.volume_key_file is not None:
            return attempt.by_volume_key()
        attempt.prepare()
        if arguments.key_file is not None:
            return attempt.by_key_file(terminal.read_key_file(arguments.key_file))
        return attempt.by_typing()


class _Attempt:
    """What is tried to open one volume."""

    def __init__(self, image: Image, volume: choosing.Volume, arguments: argparse.Namespace,
                 source: object, cleanup: contextlib.ExitStack) -> None:
        self._image, self._volume, self._arguments = image, volume, arguments
        self._source, self._is_quiet = source, getattr(arguments, "quiet", False)
        self._facts, self._slots = volume.facts, []
        self._head = head_of(image, volume, arguments.header)
        self._part = part_of(volume, self._head, arguments.header, cleanup)

    def prepare(self) -> None:
        """Chooses the key slots to try, and says which are left out, or refuses if none is left."""
        facts, head = self._facts, self._head
        if facts is None:
            raise self._no_header()
        if head.is_lost(0, facts.header_length):
            used = "" if facts.version == 1 else f"; the {facts.raw.get('header')} header is used"
            place = self._arguments.header or self._image.path
            say(place, f"sectors of the header cannot be read{used}")
        if facts.fault:
            raise Refusal(USAGE, self._image.path,
                          f"luksrd does not read this volume: {facts.fault}")
        self._slots = [slot for slot in self._wanted(facts)
                       if is_there(self._image.path, facts, head, slot)]
        if not self._slots:
            raise self._nothing_to_try(facts)

    def _wanted(self, facts: Found) -> list[Slot]:
        """The slots that can be tried, in luksrd's order, or the one that is named."""
        wanted = self._arguments.key_slot
        if wanted is None:
            return sorted((it for it in facts.slots if it.is_by_itself),
                          key=lambda it: (-it.priority, it.number))
        for slot in facts.slots:
            if slot.number == wanted and not slot.can_try:
                raise Refusal(USAGE, self._image.path, f"key slot {wanted} {slot.words}")
            if slot.number == wanted:
                return [slot]
        numbers = ", ".join(str(it.number) for it in facts.slots) or "none"
        raise Refusal(USAGE, self._image.path,
                      f"key slot {wanted} is not in use; in use: {numbers}")

    def _nothing_to_try(self, facts: Found) -> Refusal:
        if any(it.can_try and self._head.is_lost(it.area_offset, it.area_length)
               for it in facts.slots):
            return Refusal(FAILED, self._image.path, "no key slot can be read; if there is a "
                           "backup of the header, name it by --header")
        reasons = "; ".join(f"key slot {it.number} {it.words}" for it in facts.slots)
        return Refusal(USAGE, self._image.path,
                       f"no key slot can be tried: {reasons or 'none is in use'}")

    def _no_header(self) -> Refusal:
        if self._head.lost:
            return Refusal(FAILED, self._image.path, "the header cannot be read; if there is a "
                           "backup of it, name it by --header, and the volume key by "
                           "--volume-key-file")
        return Refusal(IMAGE, self._image.path, "there is no LUKS header here; if there is a "
                       "backup of it, name it by --header")

    def by_key_file(self, secret: bytearray) -> Unlocked:
        """Opens the volume by these bytes."""
        why = f"; {NEWLINE}" if secret.endswith(b"\n") else ""
        found = self._by_passphrase(secret)
        if found:
            return found
        raise Refusal(NO_KEY, self._image.path,
                      f"no key slot opens by this key file{self._left_out()}{why}")

    def by_typing(self) -> Unlocked:
        """Opens the volume by a passphrase that is asked for, three times at most."""
        for _ in range(TRIES):
            found = self._by_passphrase(terminal.ask(f"Passphrase of {self._name()}: "))
            if found:
                return found
            say(self._image.path, f"no key slot opens by this passphrase{self._left_out()}")
        raise Refusal(NO_KEY, "", KEYBOARD)

    def _by_passphrase(self, secret: bytearray) -> Optional[Unlocked]:
        """The open volume with the passphrase, which is overwritten if it opens none."""
        found = None
        try:
            found = self._try(secret)
        finally:
            if not found:
                terminal.wipe(secret)
        return Unlocked(found, secret, self._facts.segment_offset or 0) if found else None

    def _name(self) -> str:
        """The volume as the prompt names it."""
        place = self._volume.partition
        part = f", partition {place.number}" if place else ""
        label = f" ({shown(self._facts.label)})" if self._facts.label else ""
        return f"{shown(self._image.path)}{part}{label}"

    def _left_out(self) -> str:
        """Which slots were not tried."""
        tried = {slot.number for slot in self._slots}
        others = [str(it.number) for it in self._facts.slots if it.number not in tried]
        if not others or self._arguments.key_slot is not None:
            return ""
        return f" (not tried: {', '.join(others)})"

    def _try(self, secret: bytearray) -> Optional[luksrd.Volume]:
        """The volume, if a slot opens by this passphrase. A slot that cannot be tried for another
        reason, such as too little memory, ends the attempt only if no other one opens."""
        failures: list[Exception] = []
        for slot in self._slots:
            _warn_of_memory(self._image, slot)
            label = f"trying key slot {slot.number} ({slot.cost})"
            try:
                return terminal.derive(label, self._opener(slot, secret), self._is_quiet)
            except luksrd.WrongKeyError:
                continue
            except luksrd.LuksError as error:
                say(self._image.path, f"key slot {slot.number}: {_reason(error)}")
                failures.append(error)
        if len(failures) == len(self._slots):
            status = MEMORY if any(it.status == MEMORY for it in failures) else failures[0].status
            raise Refusal(status, self._image.path, "no key slot could be tried")
        return None

    def _opener(self, slot: Slot, secret: bytearray) -> Callable[[], luksrd.Volume]:
        def opened() -> luksrd.Volume:
            with warnings.catch_warnings():
                # (the volume itself says so at the end)
                warnings.simplefilter("ignore", luksrd.IncompleteImageWarning)
                return luksrd.open(self._source, passphrase=secret, key_slot=slot.number,
                                   **slot.limits, **self._part)
        return opened

    def by_volume_key(self) -> Unlocked:
        """Opens the volume by its key; its geometry is the header's, unless options say it."""
        numbers = geometry(self._arguments, self._facts, self._image.path)
        with contextlib.ExitStack() as cleanup:
            secret = terminal.read_key_file(self._arguments.volume_key_file)
            cleanup.callback(terminal.wipe, secret)
            found = terminal.derive("comparing the volume key",
                                    self._by_key_opener(secret, numbers), self._is_quiet)
        return Unlocked(found, None, numbers["payload_offset"])

    def _by_key_opener(self, secret: bytearray, numbers: dict) -> Callable[[], luksrd.Volume]:
        def opened() -> luksrd.Volume:
            with warnings.catch_warnings(record=True) as seen:
                warnings.simplefilter("always")
                try:
                    found = luksrd.open_by_volume_key(self._source, volume_key=secret, **numbers,
                                                      **self._part)
                except luksrd.WrongKeyError as error:
                    raise Refusal(NO_KEY, self._image.path,
                                  "the volume key is not that of the header") from error
                except ValueError as error:
                    raise Refusal(USAGE, self._arguments.volume_key_file, str(error)) from error
            is_unchecked = any(issubclass(it.category, luksrd.UncheckedKeyWarning) for it in seen)
            if self._facts is None or is_unchecked:
                say(self._image.path, "nothing tells whether the volume key is the right one: if "
                    "it is not, the plaintext is noise")
            return found
        return opened


def is_there(path: str, facts: Found, head: Head, slot: Slot) -> bool:
    """Whether the key material of a slot can be read, and what LUKS1, which has no checksum, has of
    it in the header; says so if not."""
    start = _SLOTS1 + slot.number * _SLOT1_BYTES
    if facts.version == 1 and head.is_lost(start, _SLOT1_BYTES):
        say(path, f"key slot {slot.number} is left out: its part of the header cannot be read")
        return False
    is_lost = head.is_lost(slot.area_offset, slot.area_length)
    if is_lost:
        say(path, f"key slot {slot.number} is left out: its key area has sectors that cannot be "
            "read")
    return not is_lost


def geometry(arguments: argparse.Namespace, facts: Optional[Found], path: str) -> dict:
    """Where the payload is and how it is encrypted, as luksrd.open_by_volume_key takes it: by the
    options, or else by the header."""
    payload = arguments.payload_offset
    if payload is None:
        payload = facts.segment_offset if facts else None
    if payload is None:
        raise Refusal(USAGE, path, "there is no header to say where the payload begins: add "
                      "--payload-offset (often 16Mi in LUKS2, 2Mi in LUKS1), and --cipher and "
                      "--sector-size if they differ")
    return {"payload_offset": payload,
            "cipher": arguments.cipher or (facts and facts.cipher) or CIPHERS[0],
            "sector_size": arguments.sector_size or (facts.sector_size if facts else 512),
            "iv_offset": facts.iv_tweak if facts else 0,
            "size": facts.segment_size if facts else None}


def _reason(error: luksrd.LuksError) -> str:
    return error.message.removeprefix("luksrd: ")


def _warn_of_memory(image: Image, slot: Slot) -> None:
    """Says if a slot needs more memory than the machine has left: the system may end the
    program."""
    available = available_memory()
    if slot.memory and available is not None and slot.memory > available:
        say(image.path, f"key slot {slot.number} needs {sized(slot.memory)} of memory, and only "
            f"{sized(available)} are free: end other programs if this one is killed")


def available_memory() -> Optional[int]:
    """How many bytes of memory can be used without swapping, if the system says so."""
    with contextlib.suppress(OSError, ValueError), open("/proc/meminfo", encoding="ascii") as file:
        for line in file:
            if line.startswith("MemAvailable:"):
                return int(line.split()[1]) << 10
    return None


def head_of(image: Image, volume: choosing.Volume, header: Optional[str]) -> Head:
    """The headers and key areas of a volume, or of the file with its header, with zeros for what
    cannot be read."""
    if header is None:
        return _head_of(image, volume.offset, volume.length, volume.facts)
    with open_image(header) as file:
        return _head_of(file, 0, None, volume.facts)


def part_of(volume: choosing.Volume, head: Head, header: Optional[str],
            cleanup: contextlib.ExitStack) -> dict[str, object]:
    """The arguments of luksrd.open that say where a volume and its header are."""
    part = {"offset": volume.offset, "length": volume.length}
    if header is None:
        return part | {"head": head.content}
    return part | {"header": in_memory(head.content, cleanup)}


def _head_of(image: Image, offset: int, length: Optional[int], facts: Optional[Found]) -> Head:
    patched = image.patched()
    end = image.size if length is None else min(image.size, offset + length)
    wanted = facts.head_length if facts else HEADER_BYTES
    content = bytearray(max(0, min(HEADER_BYTES, wanted, end - offset)))
    with memoryview(content) as view:
        got = patched.pread_into(view, offset) if content else 0
    del content[got:]
    return Head(content, [Lost(it.offset - offset, it.length) for it in patched.lost])


def in_memory(content: bytearray, cleanup: contextlib.ExitStack) -> str:
    """The name of a file in memory with these bytes, which is gone after the cleanup."""
    descriptor = os.memfd_create("header", os.MFD_CLOEXEC)
    cleanup.callback(os.close, descriptor)
    with open(descriptor, "wb", closefd=False) as file:
        file.write(content)
    return f"/proc/self/fd/{descriptor}"
