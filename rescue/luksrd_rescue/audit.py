"""What luksrd-audit says of LUKS headers. Nothing else here looks into a header."""

import json
import os
import subprocess
import threading
import time
from typing import Any, Callable, Iterator, NamedTuple, Optional

from . import tools
from .command import Refusal, shown, sized

# luksrd looks at no more of an image to find its header and its key areas
HEADER_BYTES = 32 << 20
PIECE = 1 << 16
SECTOR = 512
# The length of a LUKS1 header
HEADER1_BYTES = 592
KIB, MIB = 1024, 1 << 20
# The library's default limits for Argon2, the memory of a slot and what it fills in all passes, and
# its greatest limits, of so many KiB and MiB
ARGON2_MEMORY, ARGON2_FILL, GREATEST = 4 << 30, 64 << 30, 0xFFFFFFFF

# What tokens need, by their types; a slot with another token opens with what that is for
TOKENS = {"systemd-tpm2": "TPM2", "systemd-fido2": "FIDO2", "systemd-pkcs11": "PKCS#11 card",
          "clevis": "Clevis"}
# Tokens for slots that open with a passphrase all the same
PASSPHRASE_TOKENS = {"systemd-recovery": "a recovery key, typed as a passphrase with its hyphens",
                     "luks2-keyring": "a passphrase"}

# Why luksrd cannot try a slot, by the word that luksrd-audit has for it
REASONS = {
    "type": "it is of an unknown type",
    "member": "its metadata is damaged",
    "argon2i": "what it says of Argon2i, or of its key area, is damaged",
    "argon2id": "what it says of Argon2id, or of its key area, is damaged",
    "kdf": "luksrd does not know how its key is derived",
    "hash": "luksrd does not know its hash function",
    "encryption": "luksrd does not know the cipher of its key area",
    "key size": "its key has a length that does not fit the cipher",
    "stripes": "its number of stripes is damaged",
    "iterations": "its number of iterations is damaged",
    "area": "its key area is out of range",
    "digest": "no digest of the volume key goes with it",
    "state": "its state is damaged",
}

# Why luksrd cannot read a payload
FAULTS = {
    "requirement": "reencryption was interrupted, or it needs a feature newer than luksrd:"
                   " see \"Reencryption under way\" in RESCUE.md",
    "segments": "it has more than one segment",
    "member": "the metadata of its segment is damaged",
    "type": "its segment is of an unknown type",
    "integrity": "it has integrity protection: cryptsetup opens it",
    "encryption": "luksrd does not read its cipher: cryptsetup opens it",
    "sector size": "the size of its sectors is damaged",
    "offset": "the offset of its payload is damaged",
    "size": "the size of its payload is damaged",
    "hash": "luksrd does not know its hash function: cryptsetup opens it",
    "key bytes": "its key has a length that does not fit the cipher",
}

# The other findings
FINDINGS = {
    "primary header: not valid": "the first of its two headers is damaged; the second one is used",
    "secondary header: not valid":
        "the second of its two headers is damaged; the first one is used",
    "headers: sequence numbers differ":
        "its two headers are of different days; the later one is used",
    "keyslots: name out of range": "it has a key slot with a number above 31, which is left out",
}


def _member(name: str, default: Any) -> Any:
    """A property: the member of this name, or the default if it is of another type."""
    def value(self: Any) -> Any:
        found = self.raw.get(name)
        return found if isinstance(found, type(default)) else default
    return property(value)


class Slot(NamedTuple):
    """A key slot: `raw` is its object in luksrd-audit's line, and `is_detached` whether the payload
    is elsewhere, before which its key area need not end."""

    raw: dict[str, Any]
    is_detached: bool = False

    number = _member("number", 0)
    priority = _member("priority", 1)
    kdf = _member("kdf", "")
    iterations = _member("iterations", 0)
    passes = _member("time", 0)
    area_offset = _member("area_offset", 0)

    @property
    def can_try(self) -> bool:
        """Whether the library can derive its key from a passphrase, if it may cost what it does.
        (`can_try` is about the program luksrd, which derives none by Argon2.)"""
        if self.is_detached and (self.is_argon2 or self.raw.get("reason") == "area"):
            # (luksrd-audit takes each header for one before its payload; the library decides)
            return True
        return self.is_over_limits or bool(self.raw.get("library_can_try"))

    @property
    def is_argon2(self) -> bool:
        """Whether it is one by Argon2, of which luksrd has looked no further."""
        return self.raw.get("reason") in ("argon2i", "argon2id")

    @property
    def is_over_limits(self) -> bool:
        """Whether Argon2 costs more than the library allows by itself: then a slot is tried only if
        it is named."""
        return self.is_argon2 and (self.memory > ARGON2_MEMORY or self._fill > ARGON2_FILL)

    @property
    def limits(self) -> dict[str, int]:
        """What luksrd.open has to be told for it to allow what the slot costs."""
        if not self.is_over_limits:
            return {}
        return {"argon2_memory": self.memory,
                "argon2_fill": min(-(-self._fill // MIB), GREATEST) * MIB}

    @property
    def _fill(self) -> int:
        """The bytes of memory that Argon2 fills in all passes."""
        return self.memory * self.passes

    @property
    def is_by_itself(self) -> bool:
        """Whether it is tried although it is not named."""
        return self.can_try and self.priority > 0 and not self.is_over_limits

    @property
    def tokens(self) -> list[str]:
        """The types of the tokens that name it."""
        return [str(token.get("type")) for token in self.raw.get("tokens") or []]

    @property
    def is_used(self) -> bool:
        return self.raw.get("state") != "disabled"

    @property
    def memory(self) -> int:
        """The bytes that its key derivation needs; 0 for PBKDF2."""
        return (self.raw.get("memory") or 0) * KIB

    @property
    def area_length(self) -> int:
        """The bytes of its key material in whole sectors, or of its area if that is unknown."""
        key, stripes, area = (self.raw.get(it) or 0 for it in ("key_bytes", "stripes", "area_size"))
        return -(-key * stripes // SECTOR) * SECTOR or area

    @property
    def device(self) -> Optional[str]:
        """What the slot needs in place of a passphrase, such as TPM2."""
        if set(self.tokens) & PASSPHRASE_TOKENS.keys():
            return None
        return ", ".join(TOKENS.get(kind, shown(kind)) for kind in self.tokens) or None

    @property
    def opens(self) -> bool:
        """Whether a passphrase that a person knows opens it."""
        return self.can_try and not self.device

    @property
    def cost(self) -> str:
        """How its key is derived, and what that costs."""
        if not self.kdf.startswith("argon2"):
            name = shown(str(self.raw.get("hash") or "?"))
            return f"{self.kdf.upper() or '?'}, {name}, {self.iterations:,} iterations"
        passes = f"{self.passes:,} pass{'es' * (self.passes != 1)}"
        return f"{self.kdf.capitalize()}, {sized(self.memory)}, {passes}"

    @property
    def words(self) -> str:
        """What opens it, for people."""
        if not self.can_try:
            reason = str(self.raw.get("reason") or "")
            return f"cannot be opened: {REASONS.get(reason, shown(reason))}"
        if self.device:
            return f"needs a token ({self.device})"
        means = [PASSPHRASE_TOKENS[kind] for kind in self.tokens if kind in PASSPHRASE_TOKENS]
        only = "" if self.is_by_itself else f", only by --key-slot {self.number}"
        return f"opens with {(means or ['a passphrase'])[0]}{only} ({self.cost})"


class Found(NamedTuple):
    """A LUKS header: `raw` is luksrd-audit's line, `offset` where the volume begins in its image,
    and `is_apart` whether it was named as one that is in a file of its own."""

    raw: dict[str, Any]
    offset: int
    is_apart: bool = False

    version = _member("version", 0)
    uuid = _member("uuid", "")
    label = _member("label", "")
    cipher = _member("cipher", "")
    sector_size = _member("sector_size", SECTOR)
    iv_tweak = _member("iv_tweak", 0)

    @property
    def segment_offset(self) -> Optional[int]:
        """Where the payload begins, after the volume's first byte."""
        value = self.raw.get("segment_offset")
        return value if isinstance(value, int) else None

    @property
    def segment_size(self) -> Optional[int]:
        """The length of the payload, or None if it ends with the image."""
        value = self.raw.get("segment_size")
        return value if isinstance(value, int) else None

    @property
    def is_detached(self) -> bool:
        """Whether its payload is elsewhere: one before its payload never has 0 as its offset."""
        return self.is_apart or self.segment_offset == 0

    @property
    def slots(self) -> list[Slot]:
        """The key slots that are in use."""
        slots = [Slot(each, self.is_detached) for each in self.raw.get("slots") or []]
        return [slot for slot in slots if slot.is_used]

    @property
    def header_length(self) -> int:
        """The bytes of the header, or of both headers of LUKS2."""
        return 2 * self.raw.get("header_size", 0) if self.version == 2 else HEADER1_BYTES

    @property
    def head_length(self) -> int:
        """The first bytes that opening it needs: its headers and the key areas of its slots."""
        ends = [slot.area_offset + slot.area_length for slot in self.slots]
        return min(HEADER_BYTES, max([self.header_length, *ends]))

    @property
    def fault(self) -> Optional[str]:
        """Why luksrd does not read the payload, or None if it does."""
        for finding in self.all_findings:
            name = finding.removeprefix("segment: ")
            if name != finding and not (name == "offset" and self.is_detached):
                return FAULTS.get(name, shown(name))
        return None

    @property
    def all_findings(self) -> list[str]:
        """What is wrong with the header, and what luksrd does not support, as luksCheck has it."""
        return [*(self.raw.get("findings") or []), *(self.raw.get("unsupported") or [])]

    @property
    def damage(self) -> list[str]:
        """What is damaged, in words, but for what `fault` and the slots' own words say."""
        return [FINDINGS.get(each, shown(each)) for each in self.all_findings
                if not each.startswith(("segment: ", "slot "))]


def at(image, offset: int = 0, length: Optional[int] = None) -> Optional[Found]:
    """The header of the volume that begins here, or None if there is none. An image whose lost
    sectors are zeros gives them to luksrd-audit as that."""
    end = image.size if length is None else min(image.size, offset + length)
    lines = _lines_for(lambda view, done: image.pread_into(view, offset + done),
                       min(HEADER_BYTES, max(0, end - offset)))
    headers = [line for line in lines if "error" not in line]
    return Found(headers[0], offset) if headers else None


def apart(image) -> Found:
    """The header in a file of its own."""
    lines = _lines_for(image.pread_into, min(HEADER_BYTES, image.size))
    if not lines or "error" in lines[0]:
        raise Refusal(4, image.path,
                      lines[0]["error"] if lines else "luksrd-audit says nothing of it")
    return Found(lines[0], 0, True)


def _lines_for(read: Callable[[memoryview, int], int], length: int) -> list[dict[str, Any]]:
    """luksrd-audit's lines for these bytes, of which it takes as many as it needs. What `read`
    raises is raised here, whatever it has found before."""
    with subprocess.Popen([tools.audit_program(), "-"], stdin=subprocess.PIPE,
                          stdout=subprocess.PIPE) as process:
        failures: list[Exception] = []
        writer = threading.Thread(target=_feed, args=(process.stdin, read, length, failures))
        writer.start()
        try:
            output = process.stdout.read()
        finally:
            process.stdout.close()
            writer.join()
    if failures:
        raise failures[0]
    return _parsed(output)


def _feed(pipe, read: Callable[[memoryview, int], int], length: int,
          failures: list[Exception]) -> None:
    """Writes bytes into a pipe, until its reader has enough of them."""
    piece, done = memoryview(bytearray(PIECE)), 0
    try:
        while done < length:
            try:
                got = read(piece[:min(PIECE, length - done)], done)
            except Exception as error:  # pylint: disable=broad-exception-caught
                failures.append(error)
                break
            if not got:
                break
            pipe.write(piece[:got])
            done += got
    except (BrokenPipeError, ValueError):
        pass
    finally:
        try:
            pipe.close()
        except BrokenPipeError:
            pass


def _parsed(output: bytes) -> list[dict[str, Any]]:
    return [json.loads(line) for line in output.splitlines() if line.strip()]


class Searched(NamedTuple):
    """What a search has found, and whether it could read all of the image."""

    headers: list[Found]
    is_whole: bool


def search(image, progress=None) -> Searched:
    """Every header in an image, also of a lost partition. It reads all of the image; `progress`
    takes the number of bytes that were read since the last call."""
    with subprocess.Popen([tools.audit_program(), "--search", "--", image.path],
                          stdin=subprocess.DEVNULL, stdout=subprocess.PIPE) as process:
        reader = threading.Thread(target=_follow, args=(process, progress), daemon=True)
        reader.start()
        lines = _parsed(process.stdout.read())
        process.wait()
        reader.join()
    failed = [line["error"] for line in lines if line.get("error") not in (None, "no LUKS header")]
    return Searched([Found(line, line["offset"]) for line in lines if "error" not in line],
                    not failed)


def _follow(process: subprocess.Popen, progress) -> None:
    """Tells how far a search has read, by the position of its file."""
    done = 0
    while progress and process.poll() is None:
        for position in _positions(process.pid):
            if position > done:
                progress.advance(position - done)
                done = position
        time.sleep(0.2)


def _positions(process: int) -> Iterator[int]:
    """The positions in the regular files and devices that a process has open."""
    folder = f"/proc/{process}/fdinfo"
    try:
        for name in os.listdir(folder):
            if int(name) > 2:
                with open(f"{folder}/{name}", encoding="ascii") as file:
                    yield int(file.readline().partition(":")[2])
    except (OSError, ValueError):
        return
