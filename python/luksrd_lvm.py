"""Where the logical volumes of LVM2 are in a physical volume, such as the plaintext of LUKS.

    import luksrd, luksrd_lvm

    with luksrd.open("disk.img", key_file="pass") as plain:
        for volume in luksrd_lvm.logical_volumes(plain).values():
            print(volume.name, volume.pieces or volume.refusal)

LVM2 notes its volumes as text, in a ring at the start of a physical volume. Its sources describe
that: label.h, format_text/layout.h and config.c. A linear volume is a list of pieces; striped and
thin ones, and those that are partly on another disk, are refused by name. Nothing is written."""

from __future__ import annotations

import re
import struct
import zlib
from typing import Any, Iterator, NamedTuple, Optional, Protocol, Union

__all__ = ["LogicalVolume", "Pieces", "Refused", "find", "logical_volumes"]
__version__ = "1.3.0"

_SECTOR = 512
# a label is in one of the first four sectors, and the areas that it names end with an empty one
_LABEL, _LABEL_SECTORS = struct.Struct("<8sQII8s"), 4
_AREA = struct.Struct("<QQ")
_METADATA = struct.Struct("<I16sIQQQQII")
_TEXT_BYTES = 32 << 20
_TOKEN = re.compile(
    r'\s+|#.*|(?P<text>"(?:[^"\\]|\\.)*")|(?P<number>-?[0-9]+(?![\w.+-]))|(?P<name>[\w.+-]+)'
    r'|(?P<mark>[{}\[\]=,])', re.ASCII)
# names are digits, too, and nothing that a terminal would obey
_NAME = re.compile(r"[\w.+-]+", re.ASCII)
# LVM2 does not update this text
_IGNORED = 1


class Refused(Exception):
    """There is no LVM2 here, it is damaged, or a logical volume is not one that can be read."""


class Plain(Protocol):
    """A physical volume: a luksrd.Volume, or any object with these two."""

    @property
    def size(self) -> int:
        """The length in bytes."""

    def pread_into(self, view: memoryview, offset: int) -> int:
        """Fills the view from this byte on, and returns how many bytes these are."""


class LogicalVolume(NamedTuple):
    """A logical volume, by its name and that of its group: its pieces, each an offset and a length
    in bytes of the physical volume, in their order; or why it has none."""

    name: str
    pieces: list[tuple[int, int]]
    refusal: Optional[str] = None

    @property
    def size(self) -> int:
        """The length in bytes."""
        return sum(length for _, length in self.pieces)


class Pieces:
    """The bytes of a logical volume, or of other pieces of a volume, one after the other."""

    def __init__(self, plain: Plain, pieces: list[tuple[int, int]]) -> None:
        self._plain, self._pieces = plain, pieces
        self.size = sum(length for _, length in pieces)

    def pread_into(self, view: memoryview, offset: int) -> int:
        """Fills the view from this byte on, up to the end of a piece at most, and returns how many
        bytes these are."""
        for start, length in self._pieces:
            if offset < length:
                return self._plain.pread_into(view[:length - offset], start + offset)
            offset -= length
        return 0


def logical_volumes(plain: Plain) -> dict[str, LogicalVolume]:
    """The logical volumes that users see, by their names, such as vg0/root."""
    identifier, areas = _physical_volume(plain)
    if not areas:
        raise Refused("this physical volume has no metadata: LVM2 keeps it in another one")
    text = _newest_text(plain, areas)
    try:
        (name, group), = [it for it in _section(_tokens(text), False).items()
                          if isinstance(it[1], dict)]
        volumes = group.get("logical_volumes", {}).items()
        found = [_placed(f"{name}/{volume}", fields, group, identifier, plain.size)
                 for volume, fields in volumes if "VISIBLE" in fields["status"]]
        return {volume.name: volume for volume in found}
    except (ArithmeticError, AttributeError, LookupError, MemoryError, RecursionError,
            StopIteration, TypeError, ValueError):
        raise Refused("LVM2's metadata is damaged") from None


def find(plain: Plain, name: str) -> LogicalVolume:
    """The logical volume with this name: vg0/root, /dev/vg0/root, or root if only one group has
    it."""
    volumes = logical_volumes(plain)
    wanted = name.removeprefix("/dev/")
    found = [each for each in volumes.values()
             if wanted in (each.name, each.name.partition("/")[2])]
    if len(found) != 1:
        listed = ", ".join(sorted(volumes)) or "none"
        raise Refused(f"there is no logical volume {name!a}; there are: {listed}")
    if found[0].refusal:
        raise Refused(f"{found[0].name} is not supported: {found[0].refusal}")
    return found[0]


def _checksum(data: bytes) -> int:
    """LVM2's CRC: that of zlib, but with another start and not inverted."""
    return zlib.crc32(data, 0xF597A6CF ^ 0xFFFFFFFF) ^ 0xFFFFFFFF


def _read(plain: Plain, offset: int, length: int) -> bytes:
    """Exactly these bytes."""
    if offset + length > plain.size:
        raise Refused("the volume ends before LVM2's metadata does")
    view, done = memoryview(bytearray(length)), 0
    while done < length:
        got = plain.pread_into(view[done:], offset + done)
        if not got:
            raise Refused("the volume ends before LVM2's metadata does")
        done += got
    return bytes(view)


def _areas(sector: bytes, at: int) -> tuple[list[tuple[int, int]], int]:
    """A list of areas, each an offset and a size, and where the list ends."""
    found = []
    while at + _AREA.size <= _SECTOR:
        offset, size = _AREA.unpack_from(sector, at)
        at += _AREA.size
        if offset == 0:
            return found, at
        found.append((offset, size))
    raise Refused("LVM2's label is damaged")


def _physical_volume(plain: Plain) -> tuple[str, list[tuple[int, int]]]:
    """The identifier of the physical volume, and its metadata areas."""
    first = _read(plain, 0, _LABEL_SECTORS * _SECTOR)
    for number in range(_LABEL_SECTORS):
        sector = first[number * _SECTOR:(number + 1) * _SECTOR]
        magic, place, crc, start, kind = _LABEL.unpack_from(sector)
        is_label = (magic, place, kind) == (b"LABELONE", number, b"LVM2 001")
        if is_label and crc == _checksum(sector[20:]):
            _, at = _areas(sector, start + 40)
            return sector[start:start + 32].decode("ascii", "replace"), _areas(sector, at)[0]
    raise Refused("there is no physical volume of LVM2")


def _newest_text(plain: Plain, areas: list[tuple[int, int]]) -> str:
    """The text in the first metadata area that is whole and kept up to date."""
    refusals = []
    for area in areas:
        try:
            return _metadata_text(plain, *area)
        except Refused as refusal:
            refusals.append(refusal)
    raise refusals[0]


def _metadata_text(plain: Plain, offset: int, size: int) -> str:
    """The text in a metadata area, which may run from the end of its ring to the start, after its
    own header."""
    header = _read(plain, offset, _SECTOR)
    crc, magic, _, start, length, text, text_size, text_crc, flags = _METADATA.unpack_from(header)
    is_area = magic == b" LVM2 x[5A%r0N*>" and (start, length) == (offset, size)
    if not is_area or crc != _checksum(header[4:]):
        raise Refused("LVM2's metadata area is damaged")
    if flags & _IGNORED:
        raise Refused("the metadata area is not kept up to date: LVM2 uses another one")
    if not _SECTOR <= text < size or not 0 < text_size <= min(_TEXT_BYTES, size - _SECTOR):
        raise Refused("LVM2's metadata area has no text")
    piece = min(text_size, size - text)
    found = _read(plain, offset + text, piece) + _read(plain, offset + _SECTOR, text_size - piece)
    if _checksum(found) != text_crc:
        raise Refused("LVM2's metadata is damaged")
    return found.rstrip(b"\0").decode("utf-8", "replace")


_Token = tuple[str, str]


def _tokens(text: str) -> Iterator[_Token]:
    """The names, texts, numbers and marks in LVM2's text, each with its kind."""
    at = 0
    while at < len(text):
        token = _TOKEN.match(text, at)
        if not token:
            raise ValueError(text[at])
        at = token.end()
        if token.lastgroup == "text":
            yield "text", re.sub(r"\\(.)", r"\1", token["text"][1:-1])
        elif token.lastgroup:
            yield token.lastgroup, token[token.lastgroup]


def _value_of(kind: str, word: str) -> Union[int, str]:
    """A value: a text or a number."""
    if kind not in ("text", "number"):
        raise ValueError(word)
    return int(word) if kind == "number" else word


def _section(rest: Iterator[_Token], is_inner: bool) -> dict[str, Any]:
    """What is in a section, by name: sections, values and lists of values."""
    found: dict[str, Any] = {}
    for _, name in rest:
        if is_inner and name == "}":
            return found
        _, mark = next(rest)
        if not _NAME.fullmatch(name) or mark not in ("{", "="):
            raise ValueError(name)
        if mark == "{":
            found[name] = _section(rest, True)
            continue
        first = next(rest)
        if first == ("mark", "["):
            found[name] = [_value_of(*item) for item in iter(lambda: next(rest), ("mark", "]"))
                           if item != ("mark", ",")]
        else:
            found[name] = _value_of(*first)
    return found


def _placed(name: str, volume: dict[str, Any], group: dict[str, Any], identifier: str,
            size: int) -> LogicalVolume:
    """The pieces of a logical volume, or why it has none."""
    pieces: list[tuple[int, int]] = []
    extents = 0
    for number in range(volume["segment_count"]):
        segment = volume[f"segment{number + 1}"]
        piece = _piece(segment, group, identifier, size)
        if isinstance(piece, str):
            return LogicalVolume(name, [], piece)
        if segment["start_extent"] != extents:
            raise ValueError(segment["start_extent"])
        extents += segment["extent_count"]
        if pieces and sum(pieces[-1]) == piece[0]:
            # (two segments that touch are one piece)
            start, length = pieces.pop()
            piece = start, length + piece[1]
        pieces.append(piece)
    return LogicalVolume(name, pieces) if pieces else LogicalVolume(name, [], "it has no segments")


def _piece(segment: dict[str, Any], group: dict[str, Any], identifier: str,
           size: int) -> Union[tuple[int, int], str]:
    """The offset and the length of a segment in bytes, or why it has none."""
    if not _NAME.fullmatch(segment["type"]):
        raise ValueError(segment["type"])
    if segment["type"] != "striped":
        return f"its type is {segment['type']}"
    if segment["stripe_count"] != 1:
        return f"it has {int(segment['stripe_count'])} stripes"
    name, extent = segment["stripes"]
    under = group["physical_volumes"].get(name)
    if not under or under["id"].replace("-", "") != identifier:
        return "it is on another disk, in part or as a whole"
    unit = group["extent_size"] * _SECTOR
    offset = under["pe_start"] * _SECTOR + extent * unit
    length = segment["extent_count"] * unit
    fits = 0 <= offset and 0 < length <= size - offset
    return (offset, length) if fits else "it ends after the physical volume"
