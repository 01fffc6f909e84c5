"""The partition table of a disk, as util-linux's partx reads it."""

import os
import re
from typing import Iterable, NamedTuple, Optional

from . import tools

SECTOR = 512
# The sizes that a sector of a disk has; the offsets in a table count in them
SECTOR_SIZES = (512, 4096)
# The first bytes of a disk, in which a GPT is with all its entries
TABLE_BYTES = 1 << 20
EXTENDED = ("0x5", "0xf", "0x85")
# A length that no disk has
ANY_LENGTH = 1 << 62

# What people call the types of partitions that a disk with Linux or Windows has
TYPES = {
    "0x7": "NTFS or exFAT", "0xb": "FAT", "0xc": "FAT", "0xe": "FAT", "0x82": "Linux swap",
    "0x83": "Linux", "0x8e": "Linux LVM", "0xe8": "LUKS", "0xef": "EFI system",
    "0xfd": "Linux RAID",
    **dict.fromkeys(EXTENDED, "extended"),
    "c12a7328-f81f-11d2-ba4b-00a0c93ec93b": "EFI system",
    "21686148-6449-6e6f-744e-656564454649": "BIOS boot",
    "0fc63daf-8483-4772-8e79-3d69d8477de4": "Linux",
    "bc13c2ff-59e6-4262-a352-b275fd6f7172": "Linux /boot",
    "4f68bce3-e8cd-4db1-96e7-fbcaf984b709": "Linux root",
    "933ac7e1-2eb4-4f13-b844-0e14e2aef915": "Linux home",
    "0657fd6d-a4ab-43c4-84e5-0933c84b4f4f": "Linux swap",
    "e6d6d379-f507-44c2-a23c-238f2a3df928": "Linux LVM",
    "a19d880f-05fc-4d3b-a006-743f0f84911e": "Linux RAID",
    "ca7d7ccb-63ed-4c53-861c-1742536059cc": "LUKS",
    "ebd0a0a2-b9e5-4433-87c0-68b6b72699c7": "Microsoft data",
    "e3c9e316-0b5c-4db8-817d-f92df00215ae": "Microsoft reserved",
    "de94bba4-06d1-4d40-a16a-bfd50179d6ac": "Windows recovery",
}


class Partition(NamedTuple):
    """A partition: its number, its first byte and its length in bytes by the table, its type as
    people call it, and its name, which only a GPT has."""

    number: int
    offset: int
    length: int
    type: str
    name: str

    @property
    def is_extended(self) -> bool:
        """Whether it only holds the logical partitions of an MBR."""
        return self.type == TYPES["0x5"]


def partitions(image) -> list[Partition]:
    """The partitions in the table of an image, by ascending number; none if it has no table."""
    sizes = sorted(SECTOR_SIZES, key=lambda size: size != image.sector)
    return _most(_listed(image.path, size) for size in sizes) or _truncated_gpt(image)


def _most(tables: Iterable[list[Partition]]) -> list[Partition]:
    """The longest of the tables, and the first of several: by the wrong size of a sector a GPT has
    no partitions, and an MBR no logical ones. (Of an MBR without these only a device says it.)"""
    return max(tables, key=len)


def _truncated_gpt(image) -> list[Partition]:
    """The table of a disk of which only the beginning was copied. partx lists no GPT that ends past
    its file, so it gets a sparse copy of the first MiB that is at least as long as the disk was."""
    first = bytearray(min(TABLE_BYTES, image.size))
    got = image.pread_into(memoryview(first), 0)
    copy = os.memfd_create("table")
    try:
        os.pwrite(copy, memoryview(first)[:got], 0)
        os.ftruncate(copy, ANY_LENGTH)
        path = f"/proc/self/fd/{copy}"
        return _most(_listed(path, size, copy) for size in SECTOR_SIZES)
    finally:
        os.close(copy)


def _listed(path: str, sector_size: int, *keep: int) -> list[Partition]:
    """What partx lists. Its status is 1 for some files without a table, and 0 for others. A hyphen
    lets it read the table in a device that is a partition, and not the one that this is in."""
    ran = tools.run(tools.find("partx"), "--bytes", "--pairs", "--sector-size", str(sector_size),
                    "--output", "NR,START,SECTORS,TYPE,NAME", "-", path, keep=keep)
    rows = map(_row, ran.output.decode(errors="replace").splitlines())
    return sorted(row for row in rows if row)


def _row(line: str) -> Optional[Partition]:
    """The partition of a line such as NR="1" START="2048" SECTORS="4096" TYPE="0x83" NAME="".

    START and SECTORS are in units of 512 bytes, whatever the size of a sector is."""
    fields = {name: _unescaped(value) for name, value in re.findall(r'(\w+)="([^"]*)"', line)}
    try:
        number, start, sectors = (int(fields[name]) for name in ("NR", "START", "SECTORS"))
    except (KeyError, ValueError):
        return None
    kind = fields.get("TYPE", "").lower()
    return Partition(number, start * SECTOR, sectors * SECTOR, TYPES.get(kind, kind),
                     fields.get("NAME", ""))


def _unescaped(value: str) -> str:
    """A value of partx, which writes bytes other than visible ones as \\xHH."""
    as_bytes = re.sub(rb"\\x([0-9a-fA-F]{2})", lambda found: bytes([int(found[1], 16)]),
                      value.encode())
    return as_bytes.decode(errors="backslashreplace")
