"""Which volume of an image is meant: the only one, or the one that the options name."""

import argparse
from typing import NamedTuple, Optional

from . import audit, containers, image_maps, partitions, terminal
from .command import Refusal, number, shown, sized
from .image import open_image
from .words import quoted


class Volume(NamedTuple):
    """A volume in an image: so many bytes from this one on, or all up to its end; the partition
    that it is, and its header, if there is one."""

    offset: int
    length: Optional[int]
    partition: Optional[partitions.Partition]
    facts: Optional[audit.Found]

    def options(self) -> str:
        """The options that choose it."""
        if self.partition:
            return f"--partition {self.partition.number}"
        return f"--offset {self.offset}" if self.offset else ""

    def words(self) -> str:
        """Where it is, for people."""
        if self.partition:
            return f"the volume in partition {self.partition.number}"
        return f"the volume at byte {self.offset}" if self.offset else "the volume"

    @property
    def is_header_only(self) -> bool:
        """Whether it is a detached header or the backup of one: its payload is elsewhere."""
        begin = self.facts.segment_offset if self.facts else None
        return begin is not None and self.length is not None and (
            begin == 0 or self.length <= begin)

    @property
    def role(self) -> str:
        """What a file that is this volume is, for people."""
        if not self.is_header_only:
            return "a LUKS volume"
        if self.facts.segment_offset == 0:
            return "a detached LUKS header: its payload is in another file or disk"
        return "a backup of a LUKS header, or a copy that ends before the payload"


def add_options(parser: argparse.ArgumentParser) -> None:
    """The options that choose a volume."""
    group = parser.add_argument_group("which volume (all sizes take the suffixes of ddrescue)")
    group.add_argument("--partition", metavar="N", type=number, help="in partition N")
    group.add_argument("--offset", metavar="BYTES", type=number,
                       help="that begins at this byte, such as 1Mi or 2048s")
    group.add_argument("--length", metavar="BYTES", type=number,
                       help="with --offset: that has this length")
    group.add_argument("--header", metavar="FILE",
                       help="whose header is in FILE: a detached one, or a backup")


def words_of(arguments: argparse.Namespace) -> str:
    """These options as they were given, each after a blank."""
    return "".join(f" --{name} {quoted(str(getattr(arguments, name)))}"
                   for name in ("partition", "offset", "length", "header")
                   if getattr(arguments, name) is not None)


def again(arguments: argparse.Namespace) -> str:
    """The image with these options and with its map, as another command takes them."""
    words = f"{quoted(arguments.image)}{words_of(arguments)}"
    if arguments.image_map is None:
        return words
    return f"{words} --image-map {quoted(arguments.image_map)}"


def find_volumes(image, partition: Optional[int] = None, offset: Optional[int] = None,
                 length: Optional[int] = None, header: Optional[str] = None,
                 is_quiet: bool = False) -> list[Volume]:
    """The volumes of an image that have a header, or the one that is named, even if it has none.

    On a disk without a partition table headers are searched for, which reads all of it, with
    progress."""
    facts = _header_in(header) if header is not None else None
    if partition is not None:
        if offset is not None or length is not None:
            raise Refusal(1, "--partition", "does not go with --offset and --length")
        return [_in_partition(image, _numbered(image, partition), facts)]
    if offset is not None or length is not None:
        return [_in_range(image, offset or 0, length, facts)]
    if facts:
        return [_with_header(image, facts)]
    first = audit.at(image)
    if first:
        return [Volume(0, image.size, None, first)]
    table = partitions.partitions(image)
    if table:
        found = [_in_partition(image, each, None) for each in table if not each.is_extended]
        return [volume for volume in found if volume.facts]
    with terminal.Progress(image.size, "B", is_quiet) as progress:
        return searched(image, audit.search(image, progress).headers)


def _header_in(path: str) -> audit.Found:
    """The header in this file, with zeros for what of it is lost."""
    with open_image(path) as file:
        return audit.apart(file.patched())


def searched(image, headers: list[audit.Found]) -> list[Volume]:
    """The volumes with these headers. Where they end is unknown: each goes on to the end of the
    image."""
    return [Volume(found.offset, image.size - found.offset, None, found) for found in headers]


def _numbered(image, wanted: int) -> partitions.Partition:
    """The partition with this number."""
    table = partitions.partitions(image)
    for each in table:
        if each.number == wanted:
            return each
    if not table:
        raise Refusal(1, image.path, "there is no partition table: choose the volume by --offset")
    numbers = ", ".join(str(each.number) for each in table)
    raise Refusal(1, image.path, f"there is no partition {wanted}, only {numbers}")


def _in_partition(image, partition: partitions.Partition,
                  facts: Optional[audit.Found]) -> Volume:
    """The volume in a partition. A truncated image ends before the partition does."""
    facts = facts or audit.at(image, partition.offset, partition.length)
    return Volume(partition.offset, partition.length, partition, facts)


def _in_range(image, offset: int, length: Optional[int], facts: Optional[audit.Found]) -> Volume:
    if offset >= image.size:
        raise Refusal(1, image.path, f"--offset {offset} is not in it: it has {image.size} bytes")
    rest = image.size - offset if length is None else length
    return Volume(offset, rest, None, facts or audit.at(image, offset, rest))


def _with_header(image, facts: audit.Found) -> Volume:
    """The whole image, whose header is elsewhere. Of a disk, a partition has to be named."""
    table = partitions.partitions(image)
    if table:
        numbers = ", ".join(str(each.number) for each in table)
        raise Refusal(1, image.path, "it has partitions, and --header does not say of which one: "
                      f"add --partition with one of {numbers}")
    return Volume(0, image.size, None, facts)


def choose(image, arguments: argparse.Namespace) -> Volume:
    """The volume that the options name, or the only one. Several are listed, and refused. With the
    volume key and the payload's offset it needs no header: then it begins where the image does."""
    containers.refuse(image, arguments.offset is not None)
    image_maps.warn(image, arguments)
    if getattr(arguments, "payload_offset", None) is not None and not words_of(arguments):
        return _in_range(image, 0, None, None)
    volumes = find_volumes(image, arguments.partition, arguments.offset, arguments.length,
                           arguments.header, getattr(arguments, "quiet", False))
    if not volumes:
        raise Refusal(4, image.path, "no LUKS header was found; see what is there: "
                      f"luksrd-rescue look {quoted(image.path)}")
    if len(volumes) > 1:
        listed = "".join(f"\n    {volume.options() or '--offset 0'}: {_line(volume)}"
                         for volume in volumes)
        raise Refusal(1, image.path, f"it has {len(volumes)} LUKS volumes; add one of{listed}")
    return volumes[0]


def _line(volume: Volume) -> str:
    """What a volume is, in a few words."""
    facts, length = volume.facts, volume.length or 0
    label = f", label {shown(facts.label)}" if facts.label else ""
    return f"{sized(length)}, LUKS{facts.version}, UUID {shown(facts.uuid)}{label}"
