"""luksrd-rescue look: what is in an image, and what to type next."""

import argparse
import json
import os
from typing import Any, NamedTuple, Optional

from . import audit, choosing, contents, image_maps, partitions, terminal, tools
from .command import FAILED, IMAGE, Refusal, say, shown, sized, tell
from .containers import Container, container
from .image import open_image
from .words import quoted

EXAMPLES = """examples:
  luksrd-rescue look laptop.img           what is in the image of a disk, and what to type next
  luksrd-rescue look /dev/sdb             the same of a disk, as root
  luksrd-rescue look --search disk.img    search all of it for headers, whatever its table says
  luksrd-rescue look --json *.img | jq -r '.volumes[]?.uuid'"""


def register(subparsers) -> None:
    """Adds the command to those of luksrd-rescue."""
    parser = subparsers.add_parser(
        "look", help="print what is in an image, and what to type next", epilog=EXAMPLES,
        description="Print what is in images or devices, and what to type next. Nothing is opened "
        "or written.")
    parser.add_argument("--json", action="store_true", help="an object for each image, on a line")
    parser.add_argument("--search", action="store_true",
                        help="search all of the image for headers, whatever its table says")
    parser.add_argument("images", metavar="IMAGE", nargs="+")
    parser.set_defaults(run=run)


class Part(NamedTuple):
    """A partition with what is in it: a volume, or what blkid calls it."""

    partition: partitions.Partition
    volume: Optional[choosing.Volume]
    kind: str
    label: str
    inside: list[str]


class Report(NamedTuple):
    """What is in an image."""

    path: str
    size: int
    container: Optional[Container]
    parts: list[Part]
    volumes: list[choosing.Volume]
    kind: str
    label: str
    inside: list[str]
    searched: bool
    is_whole: bool


class Reader:
    """An image whose first failed read ends the look, and says how to go on."""

    def __init__(self, image) -> None:
        self._image = image
        self.path, self.size, self.sector = image.path, image.size, image.sector

    def pread_into(self, view: memoryview, offset: int) -> int:
        """Fills the view from this byte on."""
        try:
            return self._image.pread_into(view, offset)
        except OSError as error:
            raise self.refusal(f"at byte {offset}: {error.strerror}") from None

    def refusal(self, where: str) -> Refusal:
        """What to say of a read that fails."""
        copy, notes = contents.free_name("disk.img"), contents.free_name("disk.map")
        return Refusal(FAILED, self.path, (
            f"read failed {where}\nMake an image first, and work on that:\n"
            f"    ddrescue -d {quoted(self.path)} {copy} {notes}   (from the package gddrescue)\n"
            f"    luksrd-rescue look {copy}\n"
            f"Then decrypt with --image-map {notes}, which has the sectors that were not read."))


def run(arguments: argparse.Namespace) -> int:
    """Prints what is in each image. The status is the greatest."""
    for program in "partx", "blkid":
        tools.find(program)
    tools.audit_program()
    status = 0
    for number, path in enumerate(arguments.images):
        try:
            with open_image(path) as image:
                report = gather(Reader(image), arguments.search, arguments.json)
        except Refusal as refusal:
            if arguments.json:
                tell(json.dumps({"file": path, "error": refusal.why.splitlines()[0]}))
            say(refusal.what, refusal.why)
            status = max(status, refusal.status)
            continue
        if arguments.json:
            tell(json.dumps(as_json(report)))
        else:
            tell(*[""] * bool(number), *as_text(report))
        status = max(status, 0 if report.volumes else IMAGE)
    return status


def gather(image: Reader, search: bool, quiet: bool) -> Report:
    """What is in an image."""
    empty = Report(image.path, image.size, None, [], [], "", "", [], False, True)
    if not search:
        first = audit.at(image)
        if first:
            return empty._replace(volumes=[choosing.Volume(0, image.size, None, first)])
        form = container(image)
        if form:
            return empty._replace(container=form)
        table = partitions.partitions(image)
        if table:
            parts = [_part(image, each) for each in table]
            volumes = [each.volume for each in parts if each.volume]
            return empty._replace(parts=parts, volumes=volumes)
    kind, label = contents.probe(image)
    if kind and not search and kind != "crypto_LUKS":
        inside = contents.lines(contents.identify(image, image.path))[1:]
        return empty._replace(kind=kind, label=label, inside=inside)
    found = _search(image, quiet)
    return empty._replace(volumes=choosing.searched(image, found.headers), kind=kind, label=label,
                          searched=True, is_whole=found.is_whole)


def _search(image: Reader, quiet: bool) -> audit.Searched:
    """Searches the whole image, which may take long."""
    progress = terminal.Progress(image.size, "B", quiet)
    try:
        found = audit.search(image, progress)
    finally:
        progress.close()
    if not found.is_whole and not found.headers:
        raise image.refusal("while it was searched for headers")
    return found


def _part(image: Reader, partition: partitions.Partition) -> Part:
    if partition.is_extended:
        return Part(partition, None, "", "", [])
    facts = audit.at(image, partition.offset, partition.length)
    if facts:
        volume = choosing.Volume(partition.offset, partition.length, partition, facts)
        return Part(partition, volume, "crypto_LUKS", facts.label, [])
    window = contents.Window(image, partition.offset, partition.length)
    if not window.size:
        return Part(partition, None, "", "", [])
    found = contents.identify(window, image.path, partition.offset)
    # (there may be a LUKS volume in a logical volume)
    inside = contents.lines(found)[1:] if found.parts else []
    return Part(partition, None, found.kind, found.label, inside)


# ---- for people

def as_text(report: Report) -> list[str]:
    """The lines for people, and the next commands at their end."""
    name = shown(report.path)
    if report.container:
        first, *commands = report.container.advice()
        return [f"{name} is {report.container.name}, {sized(report.size)}. {first}", *commands]
    lines = [f"{name}: {sized(report.size)}, {_what(report)}"]
    lines += [f"  {line}" for line in report.inside]
    for part in report.parts:
        lines += _part_lines(part, report.size)
    for volume in [] if report.parts else report.volumes:
        lines += _volume_lines(volume, report.size)
    if not report.is_whole:
        lines.append("  a read failed before its end: headers after that are not listed")
    return [*lines, *_step_lines(report)]


def _what(report: Report) -> str:
    """What the image is as a whole."""
    if report.parts:
        count = len(report.parts)
        return f"a disk with {count} partition{'s' * (count != 1)}"
    if report.searched:
        count = len(report.volumes)
        found = "no LUKS header was found" if not count else \
            f"searched for LUKS headers: {count} found"
        return f"without a partition table; {found}" if not report.kind else found
    if report.volumes:
        return report.volumes[0].role
    return f"not encrypted: {_named(report.kind, report.label)}"


def _named(kind: str, label: str) -> str:
    known = contents.TABLES.get(kind) or contents.NAMES.get(kind, kind)
    return f"{known}, label {shown(label)}" if label else known


def _part_lines(part: Part, image_size: int) -> list[str]:
    """A partition, and what is in it."""
    place = part.partition
    name = f" \"{shown(place.name)}\"" if place.name else ""
    first = f"  partition {place.number}: {sized(place.length)}, {shown(place.type)}{name}"
    if part.volume:
        return [f"{first}: LUKS{part.volume.facts.version}", *_facts_lines(part.volume, image_size)]
    if place.is_extended:
        return [first]
    if place.offset >= image_size:
        return [f"{first}: the image ends before it"]
    if part.kind == "crypto_LUKS":
        return [f"{first}: it begins as LUKS, but has no whole header: damaged, or truncated"]
    return [f"{first}: {_named(part.kind, part.label) or 'nothing that blkid knows'}",
            *(f"  {line}" for line in part.inside)]


def _volume_lines(volume: choosing.Volume, image_size: int) -> list[str]:
    """A volume that is in no partition."""
    return [f"  at byte {volume.offset}: LUKS{volume.facts.version}",
            *_facts_lines(volume, image_size)]


def _facts_lines(volume: choosing.Volume, image_size: int) -> list[str]:
    """What a header says."""
    facts = volume.facts
    label = f", label {shown(facts.label)}" if facts.label else ""
    lines = [f"UUID {shown(facts.uuid)}{label}, {shown(facts.cipher)}",
             *(f"slot {slot.number}: {slot.words}" for slot in facts.slots)]
    if not facts.slots:
        lines.append("no key slot is in use")
    elif not any(slot.opens for slot in facts.slots):
        lines.append("no key slot opens with a passphrase alone")
    if facts.fault and not volume.is_header_only:
        lines.append(f"cannot be decrypted: {facts.fault}")
    lines += [f"damaged: {words}" for words in facts.damage]
    missing = volume.offset + (volume.length or 0) - image_size
    if missing > 0:
        lines.append(f"truncated: the image ends {sized(missing)} before the partition does")
    return [f"    {line}" for line in lines]


class Step(NamedTuple):
    """What can be done next, and the command for it."""

    what: str
    command: str


def _step_lines(report: Report) -> list[str]:
    """The next commands, each after a line that says what it does."""
    lines = [line for step in steps(report) for line in (f"{step.what}:", f"    {step.command}")]
    return ["", *lines] if lines else []


def steps(report: Report) -> list[Step]:
    """The commands to type next, with their real names and numbers."""
    whole = [each for each in report.volumes if not each.is_header_only]
    outputs = zip(contents.free_names("plain.img"), contents.free_names("plain"))
    found = [step for each in whole
             for step in _volume_steps(report, each, len(whole) > 1, next(outputs))]
    if len(whole) < len(report.volumes):
        plain, _ = next(outputs)
        found.append(Step("With IMAGE, the file or disk that it belongs to, in place of that word",
                          f"luksrd-rescue decrypt IMAGE --header {quoted(report.path)} -o {plain}"))
    if not report.volumes and not report.searched and not report.container:
        found.append(Step("If there was a LUKS volume in it, search for that",
                          f"luksrd-rescue look --search {quoted(report.path)}"))
    return found


def _volume_steps(report: Report, volume: choosing.Volume, must_choose: bool,
                  outputs: tuple[str, str]) -> list[Step]:
    """What to do with a volume: decrypt it into the first of these outputs if there is room, and
    serve it in the other one otherwise."""
    slots = [slot for slot in volume.facts.slots if slot.opens]
    if volume.facts.fault or not slots:
        return []
    options = [volume.options()] if must_choose or report.searched else []
    if not any(slot.is_by_itself for slot in slots):
        options.append(f"--key-slot {slots[0].number}")
    image_map = image_maps.beside(report.path)
    if image_map:
        options.append(image_map.option())
    image = " ".join([quoted(report.path), *filter(None, options)])
    plain, folder = outputs
    decrypt = Step(f"Decrypt {volume.words()} into a file",
                   f"luksrd-rescue decrypt {image} -o {plain}")
    serve = Step("Or show the plaintext as a file, without a copy",
                 f"luksrd-rescue serve {image} {folder}")
    attempt = Step("If the passphrase is one of many, the lines of the file LIST",
                   f"luksrd-rescue try {image} --candidates LIST")
    need, room = volume.length or 0, _room()
    if need <= room:
        return [decrypt, serve, attempt]
    elsewhere = f"luksrd-rescue decrypt {image} -o /PATH/TO/ANOTHER/DISK/{plain}"
    lack = f"of {sized(need)}, and here are {sized(room)} free"
    return [serve._replace(what=f"Show the plaintext as a file, without a copy {lack}"),
            Step("Or decrypt it to another disk", elsewhere), attempt]


def _room() -> int:
    """The bytes that are free in this folder; many, if that is not known."""
    try:
        found = os.statvfs(".")
    except OSError:
        return 1 << 62
    return found.f_bavail * found.f_frsize


# ---- for programs

def as_json(report: Report) -> dict[str, Any]:
    """The object for programs."""
    return {
        "file": report.path, "size": report.size,
        "container": report.container.name if report.container else None,
        "contents": report.kind or None, "label": report.label or None,
        "partitions": [_part_json(part) for part in report.parts],
        "volumes": [volume_json(volume) for volume in report.volumes],
        "searched": report.searched, "next": _next(report), "error": None,
    }


def _next(report: Report) -> list[str]:
    if report.container:
        return report.container.commands
    return [step.command for step in steps(report)]


def _part_json(part: Part) -> dict[str, Any]:
    place = part.partition
    return {"number": place.number, "offset": place.offset, "length": place.length,
            "type": place.type, "name": place.name, "contents": part.kind or None,
            "label": part.label or None}


def volume_json(volume: choosing.Volume) -> dict[str, Any]:
    """A volume with the facts of its header."""
    facts = volume.facts
    return {
        "offset": volume.offset, "length": volume.length,
        "partition": volume.partition.number if volume.partition else None,
        "version": facts.version, "uuid": facts.uuid, "label": facts.label, "cipher": facts.cipher,
        "payload_offset": facts.segment_offset, "is_header_only": volume.is_header_only,
        "fault": facts.fault, "damage": facts.damage,
        "slots": [{"number": slot.number, "opens": slot.opens, "kdf": slot.kdf,
                   "memory": slot.memory, "tokens": slot.tokens, "words": slot.words}
                  for slot in facts.slots],
    }
