"""luksrd-rescue decrypt: the plaintext of a volume, or of a part of it, into a new file."""

from __future__ import annotations

import argparse
import contextlib
import os
import re
from typing import NamedTuple, Optional

from . import choosing, maps, resuming, terminal, unlocking, working
from .command import (FAILED, IMAGE, INTERRUPTED, USAGE, Refusal, number, say, shown, sized,
                      subcommand, tell)
from .image import Image, Loaded, open_image
from .words import quoted
from .writing import Kept, Output, Target

EXAMPLES = """\
examples:
  luksrd-rescue decrypt laptop.img -o plain.img
  luksrd-rescue decrypt laptop.img --partition 3 -o plain.img --image-map laptop.map
  luksrd-rescue decrypt laptop.img -o plain.img --resume
  luksrd-rescue decrypt laptop.img -o plain.img --image-map laptop.map --retry plain.img.map
  luksrd-rescue decrypt disk.img --header backup -o plain.img
  luksrd-rescue decrypt disk.img --volume-key-file volume.key --payload-offset 16Mi -o plain.img
  luksrd-rescue decrypt laptop.img --lv vg0/root -o root.img
  luksrd-rescue decrypt laptop.img --range 0:1Mi -o - | blkid -p -
"""
_RANGE = re.compile(r"([^:]+):([^:]+)")


class _Begun(NamedTuple):
    """What is to be written: the volume, its parts in the output, the output's length, the map and
    its file, and whether the output is begun anew."""

    payload: working.Payload
    parts: list[working.Part]
    length: int
    done: maps.Map
    map_path: Optional[str]
    is_new: bool


def _range(word: str) -> tuple[int, int]:
    found = _RANGE.fullmatch(word)
    if not found:
        raise argparse.ArgumentTypeError(f"{word!r} is not OFFSET:LENGTH, such as 0:1Mi")
    return number(found[1]), number(found[2])


def register(subparsers: argparse._SubParsersAction) -> None:
    """Adds the subcommand to the command line."""
    parser = subcommand(
        subparsers, "decrypt", run, EXAMPLES, "write the plaintext of a volume into a file",
        "Decrypt a LUKS volume in an image or a device, past bad sectors. FILE is\n"
        "made when a key has opened the volume; until all is done, FILE.map notes what is.")
    parser.usage = "luksrd-rescue decrypt IMAGE -o FILE [OPTION ..]"
    parser.add_argument("-o", "--output", metavar="FILE", required=True,
                        help="a new file; - is standard output; a device needs --force")
    choosing.add_options(parser)
    unlocking.add_options(parser)
    _add_part_options(parser)
    _add_running_options(parser)


def _add_part_options(parser: argparse.ArgumentParser) -> None:
    group = parser.add_argument_group("which part (without these all of the plaintext)")
    group.add_argument("--lv", metavar="NAME", help="one logical volume of LVM, as VG/LV or LV")
    group.add_argument("--range", metavar="OFFSET:LENGTH", type=_range,
                       help="so many bytes from this one on, of the plaintext or of the logical "
                       "volume")


def _add_running_options(parser: argparse.ArgumentParser) -> None:
    group = parser.add_argument_group("running")
    group.add_argument("--map", metavar="MAP",
                       help="note here, as ddrescue does, what is done and what is lost; without "
                       "it in FILE.map, which is deleted if nothing is lost")
    again = group.add_mutually_exclusive_group()
    again.add_argument("--resume", action="store_true", help="go on where the map says")
    again.add_argument("--retry", metavar="MAP",
                       help="go on by this map, and try what is lost again; with --image-map "
                       "again, if there was one")
    group.add_argument("--force", action="store_true",
                       help="overwrite an existing FILE or a device")
    group.add_argument("--quiet", action="store_true", help="show no progress")


def run(arguments: argparse.Namespace) -> int:
    """Decrypts, and returns the status."""
    unlocking.check_options(arguments)
    goes_on = arguments.resume or arguments.retry is not None
    target = Target(arguments.output, arguments.force, goes_on)
    map_path = _map_path(arguments, target)
    with open_image(arguments.image, arguments.image_map) as image:
        kept = _kept(arguments, image)
        target.check(kept)
        resuming.check_map_path(map_path, target, kept, arguments)
        volume = choosing.choose(image.patched(), arguments)
        loaded = Loaded(image)
        unlocked = unlocking.unlock(image, volume, arguments, loaded)
        terminal.wipe(unlocked.passphrase)
        with unlocked.volume:
            payload = working.Payload(unlocked.volume, image, loaded,
                                      volume.offset + unlocked.payload)
            begun = _begin(arguments, volume, payload, target, map_path)
            output = target.open(begun.length, kept, begun.is_new)
            if map_path is not None:
                _save_first(begun, target)
            return _finish(arguments, volume, begun, output)


def _save_first(begun: _Begun, target: Target) -> None:
    """Writes the map before there is any data."""
    try:
        maps.save_or_refuse(begun.done, begun.map_path)
    except Refusal:
        target.remove()
        raise


def _kept(arguments: argparse.Namespace, image: Image) -> list[Kept]:
    """The files that are read, to which nothing may be written."""
    kept = [Kept(arguments.image, image.identity)]
    for path in (arguments.header, arguments.key_file, arguments.volume_key_file,
                 arguments.image_map):
        with contextlib.suppress(OSError, ValueError):
            kept += [Kept(path, os.stat(path))] if path not in (None, "-") else []
    return kept


def _map_path(arguments: argparse.Namespace, target: Target) -> Optional[str]:
    """Where the map is: beside a file, and nowhere for a pipe or a device unless it is named."""
    if arguments.map is not None or arguments.retry is not None:
        return arguments.map if arguments.map is not None else arguments.retry
    if target.is_device and arguments.resume:
        raise Refusal(USAGE, "--resume", "needs --map here: a device has no map beside it")
    if target.is_pipe or target.is_device:
        return None
    return f"{target.path}.map"


def _pieces(arguments: argparse.Namespace, volume: object) -> list[tuple[int, int]]:
    """The pieces of the plaintext that are wanted, in order."""
    pieces = [(0, volume.size)]
    if arguments.lv is not None:
        pieces = _logical_volume(arguments, volume)
    if arguments.range is None:
        return pieces
    offset, length = arguments.range
    whole = sum(it[1] for it in pieces)
    if offset + length > whole:
        raise Refusal(USAGE, "--range", f"ends at {offset + length}, and there are {whole} bytes")
    return _cut(pieces, offset, length)


def _logical_volume(arguments: argparse.Namespace, volume: object) -> list[tuple[int, int]]:
    import luksrd_lvm  # pylint: disable=import-outside-toplevel
    try:
        return [tuple(piece) for piece in luksrd_lvm.find(volume, arguments.lv).pieces]
    except luksrd_lvm.Refused as error:
        raise Refusal(USAGE, arguments.image, str(error.args[0])) from error
    except OSError as error:
        raise Refusal(FAILED, arguments.image, "LVM's metadata, in the first bytes of the "
                      f"plaintext, cannot be read: {error.strerror}") from error


def _cut(pieces: list[tuple[int, int]], offset: int, length: int) -> list[tuple[int, int]]:
    """So many bytes from one on of what these pieces are, one after the other."""
    found, before = [], 0
    for start, size in pieces:
        first, last = max(0, offset - before), min(size, offset + length - before)
        if first < last:
            found.append((start + first, last - first))
        before += size
    return found


def _begin(arguments: argparse.Namespace, volume: choosing.Volume, payload: working.Payload,
           target: Target, map_path: Optional[str]) -> _Begun:
    """What is to be done, by the map of an earlier run if there is one."""
    pieces = _pieces(arguments, payload.volume)
    length = sum(it[1] for it in pieces)
    identity = resuming.Identity(volume.facts.uuid if volume.facts else "", payload.start, pieces)
    done = None
    if arguments.resume or arguments.retry is not None:
        done = resuming.earlier(map_path, identity, target, arguments)
    is_new = done is None
    if done is None:
        done = maps.Map(length)
    done.comments = identity.comments(arguments.image, arguments.image_map)
    target.warn_of_room(length - done.count(maps.DONE))
    return _Begun(payload, working.laid_out(pieces), length, done, map_path, is_new)


def _finish(arguments: argparse.Namespace, volume: choosing.Volume, begun: _Begun,
            output: Output) -> int:
    """Decrypts into the open output, and says what came of it."""
    statuses = maps.UNTRIED + maps.UNTRIMMED + maps.UNSCRAPED
    statuses += maps.BAD if arguments.retry is not None else ""
    left = sum(it.length for it in begun.done.blocks() if it.status in statuses)
    work = working.Work(begun.payload, working.to_do(begun.parts, begun.done, statuses), output,
                        begun.done, begun.map_path)
    try:
        with terminal.Progress(left, "B", arguments.quiet) as progress:
            work.run(progress)
        output.close()
    except KeyboardInterrupt:
        return _interrupted(begun)
    except Refusal as refusal:
        raise working.kept_for_later(refusal, begun.map_path) from refusal
    except OSError as error:
        raise working.kept_for_later(working.failed(output.path, error), begun.map_path) from error
    return _report(arguments, volume, begun, work)


def _interrupted(begun: _Begun) -> int:
    done = begun.done.count(maps.DONE) + begun.done.count(maps.BAD)
    how = "" if begun.map_path is None else f"; --resume goes on by {shown(begun.map_path)}"
    say("", f"interrupted: {sized(done)} of {sized(begun.length)} are done{how}")
    return INTERRUPTED


def _report(arguments: argparse.Namespace, volume: choosing.Volume, begun: _Begun,
            work: working.Work) -> int:
    """Says what is missing and what the plaintext is, and gives the status."""
    image, bad = arguments.image, begun.done.count(maps.BAD)
    for gap in work.gaps:
        say(image, f"{gap.length} bytes at {begun.payload.start + gap.plain} cannot be read: zeros "
            f"at {gap.plain} of the plaintext")
    missing = _missing(arguments, volume, begun)
    if missing:
        say(image, missing)
    if bad:
        say(arguments.output, f"{sized(bad)} of {sized(begun.length)} are missing"
            f"{_again(arguments, begun)}")
    lines = [] if arguments.output == "-" else _description(arguments, begun)
    if not bad and begun.map_path is not None and arguments.map is None and arguments.retry is None:
        with contextlib.suppress(OSError):
            os.unlink(begun.map_path)
    status = FAILED if bad else IMAGE if missing else 0
    how = "written" if status else "complete"
    tell(*lines, besides=f"{shown(arguments.output)} is {how}")
    return status


def _again(arguments: argparse.Namespace, begun: _Begun) -> str:
    """How what is missing is tried again: with a map of the image, only what ddrescue has read by
    then is new."""
    if not begun.map_path:
        return ""
    retry = f"--retry {quoted(begun.map_path)} tries them again"
    if arguments.image_map is None:
        return f"; {retry}"
    return f"; after another ddrescue, --image-map {quoted(arguments.image_map)} {retry}"


def _missing(arguments: argparse.Namespace, volume: choosing.Volume, begun: _Begun) -> str:
    """What an image that ends early lacks, as luksCat says it."""
    if arguments.range is not None or arguments.lv is not None:
        return ""
    if begun.payload.volume.incomplete:
        return begun.payload.volume.incomplete.message.removeprefix("luksrd: ")
    end = volume.offset + (volume.length or 0)
    if volume.partition and end > begun.payload.image.size:
        return (f"image ends {end - begun.payload.image.size} bytes before partition "
                f"{volume.partition.number} does")
    return ""


def _description(arguments: argparse.Namespace, begun: _Begun) -> list[str]:
    """What the plaintext is, and the next command, in lines."""
    from . import contents  # (which is loaded only when it is needed)
    slot = begun.payload.volume.key_slot
    by = "the volume key" if slot is None else f"key slot {slot}"
    first = f"{shown(arguments.output)}: {sized(begun.length)}, opened by {by}"
    try:
        with open_image(arguments.output) as written:
            found = contents.identify(written, arguments.output)
        again = f"luksrd-rescue decrypt {choosing.again(arguments)}"
        return [first, *contents.lines(found, again)]
    except (Refusal, OSError, ValueError, LookupError) as error:
        why = f"{error.what}: {error.why}" if isinstance(error, Refusal) else error
        say(arguments.output, f"what it is was not found out: {why}")
        return [first]
