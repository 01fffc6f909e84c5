"""Going on with the output of an earlier run, by its map."""

from __future__ import annotations

import argparse
import os
import stat
from typing import NamedTuple, Optional

from . import __version__, maps, related
from .command import USAGE, Refusal, shown
from .writing import Kept, Target

_MARK = "luksrd-rescue: "
_IMAGE_MAP = "Image map: "


class Identity(NamedTuple):
    """What has to be the same in both runs: the UUID, the byte of the image at which the payload
    begins, and which pieces of the plaintext are written."""

    uuid: str
    payload: int
    pieces: list[tuple[int, int]]

    def _line(self) -> str:
        pieces = ",".join(f"{offset}:{length}" for offset, length in self.pieces)
        return f"{_MARK}uuid={shown(self.uuid) or '-'} payload={self.payload} plaintext={pieces}"

    def comments(self, image: str, image_map: Optional[str]) -> list[str]:
        """The comments of the map, of a run with this map of the image or without one."""
        return [f"Mapfile. Created by luksrd-rescue {__version__}",
                "Positions are those of the output: the bytes named below, one after the other",
                f"Image: {shown(image)}",
                *([] if image_map is None else [f"{_IMAGE_MAP}{shown(image_map)}"]), self._line()]

    def differs_from(self, comments: list[str]) -> Optional[str]:
        """What of a map with these comments is another one, or None."""
        line = next((it for it in comments if it.startswith(_MARK)), None)
        if line is None:
            return "is not a map of luksrd-rescue"
        names = {"uuid": "UUID", "payload": "payload offset", "plaintext": "length or range"}
        ours, theirs = _fields(self._line()), _fields(line)
        for name, words in names.items():
            if ours.get(name) != theirs.get(name):
                return (f"is of another volume or part: its {words} is {theirs.get(name)}, not "
                        f"{ours.get(name)}")
        return None


def _fields(line: str) -> dict[str, str]:
    return dict(word.partition("=")[::2] for word in line.removeprefix(_MARK).split(" "))


def _check_image_map(source: str, comments: list[str], arguments: argparse.Namespace) -> None:
    """Refuses to go on without a map of the image if the earlier run had one: the zeros that the
    image has in place of what was not read would be decrypted to noise."""
    names = [it.removeprefix(_IMAGE_MAP) for it in comments if it.startswith(_IMAGE_MAP)]
    if names and arguments.image_map is None:
        raise Refusal(USAGE, source, f"is of a run with --image-map {names[0]}: name the image's "
                      "map again, or what it lacks becomes noise")


def check_map_path(path: Optional[str], target: Target, kept: list[Kept],
                   arguments: argparse.Namespace) -> None:
    """Refuses to write the map over something else."""
    if path is None:
        return
    try:
        found = os.stat(path)
    except FileNotFoundError:
        return
    except (OSError, ValueError) as error:
        why = getattr(error, "strerror", error)
        raise Refusal(USAGE, path, f"cannot be the map: {why}") from error
    if not stat.S_ISREG(found.st_mode):
        raise Refusal(USAGE, path, "cannot be the map: it is not a regular file")
    for it in [*kept, *([Kept(target.path, os.stat(target.path))] if target.is_there else [])]:
        if related.are_related(found, it.identity):
            raise Refusal(USAGE, path, f"cannot be the map: it is {shown(it.path)}")
    if not arguments.resume and arguments.retry is None and not arguments.force:
        raise Refusal(USAGE, path, "there is such a file, and the map would be written there: "
                      "--resume goes on by it, --force overwrites it, and --map names another one")


def earlier(path: str, identity: Identity, target: Target,
            arguments: argparse.Namespace) -> Optional[maps.Map]:
    """The map of the earlier run; None if there is none, so that all is begun anew."""
    source = arguments.retry if arguments.retry is not None else path
    length = sum(it[1] for it in identity.pieces)
    if not os.path.exists(source):
        if arguments.retry is not None:
            raise Refusal(USAGE, source, "there is no such map")
        # (a file of this length is one that a run has left before it had a map, or without it)
        if target.is_there and target.length != length and not arguments.force:
            raise Refusal(USAGE, target.path, f"there is such a file, but no map {shown(source)}, "
                          f"and it has not the length of the plaintext, {length} bytes: --force "
                          "overwrites it")
        return None
    found = maps.load(source)
    difference = identity.differs_from(found.comments)
    if difference:
        raise Refusal(USAGE, source, difference)
    if found.size != length:
        raise Refusal(USAGE, source, f"is of {found.size} bytes, not {length}")
    _check_image_map(source, found.comments, arguments)
    if target.is_there:
        return found
    if arguments.retry is not None:
        raise Refusal(USAGE, target.path,
                      "there is no such file, in which what is lost could be filled in")
    # (the output is gone, and with it what the map says)
    return None
