"""The map of ddrescue that lies beside an image: what it lacks would be decrypted to noise."""

import argparse
import os
import re
from typing import NamedTuple, Optional

from . import maps
from .command import Refusal, say
from .words import quoted

# (the second is its name before ddrescue 1.20)
_FIRST_LINE = re.compile(r"(Mapfile|Rescue Logfile)\. Created by GNU ddrescue")


class ImageMap(NamedTuple):
    """A map of ddrescue, and its name."""

    path: str
    content: maps.Map

    def option(self) -> str:
        """The option that names it."""
        return f"--image-map {quoted(self.path)}"

    def lacks(self, size: int) -> bool:
        """Whether it does not mark all of an image of this size as read."""
        return self.content.size < size or any(
            not maps.is_done(it.status) for it in self.content.blocks() if it.start < size)


def beside(image: str) -> Optional[ImageMap]:
    """The map of this image: laptop.map or laptop.img.map beside laptop.img, if ddrescue has made
    it."""
    for name in (f"{os.path.splitext(image)[0]}.map", f"{image}.map"):
        found = _of_ddrescue(name)
        if found:
            return found
    return None


def _of_ddrescue(path: str) -> Optional[ImageMap]:
    """The map in this file, or None if it is not ddrescue's."""
    if not os.path.isfile(path):
        return None
    try:
        content = maps.load(path)
    except Refusal:
        return None
    is_its = bool(content.comments) and _FIRST_LINE.match(content.comments[0])
    return ImageMap(path, content) if is_its else None


def warn(image, arguments: argparse.Namespace) -> None:
    """Says if such a map lists sectors that were not read, and the options do not name one."""
    found = beside(arguments.image) if arguments.image_map is None else None
    if found and found.lacks(image.size):
        say(found.path, "is beside the image, and lists sectors that were not read: without "
            f"{found.option()} they become noise")
