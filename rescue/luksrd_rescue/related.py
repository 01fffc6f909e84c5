"""Which files and devices have bytes in common: partitions and their disk, loop devices and the
files that they show, and what the device mapper puts on top of others."""

from __future__ import annotations

import os
import stat
from typing import Iterator, Optional

# The folder in which the kernel describes devices
SYSTEM = "/sys"
# A regular file by its device and inode, or a block device by its number
_Thing = tuple[str, int, int]


def _file(found: os.stat_result) -> _Thing:
    return "file", found.st_dev, found.st_ino


def _device(number: int) -> _Thing:
    return "device", os.major(number), os.minor(number)


def _thing(found: os.stat_result) -> Optional[_Thing]:
    if stat.S_ISBLK(found.st_mode):
        return _device(found.st_rdev)
    return _file(found) if stat.S_ISREG(found.st_mode) else None


def _read(path: str) -> Optional[str]:
    try:
        with open(path, encoding="utf-8", errors="surrogateescape") as file:
            return file.read().rstrip("\n")
    except OSError:
        return None


def _number_in(path: str) -> Optional[_Thing]:
    """The device whose number is in a file of sysfs."""
    major, _, minor = (_read(path) or "").partition(":")
    return ("device", int(major), int(minor)) if major.isdecimal() and minor.isdecimal() else None


def _directly_below(thing: _Thing, with_disk: bool) -> Iterator[_Thing]:
    """What a device has its bytes in; for a partition that is its disk."""
    if thing[0] != "device":
        return
    folder = os.path.realpath(f"{SYSTEM}/dev/block/{thing[1]}:{thing[2]}")
    backing = _read(f"{folder}/loop/backing_file")
    if backing is not None:
        try:
            yield _thing(os.stat(backing)) or thing
        except OSError:
            pass
    if with_disk and os.path.exists(f"{folder}/partition"):
        yield _number_in(f"{os.path.dirname(folder)}/dev") or thing
    slaves = f"{folder}/slaves"
    for name in os.listdir(slaves) if os.path.isdir(slaves) else []:
        yield _number_in(f"{slaves}/{name}/dev") or thing


def _below(thing: _Thing, with_disk: bool = True) -> set[_Thing]:
    """The thing, and all that it has its bytes in."""
    found, left = {thing}, [thing]
    while left:
        for it in _directly_below(left.pop(), with_disk):
            if it not in found:
                found.add(it)
                left.append(it)
    return found


def are_related(one: os.stat_result, other: os.stat_result) -> bool:
    """Whether what is written to one of them may be read from the other: they are the same, one is
    below the other, or both show the same file."""
    first, second = _thing(one), _thing(other)
    if first is None or second is None:
        return False
    below_first, below_second = _below(first), _below(second)
    shared = {it for it in below_first & below_second if it[0] == "file"}
    return first in below_second or second in below_first or bool(shared)


def is_inside(found: os.stat_result, image: os.stat_result) -> bool:
    """Whether a file or a folder is on a file system whose bytes are in the image. (Another
    partition of the same disk is not.)"""
    is_on = stat.S_ISREG(found.st_mode) or stat.S_ISDIR(found.st_mode)
    return is_on and _thing(image) in _below(_device(found.st_dev), with_disk=False)


def mounted_on(number: int) -> list[str]:
    """Where a block device, or what lies on it, is mounted or swapped to."""
    thing, found = _device(number), []
    for line in (_read("/proc/self/mountinfo") or "").splitlines():
        words = line.split()
        major, _, minor = words[2].partition(":")
        if int(major) and thing in _below(("device", int(major), int(minor))):
            found.append(words[4])
    for line in (_read("/proc/swaps") or "").splitlines()[1:]:
        try:
            swap = _thing(os.stat(line.split()[0]))
        except (OSError, IndexError):
            continue
        if swap and thing in _below(swap):
            found.append("swap")
    return found
