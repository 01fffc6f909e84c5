"""What a plaintext is, as blkid sees it, and the command that looks into it."""

import itertools
import os
from typing import Iterator, NamedTuple, Optional

from . import partitions, tools
from .command import sized
from .words import quoted

tools.prepare_library()
import luksrd_lvm  # noqa: E402  pylint: disable=wrong-import-position,wrong-import-order

# The first and the last bytes, by which blkid knows what it knows
SIGNATURE_BYTES = 4 << 20
LAST_BYTES = 1 << 20
PIECE = 1 << 18

# How `mount` is kept from replaying a journal, and what replaces it for what it does not mount
MOUNT_OPTIONS = {
    "ext3": "loop,ro,noload", "ext4": "loop,ro,noload", "xfs": "loop,ro,norecovery,nouuid",
    "btrfs": "loop,ro,rescue=nologreplay",
}
# What blkid calls things that are no file system
NOT_MOUNTED = {
    "swap": "swap space: there are no files in it",
    "linux_raid_member": "one disk of a RAID: mdadm reads it, with the others",
    "zfs_member": "ZFS: zpool import -o readonly=on reads it",
    "BitLocker": "BitLocker: cryptsetup bitlkDump and dislocker read it",
    "LVM1_member": "LVM of the first version, which luksrd-rescue does not read",
    "bcache": "bcache: the cache has a part of the files",
}
NAMES = {"crypto_LUKS": "LUKS", "LVM2_member": "LVM", "vfat": "FAT", "ntfs": "NTFS", "xfs": "XFS",
         "btrfs": "Btrfs", "swap": "swap space", "linux_raid_member": "RAID"}
TABLES = {"gpt": "a partition table (GPT)", "dos": "a partition table (MBR)"}


class Contents(NamedTuple):
    """What is at a place of a file: the place, what blkid says of it, and what is in it in turn,
    with its name, or why a logical volume cannot be read."""

    path: str
    offset: int
    length: int
    kind: str
    label: str
    name: str = ""
    parts: tuple = ()
    refusal: str = ""
    pieces: int = 1

    @property
    def words(self) -> str:
        """What it is, for people."""
        name = TABLES.get(self.kind) or NAMES.get(self.kind, self.kind)
        name = name or "nothing that blkid knows"
        return f"{name}, label {self.label}" if self.label else name


class Window:
    """A part of a volume, as a volume."""

    def __init__(self, source, offset: int, length: int) -> None:
        self._source, self._offset = source, offset
        self.size = max(0, min(length, source.size - offset))

    def pread_into(self, view: memoryview, offset: int) -> int:
        """Fills the view from this byte on, up to the end of the part."""
        view = view[:max(0, self.size - offset)]
        return self._source.pread_into(view, self._offset + offset) if view else 0


def identify(source, path: str, base: int = 0) -> Contents:
    """What a plaintext is. `source` has its bytes; for commands these are in the file `path`, from
    the byte `base` on."""
    found = _identified(source, path, 0, source.size, "")
    parts = tuple(part._replace(offset=part.offset + base) for part in found.parts)
    return found._replace(offset=base, parts=parts)


def _identified(source, path: str, offset: int, length: int, name: str) -> Contents:
    """What is in a part of it, which may be a logical volume or a partition of this name."""
    window = Window(source, offset, length)
    kind, label = probe(window)
    here = Contents(path, offset, window.size, kind, label, name)
    if name:
        return here
    if kind == "LVM2_member":
        return _with_volumes(here, window)
    if kind in TABLES:
        return _with_partitions(here, source)
    return here


def probe(source) -> tuple[str, str]:
    """What blkid calls this, and its label; both are empty if it knows nothing.

    blkid reads a sparse copy of its beginning and its end, since the source need not be a file."""
    copy = os.memfd_create("plaintext")
    try:
        _copy(source, copy)
        path = f"/proc/self/fd/{copy}"
        ran = tools.run(tools.find("blkid"), "--probe", "--output", "export", path, keep=(copy,))
    finally:
        os.close(copy)
    fields = dict(line.split("=", 1) for line in ran.output.decode(errors="replace").splitlines()
                  if "=" in line)
    kind = fields.get("TYPE") or fields.get("PTTYPE") or ""
    return kind, fields.get("LABEL", "").replace("\\", "")


def _copy(source, copy: int) -> None:
    """Copies the first and the last bytes of a source into a file of its length. Those that cannot
    be read are zeros there."""
    os.ftruncate(copy, source.size)
    piece = memoryview(bytearray(PIECE))
    first = min(SIGNATURE_BYTES, source.size)
    last = max(first, source.size - LAST_BYTES) // PIECE * PIECE
    for offset in (*range(0, first, PIECE), *range(last, source.size, PIECE)):
        try:
            got = source.pread_into(piece[:source.size - offset], offset)
        except OSError:
            continue
        os.pwrite(copy, piece[:got], offset)


def _with_volumes(here: Contents, plain: Window) -> Contents:
    """A physical volume with its logical volumes."""
    try:
        volumes = luksrd_lvm.logical_volumes(plain)
    except (luksrd_lvm.Refused, OSError) as error:
        return here._replace(refusal=str(error))
    return here._replace(parts=tuple(_volume_in(here, plain, each) for each in volumes.values()))


def _volume_in(here: Contents, plain: Window, volume: luksrd_lvm.LogicalVolume) -> Contents:
    """A logical volume. Only one in a single piece has a place in the file."""
    if volume.refusal:
        return Contents(here.path, 0, 0, "", "", volume.name, refusal=volume.refusal)
    if len(volume.pieces) == 1:
        offset, length = volume.pieces[0]
        return _identified(plain, here.path, offset, length, volume.name)
    kind, label = probe(luksrd_lvm.Pieces(plain, volume.pieces))
    return Contents(here.path, 0, volume.size, kind, label, volume.name, pieces=len(volume.pieces))


def _with_partitions(here: Contents, source) -> Contents:
    """A disk in the plaintext with its partitions. Only a file has a table that partx reads."""
    if not os.path.exists(here.path):
        return here
    disk = _Named(here.path, source)
    found = [_identified(source, here.path, each.offset, each.length, f"partition {each.number}")
             for each in partitions.partitions(disk) if not each.is_extended]
    return here._replace(parts=tuple(found))


class _Named:
    """A source with the name of the file that it is."""

    def __init__(self, path: str, source) -> None:
        self.path, self.size, self.pread_into = path, source.size, source.pread_into
        self.sector = partitions.SECTOR


def lines(found: Contents, decrypt: str = "luksrd-rescue decrypt IMAGE",
          can_mount: bool = True) -> list[str]:
    """What a plaintext is, and the commands to type next, each on a line of its own. `decrypt` is
    the command that decrypts it, and `can_mount` whether root can read its file."""
    if found.refusal:
        return [f"{found.path} is {found.words}, but {found.refusal}"]
    if found.parts:
        listed = [line for part in found.parts for line in _part_lines(part, decrypt, can_mount)]
        return [f"{found.path} is {found.words}:", *listed]
    if not found.kind:
        return [f"{found.path} is nothing that blkid knows: a damaged file system, or the key and "
                "the header are of another volume"]
    return [f"{found.path} is {found.words}.", *_commands(found, can_mount)]


def _part_lines(part: Contents, decrypt: str, can_mount: bool) -> list[str]:
    """A partition or a logical volume."""
    if part.refusal:
        return [f"  {part.name}: not supported: {part.refusal}"]
    first = f"  {part.name}: {part.words}, {sized(part.length)}"
    if part.pieces == 1:
        return [first, *(f"  {command}" for command in _commands(part, can_mount))]
    alone = quoted(free_name(f"{part.name.rpartition('/')[2]}.img"))
    return [f"{first}, in {part.pieces} pieces",
            f"    {decrypt} --lv {quoted(part.name)} -o {alone}"]


def as_root(command: str) -> str:
    """A command that only root can run, for whoever runs this."""
    return command if os.geteuid() == 0 else f"sudo {command}"


def mount_command(found: Contents) -> Optional[str]:
    """The command that mounts a file system without changing anything, or None for what is none."""
    if found.kind in NOT_MOUNTED or found.kind in TABLES or found.kind in ("", "crypto_LUKS",
                                                                          "LVM2_member"):
        return None
    options = MOUNT_OPTIONS.get(found.kind, "loop,ro")
    if found.name:
        options += f",offset={found.offset},sizelimit={found.length}"
    kind = " -t ntfs-3g" if found.kind == "ntfs" else ""
    return as_root(f"mount{kind} -o {options} {quoted(found.path)} /mnt")


def _commands(found: Contents, can_mount: bool) -> list[str]:
    """What to type next."""
    if found.kind == "crypto_LUKS":
        where = f" --offset {found.offset} --length {found.length}" if found.name else ""
        return [f"  luksrd-rescue decrypt {quoted(found.path)}{where} -o "
                f"{quoted(free_name('inner.img'))}"]
    if found.kind in NOT_MOUNTED:
        return [f"  {NOT_MOUNTED[found.kind]}"]
    command = mount_command(found)
    commands = [f"  {command}"] if command and can_mount else []
    if found.kind in ("ext2", "ext3", "ext4"):
        place = f"{found.path}?offset={found.offset}" if found.name else found.path
        without = f"{tools.typed('debugfs')} -R 'ls -l /' {quoted(place)}"
        commands.append(f"  or without root: {without}" if commands else f"  {without}")
    return commands


def free_names(name: str) -> Iterator[str]:
    """This name and ones like it, all those that no file has yet."""
    stem, ending = os.path.splitext(name)
    names = (f"{stem}{number}{ending}" for number in itertools.count(2))
    return (each for each in itertools.chain([name], names) if not os.path.lexists(each))


def free_name(name: str) -> str:
    """The first of these names."""
    return next(free_names(name))
