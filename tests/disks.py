"""Images of whole disks, with partition tables by sfdisk, and what can be in their partitions."""

import re
import struct

from support import must
from volumes import empty_file

MIB = 1 << 20
SECTOR = 512
# types of partitions, as sfdisk names them in a GPT
EFI, LINUX, LUKS = "uefi", "linux", "CA7D7CCB-63ED-4C53-861C-1742536059CC"


def disk(path, label, rows, contents):
    """A disk with this kind of table and these rows, with these contents at the start of partitions,
    by their offsets in bytes. It is as long as all of it needs, and 2 MiB more."""
    ends = [offset + len(content) for offset, content in contents.items()]
    for line in rows:
        start, length = re.match(r"start=(\d+), size=(\d+)", line).groups()
        ends.append((int(start) + int(length)) * SECTOR)
    must("sfdisk", "-q", empty_file(path, max(ends) + 2 * MIB), stdin="\n".join([f"label: {label}", *rows, ""]).encode())
    with open(path, "r+b") as file:
        for offset, content in contents.items():
            file.seek(offset)
            file.write(content)
    return path


def row(start, length, kind, name=""):
    """A row of sfdisk for a partition with these bytes."""
    named = f', name="{name}"' if name else ""
    return f"start={start // SECTOR}, size={length // SECTOR}, type={kind}{named}"


def file_system(path, kind, length, label, folder=None):
    """The bytes of a file system of this length with this label, and with the files in a folder."""
    empty_file(path, length)
    if kind == "vfat":
        must("mkfs.vfat", "-n", label, path)
    else:
        must("mke2fs", "-q", "-t", kind, "-L", label, *(["-d", folder] if folder else []), path)
    content = path.read_bytes()
    path.unlink()
    return content


def lvm_over(folder, *devices, settings=""):
    """lvm(LINE) runs a command of LVM2, which looks at nothing but these devices, and gives what it
    prints."""
    seen = ", ".join(f'"a|^{device}$|"' for device in devices)
    config = f"""devices {{ filter = [{seen}, "r|.*|"] use_devicesfile = 0 {settings} }}
        global {{ use_lvmpolld = 0 locking_dir = "{folder}" }}
        activation {{ udev_sync = 0 udev_rules = 0 }} backup {{ backup = 0 archive = 0 }}"""

    def lvm(line):
        command, *words = line.split()
        return must("lvm", command, "--driverloaded", "n", "--config", config, *words).decode()

    return lvm


def bitlocker(length):
    """What begins as BitLocker does, as libblkid's sources describe it."""
    content = bytearray(length)
    content[:11] = b"\xeb\x58\x90-FVE-FS-"
    struct.pack_into("<16sQ", content, 160, bytes.fromhex("3bd66749292ed84a8399f6a339e3d001"), 65536)
    content[65536:65544] = b"-FVE-FS-"
    struct.pack_into("<HH", content, 65544, 64, 2)
    return bytes(content)


def raid(length):
    """The superblock of one disk of a RAID by the kernel's md, of version 1.2 as the kernel's
    md_p.h describes it. (blkid sees no RAID in less than 1.5 MiB.)"""
    content = bytearray(length)
    struct.pack_into("<IIII16s32s", content, 4096, 0xA92B4EFC, 1, 0, 0, bytes(range(16)), b"host:0")
    struct.pack_into("<Q", content, 4096 + 144, 8)
    total = sum(struct.unpack_from("<64I", content, 4096))
    struct.pack_into("<I", content, 4096 + 216, (total & 0xFFFFFFFF) + (total >> 32))
    return bytes(content)
