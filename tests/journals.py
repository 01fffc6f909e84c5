#!/usr/bin/python3
"""journals.py KIND IMAGE COMMAND: what mounting gives of a file system that was not unmounted, by
`mount -o ro` and by the command that RESCUE.md has for its kind. It works in a mount namespace of
its own, in an empty folder."""

import glob
import os
import shutil
import struct
import subprocess
import sys
import time

RECORD, PAGE, SECTOR = 1024, 4096, 512
UPDATES, AREA, CLIENTS, CLIENT = 30, 48, 48, 160


def log_place(image):
    """Where the log of an NTFS volume (record 2 of its master file table) begins, and its length,
    both in bytes."""
    boot = image.read(SECTOR)
    cluster = struct.unpack_from("<H", boot, 11)[0] * boot[13]
    image.seek(struct.unpack_from("<Q", boot, 48)[0] * cluster + 2 * RECORD)
    record = image.read(RECORD)
    at = struct.unpack_from("<H", record, 20)[0]
    while record[at] != 0x80:  # the attribute with the data
        at += struct.unpack_from("<I", record, at + 4)[0]
    run = at + struct.unpack_from("<H", record, at + 32)[0]
    lengths, places = record[run] & 15, record[run] >> 4
    first = int.from_bytes(record[run + 1 + lengths:run + 1 + lengths + places], "little")
    return first * cluster, struct.unpack_from("<Q", record, at + 48)[0]


def restart_page(log_bytes):
    """The first page of a log of a Windows that was switched off: the volume is in use by one
    client, and not marked as clean. ntfs-3g's logfile.h describes it."""
    page, sectors = bytearray(PAGE), PAGE // SECTOR
    struct.pack_into("<4sHHQIIHhh", page, 0, b"RSTR", UPDATES, sectors + 1, 0, PAGE, PAGE, AREA, 1, 1)
    struct.pack_into("<QHHHHIHHqIHH", page, AREA, 100, 1, 0xFFFF, 0, 0, 67 - log_bytes.bit_length(),
                     CLIENTS + CLIENT, CLIENTS, log_bytes, 0, 48, 64)
    struct.pack_into("<QQHHH6xI8s", page, AREA + CLIENTS, 100, 100, 0xFFFF, 0xFFFF, 1, 8,
                     "NTFS".encode("utf-16le"))
    # the last two bytes of each sector are kept in a table, and are the table's number there
    struct.pack_into("<H", page, UPDATES, 1)
    for i in range(sectors):
        end = (i + 1) * SECTOR - 2
        page[UPDATES + 2 + 2 * i:UPDATES + 4 + 2 * i] = page[end:end + 2]
        struct.pack_into("<H", page, end, 1)
    return page


def sh(command):
    return subprocess.run(["sh", "-c", command], stderr=subprocess.DEVNULL).returncode


def make_unclean(kind):
    """plain.img as it is after a loss of power, with the file new, which its journal has."""
    if kind == "ntfs":
        with open("plain.img", "r+b") as image:
            place, length = log_place(image)
            image.seek(place)
            image.write(restart_page(length) * 2)
        return
    keep = "cp running plain.img"
    end = {"xfs": f"xfs_io -x -c shutdown\\ -f point && umount point && {keep}",
           "btrfs": f"xfs_io -c fsync point/new && {keep} && umount point"}
    last = end.get(kind, f"sync -f point && {keep} && umount point")
    assert sh("mkdir point && cp plain.img running && mount -o loop running point && "
              f"echo new >point/new && {last}") == 0


def mounts(command):
    """How this command on /mnt fails, or what is there then, and whether it may be written to."""
    if status := sh(command):
        return f"status {status}"
    with open("/proc/mounts") as table:
        how = [line.split()[3][:2] for line in table if line.split()[1] == "/mnt"][-1]
    names = sorted(name for name in os.listdir("/mnt") if not name.startswith("l"))
    assert sh("umount /mnt") == 0
    return " ".join([*names, how])


def replayed():
    """What is new in the file system over a scratch copy of it, mounted without ro."""
    os.mkdir("file")
    fuse = subprocess.Popen(["nbdfuse", "file/plain.img", "--command", "nbdkit", "-s",
                             "--filter=cow", "file", "plain.img"])
    while not os.path.exists("file/plain.img") and fuse.poll() is None:
        time.sleep(0.05)
    sh("mount -o loop file/plain.img /mnt")
    names = [os.path.basename(name) for name in glob.glob("/mnt/n*")]
    sh("umount /mnt; fusermount3 -u file")
    fuse.wait()
    return " ".join(names)


def main():
    kind, image, command = sys.argv[1:]
    shutil.copyfile(image, "plain.img")
    make_unclean(kind)
    with open("plain.img", "rb") as file:
        before = file.read()
    if kind == "ntfs":
        print(mounts(command))
        print(mounts("ntfs-3g -o norecover plain.img /mnt"))
    else:
        print(mounts("mount -o loop,ro plain.img /mnt"))
        print(mounts(command))
        print(mounts("mount -o loop,ro,noload plain.img /mnt") if kind == "ext2" else replayed())
    with open("plain.img", "rb") as file:
        print("unchanged" if file.read() == before else "changed")
    if kind == "ntfs":
        print(mounts("ntfs-3g plain.img /mnt"))


if __name__ == "__main__":
    main()
