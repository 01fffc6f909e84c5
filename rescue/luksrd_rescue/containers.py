"""Files that hold an image in another form: what they are, and which command opens them."""

import os
from typing import NamedTuple, Optional

from . import tools
from .command import IMAGE, Refusal, say
from .contents import free_name
from .words import quoted

FIRST_BYTES = 512


class Form(NamedTuple):
    """A form of images: the bytes at an offset by which it is known, what people call it, the
    command that writes the image out, its package, and the endings of names that it has."""

    magic: bytes
    offset: int
    name: str
    command: str
    package: str
    endings: tuple[str, ...]


def _of_qemu(magic: bytes, offset: int, name: str, kind: str) -> Form:
    endings = {"vpc": (".vhd", ".vpc")}.get(kind, (f".{kind}",))
    return Form(magic, offset, name, f"qemu-img convert -p -f {kind} -O raw {{image}} {{raw}}",
                "qemu-utils", endings)


FORMS = [
    _of_qemu(b"QFI\xfb", 0, "a qcow2 image", "qcow2"),
    _of_qemu(b"KDMV", 0, "a VMDK image (VMware)", "vmdk"),
    _of_qemu(b"COWD", 0, "a VMDK image (VMware)", "vmdk"),
    _of_qemu(b"# Disk DescriptorFile", 0, "a VMDK image (VMware)", "vmdk"),
    _of_qemu(b"\x7f\x10\xda\xbe", 64, "a VDI image (VirtualBox)", "vdi"),
    _of_qemu(b"vhdxfile", 0, "a VHDX image (Hyper-V)", "vhdx"),
    _of_qemu(b"conectix", 0, "a VHD image (Hyper-V)", "vpc"),
    Form(b"\xfd7zXZ\0", 0, "compressed by xz", "xz -dc {image} > {raw}", "xz-utils", (".xz",)),
    Form(b"\x1f\x8b\x08", 0, "compressed by gzip", "gzip -dc {image} > {raw}", "gzip",
         (".gz", ".gzip")),
    Form(b"\x28\xb5\x2f\xfd", 0, "compressed by zstd", "zstd -d {image} -o {raw}", "zstd",
         (".zst", ".zstd")),
    Form(b"BZh", 0, "compressed by bzip2", "bzip2 -dc {image} > {raw}", "bzip2", (".bz2",)),
    Form(b"\x04\x22\x4d\x18", 0, "compressed by lz4", "lz4 -d {image} {raw}", "lz4", (".lz4",)),
    Form(b"EVF\t\r\n\xff\0", 0, "an EnCase image", "ewfexport -u -f raw -t {raw} {image}",
         "ewf-tools", (".E01", ".e01")),
]


class Container(NamedTuple):
    """What a file is, and the commands that open it."""

    name: str
    commands: list[str]

    def advice(self) -> list[str]:
        """What to do first, on lines of its own after the name."""
        return ["Write the image out first:", *(f"    {command}" for command in self.commands)]


def container(image) -> Optional[Container]:
    """The form of this image, or None if it is none of these."""
    first = bytearray(min(FIRST_BYTES, image.size))
    got = image.pread_into(memoryview(first), 0) if first else 0
    for form in FORMS:
        if first[:got][form.offset:].startswith(form.magic):
            return Container(form.name, _commands(form, image.path))
    return None


def refuse(image, is_raw: bool) -> None:
    """Refuses an image in another form, which would be decrypted to noise. With `is_raw` its user
    knows better, and it says only what it is like."""
    found = container(image)
    if found and is_raw:
        say(image.path, f"seems to be {found.name}: then the plaintext is noise, and it has to be "
            "written out first")
    elif found:
        first, *commands = found.advice()
        raise Refusal(IMAGE, image.path, "\n".join([
            f"is {found.name} (if not, --offset says where the volume begins). {first}",
            *commands]))


def _commands(form: Form, path: str) -> list[str]:
    """How to write the image out, and what to type then. The new file is in this folder."""
    raw = quoted(free_name(_raw_name(form, os.path.basename(path))))
    program = form.command.partition(" ")[0]
    install = [] if tools.found(program) else [f"apt-get install {form.package}"]
    return [*install, form.command.format(image=quoted(path), raw=raw), f"luksrd-rescue look {raw}"]


def _raw_name(form: Form, name: str) -> str:
    """The name of the image itself: disk.img for disk.img.xz and for disk.qcow2."""
    ending = next((each for each in form.endings if name.endswith(each)), "")
    stem = name.removesuffix(ending)
    return stem if ending and "." in stem else f"{stem}.img"
