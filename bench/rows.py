"""What is measured. TABLES has the tables of docs/SPEED.md, each with a function that yields its rows: the name of a
row, and what each column runs. One more row, or column, is one more entry in such a function."""

import atexit
import hashlib
import os
import pathlib
import shutil
import sys
from typing import Callable, NamedTuple

from programs import AUDIT, MIB, OUT, TOP, V2, completed, cryptsetup, formatted, volume

ITERATIONS = 500_000
CIPHERED = 64 * MIB
LARGE = 256 * MIB
SECTOR = 512
# Make OpenSSL ignore the processor's instructions for SHA, and for AES; luksrd uses neither.
NO_SHA = ["env", "OPENSSL_ia32cap=:~0x20000000"]
NO_AES = ["env", "OPENSSL_ia32cap=~0x200000200000000"]
HASHES = ("SHA-1", "SHA-224", "SHA-256", "SHA-384", "SHA-512")


class Time(NamedTuple):
    """A command that is timed. The time of `less` is subtracted, for what both do."""
    command: list
    less: list | None = None
    status: int = 0


class OpensslSpeed(NamedTuple):
    """`openssl speed`, which runs for a second, with these arguments; its time is that for CIPHERED bytes."""
    command: list


class Count(NamedTuple):
    """Instructions: those of a long run less those of a short one, divided by what the long one does more; or those of
    the functions like `within` in one run, divided by how often they do it. The files in `piped` are standard input."""
    commands: tuple
    done: tuple
    piped: tuple = (None, None)
    within: str | None = None


class Peak(NamedTuple):
    """A command whose memory is measured."""
    command: list


class Bench(NamedTuple):
    """The folder with volumes and keys, and the builds."""
    folder: object
    builds: list

    @property
    def passphrase(self):
        return self.folder / "pass"


def keys(at):
    """Nanoseconds of an iteration for a whole key."""
    for name in HASHES[::2]:
        digest, short = name.replace("-", ""), name.replace("-", "").lower()
        for length in (16, 32, 64):
            arguments = [short, ITERATIONS, length]
            by_openssl = ["openssl", "kdf", "-keylen", length, "-kdfopt", f"digest:{digest}", "-kdfopt",
                          "pass:passphrase", "-kdfopt", "salt:0123456789abcdef", "-kdfopt", f"iter:{ITERATIONS}",
                          "PBKDF2"]
            yield f"{name}, {length} bytes", {
                **{it.name: Time([it.tools, "derive", *arguments]) for it in at.builds},
                "OpenSSL": Time(by_openssl),
                "OpenSSL without SHA instructions": Time([*NO_SHA, *by_openssl]),
            }


def iterations(at):
    """Instructions of an iteration for a whole key."""
    for name in HASHES:
        for length in (16, 32, 64):
            yield f"{name}, {length} bytes", {
                it.name: twice(lambda count: [it.tools, "derive", name.replace("-", "").lower(), count, length])
                for it in at.builds}


def opening(at):
    """Seconds of opening a volume by its passphrase."""
    of_luks1 = ["--type", "luks1", "--key-size", "512", "--pbkdf-force-iterations", str(ITERATIONS), "--hash"]
    for name, options in {"SHA-256": [*of_luks1, "sha256"], "SHA-1": [*of_luks1, "sha1"]}.items():
        image = formatted(at.folder, f"opening-{name}", options)
        by_cryptsetup = ["cryptsetup", "open", "--test-passphrase", "--key-file", at.passphrase, image]
        yield name, {
            **{it.name: Time([it.luksrd, "testPassphrase", "--key-file", at.passphrase, image]) for it in at.builds},
            "cryptsetup": Time(by_cryptsetup),
            "cryptsetup without SHA instructions": Time([*NO_SHA, *by_cryptsetup]),
        }


def argon2(at):
    """Seconds of deriving a key of 32 bytes by Argon2id, 4 passes in 1 lane."""
    for row, kib in {"64 MiB": 64 << 10, "1 GiB": 1 << 20}.items():
        by_argon2 = f"printf passphrase | argon2 0123456789abcdef -id -t 4 -k {kib} -p 1 -l 32 -r"
        yield row, {
            **{it.name: Time([it.tools, "argon2", "argon2id", 4, kib, 1]) for it in at.builds},
            "argon2": Time(["sh", "-c", by_argon2]),
        }


def unlocking(at):
    """Seconds, by the clock, of opening a volume whose key slot needs Argon2id: 4 passes over 1 GiB in 4 lanes. luksrd
    fills them one after the other, cryptsetup at once."""
    image = formatted(at.folder, "argon2", ["--type", "luks2", "--pbkdf", "argon2id", "--pbkdf-force-iterations", "4",
                                            "--pbkdf-memory", str(1 << 20), "--pbkdf-parallel", "4"], 32 * MIB)
    by_python = [sys.executable, "-c", "import luksrd, sys; luksrd.open(sys.argv[1], key_file=sys.argv[2])"]
    yield "1 GiB", {
        **{it.name: Time(["env", f"PYTHONPATH={TOP / 'python'}", f"LUKSRD_LIBRARY={it.library}", *by_python, image,
                          at.passphrase]) for it in at.builds},
        "cryptsetup": Time(["cryptsetup", "open", "--test-passphrase", "--key-file", at.passphrase, image]),
    }


def cipher(at):
    """MB/s of decryption. A data unit of 496 bytes is less than a batch of 32 blocks."""
    by_c = compiled(at.folder, "xts")
    for size in (512, 4096, 496):
        arguments = [size, CIPHERED // size]
        by_openssl = ["openssl", "speed", "-evp", "aes-256-xts", "-decrypt", "-seconds", "1", "-bytes", size]
        yield f"{size:,} bytes", {
            **{it.name: Time([it.tools, "crypt", "xts-plain64", "decrypt", *arguments]) for it in at.builds},
            "C, gcc -O2, four tables": Time([by_c, *arguments]),
            "OpenSSL without AES instructions": OpensslSpeed([*NO_AES, *by_openssl]),
            "OpenSSL": OpensslSpeed(by_openssl),
        }


def cipher_instructions(at):
    """Instructions of a data unit, by the cipher alone. Key areas are decrypted two sectors at a time."""
    for name, mode, key_bits in (("XTS", "xts-plain64", 512), ("CBC", "cbc-plain64", 256)):
        for size in (512, 4096, 496) if name == "XTS" else (512, 4096):
            yield f"AES-256-{name}, {size:,} bytes", {
                it.name: twice(lambda count: [it.tools, "crypt", mode, "decrypt", size, count]) for it in at.builds}
        image = formatted(at.folder, f"area-{name}", ["--type", "luks1", "--cipher", f"aes-{mode}", "--key-size",
                                                      str(key_bits), "--pbkdf-force-iterations", "1000"])
        sectors = 4000 * key_bits // 8 // SECTOR
        yield f"AES-256-{name}, each of two of 512 bytes", {
            it.name: Count(([it.luksrd, "testPassphrase", "--key-file", at.passphrase, image],), (sectors,),
                           within="*::decrypt_sectors") for it in at.builds}
    yield "the S-box of 512 bytes", {
        it.name: twice(lambda count: [it.tools, "crypt", "xts-plain64", "decrypt", 512, count],
                       within="*::inv_sub_bytes::*") for it in at.builds}


def by_qemu(at, image, out=None):
    return ["qemu-img", "convert", "-O", "raw", "--object", f"secret,id=s,file={at.passphrase}", "--image-opts",
            f"driver=luks,key-secret=s,file.driver=file,file.filename={image}", out or at.folder / "out"]


def served(arguments, copy):
    return ["nbdkit", "-U", "-", *arguments, "--run", f'nbdcopy {copy} "$uri" null:']


def by_filter(at, image):
    return ["--filter=luks", "file", image, f"passphrase=+{at.passphrase}"]


def modules(at, build):
    """A folder with the plugin, the filter, and the library of this build, which they are to load."""
    folder = at.folder / build.name.replace(", ", "-")
    if not folder.exists():
        folder.mkdir()
        shutil.copy(build.library, folder / "libluksrd.so.2")
        for module in ("plugin", "filter"):
            shutil.copy(OUT / f"nbdkit-luksrd-{module}.so", folder)
    return folder


def by_plugin(at, build, image):
    """The plugin, and its arguments."""
    return [modules(at, build) / "nbdkit-luksrd-plugin.so", image, f"key-file={at.passphrase}"]


def by_our_filter(at, build, image):
    """The filter over nbdkit's file plugin, and their arguments."""
    return [f"--filter={modules(at, build) / 'nbdkit-luksrd-filter.so'}", "file", image, f"key-file={at.passphrase}"]


def readers(at, image, out=None):
    """Each way of reading a whole volume into this file, or `out`."""
    out = out or at.folder / "out"
    into_file = ["sh", "-c", 'exec "$0" luksCat --key-file "$1" "$2" >"$3"']
    # GRUB asks for the passphrase, and has no terminal here; it names a range of a device in sectors
    in_grub = 'printf "%s\\n" "$(cat "$3")" | setsid -w grub-fstest -C "$0" cp "(crypto0)0+$1" "$2"'
    return {
        **{it.name: [*into_file, it.luksrd, at.passphrase, image, out] for it in at.builds},
        "qemu-img": by_qemu(at, image, out),
        "nbdkit": ["nbdkit", "-U", "-", *by_filter(at, image), "--run", f'nbdcopy "$uri" {out}'],
        "GRUB": ["sh", "-c", in_grub, image, LARGE // SECTOR, out, at.passphrase],
    }


def volumes(at):
    """Seconds of reading a volume."""
    image = volume(at.folder, LARGE)
    yield "a file, into a file", {name: Time(command) for name, command in readers(at, image).items()}
    yield "a file, into nothing", {
        it.name: Time([it.luksrd, "luksCat", "--key-file", at.passphrase, image]) for it in at.builds}


def sectors(at):
    """Instructions of a sector of a volume, with all that is done to read and write it."""
    images = [volume(at.folder, size) for size in (MIB, 3 * MIB)]
    counts = [MIB // SECTOR, 3 * MIB // SECTOR]
    yield "luksCat, a file", {
        **{it.name: Count([[it.luksrd, "luksCat", "--key-file", at.passphrase, image] for image in images], counts)
           for it in at.builds},
        "qemu-img": Count([by_qemu(at, image) for image in images], counts),
    }
    yield "luksCat, a pipe", {
        it.name: Count([[it.luksrd, "luksCat", "--key-file", at.passphrase, "-"]] * 2, counts, images)
        for it in at.builds}
    yield "the plugin, one connection", {
        it.name: Count([served(by_plugin(at, it, image), "--connections=1") for image in images], counts)
        for it in at.builds}


def serving(at):
    """MB/s, by the clock, of a whole volume by nbdkit and nbdcopy."""
    image, small = volume(at.folder, LARGE), volume(at.folder, SECTOR)
    for row, copy in {"1 connection": "--connections=1", "4 connections": "--connections=4"}.items():
        served_by = {f"{it.name}'s plugin".replace("luksrd, v3's plugin", "luksrd's plugin, v3"):
                     lambda of, it=it: by_plugin(at, it, of) for it in at.builds}
        served_by["luksrd's filter"] = lambda of: by_our_filter(at, V2, of)
        served_by["nbdkit's luks filter"] = lambda of: by_filter(at, of)
        yield row, {name: Time(served(arguments(image), copy), served(arguments(small), copy))
                    for name, arguments in served_by.items()}


def rescuing(at):
    """MB/s, by the clock, of a whole volume into memory by luksrd-rescue on this many cores, and by others, which use one.
    Starting is part of it, from compiled modules, as packages have them. (On a disk luksrd-rescue waits until what it
    wrote is there, and the others do not.)"""
    image, out = volume(at.folder, LARGE), pathlib.Path("/dev/shm") / at.folder.name
    atexit.register(out.unlink, missing_ok=True)
    over = ["env", "-u", "PYTHONDONTWRITEBYTECODE", f"PYTHONPYCACHEPREFIX={at.folder / 'compiled'}",
            f"LUKSRD_LIBRARY={V2.library}", f"LUKSRD_AUDIT={AUDIT}"]
    others = {"luksCat": V2.name, "qemu-img": "qemu-img"}
    for cores in range(1, os.cpu_count() + 1):
        pinned = ["taskset", "-c", f"0-{cores - 1}", "/usr/bin/python3", TOP / "rescue" / "luksrd-rescue"]
        options = ["--key-file", at.passphrase, "--quiet", "--force", "-o", out]
        yield f"{cores} {'core' if cores == 1 else 'cores'}", {
            "luksrd-rescue": Time([*over, *pinned, "decrypt", image, *options]),
            **({column: Time(readers(at, image, out)[it]) for column, it in others.items()} if cores == 1 else {}),
        }


def auditing(at):
    """Seconds of auditing 5,000 files with headers, half of them LUKS1, half LUKS2."""
    of1 = formatted(at.folder, "audited1", ["--type", "luks1", "--pbkdf-force-iterations", "1000"])
    of2 = formatted(at.folder, "audited2", ["--type", "luks2", "--pbkdf", "pbkdf2", "--pbkdf-force-iterations", "1000"])
    images = at.folder / "audited"
    images.mkdir()
    for number in range(2500):
        for image, length in (of1, 4096), (of2, MIB):
            with open(image, "rb") as file:
                (images / f"{image.name}-{number}").write_bytes(file.read(length))
    yield "5,000 headers", {"luksrd-audit": Time(["sh", "-c", '"$0" "$1"/*', AUDIT, images], status=1)}


def searching(at):
    """Seconds of searching for headers, none of which is there, and of reading alone."""
    image = at.folder / "random"
    with open(image, "wb") as file:
        for _ in range(1024):
            file.write(os.urandom(MIB))
        file.flush()
        os.fsync(file.fileno())
    yield "1 GiB of random bytes", {
        "luksrd-audit --search": Time([AUDIT, "--search", image], status=1),
        "cat": Time(["cat", image]),
    }


def memory(at):
    """MB of memory at most."""
    image = volume(at.folder, LARGE)
    yield "256 MiB of LUKS1, 1 slot", {name: Peak(command) for name, command in readers(at, image).items()}
    for row, slots, options in (("LUKS1, 8 slots", 8, ["--type", "luks1"]),
                                ("LUKS2, 32 slots", 32, ["--type", "luks2", "--pbkdf", "pbkdf2"])):
        full = full_volume(at.folder, row, slots, options)
        yield row, {V2.name: Peak([V2.luksrd, "luksCat", "--key-file", at.folder / "last", full])}
    for name, fill in FILLS.items():
        hostile = at.folder / name
        hostile.write_bytes(filled(fill))
        yield f"LUKS2, 4 MiB of {name}", {V2.name: Peak([V2.luksrd, "luksDump", hostile])}


def full_volume(folder, name, slots, options):
    """A volume with this many key slots in use, and 1 MiB of payload; the last passphrase is in the file last."""
    cheap = ["--pbkdf-force-iterations", "1000", *options[2:]]
    image = formatted(folder, name, [*options[:2], *cheap, "--key-size", "512"])
    for slot in range(1, slots):
        new = folder / ("last" if slot == slots - 1 else "other")
        new.write_bytes(new.name.encode())
        cryptsetup(folder, "luksAddKey", *cheap, image, new)
    os.truncate(image, 17 * MIB)
    return image


DEPTH = 110
FILLS = {
    "integers": b"0",
    "arrays of one integer": b"[0]",
    "objects of one integer": b'{"":0}',
    f"arrays nested {DEPTH} deep": b"[" * DEPTH + b"]" * DEPTH,
    f"objects nested {DEPTH} deep": b'{"":' * DEPTH + b"0" + b"}" * DEPTH,
}


def filled(fill, header_len=4 * MIB, binary_len=4096):
    """A LUKS2 header whose JSON text is filled with this value, over and over."""
    start, end = b'{"keyslots":{},"segments":{},"digests":{},"x":[', b"]}"
    capacity = header_len - binary_len - len(start) - len(end) - 1
    text = start + b",".join([fill] * ((capacity + 1) // (len(fill) + 1))) + end
    binary = bytearray(binary_len)
    binary[0:6], binary[6:8], binary[8:16] = b"LUKS\xba\xbe", (2).to_bytes(2, "big"), header_len.to_bytes(8, "big")
    binary[72:78] = b"sha256"
    area = text + bytes(header_len - binary_len - len(text))
    binary[448:480] = hashlib.sha256(binary + area).digest()
    return bytes(binary) + area


def twice(command, within=None):
    """A Count of a command by how often it does a thing."""
    done = (1000, 3000)
    return Count([command(count) for count in done], done, within=within)


def compiled(folder, name):
    """The yardstick in C."""
    program = folder / name
    completed([os.environ.get("CC", "cc"), "-O2", "-o", program, TOP / "bench" / f"{name}.c"])
    return program


class Table(NamedTuple):
    """A table: its rows; what a number of seconds is shown as; whether time is that of the clock; and how the result of
    a command is read, if all columns have to give the same."""
    rows: Callable
    figure: Callable = float
    by_clock: bool = False
    result: Callable | None = None


def key_printed(folder, command):
    """The key that a program prints last."""
    done = completed(command, capture_output=True, text=True)
    return (done.stdout + done.stderr).split()[-1].replace(":", "").lower()


def sum_of_bytes(folder, command):
    """The hash of what a program writes into the file `out`, or of what it prints."""
    (folder / "out").write_bytes(b"")
    with open(folder / "printed", "wb") as printed:
        completed(command, stdout=printed)
    written = folder / ("out" if (folder / "out").stat().st_size else "printed")
    return hashlib.sha256(written.read_bytes()).hexdigest()


TABLES = {
    "keys": Table(keys, lambda seconds: seconds * 1e9 / ITERATIONS, result=key_printed),
    "iterations": Table(iterations),
    "opening": Table(opening),
    "argon2": Table(argon2, result=key_printed),
    "unlocking": Table(unlocking, by_clock=True),
    "cipher": Table(cipher, lambda seconds: CIPHERED / seconds / 1e6),
    "cipher-instructions": Table(cipher_instructions),
    "volumes": Table(volumes, result=sum_of_bytes),
    "sectors": Table(sectors),
    "serving": Table(serving, lambda seconds: LARGE / seconds / 1e6, by_clock=True),
    "rescuing": Table(rescuing, lambda seconds: LARGE / seconds / 1e6, by_clock=True),
    "auditing": Table(auditing),
    "searching": Table(searching),
    "memory": Table(memory),
}
