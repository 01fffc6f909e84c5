"""The programs that are measured, the volumes that they read, and the cost of a run: its time by hyperfine, its
instructions by callgrind, its memory by GNU time."""

import json
import os
import pathlib
import re
import shlex
import subprocess
import sys
from typing import NamedTuple

from results import TOP

MIB = 1 << 20
AUDIT = TOP / "crates" / "luksrd_audit" / "out" / "luksrd_audit"


class Build(NamedTuple):
    """What is built for a processor, and the name of its columns."""
    name: str
    luksrd: pathlib.Path
    tools: pathlib.Path
    library: pathlib.Path


OUT = TOP / "out"
V2 = Build("luksrd", TOP / "crates/luksrd/out/luksrd", TOP / "crates/luksrd_tools/out/luksrd_tools",
           OUT / "libluksrd.so.2")
V3 = Build("luksrd, v3", OUT / "x86-64-v3/luksrd", OUT / "x86-64-v3/luksrd_tools",
           OUT / "glibc-hwcaps/x86-64-v3/libluksrd.so.2")


def builds():
    """The builds that are here and run here: that for x86-64-v2, and that for x86-64-v3."""
    missing = [str(file.relative_to(TOP)) for file in V2[1:] if not file.exists()]
    if missing:
        sys.exit(f"not built: {', '.join(missing)}")
    there = all(file.exists() for file in V3[1:])
    return [V2, V3] if there and subprocess.run([V3.luksrd], capture_output=True).returncode == 1 else [V2]


def completed(command, status=0, **options):
    """Runs a command to its end, which has to be this status."""
    done = subprocess.run([str(word) for word in command], **options)
    if done.returncode != status:
        sys.exit(f"{shlex.join(str(word) for word in command)} ended with {done.returncode}")
    return done


def seconds(folder, command, status=0, by_clock=False):
    """The processor time of a command and what it starts, or its time by the clock."""
    report = folder / "report.json"
    line = shlex.join(str(word) for word in command)
    completed(["hyperfine", "-N", "--runs", "1", "--style", "none", "--ignore-failure", "--export-json", report, line],
              stderr=subprocess.DEVNULL)
    (ran,) = json.loads(report.read_text())["results"]
    if ran["exit_codes"] != [status]:
        sys.exit(f"{line} ended with {ran['exit_codes'][0]}")
    return ran["times"][0] if by_clock else ran["user"] + ran["system"]


def instructions(folder, command, piped=None, within=None):
    """The number of instructions of a command, without those of programs that it starts. Its standard input is a pipe
    with the bytes of a file, if that is given. `within` is a pattern of the functions that alone are counted, with what
    they call."""
    for log in folder.glob("counted.*"):
        log.unlink()
    counter = ["valgrind", "--tool=callgrind", "--callgrind-out-file=/dev/null", f"--log-file={folder / 'counted.%p'}"]
    if within:
        counter.append(f"--toggle-collect={within}")
    source = subprocess.Popen(["cat", piped], stdout=subprocess.PIPE) if piped else None
    completed([*counter, *command], stdin=source.stdout if source else subprocess.DEVNULL, stdout=subprocess.DEVNULL,
              stderr=subprocess.DEVNULL)
    if source:
        source.stdout.close()
        source.wait()
    counts = [re.search(r"Collected : (\d+)", log.read_text()) for log in folder.glob("counted.*")]
    total = sum(int(count[1]) for count in counts if count)
    if not total:
        sys.exit(f"{command}: no instructions were counted{f' in functions like {within}' if within else ''}")
    return total


def peak(folder, command):
    """The greatest resident set of a command and what it starts, in MB of 10^6 bytes."""
    usage, out = folder / "usage", folder / "printed"
    with open(out, "wb") as file:
        completed(["/usr/bin/time", "-f", "%M", "-o", usage, *command], stdout=file)
    return int(usage.read_text()) * 1024 / 1e6


def formatted(folder, name, options, size=16 * MIB):
    """A file that cryptsetup formats with these options; the passphrase is in the file pass."""
    image = folder / name
    with open(image, "wb") as file:
        file.truncate(size)
    cryptsetup(folder, "luksFormat", *options, image)
    return image


def cryptsetup(folder, command, *arguments):
    completed(["cryptsetup", "-q", command, "--key-file", folder / "pass", *arguments], stdout=subprocess.DEVNULL)


def start_of(image):
    """The offset of the payload's first byte of LUKS1, as cryptsetup reports it."""
    header = completed(["cryptsetup", "luksDump", image], capture_output=True, text=True).stdout
    return next(int(line.split()[2]) for line in header.splitlines() if line.startswith("Payload offset:")) * 512


def volume(folder, payload):
    """A volume of LUKS1, AES-256-XTS, whose payload has this many bytes, none of them in a hole of the file."""
    image = folder / f"volume-{payload}"
    if not image.exists():
        formatted(folder, image.name, ["--type", "luks1", "--hash", "sha256", "--key-size", "512", "--cipher",
                                       "aes-xts-plain64", "--pbkdf-force-iterations", "1000", "--align-payload", "1"])
        start = start_of(image)
        os.truncate(image, start)
        with open(image, "r+b") as file:
            file.seek(start)
            for _ in range(0, payload, MIB):
                file.write(os.urandom(min(payload, MIB)))
            file.flush()
            os.fsync(file.fileno())
    return image
