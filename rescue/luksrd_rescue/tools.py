"""The programs and the module that luksrd-rescue calls: where they are, and how they are run."""

import os
import pathlib
import shutil
import subprocess
import sys
from typing import NamedTuple, Optional

from .command import Refusal

# The package of Debian that has each program
PACKAGES = {"partx": "util-linux", "blkid": "util-linux", "nbdkit": "nbdkit",
            "nbdfuse": "libnbd-bin", "fusermount3": "fuse3", "luksrd-audit": "luksrd-audit"}
# A user's own path often lacks the folders in which Debian has partx and blkid
SYSTEM_FOLDERS = ("/usr/sbin", "/sbin", "/usr/local/sbin")

HERE = pathlib.Path(__file__).resolve().parent
# The sources, if the package lies in them as rescue/luksrd_rescue
TREE = HERE.parents[1] if (HERE.parents[1] / "crates.txt").exists() else None
# PREFIX, if the package is installed as PREFIX/lib/python3/dist-packages/luksrd_rescue
PREFIX = HERE.parents[3] if (HERE.parents[0].name, HERE.parents[2].name) == (
    "dist-packages", "lib") else None


class Ran(NamedTuple):
    """How a program ended: its status, its output, and its messages."""

    status: int
    output: bytes
    message: str


def search_path() -> str:
    """The folders in which programs are looked for."""
    return os.pathsep.join([os.environ.get("PATH", os.defpath), *SYSTEM_FOLDERS])


def found(program: str) -> Optional[str]:
    """The path of a program, or None if it is not installed."""
    return shutil.which(program, path=search_path())


def typed(program: str) -> str:
    """A program as its user types it: by its path, if it is in a folder of the system alone."""
    return program if shutil.which(program) else found(program) or program


def find(program: str) -> str:
    """The path of a program; if it is not installed, the refusal names the package to install."""
    path = found(program)
    if path is None:
        package = PACKAGES.get(program, program)
        raise Refusal(1, program, f"is not installed: run apt-get install {package}")
    return path


def run(*command: str, given: bytes = b"", keep: tuple[int, ...] = ()) -> Ran:
    """Runs a program in English, with these bytes as its input and these descriptors kept open."""
    # (a folder of `keep` or `given` never reaches a shell)
    done = subprocess.run(command, input=given, capture_output=True, check=False, pass_fds=keep,
                          env={**os.environ, "LC_ALL": "C", "PATH": search_path()})
    return Ran(done.returncode, done.stdout, done.stderr.decode(errors="backslashreplace").strip())


def audit_program() -> str:
    """The path of luksrd-audit: what LUKSRD_AUDIT names, what is built in the sources, what is
    installed beside this package, or what is on the path."""
    places = [os.environ.get("LUKSRD_AUDIT")]
    if TREE:
        places.append(str(TREE / "crates/luksrd_audit/out/luksrd_audit"))
    if PREFIX:
        places.append(str(PREFIX / "bin/luksrd-audit"))
    for place in places:
        if place and os.access(place, os.X_OK):
            return place
    return find("luksrd-audit")


def prepare_library() -> None:
    """Lets `import luksrd` find the module in the sources, and the module its library there."""
    if TREE is None:
        return
    if str(TREE / "python") not in sys.path:
        sys.path.insert(0, str(TREE / "python"))
    built = TREE / "out/libluksrd.so"
    if built.exists():
        os.environ.setdefault("LUKSRD_LIBRARY", str(built))


def nbdkit_filter() -> Optional[str]:
    """nbdkit's filter `luksrd`: the file that LUKSRD_FILTER names, that is built in the sources, or
    installed below PREFIX; or its name if it is in nbdkit's own folder; None if it is in none of
    them."""
    if os.environ.get("LUKSRD_FILTER"):
        return os.environ["LUKSRD_FILTER"]
    name = "nbdkit-luksrd-filter.so"
    for place in (TREE and TREE / "out" / name, PREFIX and PREFIX / "lib/nbdkit/filters" / name):
        if place and place.exists():
            return str(place)
    config = run(find("nbdkit"), "--dump-config").output.decode(errors="replace")
    folders = [line.partition("=")[2] for line in config.splitlines()
               if line.startswith("filterdir=")]
    return "luksrd" if any(os.path.exists(f"{folder}/{name}") for folder in folders) else None
