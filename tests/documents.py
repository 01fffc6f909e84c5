"""The commands of documents and man pages as they are written there: how these are found, and how
they run, in bash or in zsh, in a folder with images."""

import functools
import http.server
import os
import pathlib
import re
import subprocess
import threading
import typing

from support import TOP, must, run, shown
from volumes import PASS

# lines that no recipe here runs: what needs a disk, and what a folder of the system is for
LEFT_OUT = re.compile(r"^mount |/dev/sd|^luksrd-audit ")
SHELLS = {"bash": ["bash"], "zsh": ["zsh", "-o", "interactive_comments"]}


def document(name):
    return (TOP if name == "README.md" else TOP / "docs") / name


def recipe(name, text):
    """The commands of a document that follow this text: after a comment among commands, up to the
    next comment; after any other text, the commands that come next."""
    lines = iter(document(name).read_text().splitlines())
    found = next((line for line in lines if text in line), "")
    ends_at_comment = found.startswith("    # ")
    commands = []
    for line in lines:
        if line.startswith("    ") and not (ends_at_comment and line.startswith("    # ")):
            commands.append(line[4:])
        elif commands:
            break
    return commands


def example(page, text):
    """The example in a man page that follows this text."""
    lines = iter(document(page).read_text().splitlines())
    next(line for line in lines if text in line and not line.startswith("."))
    commands, inside = [], False
    for line in lines:
        if line.startswith(".Ed"):
            break
        if inside:
            commands.append(line)
        elif line.startswith(".Dl "):
            commands.append(line[4:])
            break
        inside = inside or line.startswith(".Bd")
    return [line.replace(r"\(dq", '"').replace(r"\e", "\\") for line in commands]


def commands_in(place):
    """The commands of a place such as RECIPES.md:Try the passphrase."""
    name, _, text = place.partition(":")
    commands = (example if name.endswith(".1") else recipe)(name, text)
    assert commands, f"no commands after: {place}"
    return commands


def first_lines(place):
    """The lines that come before such a recipe."""
    if place.partition(":")[0].endswith(".1"):
        return ["mkdir -m 700 rescue && cd rescue && ln -s ../disk.img .",
                *example("luksrd.1", "Keep new files private"),
                *example("luksrd.1", "Type a passphrase into a key file")]
    return recipe("RECIPES.md", "Begin with these lines")


def not_run(name, places, but):
    """The lines of commands in a document that are in none of these recipes, but for comments and
    those that match this."""
    ran = {line for place in places for line in commands_in(place)}
    ran |= set(recipe("RECIPES.md", "Begin with these lines"))
    lines = re.findall(r"^    (.*)", document(name).read_text(), re.MULTILINE)
    return [line for line in lines
            if line not in ran and not line.startswith("# ") and not re.match(but, line)]


class Cooked(typing.NamedTuple):
    """What recipes left in their folder, and what they printed."""

    folder: pathlib.Path
    said: str

    def gives(self, name, content):
        """They left this file, which begins with these bytes: a volume that cryptsetup encrypts has
        more than those."""
        if name.endswith(".qcow2"):
            must("qemu-img", "convert", "-O", "raw", name, f"{name}.raw", cwd=self.folder)
            name += ".raw"
        with open(self.folder / name, "rb") as file:
            assert shown(file.read(len(content))) == shown(content), name


class Cook:
    """Runs recipes in a folder with images, in one of the shells."""

    def __init__(self, shell, folder, environment):
        self.shell, self.folder, self.environment = shell, folder, environment
        self.images = folder / "given"
        self.images.mkdir()

    def __call__(self, places, links=(), typed=(PASS, PASS)):
        """Runs these with links to files that they need. No image changes. Others can read no file
        but those that come out of a file system with its modes, in the folder files."""
        before = {path.name: path.read_bytes() for path in self.images.iterdir()}
        lines = [*first_lines(places[0]), *(f"ln -s '../{name}' ." for name in links)]
        for place in places:
            lines += [line for line in commands_in(place) if not LEFT_OUT.search(line)]
        script, said = self.folder / "script", self.folder / "said"
        script.write_text("\n".join(lines) + "\n")
        with open(said, "wb") as file:
            run(*SHELLS[self.shell], script, stdin=b"".join(line + b"\n" for line in typed),
                stdout=file, stderr=subprocess.STDOUT, cwd=self.images, env=self.environment)
        rescue = (self.images / "rescue").rename(self.folder / "rescue")
        others = [path for path in [rescue, *rescue.rglob("*")]
                  if (path.is_file() or path == rescue) and not path.is_symlink()
                  and path.name != "plain.pid" and rescue / "files" not in path.parents
                  and path.stat().st_mode & 0o77]
        assert not others
        assert {path.name: path.read_bytes() for path in self.images.iterdir()} == before
        return Cooked(rescue, said.read_text(errors="replace"))


WRAPPER = """#!/usr/bin/env bash
for argument; do
    [ "$argument" != luksrd ] || argument={plugin}
    [ "$argument" != --filter=luksrd ] || argument=--filter={filter}
    arguments+=("$argument")
done
exec /usr/bin/nbdkit "${{arguments[@]}}"
"""
# qemu-img times its own key derivation by the processor's clock, and gives up if that clock has not
# advanced. Then it has removed its output, which is made again, and qemu-img tried again.
QEMU_IMG = """#!/usr/bin/env bash
umask 077
for _ in {1..50}; do
    errors=$(/usr/bin/qemu-img "$@" 2>&1 >&3) && exit
    case $errors in *'CPU usage'*) : >"${@: -1}" ;; *) break ;; esac
done 3>&1
echo "$errors" >&2
exit 1
"""


def programs(folder, luksrd, plugin, filter_):
    """The folder of programs as recipes call them: nbdkit loads the plugin and the filter from
    where they are built."""
    folder.mkdir()
    (folder / "luksrd").symlink_to(luksrd)
    (folder / "python3").symlink_to("/usr/bin/python3")
    for name, text in {"nbdkit": WRAPPER.format(plugin=plugin, filter=filter_),
                       "qemu-img": QEMU_IMG}.items():
        (folder / name).write_text(text)
        (folder / name).chmod(0o755)
    return folder


class Ranges(http.server.SimpleHTTPRequestHandler):
    """Serves the files in a folder, whole and in ranges."""

    protocol_version = "HTTP/1.1"

    def do_HEAD(self):
        self.do_GET(has_body=False)

    def do_GET(self, has_body=True):
        content = pathlib.Path(self.translate_path(self.path)).read_bytes()
        wanted = re.fullmatch(r"bytes=(\d+)-(\d+)", self.headers.get("Range", ""))
        first, last = (int(wanted[1]), int(wanted[2])) if wanted else (0, len(content))
        part = content[first:last + 1]
        self.send_response(206 if wanted else 200)
        if wanted:
            ends = f"{first}-{first + len(part) - 1}"
            self.send_header("Content-Range", f"bytes {ends}/{len(content)}")
        self.send_header("Accept-Ranges", "bytes")
        self.send_header("Content-Length", str(len(part)))
        self.end_headers()
        if has_body:
            self.wfile.write(part)

    def log_message(self, *_):
        pass


def web_server(folder):
    """Serves the files of a folder on the loopback, until it is shut down."""
    handler = functools.partial(Ranges, directory=os.fspath(folder))
    server = http.server.ThreadingHTTPServer(("127.0.0.1", 0), handler)
    threading.Thread(target=server.serve_forever, daemon=True).start()
    return server
