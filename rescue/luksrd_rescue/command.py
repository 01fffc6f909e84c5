"""The command line of luksrd-rescue: its subcommands, numbers, messages and statuses."""

from __future__ import annotations

import argparse
import contextlib
import importlib
import os
import re
import select
import signal
import sys
import traceback
from typing import IO, Callable, Iterator, NoReturn, Optional, Sequence

from . import __version__

# The statuses of luksrd, and that of a program that Ctrl-C ended
USAGE, NO_KEY, MEMORY, IMAGE, FAILED, INTERRUPTED = 1, 2, 3, 4, 6, 130

PROGRAM = "luksrd-rescue"
EXAMPLES = """\
examples:
  luksrd-rescue look laptop.img                    what is there, and what to type next
  luksrd-rescue decrypt laptop.img -o plain.img    the plaintext of the only volume in it
  luksrd-rescue COMMAND --help                     more examples

statuses:
  0 done; 1 refused, or wrong arguments; 2 no key opens the volume; 3 out of memory;
  4 the image is not as it has to be; 6 a read or a write failed; 130 interrupted
"""

# ddrescue's suffixes; `s` is a sector of 512 bytes
_NUMBER = re.compile(
    r"(0[xX][0-9a-fA-F]+|0[0-7]*|[1-9][0-9]*)(?:([kMGTPEZY]|[KMGTPEZY]i)B?|([sB]))?")


class Refusal(Exception):
    """Why the command ends, and its status. `what` names a file or an option, or is empty."""

    def __init__(self, status: int, what: object, why: str) -> None:
        super().__init__(status, what, why)
        self.status, self.what, self.why = status, what, why


def shown(name: object) -> str:
    """A name as messages have it: what a terminal would obey is escaped."""
    text = os.fsdecode(name) if isinstance(name, (bytes, os.PathLike)) else str(name)
    return "".join(letter if letter.isprintable() else _escaped(letter) for letter in text)


def _escaped(letter: str) -> str:
    return "".join(f"\\x{byte:02x}" for byte in letter.encode("utf-8", "surrogateescape"))


def write_all(descriptor: int, view: memoryview) -> None:
    """Writes all of it, past the buffers of Python, which tries to write at its end what they still
    have, and then has a status and words of its own."""
    while view:
        try:
            view = view[os.write(descriptor, view):]
        except BlockingIOError:
            # (whoever made the pipe wants writes that do not wait)
            select.select([], [descriptor], [])


def _print(descriptor: int, text: str) -> None:
    write_all(descriptor, memoryview(text.encode(sys.getfilesystemencoding(), "backslashreplace")))


def say(what: object, why: str) -> None:
    """Prints a message on standard error; one that cannot be printed changes nothing."""
    parts = [PROGRAM, shown(what), why] if what != "" else [PROGRAM, why]
    with contextlib.suppress(OSError):
        _print(2, ": ".join(parts) + "\n")


def tell(*lines: str, besides: str = "") -> None:
    """Prints lines on standard output. If they cannot be written, as when the reader of a pipe has
    ended, the refusal also says what `besides` does."""
    try:
        _print(1, "".join(f"{line}\n" for line in lines))
    except OSError as error:
        why = f"write failed: {error.strerror}"
        raise Refusal(FAILED, "standard output", f"{why}; {besides}" if besides else why) from error


def number(word: str) -> int:
    """A number of bytes: decimal, hexadecimal or octal, with one of ddrescue's suffixes (k is 1000,
    Ki 1024, and so on) or `s`, 512."""
    found = _NUMBER.fullmatch(word)
    if not found:
        raise argparse.ArgumentTypeError(
            f"{word!r} is no number of bytes, such as 1048576, 0x100000, 2048s, 1Mi or 500G")
    digits, suffix, unit = found.groups()
    base = 16 if digits[:2] in ("0x", "0X") else 8 if digits[0] == "0" else 10
    value = int(digits, base) * (512 if unit == "s" else 1)
    if suffix:
        factor = 1024 if suffix.endswith("i") else 1000
        value *= factor ** ("kMGTPEZY".index(suffix[0].replace("K", "k")) + 1)
    if value >= 1 << 63:
        raise argparse.ArgumentTypeError(f"{word!r} is 2^63 or more")
    return value


def sized(count: int) -> str:
    """A number of bytes for people."""
    if count < 1024:
        return "1 byte" if count == 1 else f"{count} bytes"
    value, unit = float(count), 0
    while value >= 1023.95 and unit < 6:
        value, unit = value / 1024, unit + 1
    return f"{value:.1f} {' KMGTPE'[unit]}iB".replace(".0 ", " ")


class _Parser(argparse.ArgumentParser):
    """A parser whose complaints are messages of luksrd-rescue, with its status for usage."""

    def __init__(self, *arguments: object, **how: object) -> None:
        how.setdefault("allow_abbrev", False)
        how.setdefault("formatter_class", argparse.RawDescriptionHelpFormatter)
        super().__init__(*arguments, **how)  # type: ignore[arg-type]

    def _print_message(self, message: str, file: Optional[IO[str]] = None) -> None:
        """Prints help or the version, which is all that this is called for."""
        tell(message.rstrip("\n"))

    def error(self, message: str) -> NoReturn:
        with contextlib.suppress(OSError):
            _print(2, self.format_usage())
        say("", f"{shown(message)}; {self.prog} --help explains")
        self.exit(USAGE)


def subcommand(subparsers: argparse._SubParsersAction, name: str,
               run: Callable[[argparse.Namespace], int], examples: str, summary: str,
               description: str) -> argparse.ArgumentParser:
    """Adds a command for an image to those of luksrd-rescue."""
    parser = subparsers.add_parser(name, help=summary, epilog=examples, description=description)
    parser.add_argument("image", metavar="IMAGE",
                        help="a file or a device: a whole disk or a volume")
    parser.add_argument("--image-map", metavar="MAP",
                        help="ddrescue's map of IMAGE: what it has not finished is lost")
    parser.set_defaults(run=run)
    return parser


# The subcommands, and the modules that have them
_COMMANDS = {"look": "look", "decrypt": "decrypt", "try": "trying", "serve": "serve"}


def _parser(words: Sequence[str]) -> argparse.ArgumentParser:
    parser = _Parser(
        prog=PROGRAM, epilog=EXAMPLES,
        description="Find LUKS volumes in images of disks, and bring their plaintext to safety.")
    parser.add_argument("--version", action="version", version=f"{PROGRAM} {__version__}")
    subparsers = parser.add_subparsers(metavar="COMMAND", required=True)
    # (the others would only have to be loaded)
    named = _COMMANDS.get(words[0]) if words else None
    for module in [named] if named else _COMMANDS.values():
        importlib.import_module(f"{__package__}.{module}").register(subparsers)
    return parser


def _prepare_streams() -> None:
    """Descriptors 0 to 2 are open, so that no file gets their number."""
    for descriptor in range(3):
        try:
            os.fstat(descriptor)
        except OSError:
            # (for reading alone, so that what is written there fails)
            os.open(os.devnull, os.O_RDONLY)


def _run(words: Sequence[str]) -> int:
    arguments = _parser(words).parse_args(words)
    return arguments.run(arguments)


@contextlib.contextmanager
def _interruptible() -> Iterator[None]:
    """Ctrl-C raises KeyboardInterrupt in the block, and ends the program at once after it. (Before
    it, too, if the launcher has said so.)"""
    is_ignored = signal.getsignal(signal.SIGINT) == signal.SIG_IGN
    try:
        if not is_ignored:
            signal.signal(signal.SIGINT, signal.default_int_handler)
        yield
    finally:
        if not is_ignored:
            signal.signal(signal.SIGINT, signal.SIG_DFL)


def _unexpected(error: BaseException) -> int:
    """A fault of this program: no traceback, but the line where it was found."""
    place = traceback.extract_tb(error.__traceback__)[-1]
    say("", f"this is a bug: {type(error).__name__} at {os.path.basename(place.filename)}:"
        f"{place.lineno}: {shown(error)}")
    return FAILED


def _status_of(error: Exception) -> int:
    """Prints what ended the command, and gives its status."""
    if isinstance(error, Refusal):
        say(error.what, error.why)
        return error.status
    if isinstance(error, MemoryError):
        say("", "out of memory")
        return MEMORY
    if isinstance(error, OSError):
        say(error.filename or "", error.strerror or str(error))
        return FAILED
    # (luksrd's own error, which says luksCat's message)
    if hasattr(error, "status") and hasattr(error, "message"):
        say("", error.message.removeprefix("luksrd: "))
        return error.status
    return _unexpected(error)


def main(words: Optional[Sequence[str]] = None) -> int:
    """Runs the command, and returns its status."""
    _prepare_streams()
    try:
        with _interruptible():
            return _run(sys.argv[1:] if words is None else words)
    except KeyboardInterrupt:
        say("", "interrupted")
        return INTERRUPTED
    except SystemExit as ended:  # argparse's own
        return ended.code if isinstance(ended.code, int) else 0
    except Exception as error:  # pylint: disable=broad-exception-caught
        return _status_of(error)
