"""What the command asks and shows: passphrases, key files and progress."""

from __future__ import annotations

import contextlib
import os
import select
import signal
import sys
import termios
import threading
import time
from types import FrameType
from typing import Callable, Iterator, Optional, TypeVar

from .command import FAILED, IMAGE, USAGE, Refusal, say, sized

Answer = TypeVar("Answer")

# luksrd's longest passphrase
PASSPHRASE_BYTES = 8388608
# The signals that end or stop a program at its terminal
_SIGNALS = [signal.SIGHUP, signal.SIGINT, signal.SIGQUIT, signal.SIGABRT, signal.SIGTERM,
            signal.SIGUSR1, signal.SIGUSR2, signal.SIGALRM, signal.SIGVTALRM, signal.SIGXCPU,
            signal.SIGTSTP, signal.SIGTTIN, signal.SIGTTOU]
_STOPS = {signal.SIGTSTP, signal.SIGTTIN, signal.SIGTTOU}
# How often a line of progress is printed if there is no terminal, in seconds
_SECONDS = 10


class _Signalled(BaseException):
    """A signal came while the terminal did not echo."""


def wipe(secret: Optional[bytearray]) -> None:
    """Overwrites a passphrase or a key."""
    if secret is not None:
        secret[:] = bytes(len(secret))


@contextlib.contextmanager
def _without_echo(descriptor: int, noted: list[int]) -> Iterator[None]:
    """The terminal does not echo until the end of the block, which the first signal breaks off.
    From then on signals are only noted, so that nothing comes before echo is on again. Signals that
    the program was told to ignore are ignored. What was typed before or after is dropped."""
    before, is_asking = termios.tcgetattr(descriptor), [True]
    silent = [*before]
    silent[3] &= ~(termios.ECHO | termios.ECHOE | termios.ECHOK | termios.ECHONL)
    silent[3] |= termios.ICANON

    def note(number: int, _: Optional[FrameType]) -> None:
        is_first = is_asking and not noted
        noted.append(number)
        if is_first:
            raise _Signalled

    handlers = {it: signal.getsignal(it) for it in _SIGNALS}
    try:
        try:
            for it in _SIGNALS:
                if handlers[it] != signal.SIG_IGN:
                    signal.signal(it, note)
            termios.tcsetattr(descriptor, termios.TCSAFLUSH, silent)
            yield
        finally:
            is_asking.clear()
    finally:
        # (a process in the background is refused this, and has changed nothing)
        with contextlib.suppress(termios.error):
            termios.tcsetattr(descriptor, termios.TCSAFLUSH, before)
        for it in _SIGNALS:
            signal.signal(it, handlers[it] or signal.SIG_DFL)


@contextlib.contextmanager
def _woken_by_signals() -> Iterator[int]:
    """A descriptor that can be read as soon as a signal has come. A signal just before a read that
    waits would otherwise be seen after it alone."""
    wakes, noticed = os.pipe2(os.O_NONBLOCK | os.O_CLOEXEC)
    before = signal.set_wakeup_fd(noticed, warn_on_full_buffer=False)
    try:
        yield wakes
    finally:
        signal.set_wakeup_fd(before)
        os.close(wakes)
        os.close(noticed)


def _read_line(descriptor: int, wakes: int, line: bytearray) -> bool:
    """Adds what is typed to the line, without its end; False if the input ends first. The bytes are
    in no other object, so that they can be overwritten."""
    room = bytearray(4096)
    try:
        while True:
            if wakes in select.select([descriptor, wakes], [], [])[0]:
                os.read(wakes, 4096)
                continue
            got = os.readv(descriptor, [room])
            if got == 0:
                return False
            end = room.find(b"\n", 0, got)
            line += memoryview(room)[:got if end < 0 else end]
            if end >= 0:
                return True
    finally:
        wipe(room)


def _ask_once(descriptor: int, prompt: str, line: bytearray, noted: list[int]) -> bool:
    """Asks, and adds what is typed to the line; False if there is none."""
    is_line = False
    with _woken_by_signals() as wakes:
        with contextlib.suppress(_Signalled), _without_echo(descriptor, noted):
            os.write(descriptor, prompt.encode("utf-8", "replace"))
            is_line = _read_line(descriptor, wakes, line)
    os.write(descriptor, b"\n")
    return is_line or bool(line)


def ask(prompt: str) -> bytearray:
    """A passphrase that is typed at the terminal, bytes as typed, without their newline. It is not
    shown. Suspended by Ctrl-Z, it asks again."""
    try:
        descriptor = os.open("/dev/tty", os.O_RDWR | os.O_NOCTTY | os.O_CLOEXEC)
    except OSError as error:
        raise Refusal(USAGE, "", "no terminal to ask at: use --key-file FILE, or --key-file - for "
                      "standard input") from error
    try:
        return _ask_until_typed(descriptor, prompt)
    finally:
        os.close(descriptor)


def _ask_until_typed(descriptor: int, prompt: str) -> bytearray:
    while True:
        line, noted = bytearray(), []
        try:
            is_typed = _ask_once(descriptor, prompt, line, noted)
        except BaseException:
            wipe(line)
            raise
        if not noted and is_typed:
            return line
        wipe(line)
        for number in noted:
            # (its own effect: the program ends or stops here, or KeyboardInterrupt is raised)
            os.kill(os.getpid(), number)
        if not noted:
            raise Refusal(USAGE, "", "no passphrase was typed")
        if not set(noted) <= _STOPS:
            raise KeyboardInterrupt


def read_key_file(name: str) -> bytearray:
    """All bytes of a key file, which are the passphrase; `-` is standard input."""
    is_standard = name == "-"
    if is_standard and sys.stdin is not None and os.isatty(0):
        raise Refusal(USAGE, "--key-file -", "standard input is a terminal, which would show what "
                      "is typed: without --key-file the passphrase is asked for")
    try:
        descriptor = os.dup(0) if is_standard else os.open(name, os.O_RDONLY | os.O_NOCTTY)
    except (OSError, ValueError) as error:
        raise Refusal(IMAGE, name, f"cannot open the key file: {_reason(error)}") from error
    secret = bytearray(PASSPHRASE_BYTES + 1)
    try:
        got = _read_all(descriptor, secret)
    except OSError as error:
        wipe(secret)
        status = IMAGE if isinstance(error, IsADirectoryError) else FAILED
        raise Refusal(status, name, f"cannot read the key file: {error.strerror}") from error
    finally:
        os.close(descriptor)
    # (the rest are zeros, so that this leaves no copy)
    del secret[got:]
    if got > PASSPHRASE_BYTES:
        wipe(secret)
        raise Refusal(USAGE, name, f"key file is longer than {PASSPHRASE_BYTES} bytes")
    return secret


def _read_all(descriptor: int, buffer: bytearray) -> int:
    """Fills the buffer, or as much of it as there is."""
    done = 0
    with memoryview(buffer) as view:
        while done < len(view):
            got = os.readv(descriptor, [view[done:]])
            if got == 0:
                break
            done += got
    return done


def _reason(error: Exception) -> str:
    return getattr(error, "strerror", None) or str(error)


def is_terminal() -> bool:
    """Whether standard error is a terminal."""
    try:
        return os.isatty(2)
    except OSError:
        return False


def derive(label: str, call: Callable[[], Answer], is_quiet: bool = False) -> Answer:
    """The answer of a call that may take long, and that Ctrl-C need not wait for: it is left to
    itself then. Meanwhile the label is shown, on a terminal with the seconds."""
    found: list[Answer] = []
    failed: list[BaseException] = []

    def work() -> None:
        try:
            found.append(call())
        except BaseException as error:  # pylint: disable=broad-exception-caught
            failed.append(error)

    thread = threading.Thread(target=work, daemon=True)
    thread.start()
    with _shown(label, is_quiet) as tick:
        while thread.is_alive():
            thread.join(0.25)
            tick()
    if failed:
        raise failed[0]
    return found[0]


@contextlib.contextmanager
def _shown(label: str, is_quiet: bool) -> Iterator[Callable[[], None]]:
    """Shows a label at once, and at each call of what this gives how long that was ago."""
    if is_quiet or not is_terminal():
        if not is_quiet:
            say("", label)
        yield lambda: None
        return
    begun = time.monotonic()

    def tick() -> None:
        _draw(f"\r{label} .. {time.monotonic() - begun:.0f} s")

    tick()
    try:
        yield tick
    finally:
        # (the line of what comes next begins where this one did)
        _draw("\r\x1b[K")


def _draw(text: str) -> None:
    with contextlib.suppress(OSError):
        os.write(2, text.encode("utf-8", "replace"))


class Progress:
    """How much is done of a total, with rate and time left: a bar on a terminal, if tqdm is there,
    and otherwise a line each ten seconds. Only one thread calls it."""

    def __init__(self, total: int, unit: str = "B", is_quiet: bool = False) -> None:
        self._total, self._unit, self._done = total, unit, 0
        self._begun = self._last = time.monotonic()
        self._is_quiet, self._has_bar = is_quiet, not is_quiet and is_terminal()
        self._bar = None

    def __enter__(self) -> Progress:
        return self

    def __exit__(self, *_: object) -> None:
        self.close()

    def advance(self, count: int) -> None:
        """So much more is done. What needs no time shows nothing."""
        self._done += count
        if count and self._has_bar:
            self._bar, self._has_bar = _bar(self._total, self._unit), False
        if self._bar is not None:
            self._bar.update(count)
        elif not self._is_quiet and time.monotonic() - self._last >= _SECONDS:
            self._last = time.monotonic()
            say("", self._line())

    def _line(self) -> str:
        seconds = self._last - self._begun
        rate = self._done / seconds if seconds > 0 else 0
        left = f"{_clock((self._total - self._done) / rate)} left" if rate > 0 else "stalled"
        share = 100 * self._done // self._total if self._total else 100
        if self._unit != "B":
            return f"{self._done} of {self._total} {self._unit} ({share} %), {left}"
        return (f"{sized(self._done)} of {sized(self._total)} ({share} %), {sized(int(rate))}/s, "
                f"{left}")

    def close(self) -> None:
        """Nothing more is shown."""
        if self._bar is not None:
            self._bar.close()
            self._bar = None


def _bar(total: int, unit: str) -> Optional[object]:
    """tqdm's bar, if that is installed."""
    try:
        import tqdm  # pylint: disable=import-outside-toplevel
    except ImportError:
        return None
    # (no thread that watches the bar)
    tqdm.tqdm.monitor_interval = 0
    is_bytes = unit == "B"
    return tqdm.tqdm(total=total, unit="B" if is_bytes else f" {unit}", unit_scale=is_bytes,
                     unit_divisor=1024, file=_Screen(), leave=False, dynamic_ncols=True)


class _Screen:
    """The terminal as tqdm writes to it. A bar that cannot be shown, since the terminal was closed,
    changes nothing."""

    encoding = sys.getfilesystemencoding()

    def write(self, text: str) -> None:
        """Shows this."""
        _draw(text)

    def flush(self) -> None:
        """It has been shown."""

    def fileno(self) -> int:
        """By which tqdm asks how wide it is."""
        return 2


def _clock(seconds: float) -> str:
    whole = int(seconds + 0.5)
    if whole < 60:
        return f"{whole} s"
    if whole < 3600:
        return f"{whole // 60} min {whole % 60:02} s"
    return f"{whole // 3600} h {whole % 3600 // 60:02} min"
