"""How names are written for the shell."""

import shlex


def quoted(word: str) -> str:
    """A name as the shell reads it, without anything that a terminal would obey. A name that would
    be taken for an option gets a folder."""
    word = f"./{word}" if word.startswith("-") else word
    if word.isprintable():
        return shlex.quote(word)
    raw = word.encode(errors="surrogateescape")
    return "$'" + "".join(_escaped(byte) for byte in raw) + "'"


def _escaped(byte: int) -> str:
    """A byte inside $'..' of bash and zsh."""
    letter = chr(byte)
    if letter in "'\\":
        return "\\" + letter
    return letter if 32 <= byte < 127 else f"\\x{byte:02x}"
