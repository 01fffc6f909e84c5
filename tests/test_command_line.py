"""Arguments that are no command, and files that cannot be opened."""
import pytest
from support import USAGE, expect

HEADER_COMMANDS = ["isLuks", "luksUUID", "luksDump", "luksCheck"]
KEY_COMMANDS = ["testPassphrase", "luksCat"]


def each(commands, *lines):
    """Each of these lines after each of the commands."""
    return [f"{command} {line}" for command in commands for line in lines]


NO_COMMANDS = [
    "", "afSplit", "luksrd", "--help", "-h", "help", "--version",
    "afMerge --hash sha256 --stripes 4001 --key-bytes 32 stripes",
    "afMerge --hash sha3 --stripes 1 --key-bytes 32 stripes",
    "afMerge --hash sha256 --stripes +1 --key-bytes 32 stripes",
    "afSplit --hash sha256 --stripes 2 --random - -",
    "luksCat volume", "luksCat --key-file pass", "luksCat --key-file - -",
    "testPassphrase --key-file pass --key-slot 32 volume",
    "testPassphrase --key-file pass --max-iterations 0 volume",
    "luksCat --key-file pass --key-slot -1 volume",
    "luksCheck", "luksCheck --key-file pass volume",
    "luksCat --header volume volume", "luksUUID --header", "luksDump --header volume", "isLuks --header= volume extra",
    "afMerge --hash sha1 --stripes 1 --key-bytes 1 --header volume volume",
    *each(HEADER_COMMANDS, "--header - -", "--header volume --header volume volume"),
    *each(KEY_COMMANDS, "--key-file - --header - volume", "--key-file - --header volume -",
          "--key-file pass --header - -", "--key-file - --header - -", "--key-file=- --header=- volume",
          "--key-file pass --header - -- -", "--key-file pass --header volume --header volume volume",
          "--key-file pass volume --header"),
]


@pytest.mark.parametrize("line", NO_COMMANDS)
def test_no_command(luksrd, here, line):
    expect(luksrd(line), message=USAGE, status=1)


def test_an_argument_that_is_not_text(luksrd):
    expect(luksrd("afMerge --hash sha256 --stripes 1 --key-bytes 32", b"no\xfftext"), message=USAGE, status=1)


MERGE = "afMerge --hash sha256 --stripes 1 --key-bytes 32"
SPLIT = "afSplit --hash sha256 --stripes 2 --random"


@pytest.mark.parametrize("line, name", [
    (f"{MERGE} missing", "missing"),
    (f"{SPLIT} missing pass", "missing"),
    (f"{SPLIT} gone missing", "missing"),  # the key is opened before the random bytes
    ("luksCat --key-file pass missing", "missing"),
    ("luksCat --key-file missing volume", "missing"),
    # the image is opened first, then the header, and then the key file
    ("luksCat --key-file gone missing", "missing"),
    *((line, "missing") for line in (
        *each(HEADER_COMMANDS, "--header volume missing", "--header gone missing", "--header missing volume"),
        *each(KEY_COMMANDS, "--key-file pass --header volume missing", "--key-file pass --header gone missing",
              "--key-file gone --header volume missing", "--key-file lost --header gone missing",
              "--key-file pass --header missing volume", "--key-file gone --header missing volume",
              "--key-file missing --header volume volume"))),
    (f"{MERGE} .", "."),
    ("luksCat --key-file pass .", "."),
    ("luksCat --key-file . volume", "."),
    ("luksCat --key-file pass --header . volume", "."),
    ("luksCat --key-file . --header volume volume", "."),
])
def test_what_cannot_be_opened(luksrd, here, line, name):
    expect(luksrd(line), message=f"luksrd: cannot open {name}", status=4)


@pytest.mark.parametrize("line", ["isLuks -", "luksCat --key-file - volume", "luksDump --header - volume"])
def test_a_folder_as_standard_input(luksrd, here, line):
    expect(luksrd(line, stdin=here), message="luksrd: cannot open -", status=4)
