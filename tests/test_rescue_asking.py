"""luksrd-rescue decrypt: key files, passphrases that are asked for at a terminal, and what Argon2 costs."""
import os
import shlex
import signal
from pathlib import Path

import pytest
import volumes
from kinds import VOLUME2
from rescuing import Terminal, says
from support import limited, memory_of, needs, processes_of, wait_until
from volumes import PASS, PASS2, WRONG

QUICK2 = "--pbkdf pbkdf2 --pbkdf-force-iterations 1000"


def test_key_file_that_is_wrong(rescue, disk2):
    for name, content in {"newline": PASS + b"\n", "wrong": WRONG, "empty": b""}.items():
        (rescue.folder / name).write_bytes(content)
        ended = rescue("decrypt", disk2, "--key-file", name, "-o", "plain")
        says(ended, "no key slot opens by this key file", status=2)
        assert ("ends with a newline" in ended.message) == (name == "newline")
        assert not (rescue.folder / "plain").exists() and not (rescue.folder / "plain.map").exists()


def test_key_file_on_standard_input(rescue, disk2, kinds):
    says(rescue("decrypt", disk2, "--key-file", "-", "-o", "plain", stdin=PASS2), status=0)
    assert (rescue.folder / "plain").read_bytes() == kinds.text(VOLUME2)


@pytest.mark.parametrize("name, status, text", [
    ("missing", 4, "cannot open the key file: No such file or directory"), (".", 4, "Is a directory"),
    ("long", 1, "key file is longer than 8388608 bytes")])
def test_key_file_that_cannot_be(rescue, disk2, name, status, text):
    with open(rescue.folder / "long", "wb") as file:
        file.truncate((8 << 20) + 1)
    says(rescue("decrypt", disk2, "--key-file", name, "-o", "plain"), text, status=status)


def test_no_terminal(rescue, disk2):
    says(rescue("decrypt", disk2, "-o", "plain"), "no terminal to ask at: use --key-file FILE, or --key-file - for "
         "standard input", status=1)


def test_typed(rescue, disk2, kinds):
    """It is not shown; two wrong ones leave no file."""
    with Terminal(rescue, "decrypt", "disk.img", "-o", "plain") as terminal:
        terminal.asked(1).type(WRONG + b"\n").until(rb"no key slot opens by this passphrase")
        assert not (rescue.folder / "plain").exists()
        terminal.asked(2).type(b"\n").asked(3).type(PASS + b"\n")
        assert terminal.ended() == 0 and terminal.echoes()
        assert PASS not in terminal.shown and WRONG not in terminal.shown
    assert (rescue.folder / "plain").read_bytes() == kinds.text(VOLUME2)


def test_three_wrong_ones(rescue, disk2):
    with Terminal(rescue, "decrypt", "disk.img", "-o", "plain") as terminal:
        for number in range(3):
            terminal.asked(number + 1).type(WRONG + b"\n")
        assert terminal.ended() == 2 and terminal.echoes()
        assert terminal.shown.count(b"no key slot opens by this passphrase") == 3
        assert b"Caps Lock" in terminal.shown and b"layout" in terminal.shown
    assert not (rescue.folder / "plain").exists()


def test_bytes_as_typed(rescue, disk2):
    odd = b" \xff\xc3\xbc\\ $(id) '\" "
    (rescue.folder / "odd").write_bytes(odd)
    volumes.cryptsetup(f"luksAddKey {QUICK2} --key-file pass", disk2, "odd", cwd=rescue.folder)
    with Terminal(rescue, "decrypt", "disk.img", "-o", "plain") as terminal:
        terminal.asked().type(odd + b"\n")
        assert terminal.ended() == 0, terminal.shown


@pytest.mark.parametrize("number", [signal.SIGINT, signal.SIGTERM, signal.SIGHUP, signal.SIGQUIT, signal.SIGABRT,
                                    signal.SIGUSR1, signal.SIGUSR2, signal.SIGALRM, signal.SIGVTALRM, signal.SIGXCPU])
def test_signal_at_the_prompt(rescue, disk2, number):
    with Terminal(rescue, "decrypt", "disk.img", "-o", "plain") as terminal:
        terminal.asked().type(b"begun").signal(number)
        assert terminal.ended() == (130 if number == signal.SIGINT else -number)
        assert terminal.echoes() and b"Traceback" not in terminal.shown
    assert not (rescue.folder / "plain").exists()


def test_suspended_at_the_prompt(rescue, disk2):
    """Ctrl-Z turns echo on, and it asks again afterwards."""
    command = shlex.join(rescue.command("decrypt", "disk.img", "-o", "plain"))
    rescue.command = lambda *words: ["bash", "--norc", "-mc", f"{command}; echo stopped; read -r _; fg >/dev/null"]
    with Terminal(rescue) as terminal:
        terminal.asked().type(b"begun\x1a").until(rb"stopped\r")
        assert terminal.echoes()
        terminal.type(b"\n").asked(2).type(PASS + b"\n")
        assert terminal.ended() == 0, terminal.shown


def test_end_of_input_at_the_prompt(rescue, disk2):
    with Terminal(rescue, "decrypt", "disk.img", "-o", "plain") as terminal:
        terminal.asked().type(b"\x04")
        assert terminal.ended() == 1 and b"no passphrase was typed" in terminal.shown and terminal.echoes()


def test_key_file_that_is_the_terminal(rescue, disk2):
    with Terminal(rescue, "decrypt", "disk.img", "--key-file", "-", "-o", "plain") as terminal:
        assert terminal.ended() == 1 and b"standard input is a terminal" in terminal.shown


@pytest.mark.parametrize("kdf", [QUICK2, "--pbkdf argon2id --pbkdf-memory 4096 --pbkdf-parallel 2 "
                                 "--pbkdf-force-iterations 4"], ids=["PBKDF2", "Argon2id"])
def test_passphrase_is_overwritten(rescue, disk2, tmp_path, kdf):
    """Neither the passphrase that was typed nor that of a key file is in memory while the volume is decrypted."""
    os.mkfifo(tmp_path / "fifo")
    secret = b"long passphrase that is nowhere else"
    (tmp_path / "key").write_bytes(secret)
    volumes.cryptsetup(f"luksAddKey {kdf} --key-file pass", disk2, "key", cwd=tmp_path)
    reading = os.open(tmp_path / "fifo", os.O_RDONLY | os.O_NONBLOCK)
    writing = os.open(tmp_path / "fifo", os.O_WRONLY)
    with Terminal(rescue, "decrypt", "disk.img", "-o", "-", stdout=writing) as terminal:
        terminal.asked().type(secret + b"\n").until(rb"trying key slot")
        wait_until(lambda: has_something(reading))
        assert secret not in b"".join(dict(memory_of(terminal.process.pid)).values())
        while terminal.process.poll() is None:
            has_something(reading)
    os.close(reading)
    os.close(writing)


def has_something(descriptor):
    try:
        return os.read(descriptor, 65536)
    except BlockingIOError:
        return b""


@pytest.fixture
def argon2(disk2):
    """That volume with Argon2id in slot 0, for 64 MiB, and Argon2i in slot 1."""
    for slot, kdf, key in (0, "argon2id", "pass"), (1, "argon2i", "pass2"):
        volumes.cryptsetup(f"luksConvertKey --key-slot {slot} --pbkdf {kdf} --pbkdf-memory 65536 --pbkdf-parallel 1 "
                           f"--pbkdf-force-iterations 4 --key-file {key}", disk2, cwd=disk2.parent)
    return disk2


@pytest.mark.parametrize("key, costs", [("pass", ["0 (Argon2id, 64 MiB, 4 passes)"]), (
    "pass2", ["0 (Argon2id, 64 MiB, 4 passes)", "1 (Argon2i, 64 MiB, 4 passes)"])])
def test_argon2(rescue, argon2, kinds, key, costs):
    """Its cost is said while the key is derived, and before that if there is less memory."""
    ended = rescue("decrypt", argon2, "--key-file", key, "-o", "plain")
    says(ended, *(f"trying key slot {cost}" for cost in costs), status=0)
    assert (rescue.folder / "plain").read_bytes() == kinds.text(VOLUME2)
    assert "needs 64 MiB of memory" not in ended.message
    ended = rescue.changed("unlocking.available_memory = lambda: 20 << 20")(
        "decrypt", argon2, "--key-file", key, "-o", "again")
    says(ended, *(f"key slot {cost[0]} needs 64 MiB of memory, and only 20 MiB are free" for cost in costs), status=0)


def costly(image):
    """Slot 0 asks for 8 GiB, slot 1 fills more than 64 GiB."""
    volumes.edit_metadata(image, lambda tree: [
        tree["keyslots"][slot]["kdf"].update(change)
        for slot, change in {"0": {"memory": 8 << 20}, "1": {"time": 1025}}.items()])
    return image


def test_argon2_over_the_limits(rescue, argon2):
    """Such a slot is tried only if it is named, as `look` says."""
    costly(argon2)
    shown = rescue("look", "disk.img").output.decode()
    words = [f"slot {number}: opens with a passphrase, only by --key-slot {number} ({cost})"
             for number, cost in enumerate(("Argon2id, 8 GiB, 4 passes", "Argon2i, 64 MiB, 1,025 passes"))]
    assert all(line in shown for line in words), shown
    assert "    luksrd-rescue decrypt disk.img --key-slot 0 -o plain.img\n" in shown
    ended = rescue("decrypt", argon2, "--key-file", "pass", "-o", "plain")
    says(ended, "no key slot can be tried: key slot 0 opens with a passphrase, only by --key-slot 0", status=1)
    (rescue.folder / "lines").write_bytes(PASS)
    ended = rescue("try", argon2, "--candidates", "lines")
    says(ended, "no key slot can be tried", *words, status=1)
    little = limited("-v", 4000000)
    ended = rescue("decrypt", argon2, "--key-file", "pass", "--key-slot", "0", "-o", "plain", before=little)
    says(ended, "key slot 0: out of memory: Argon2 needs 8388608 KiB for key slot 0", "no key slot could be tried",
         status=3)
    ended = rescue("try", argon2, "--candidates", "lines", "--key-slot", "0", before=little)
    says(ended, "out of memory: Argon2 needs 8388608 KiB for key slot 0; --key-slot tries another slot alone", status=3)


@needs("nbdkit", "nbdfuse", "fusermount3", "fuse")
def test_argon2_that_is_named(rescue, argon2, kinds, filter):
    """Over limits that are lower here, it opens if it is named, also by nbdkit."""
    lower = rescue.changed("audit.ARGON2_MEMORY = 1 << 20")
    words = argon2, "--key-slot", "0"
    says(lower("decrypt", argon2, "--key-file", "pass", "-o", "plain"), "only by --key-slot 0", status=1)
    says(lower("decrypt", *words, "--key-file", "pass", "-o", "plain"), status=0)
    assert (rescue.folder / "plain").read_bytes() == kinds.text(VOLUME2)
    (rescue.folder / "lines").write_bytes(b"wrong\n" + PASS)
    assert lower("try", *words, "--candidates", "lines").output.startswith(b"line 2 opens key slot 0\n")
    served = rescue.folder / "served/plain"
    process = lower.start("serve", *words, "served", "--key-file", "pass", env={"LUKSRD_FILTER": str(filter)})
    wait_until(lambda: served.exists() or process.poll() is not None)
    assert process.poll() is None, process.communicate()
    assert served.read_bytes() == kinds.text(VOLUME2)
    commands = [Path("/proc", str(it), "cmdline").read_bytes().split(b"\0") for it in processes_of(rescue.folder)]
    assert any({b"argon2-memory=67108864", b"argon2-fill=268435456"} <= set(words) for words in commands), commands
    process.send_signal(signal.SIGINT)
    process.communicate()
    assert process.returncode == 0
