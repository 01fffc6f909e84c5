"""Damaged and generated headers of both versions: runs whose end is known, and generated ones, of which a third at least
reach the key slots and go on to the payload. SEED gives the same again, and RUNS another number of them."""
import os
import pathlib
import re
import resource
import time

import pytest
from hostile_headers import Volume1, Volume2, draw, generated
from support import FULL, NO_KEY, expect
from volumes import nested_header, overwrite, passphrases

SEED = int(os.environ.get("SEED", time.time()))
RUNS = int(os.environ.get("RUNS", 50000))
PARTS = 10  # for each processor

REASONS = "(type|member|argon2id?|kdf|hash|encryption|key size|stripes|iterations|area|digest|state)"
SKIPPED = rf"(; skipped: \d+ \({REASONS}\)(, \d+ \({REASONS}\))*)?"
MESSAGES = {
    0: "",
    1: f"the header has findings|no key slot can be tried{SKIPPED}|segment refused: "
       "(requirement|segments|member|type|integrity|encryption|hash|key bytes|sector size|offset|size)",
    2: f"no key opens the volume{SKIPPED}",
    4: "LUKS2 JSON area is not readable|not a LUKS image|image ends inside the header or a key area|"
       r"image ends (before the payload|inside a sector: \d+ bytes left over|\d+ bytes before the segment does)",
    6: "write failed",
}
OUTPUTS = {"isLuks": rb"", "luksUUID": rb"[ -~]*\n", "luksDump": rb"Version: [12]\n[ -~\n]+\n",
           "luksCheck": rb"clean\n", "testPassphrase": rb"Key slot \d+ opens the volume\.\n"}
IN_PAYLOAD = re.compile("luksrd: image ends (before the payload|inside a sector|[0-9]+ bytes)|luksrd: write failed")
COMMANDS = ["isLuks", "luksUUID", "luksDump", "luksCheck", "testPassphrase", "luksCat"]


@pytest.mark.parametrize("name, offset, content, line, output, message, status", [
    ("volume", 8, b"AES", "luksCat --key-file pass {}", "", "luksrd: segment refused: encryption", 1),
    ("volume", 212, bytes(4), "luksCat --key-file pass {}", "",
     "luksrd: no key slot can be tried; skipped: 0 (iterations)", 1),
    ("volume", 112, b"\xff\xff", "testPassphrase --key-file pass {}", "", NO_KEY, 2),
    ("volume", 0, b"l", "luksDump {}", "", "luksrd: not a LUKS image", 4),
    ("volume", 0, b"l", "isLuks {}", "", "", 1),
    ("volume2", 5000, b"\xff", "luksCheck {}", "primary header: not valid\n", "luksrd: the header has findings", 1),
])
def test_damaged_header(luksrd, here, name, offset, content, line, output, message, status):
    expect(luksrd("isLuks", name))
    overwrite(here / name, offset, content)
    expect(luksrd(line.format(name)), output, message, status)


def test_large_header(luksrd, tmp_path):
    """A header of LUKS2 of 1 MiB, whose JSON text is nested a hundred deep; also in little memory."""
    (tmp_path / "image").write_bytes(nested_header(1 << 20, b"[" * 100 + b"]" * 100, 2487))
    expect(luksrd("luksUUID image"), "a header\n")
    little = lambda: resource.setrlimit(resource.RLIMIT_AS, (30000 << 10, 30000 << 10))
    expect(luksrd("luksUUID image", preexec_fn=little), message="luksrd: out of memory", status=3)


def reached_payload(command, ended):
    return command == "luksCat" and (ended.status == 0 or IN_PAYLOAD.match(ended.message) is not None)


def tried_a_slot(command, ended):
    return (reached_payload(command, ended) or ended.status == 2
            or command == "testPassphrase" and ended.status == 0)


def is_proper(command, ended, full):
    """The status is a known one, the message one of its messages, and the output that of such a run."""
    if ended.status not in MESSAGES or (ended.status == 6) > full:
        return False
    silent = ended.status == 0 or command == "isLuks" and ended.status == 1
    if not re.fullmatch("" if silent else rf"luksrd: ({MESSAGES[ended.status]})\n", ended.message):
        return False
    if full:
        return ended.output == b"" and (ended.status != 0 or command in ("isLuks", "luksCat"))
    if command == "luksCat":
        return len(ended.output) % 512 == 0 and (ended.output == b"" or reached_payload(command, ended))
    if ended.status == 0:
        return re.fullmatch(OUTPUTS[command], ended.output) is not None
    if ended.status == 1 and command == "luksCheck":
        return re.fullmatch(rb"([ -~]+\n)+", ended.output) is not None
    return ended.output == b""


def known(command, volume, key, full, plain):
    """How a run over a volume ends whose change is harmless."""
    if command == "isLuks":
        return 0, b"", ""
    if key == "wrong":
        return 2, b"", NO_KEY + "\n"
    if full:
        return 6, b"", "luksrd: write failed\n"
    return 0, plain if command == "luksCat" else b"Key slot %d opens the volume.\n" % volume.slots[key], ""


def one_run(program, volumes, plain):
    """Another run, and whether it is as it should be."""
    full, apart, at_input = draw.random() < 0.02, draw.random() < 0.3, draw.random() < 0.5
    if draw.random() < 0.42:
        image, wanted, at_input, piped = generated(), None, True, True
        command = draw.choice(COMMANDS)
        key = ["--key-file", "/dev/null", "--max-iterations", "100"]
    else:
        volume, piped = draw.choices(volumes, [3, 1, 1, 3])[0], False
        kind = draw.choices(["kept", "moved", "changed", "cut"], [30, 25, 25, 20])[0]
        image = getattr(volume, "kept" if kind == "cut" else kind)()
        other = "isLuks" if kind == "kept" else draw.choice(COMMANDS)
        command = draw.choices(["luksCat", "testPassphrase", other], [85, 10, 5])[0]
        file = draw.choices(["pass", "pass2", "wrong"], [85, 8, 7])[0]
        wanted = known(command, volume, file, full, plain) if kind == "kept" else None
        if kind == "cut":
            length = draw.choice([draw.randrange(len(plain)), draw.randrange(len(plain)), 0, -1,
                                  draw.randrange(-volume.start, 0)])
            image = image[:volume.start + length]
        key = ["--key-file", file, "--max-iterations", "2000"]
    name = "-" if at_input else "image"
    words = key if command in COMMANDS[4:] else []
    words = words + (["--header", name, "/dev/null" if piped else "image"] if apart else [name])
    if not piped:
        pathlib.Path("image").write_bytes(image)
    ended = program(command, *words, stdin=bytes(image) if piped else pathlib.Path("image"), env={},
                    **({"stdout": FULL} if full else {}))
    return command, ended, is_proper(command, ended, full) and wanted in (None, ended), words


@pytest.mark.parametrize("part", range(PARTS))
def test_generated_headers(each_luksrd, made1, made2, tmp_path, monkeypatch, part):
    monkeypatch.chdir(passphrases(tmp_path))
    draw.seed(1)
    plain = draw.randbytes(16384)
    small = ["--align-payload", "8"]
    volumes = [Volume1(made1("aes-cbc-essiv:sha256", "sha1", 128, *small, plain=plain), len(plain)),
               Volume1(made1("aes-xts-plain64", "sha256", 256, *small, plain=plain), len(plain)),
               Volume2(made2("aes-xts-plain64", 256, "--sector-size", "512", plain=plain), len(plain)),
               Volume2(made2("aes-cbc-plain64", 128, "--sector-size", "4096", plain=plain), len(plain))]
    draw.seed(SEED + part)
    wrong, tried, decrypted = [], 0, 0
    for number in range(RUNS // PARTS // 2):
        command, ended, is_right, words = one_run(each_luksrd, volumes, plain)
        decrypted += reached_payload(command, ended)
        tried += tried_a_slot(command, ended)
        if not is_right:
            wrong.append((number, command, words, ended.status, ended.output[:100], ended.message[:200]))
    assert wrong[:5] == [], f"SEED={SEED}"
    assert 3 * min(tried, decrypted) >= RUNS // PARTS // 2, f"SEED={SEED}: {tried} runs tried a key slot, {decrypted} " \
        "reached the payload"
