"""Many headers of every kind, each member of their lines beside what cryptsetup reports and an independent reading of
docs/AUDIT.md. AUDITS is how many, SEED gives the same again."""
import json
import os
import time

import pytest
from hostile_headers import draw, generated
from judging import in_two_lists, weaknesses
from payloads import format2
from reading import read_anew, tree_in
from reported import reported
from support import audit_lines, run
from test_audit import JUDGED, JUDGED_OF_SLOT
from volumes import edit_metadata, luks1, overwrite, passphrases

AUDITS = int(os.environ.get("AUDITS", 5000))
PARTS = 20
SEED = int(os.environ.get("SEED", time.time()))
CIPHERS = ["aes-xts-plain64", "aes-cbc-essiv:sha256", "aes-ecb", "serpent-xts-plain64", "cipher_null-ecb", "null",
           "capi:cbc(aes)-essiv:sha256", "capi:ecb(cipher_null)-plain", "capi:authenc(hmac(sha256),xts(aes))-random",
           "xchacha12,aes-adiantum-plain64", "aes-lrw-benbi", "xcapi:cbc(aes)-plain", "capi:xcbc(aes)-plain"]
HASHES = ["sha1", "sha224", "SHA256", "sha384", "sha512", "ripemd160", "whirlpool"]
TAGS = ["hmac(sha1)", "hmac(sha256)", "hmac(sha512)", "aead", "poly1305"]
TOKENS = ["systemd-tpm2", "systemd-fido2", "systemd-pkcs11", "systemd-recovery", "clevis", "luks2-keyring", "mine"]


def changed(tree):
    """Changes the metadata of a volume of LUKS2 in ways that cryptsetup reads."""
    slot, segment = tree["keyslots"]["0"], tree["segments"]["0"]
    slot["area"].update(encryption=draw.choice(CIPHERS), key_size=draw.choice([16, 24, 31, 32, 48, 63, 64]))
    slot["af"]["hash"] = draw.choice(HASHES)
    if draw.random() < 0.5:
        slot["kdf"] = {"type": draw.choice(["argon2i", "argon2id"]), "time": draw.choice([1, 2, 3, 4]),
                       "memory": draw.choice([32, 65535, 65536, 2097151, 2097152, 4194304]), "cpus": 4,
                       "salt": slot["kdf"]["salt"]}
    else:
        slot["kdf"].update(hash=draw.choice(HASHES), iterations=draw.choice([1000, 209999, 210000, 600000, 1300000]))
    if draw.random() < 0.3:
        slot["priority"] = draw.choice([0, 1, 2])
    tree["digests"]["0"].update(hash=draw.choice(HASHES), iterations=draw.choice([1000, 5000, 999]))
    segment.update(encryption=draw.choice(CIPHERS), iv_tweak=str(draw.randrange(3) * 8))
    if draw.random() < 0.2:
        segment["integrity"] = {"type": draw.choice(TAGS), "journal_encryption": "none", "journal_integrity": "none"}
    if draw.random() < 0.2:
        segment["flags"] = ["backup-final"]
    if draw.random() < 0.1:
        tree["segments"][draw.choice("13")] = {"type": "linear", "offset": segment["offset"], "size": "dynamic"}
    if draw.random() < 0.1:
        tree["config"]["requirements"] = {"mandatory": draw.choice([["online-reencrypt"], ["mine", "yours"], []])}
    tree["config"]["flags"] = draw.sample(["allow-discards", "no-read-workqueue", "submit-from-crypt-cpus"], 2)
    for number in draw.sample(range(32), draw.randrange(4)):
        tree["tokens"][str(number)] = {"type": draw.choice(TOKENS), "keyslots": draw.choice([["0"], []]), "x": -1}


@pytest.fixture(scope="module")
def bases(tmp_path_factory):
    """A volume of each version, which is changed again and again."""
    folder = passphrases(tmp_path_factory.mktemp("bases"))
    luks1(folder / "luks1", "aes-xts-plain64", "sha256", 512)
    format2(folder / "luks2", "--sector-size 512 --luks2-metadata-size 16k --luks2-keyslots-size 256k --offset 576")
    return folder


def mutant(bases, folder, number):
    """A header in a file of its own: a generated one, or a volume of either version that is changed."""
    image, kind = folder / str(number), draw.choices(["generated", "luks1", "luks2"], [5, 1, 4])[0]
    if kind == "generated":
        image.write_bytes(generated())
        return image, False
    with open(bases / kind, "rb") as file:
        image.write_bytes(file.read(32768))
    os.truncate(image, 294912 if kind == "luks2" else os.path.getsize(bases / kind))
    if kind == "luks2":
        edit_metadata(image, changed)
    else:
        overwrite(image, 72, draw.choice(HASHES).encode().ljust(32, b"\0"))
        overwrite(image, draw.choice([164, 212, 452]), draw.choice([999, 1000, 600000]).to_bytes(4, "big"))
    return image, True


def without(object_, names):
    return {name: value for name, value in object_.items() if name not in names}


def facts_of(found):
    """What is not judged."""
    slots = [without(slot, JUDGED_OF_SLOT) for slot in found["slots"]]
    return {**without(found, (*JUDGED, "offset", "other_header")), "slots": slots}


def check_one(found, file, luksrd):
    """A line beside an independent reading of the same bytes."""
    image = file.read_bytes()
    check = luksrd("luksCheck", file)
    if "error" in found:
        assert check.status != 0 and check.output == b""
        return
    lines = [line for line in check.output.decode().splitlines() if line != "clean"]
    wanted = {**read_anew(image, found["header"]), "other_header": None}
    assert json.dumps(facts_of(found), sort_keys=True) == json.dumps(without(wanted, ("other_header",)), sort_keys=True)
    tree = tree_in(image, found)
    assert (found["findings"], found["unsupported"]) == in_two_lists(lines, tree)
    assert found["weak"] == weaknesses(found, image, tree)
    for slot in found["slots"]:
        assert slot["can_try"] == (slot["state"] == "usable") and slot["library_can_try"] >= slot["can_try"]
        derived = slot["kdf"] in ("argon2i", "argon2id") and slot["reason"] == slot["kdf"]
        assert derived or slot["library_can_try"] == slot["can_try"]


def check_reported(found, file):
    """A line beside what cryptsetup reports, where it reads the header. Of a disabled slot it reports nothing."""
    try:
        wanted = reported(file, None, found["header"], None)
    except AssertionError:
        return False
    slots = {slot["number"] for slot in wanted["slots"] if slot.get("state") == "disabled"}
    for owner in found, wanted:
        owner["slots"] = [without(slot, JUDGED_OF_SLOT) for slot in owner["slots"] if slot["number"] not in slots]
    keep = (*JUDGED, "other_header")
    assert json.dumps(without(found, keep), sort_keys=True) == json.dumps(without(wanted, keep), sort_keys=True)
    return True


@pytest.mark.parametrize("part", range(PARTS))
def test_many_headers(audit, luksrd, bases, tmp_path, part):
    draw.seed(f"{SEED} {part}")
    made = [mutant(bases, tmp_path, number) for number in range(AUDITS // PARTS)]
    ended = run(audit.path, *(file.name for file, _ in made), cwd=tmp_path)
    assert ended.status == 1 and ended.message == ""
    found = audit_lines(ended.output)
    assert [line["file"] for line in found] == [file.name for file, _ in made]
    compared = 0
    for line, (file, is_volume) in zip(found, made):
        try:
            check_one(line, file, luksrd)
            compared += is_volume and check_reported(line, file)
        except AssertionError as error:
            raise AssertionError(f"SEED={SEED}, header {file.name}: {json.dumps(line)}") from error
    assert compared > len(made) // 4 and sum("error" not in line for line in found) > len(made) // 2
