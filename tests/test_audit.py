"""What luksrd-audit lists of headers, field by field beside what cryptsetup reports about them;
what it calls weak; its search for headers; and the recipes of docs/AUDIT.md and its man page.

What is judged (findings, weak, and whether luksrd can try a slot) cryptsetup does not report."""
import copy
import json
import os
import re
import resource
import socket
import struct
import subprocess

import documents
import pytest
from documents import SHELLS, Cook, commands_in, document, example
from judging import in_two_lists, weaknesses
from kinds import each_kind
from payloads import OF_LUKS2, format2, make_several
from reading import tree_in
from reported import dump_of, reported
from support import FULL, TOP, audit_lines, must, needs, run, schema_of_lines
from volumes import copy_of, cryptsetup, edit_metadata, edit_segment, metadata, overwrite, passphrases, with_checksum

PAGE = TOP / "docs/luksrd-audit.1"
GUIDE = TOP / "docs/AUDIT.md"
HASHES = ["sha1", "sha224", "sha256", "sha384", "sha512", "ripemd160"]
JUDGED = ("file", "findings", "unsupported", "weak", "program_version", "policy")
JUDGED_OF_SLOT = ("state", "reason", "can_try", "library_can_try")
VERSION = re.search(r"^\.Os luksrd (.*)$", PAGE.read_text(), re.M)[1]
WEAK1 = ["slot 0 iterations", "slot 5 iterations"]
WEAK_SHA1 = ["slot 0 iterations", "slot 0 sha1", "slot 5 iterations", "slot 5 sha1",
             "digest 0 sha1"]
WEAK_SEVERAL = ["slot 0 iterations", "slot 1 iterations", "slot 10 iterations",
                "slot 31 argon2-memory"]


@pytest.fixture
def here(made1, cached, tmp_path):
    """The folder of the test, with volumes and an empty image: wiped is several without its primary
    header."""
    passphrases(tmp_path)
    copy_of(made1("aes-xts-plain64", "sha1", 512), tmp_path / "sha1")
    copy_of(cached("several", make_several), tmp_path / "several")
    copy_of(tmp_path / "several", tmp_path / "wiped")
    overwrite(tmp_path / "wiped", 0, bytes(4096))
    (tmp_path / "empty").write_bytes(bytes(1 << 20))
    return tmp_path


@pytest.fixture
def image(tmp_path):
    return passphrases(tmp_path) / "image"


def listed(audit, line, *arguments, status=1, **how):
    """The objects that are listed, of a line each. The volumes here have few iterations, and so
    they are weak."""
    ended = audit(line, *arguments, **how)
    assert (ended.status, ended.message) == (status, "")
    found = audit_lines(ended.output)
    assert all((each["program_version"], each["policy"]) == (VERSION, 1) for each in found)
    return found


@pytest.mark.parametrize("part", ["", "slots", "digests", "tokens", "weak", "error"])
def test_schema(audit, here, part):
    """It refuses a line with a member renamed, left out or added."""
    edit_metadata(here / "several", lambda tree: tree["tokens"].update({"7": {"type": "mine", "keyslots": ["0"]}}))
    [found] = listed(audit, "empty" if part == "error" else "several")

    def is_refused(change):
        changed = copy.deepcopy(found)
        change(changed[part][0] if part in changed and part != "error" else changed)
        return not schema_of_lines().is_valid(changed)

    names = list(found[part][0] if part in found and part != "error" else found)
    assert names
    for name in names:
        assert is_refused(lambda owner: owner.pop(name))
        assert is_refused(lambda owner: owner.update({f"{name}_": owner.pop(name)}))
    assert is_refused(lambda owner: owner.update(added=None))


def members(found, *names):
    return [[each.get(name) for name in names] for each in found]


def weak(found):
    return [f"{each['place']} {each['name']}" for each in found["weak"]]


def check_facts(found, wanted):
    """An object is as cryptsetup reports, apart from what is judged: a number and a text that reads
    like it differ."""
    facts = {name: value for name, value in found.items() if name not in JUDGED}
    facts["slots"] = [
        {"number": slot["number"], "state": "disabled"} if slot["state"] == "disabled" else
        {name: value for name, value in slot.items() if name not in JUDGED_OF_SLOT}
        for slot in found["slots"]]
    assert (json.dumps(facts, indent=1, sort_keys=True) ==
            json.dumps(wanted, indent=1, sort_keys=True))


def check_listed(audit, luksrd, file, image=None, role="primary", other=None):
    """What is listed of a header is what cryptsetup reports, and its findings are luksCheck's."""
    [found] = listed(audit, "", file)
    check_facts(found, reported(file, image, role, other))
    check_judged(luksrd, found, file)
    return found


def check_judged(luksrd, found, file, minimum=None):
    """What is judged is as AUDIT.md says."""
    check = [line for line in luksrd("luksCheck", file).output.decode().splitlines() if line != "clean"]
    with open(file, "rb") as image:
        headers = image.read(8 << 20)
    tree = tree_in(headers, found)
    assert (found["findings"], found["unsupported"]) == in_two_lists(check, tree)
    assert found["weak"] == weaknesses(found, headers, tree, minimum)
    for slot in found["slots"]:
        derives = slot["kdf"] in ("argon2i", "argon2id") and slot["reason"] == slot["kdf"]
        assert slot["library_can_try"] in ([True, False] if derives else [slot["can_try"]])


@pytest.mark.parametrize("mode, hash_, bits, names", [
    ("xts-plain64", "sha1", 512, WEAK_SHA1),
    *(("xts-plain64", hash_, 512, WEAK1) for hash_ in HASHES[1:]),
    ("cbc-essiv:sha256", "sha256", 128,
     ["segment cbc", "segment short-key", "slot 0 iterations", "slot 0 cbc", "slot 0 short-key",
      "slot 5 iterations", "slot 5 cbc", "slot 5 short-key"]),
])
def test_luks1(audit, luksrd, made1, mode, hash_, bits, names):
    found = check_listed(audit, luksrd, made1(f"aes-{mode}", hash_, bits))
    assert weak(found) == names


@pytest.mark.parametrize("header, areas", [(16, 252), (32, 256), (64, 512), (128, 1024),
                                           (256, 2048), (512, 4096), (1024, 8192), (2048, 1024),
                                           (4096, 256)])
def test_luks2_lengths(audit, luksrd, image, header, areas):
    format2(image, f"--luks2-metadata-size {header}k --luks2-keyslots-size {areas}k")
    assert check_listed(audit, luksrd, image)["header_size"] == header * 1024
    overwrite(image, 4096, b"x")
    check_listed(audit, luksrd, image, role="secondary", other="not valid")


@pytest.mark.parametrize("line, names", [
    ("--hash sha1", ["slot 0 iterations", "slot 0 sha1", "digest 0 sha1"]),
    *((f"--hash {hash_}", ["slot 0 iterations"]) for hash_ in HASHES[1:]),
    ("--cipher aes-xts-plain64 --key-size 512 --sector-size 512", ["slot 0 iterations"]),
    ("--cipher aes-xts-plain64 --key-size 256 --sector-size 4096",
     ["segment short-key", "slot 0 iterations", "slot 0 short-key"]),
    ("--cipher aes-cbc-essiv:sha256 --key-size 128 --sector-size 512",
     ["segment cbc", "segment short-key", "slot 0 iterations", "slot 0 cbc", "slot 0 short-key"]),
])
def test_luks2(audit, luksrd, image, line, names):
    format2(image, line)
    assert weak(check_listed(audit, luksrd, image)) == names


def test_several_slots(audit, luksrd, here):
    found = check_listed(audit, luksrd, here / "several")
    assert members(found["slots"], "number", "state", "reason", "can_try", "library_can_try") == [
        [0, "usable", None, True, True],
        [1, "usable", None, True, True],
        [2, "skipped", "argon2id", False, True],
        [10, "usable", None, True, True],
        [31, "skipped", "argon2i", False, True],
    ]
    assert weak(found) == WEAK_SEVERAL


def change_slot(kdf=(), area=(), tokens=()):
    """Changes the members of a LUKS2 volume's slot 0, and its tokens."""
    def change(tree):
        tree["keyslots"]["0"]["kdf"].update(kdf)
        tree["keyslots"]["0"]["area"].update(area)
        tree["tokens"].update({str(number): token for number, token in enumerate(tokens)})
    return change


def weak_of(name, place, value, limit, severity):
    return {"name": name, "place": place, "value": value, "limit": limit, "severity": severity}


FEW = weak_of("iterations", "slot 0", 1000, 600000, "high")
ARGON = {"type": "argon2id", "cpus": 4, "salt": "AAAA"}


@pytest.mark.parametrize("change, wanted", [
    (change_slot(), [FEW]),
    (change_slot({"iterations": 599999}), [{**FEW, "value": 599999}]),
    (change_slot(area={"encryption": "cipher_null-ecb"}), [
        FEW, weak_of("null-cipher", "slot 0", "cipher_null-ecb", None, "high")]),
    (change_slot(area={"encryption": "aes-ecb", "key_size": 31}), [
        FEW, weak_of("ecb", "slot 0", "aes-ecb", None, "high"), weak_of("short-key", "slot 0", 31, 32, "low")]),
    (change_slot(area={"key_size": 63}), [FEW, weak_of("short-key", "slot 0", 31, 32, "low")]),
    (change_slot(area={"key_size": 64}), [FEW]),
    (change_slot({**ARGON, "time": 1, "memory": 2097152}), []),
    (change_slot({**ARGON, "time": 2, "memory": 2097151}), [weak_of("argon2-time", "slot 0", 2, 3, "low")]),
    (change_slot({**ARGON, "time": 3, "memory": 65535}), [weak_of("argon2-memory", "slot 0", 65535, 65536, "high")]),
    (change_slot({**ARGON, "time": None, "memory": None}), [
        weak_of("argon2-memory", "slot 0", None, 65536, "high"), weak_of("argon2-time", "slot 0", None, 3, "low")]),
    *((change_slot(tokens=[{"type": kind, "keyslots": ["0"]}]), [{**FEW, "severity": "low"}])
      for kind in ("systemd-tpm2", "systemd-fido2", "systemd-pkcs11", "systemd-recovery", "clevis")),
    (change_slot({**ARGON, "time": 2, "memory": 65535}, tokens=[{}, {"type": "clevis", "keyslots": ["1", "0"]}]), [
        weak_of("argon2-memory", "slot 0", 65535, 65536, "low"), weak_of("argon2-time", "slot 0", 2, 3, "low")]),
    (change_slot(tokens=[{"type": "luks2-keyring", "keyslots": ["0"]}, {"type": "clevis", "keyslots": ["00"]},
                         {"type": "Clevis", "keyslots": ["0"]}, {"type": "clevis"}]), [FEW]),
])
def test_weaknesses(audit, luksrd, image, change, wanted):
    """What they are, by which number, and how severe; --fail-on says which of them count."""
    format2(image, "--sector-size 512 --cipher aes-xts-plain64 --key-size 512")
    edit_metadata(image, change)
    [found] = listed(audit, "image", status=1 if wanted else 0)
    assert found["weak"] == wanted
    check_judged(luksrd, found, image)
    severe = any(each["severity"] == "high" for each in wanted) or found["findings"] != []
    assert audit("--fail-on high image").status == (1 if severe else 0)
    assert audit("--fail-on=low image").status == (1 if wanted else 0)


def test_no_encryption(audit, luksrd, made1, image):
    """Of both versions, in the payload and the key slots."""
    copy_of(made1("aes-xts-plain64", "sha512", 512), image)
    overwrite(image, 8, b"cipher_null".ljust(32, b"\0") + b"ecb".ljust(32, b"\0"))
    [found] = listed(audit, "image")
    assert weak(found) == ["segment null-cipher", "slot 0 iterations", "slot 0 null-cipher", "slot 5 iterations",
                           "slot 5 null-cipher"]
    assert (found["findings"], found["unsupported"]) == ([], ["segment: encryption"])
    check_judged(luksrd, found, image)
    format2(image, "--sector-size 512")
    edit_segment(image, encryption="capi:ecb(cipher_null)-plain")
    [found] = listed(audit, "image")
    assert found["weak"][0] == weak_of("null-cipher", "segment", "capi:ecb(cipher_null)-plain", None, "high")
    check_judged(luksrd, found, image)


def test_what_is_not_supported(audit, luksrd, image):
    """It is apart from what is wrong, and makes no status 1: a healthy volume by Serpent is not damaged."""
    format2(image, "--sector-size 512")
    edit_metadata(image, change_slot({"iterations": 600000}, {"encryption": "serpent-xts-plain64"}))
    edit_segment(image, encryption="serpent-xts-plain64")
    [found] = listed(audit, "image", status=0)
    assert (found["findings"], found["unsupported"]) == ([], ["segment: encryption", "slot 0: encryption"])
    check_judged(luksrd, found, image)
    overwrite(image, 16384, b"x")
    [found] = listed(audit, "image")
    assert found["findings"] == ["secondary header: not valid"]
    check_judged(luksrd, found, image)


TAGS = {"type": "hmac(sha256)", "journal_encryption": "none", "journal_integrity": "none"}
REENCRYPT = {"mandatory": ["online-reencrypt"]}


def changed(name, **members):
    """Replaces these members of segment 0, or of the object of this name, `keyslots` or `config`."""
    def change(tree):
        (tree[name]["0"] if name == "segments" else tree[name]).update(members)
    return change


@pytest.mark.parametrize("change, line", [
    (changed("keyslots", **{"0": 5}), "slot 0: type"),
    (changed("keyslots", **{"0": {}}), "slot 0: type"),
    (changed("keyslots", **{"0": {"type": ["luks2"]}}), "slot 0: type"),
    (changed("config", requirements=5), "segment: requirement"),
    (changed("config", requirements=["online-reencrypt"]), "segment: requirement"),
    (changed("config", requirements={"mandatory": "online-reencrypt"}), "segment: requirement"),
    (changed("config", requirements={"mandatory": ["online-reencrypt", 7]}), "segment: requirement"),
    (changed("segments", integrity=3), "segment: integrity"),
    (changed("segments", integrity=None), "segment: integrity"),
    (changed("segments", integrity={**TAGS, "journal_integrity": 3}), "segment: integrity"),
    (changed("segments", integrity={"type": "aead"}), "segment: integrity"),
    (changed("segments", type=None), "segment: member"),
    # with requirements, luksCheck says nothing of the segment
    (lambda tree: (changed("config", requirements=REENCRYPT)(tree), changed("segments", type=5)(tree)),
     "segment: requirement"),
    (lambda tree: (changed("config", requirements=REENCRYPT)(tree), changed("segments", sector_size="512")(tree)),
     "segment: requirement"),
    (lambda tree: tree.update(config={"requirements": REENCRYPT}, segments={}), "segment: requirement"),
])
def test_damaged_members(audit, luksrd, image, change, line):
    """What is missing or of a wrong type is a finding, and makes the status 1."""
    format2(image, "--sector-size 512 --cipher aes-xts-plain64 --key-size 512")
    edit_metadata(image, lambda tree: (change_slot({"iterations": 600000})(tree), change(tree)))
    [found] = listed(audit, "--fail-on high image", status=1)
    assert (found["findings"], found["unsupported"]) == ([line], [])
    check_judged(luksrd, found, image)


@pytest.mark.parametrize("change, line", [
    (changed("keyslots", **{"0": {"type": "reencrypt"}}), "slot 0: type"),
    (changed("config", requirements=REENCRYPT), "segment: requirement"),
    (changed("segments", integrity={**TAGS, "type": "aead"}), "segment: integrity"),
    (changed("segments", type="mine"), "segment: type"),
    (change_slot({"type": "scrypt"}), "slot 0: kdf"),
    (change_slot({"hash": "whirlpool", "iterations": 1300000}), "slot 0: hash"),
])
def test_well_formed_members(audit, luksrd, image, change, line):
    """What luksrd does not support, and only that, leaves the status at 0."""
    format2(image, "--sector-size 512 --cipher aes-xts-plain64 --key-size 512")
    edit_metadata(image, lambda tree: (change_slot({"iterations": 600000})(tree), change(tree)))
    [found] = listed(audit, "image", status=0)
    assert (found["findings"], found["unsupported"]) == ([], [line])
    check_judged(luksrd, found, image)


LINEAR = {"type": "linear", "offset": "32768", "size": "dynamic"}
NOT_ENCRYPTED = weak_of("null-cipher", "segment", "linear", None, "high")


def test_plaintext(audit, luksrd, image):
    """A segment of type linear is not encrypted, in a volume that was decrypted or is being encrypted."""
    format2(image, "--sector-size 512 --cipher aes-xts-plain64 --key-size 512")
    edit_metadata(image, change_slot({"iterations": 600000}))
    whole = copy_of(image, image.parent / "whole")
    for segments in {"0": LINEAR}, {"0": LINEAR, "1": metadata(whole)[0]["segments"]["0"]}, {
            "0": metadata(whole)[0]["segments"]["0"], "40": LINEAR}:
        edit_metadata(copy_of(whole, image), lambda tree: tree.update(segments=segments))
        [found] = listed(audit, "--fail-on high image")
        assert found["weak"] == [NOT_ENCRYPTED]
        check_judged(luksrd, found, image)


@pytest.mark.parametrize("cipher, tags, length, own", [
    ("aes-xts-plain64", "hmac(sha256)", 64, 16), ("aes-xts-plain64", "hmac(sha256)", 96, None),
    ("aes-xts-plain64", "hmac(sha512)", 96, 16), ("aes-xts-plain64", "hmac(sha512)", 128, None),
    ("aes-cbc-essiv:sha256", "hmac(sha1)", 51, 31), ("aes-cbc-essiv:sha256", "hmac(sha1)", 52, None),
    ("aes-xts-plain64", "aead", 63, 31), ("chacha20-random", "poly1305", 32, None),
    ("capi:authenc(hmac(sha256),xts(aes))-random", "aead", 95, 31),
    ("capi:authenc(hmac(sha256),xts(aes))-random", "aead", 96, None),
    # the key of a segment is the cipher's key and one integrity key, whichever of both names it
    ("capi:authenc(hmac(sha256),xts(aes))-plain64", None, 95, 31),
    ("capi:authenc(hmac(sha256),xts(aes))-plain64", None, 96, None),
    ("capi:authenc(hmac(sha256),xts(aes))-plain64", "hmac(sha256)", 64, 16),
    ("capi:authenc(hmac(sha256),xts(aes))-plain64", "hmac(sha256)", 95, 31),
    ("capi:authenc(hmac(sha256),xts(aes))-plain64", "hmac(sha256)", 96, None),
    ("aes-xts-plain64", "hmac(sha256)", 20, 0),
    ("aes-lrw-benbi", None, 32, 16), ("aes-lrw-benbi", None, 48, None), ("capi:lrw(aes)-benbi", None, 47, 31),
    (None, None, 16, None),
])
def test_own_key_of_the_cipher(audit, luksrd, image, cipher, tags, length, own):
    """It is judged without the key for integrity tags, and without that of LRW for tweaks."""
    format2(image, "--sector-size 512 --cipher aes-xts-plain64 --key-size 512")
    edit_metadata(image, lambda tree: tree["keyslots"]["0"].update(key_size=length))
    edit_segment(image, encryption=cipher, **({"integrity": {**TAGS, "type": tags}} if tags else {}))
    [found] = listed(audit, "image")
    short = [each for each in found["weak"] if (each["name"], each["place"]) == ("short-key", "segment")]
    assert short == ([] if own is None else [weak_of("short-key", "segment", own, 32, "low")])
    check_judged(luksrd, found, image)


def test_key_material_by_lrw(audit, luksrd, image):
    format2(image, "--sector-size 512 --cipher aes-xts-plain64 --key-size 512")
    edit_metadata(image, change_slot({"iterations": 600000}, {"encryption": "aes-lrw-benbi", "key_size": 47}))
    [found] = listed(audit, "image")
    assert found["weak"] == [weak_of("short-key", "slot 0", 31, 32, "low")]
    check_judged(luksrd, found, image)


def test_members_of_the_segment(audit, luksrd, image):
    format2(image, "--sector-size 512")
    edit_metadata(image, lambda tree: tree["config"].update(flags=["allow-discards", "no-read-workqueue"]))
    edit_segment(image, type="linear", flags=["backup-final", 7], integrity={"type": "hmac(sha256)"})
    [found] = listed(audit, "image")
    assert members([found], "segment_type", "segment_flags", "integrity", "flags") == [
        ["linear", ["backup-final"], "hmac(sha256)", ["allow-discards", "no-read-workqueue"]]]
    assert found["weak"][0] == NOT_ENCRYPTED
    check_judged(luksrd, found, image)


HIDDEN = [0x7F, *range(0x80, 0xA0), 0x61C, 0x200E, 0x200F, *range(0x202A, 0x202F), *range(0x2066, 0x206A)]
SHOWN = [0x7E, 0xA0, 0xA1, 0xE9, 0x61B, 0x61D, 0x200D, 0x2010, 0x2029, 0x202F, 0x2065, 0x206A, 0x20AC, 0x1F512]


@pytest.mark.parametrize("options", ["", "--tsv"])
def test_marks(audit, image, options):
    """Characters that a terminal obeys, or that change the order of text, are escaped, and no others."""
    format2(image, "--sector-size 512")
    kind = "".join(f"{chr(one)}{chr(other)}a" for one in HIDDEN for other in (0xE9, one)) + "".join(map(chr, SHOWN))
    edit_metadata(image, lambda tree: tree["tokens"].update({"3": {"type": kind, "keyslots": ["0"]}}))
    text = audit(f"{options} image").output.decode()
    assert not {chr(one) for one in HIDDEN} & set(text)
    assert all(chr(one) in text for one in SHOWN)
    assert all(f"\\u{one:04x}" in text for one in HIDDEN)
    if not options:
        [found] = listed(audit, "image")
        assert found["tokens"][0]["type"] == found["tokens"][0]["stored"]["type"] == kind
        assert found["slots"][0]["tokens"] == [{"number": 3, "type": kind}]


@each_kind
def test_kinds(audit, luksrd, kinds, kind):
    if kind.header:
        check_listed(audit, luksrd, kinds / kind.header, kinds / kind.image)
    else:
        check_listed(audit, luksrd, kinds / kind.image)


@pytest.mark.parametrize("bits", [256, 512])
def test_converted(audit, luksrd, made1, image, bits):
    """cryptsetup converts a volume of LUKS1 to LUKS2 and back."""
    copy_of(made1("aes-xts-plain64", "sha512", bits), image)
    before = check_listed(audit, luksrd, image)
    cryptsetup("convert --type luks2", image)
    check_listed(audit, luksrd, image)
    cryptsetup("convert --type luks1", image)
    assert check_listed(audit, luksrd, image) == before


def test_requirements_of_a_volume_that_is_being_encrypted(audit, image):
    image.write_bytes(bytes(20 << 20))
    cryptsetup(f"reencrypt --encrypt --init-only --reduce-device-size 4M {OF_LUKS2} image",
               cwd=image.parent)
    tree = cryptsetup("luksDump --dump-json-metadata", copy_of(image, image.parent / "copy"))
    [found] = listed(audit, "image")
    assert found["requirements"] == json.loads(tree)["config"]["requirements"]["mandatory"]


def test_requirements(audit, luksrd, image):
    """One of them cryptsetup does not know."""
    format2(image, "--sector-size 512")
    wanted = ["offline-reencrypt", "mine"]
    edit_metadata(image, lambda tree: tree["config"].update(requirements={"mandatory": wanted}))
    assert check_listed(audit, luksrd, image)["requirements"] == wanted


def test_wiped_headers(audit, luksrd, here):
    found = check_listed(audit, luksrd, here / "wiped", role="secondary", other="not valid")
    assert found["findings"] == ["primary header: not valid"]
    overwrite(here / "several", 4 * 4096, bytes(4096))
    [found] = listed(audit, "several")
    assert (found["header"], found["other_header"]) == ("primary", "not valid")


@pytest.mark.parametrize("hash_, count, options, names", [
    ("sha512", 209999, "", ["slot 0 iterations"]),
    ("sha512", 210000, "", []),
    ("sha256", 599999, "", ["slot 0 iterations"]),
    ("sha256", 600000, "", []),
    ("sha256", 599999, "--min-iterations 599999", []),
    ("sha256", 600000, "--min-iterations=600001", ["slot 0 iterations"]),
])
def test_iterations(audit, image, hash_, count, options, names):
    """The figures of OWASP, and a minimum of one's own."""
    image.touch()
    os.truncate(image, 3 << 20)
    cryptsetup(f"luksFormat --type luks1 --pbkdf-force-iterations {count} --hash {hash_} "
               "--key-size 512 --key-file pass image", cwd=image.parent)
    [found] = listed(audit, f"{options} image", status=1 if names else 0)
    assert weak(found) == names


def test_several_images(audit, here):
    """One is missing, and one has no header."""
    found = listed(audit, "several missing empty sha1 -", stdin=here / "sha1", status=4)
    assert members(found, "file", "error", "version") == [
        ["several", None, 2],
        ["missing", "cannot be opened", None],
        ["empty", "no LUKS header", None],
        ["sha1", None, 1],
        ["-", None, 1],
    ]


def test_columns(audit, here):
    rows = [line.split("\t") for line in
            audit("--tsv several missing empty").output.decode().splitlines()]
    assert [[len(row), row[0], row[2], row[3]] for row in rows] == [
        [32, "file", "error", "version"],
        [32, "several", "", "2"],
        [32, "missing", "cannot be opened", ""],
        [32, "empty", "no LUKS header", ""],
    ]
    [found] = listed(audit, "several")
    assert json.loads(rows[1][17]) == found["tokens"]
    binary = [str(found[name]) for name in ("seqid", "header_size", "checksum_hash", "iv_tweak")]
    assert [*rows[1][20:23], rows[1][24]] == binary
    assert set(rows[0]) == set(found) | {"error"}
    assert rows[2][25:27] == [VERSION, "1"]


def test_output_that_cannot_be_written(audit, here):
    failed = (6, b"", "luksrd-audit: write failed\n")
    assert audit("several", stdout=FULL) == failed
    assert run("sh", "-c", 'exec "$0" several >&-', audit.path, cwd=here) == failed


def test_closed_input(audit, here):
    """It is no image, and the next one follows."""
    ended = run("sh", "-c", 'exec "$0" - sha1 <&-', audit.path, cwd=here)
    found = audit_lines(ended.output)
    assert (ended.status, ended.message) == (4, "")
    assert members(found, "file", "error", "version") == [["-", "cannot be opened", None], ["sha1", None, 1]]


@pytest.fixture
def target(here):
    """An image that the output goes to, which stays as it is."""
    target = copy_of(here / "sha1", here / "target")
    yield target
    assert target.read_bytes() == (here / "sha1").read_bytes()


REFUSED = (4, b"", "luksrd-audit: standard output is one of the images\n")


@pytest.mark.parametrize("line", ["target", "several target", "target several", "./target"])
@pytest.mark.parametrize("options", ["", "--tsv"])
def test_output_to_an_image(audit, target, options, line):
    assert audit(f"{options} {line}", stdout=target) == REFUSED


def test_output_to_an_image_otherwise(audit, target):
    """The output is appended to it, or it is standard input."""
    with open(target, "ab") as output:
        assert audit("target", stdout=output) == REFUSED
    assert audit("-", stdin=target, stdout=target) == REFUSED


def test_output_to_another_file(audit, here):
    (here / "other").touch()
    assert audit("sha1 several", stdout=here / "other") == (1, b"", "")
    assert len((here / "other").read_bytes().splitlines()) == 2


def test_arguments(audit, here):
    assert audit(".") == (4, b'{"error":"cannot be opened","file":".","policy":1,"program_version":"%s"}\n'
                          % VERSION.encode(), "")
    assert audit("--fail-on medium several").status == 2
    not_utf8 = audit("several", os.fsdecode(b"a\xff"))
    assert not_utf8 == (2, b"", "luksrd-audit: an argument is not UTF-8\n")
    ended = audit("--help")
    assert (ended.status, ended.output.decode().splitlines()[0]) == (
        0, "Lists what is in LUKS headers, and what is weak about them, as JSON.")
    for line in "", "- -":
        assert audit(line).status == 2
    assert audit("--version") == (0, f"luksrd-audit {VERSION}\n".encode(), "")


def test_a_hostile_text_forges_no_field(audit, here):
    overwrite(here / "sha1", 168, b'x","weak":[],"y":"\n\t\\\0')
    [found] = listed(audit, "sha1")
    assert (found["uuid"], len(found["weak"])) == ('x","weak":[],"y":"\\x0a\\x09\\x5c', 5)
    assert len(audit("--tsv sha1").output.splitlines()) == 2


@pytest.mark.parametrize("name, size, wanted", [
    ("sha1", 591, [None, None, None, "header is truncated"]),
    ("sha1", 592, [1, None, None, None]),
    ("several", 16383, [None, None, None, "no LUKS header"]),
    ("several", 32767, [2, "primary", "not valid", None]),
    ("several", 32768, [2, "primary", None, None]),
    ("wiped", 32767, [None, None, None, "no LUKS header"]),
])
def test_truncated(audit, here, name, size, wanted):
    found = listed(audit, "-", stdin=(here / name).read_bytes()[:size])
    assert members(found, "version", "header", "other_header", "error") == [wanted]


def test_json_that_cannot_be_read(audit, here):
    header = bytearray((here / "several").read_bytes()[:16384])
    header[4096:4097] = b"["
    [found] = listed(audit, "-", stdin=with_checksum(header))
    assert found["error"] == "JSON area cannot be read"


@pytest.mark.parametrize("name, consumed", [("sha1", 592), ("several", 32768)])
def test_how_much_is_read(audit, here, name, consumed):
    with open(here / name, "rb", buffering=0) as file:
        assert len(listed(audit, "-", stdin=file)) == 1
        assert file.seek(0, os.SEEK_CUR) == consumed


# the volumes in the disk, with which header is listed and what is wrong with the other one
PLACES = {
    1 << 20: ("sha1", None, None),
    20 << 20: ("several", "primary", None),
    100001 * 512: ("wiped", "secondary", "not valid"),
}


def places(audit, name, **how):
    found = listed(audit, "--search", name, **how)
    return members(found, "offset", "version", "header", "error")


@pytest.fixture
def disk(here):
    """A disk with volumes, and partitions for two of them."""
    disk = here / "disk"
    disk.touch()
    os.truncate(disk, 100 << 20)
    for offset, (name, *_) in PLACES.items():
        overwrite(disk, offset, (here / name).read_bytes())
    must("sfdisk", "-q", disk, stdin=b"label: dos\n2048 8192 83\n40960 40960 83\n")
    return disk


@needs("sfdisk")
def test_search_of_a_disk(audit, here, disk):
    wanted = [[offset, 1 if name == "sha1" else 2, role, None]
              for offset, (name, role, _) in PLACES.items()]
    assert places(audit, "disk") == wanted
    table = must("sfdisk", "-d", disk).decode()
    assert re.findall(r"start= *(\d+),", table) == ["2048", "40960"]
    overwrite(disk, 0, bytes(512))
    assert places(audit, "disk") == wanted
    assert places(audit, "-", stdin=disk.read_bytes()) == wanted


@needs("sfdisk")
def test_what_a_search_finds(audit, luksrd, here, disk):
    """It is what cryptsetup reports of the volume there, and so is luksrd's dump from there on."""
    found = listed(audit, "--search disk")
    for each, (offset, (name, role, other)) in zip(found, PLACES.items(), strict=True):
        wanted = reported(here / name, None, role, other)
        check_facts({**each, "offset": 0}, wanted)
        rest = disk.read_bytes()[offset:]
        assert luksrd("luksDump -", stdin=rest) == (0, dump_of(wanted).encode(), "")
        [alone] = listed(audit, "-", stdin=rest)
        assert {**alone, "file": "disk", "offset": offset} == each


def test_search_of_one_volume(audit, here):
    assert places(audit, "wiped") == [[0, 2, "secondary", None]]
    assert places(audit, "empty") == [[None, None, None, "no LUKS header"]]
    image = here / "magic"
    format2(image, "--sector-size 512")
    overwrite(image, 35000 * 512, b"LUKS\xba\xbe\0\2")
    overwrite(image, 36000 * 512, b"SKUL\xba\xbe\0\2")
    assert places(audit, "magic") == [[0, 2, "primary", None]]


BINARY_HEADER = struct.pack(">6sHQQ48s32s64s40s48sQ", b"LUKS\xba\xbe", 2, 4 << 20, 1, b"",
                            b"sha256", b"", b"", b"", 0)


@pytest.fixture
def many(here):
    """As a hostile image may have it: primary headers of 4 MiB, all of which fit and have a wrong
    checksum, side by side; and one of LUKS1."""
    many = here / "many"
    many.write_bytes(BINARY_HEADER.ljust(512, b"\0") * 64 + bytes(4 << 20))
    overwrite(many, 64 * 512, (here / "sha1").read_bytes())
    return many


def test_search_of_headers_with_wrong_checksums(audit, many):
    assert places(audit, "many") == [[32768, 1, None, None]]


@pytest.mark.parametrize("options", ["", "--search"])
def test_little_memory(audit, here, options):
    """A text of 4 MiB whose tree is much larger."""
    nested = b'{"":' * 120 + b"0" + b"}" * 120 + b","
    text = (b'{"keyslots":{},"segments":{},"digests":{},"config":{},"x":['
            + nested * (4000000 // len(nested)) + b"0]}")
    header = with_checksum((BINARY_HEADER.ljust(4096, b"\0") + text).ljust(4 << 20, b"\0"))
    (here / "deep").write_bytes(header)
    limit = 200000 * 1024
    found = listed(audit, f"{options} deep sha1", status=4,
                   preexec_fn=lambda: resource.setrlimit(resource.RLIMIT_AS, (limit, limit)))
    assert members(found, "error", "version") == [["out of memory", None], [None, 1]]


@pytest.fixture
def shell(audit, here):
    """Runs commands as they are written in a page, with a folder of two images, and a disk that has
    a header at its start and another one after a MiB."""
    (here / "bin").mkdir()
    (here / "bin/luksrd-audit").symlink_to(audit.path)
    (here / "images").mkdir()
    copy_of(here / "sha1", here / "images/a.img")
    copy_of(here / "wiped", here / "images/b.img")
    copy_of(here / "several", here / "disk.img")
    overwrite(here / "disk.img", 1 << 20, (here / "sha1").read_bytes()[:1 << 20])
    path = f"{here / 'bin'}:{os.environ['PATH']}"
    return lambda script: run("bash", "-c", script, cwd=here, env={**os.environ, "PATH": path})


def commands(first, last):
    """The commands of the guide between two headings."""
    section = GUIDE.read_text().partition(f"\n## {first}")[2].partition(f"\n## {last}")[0]
    return "\n".join(re.findall(r"^    (.*)$", section, re.M))


@needs("jq")
def test_example(shell, here):
    """The output in the guide is that of its command."""
    for name, line in {"sda3.img": "--type luks2 --pbkdf argon2id --pbkdf-memory 1048576 --pbkdf-force-iterations 4 "
                                     "--pbkdf-parallel 4",
                       "old.img": "--type luks1 --pbkdf-force-iterations 1000 --hash sha1 --key-size 256 "
                                  "--cipher aes-cbc-essiv:sha256"}.items():
        with open(here / name, "wb") as image:
            image.truncate(20 << 20)
        cryptsetup(f"luksFormat --key-file pass {line} {name}", cwd=here)
    command, output = re.findall(r"(?:^    .*\n)+", GUIDE.read_text().partition("\n## An example")[2], re.M)[:2]
    assert shell(f"set -o pipefail; {command}") == (1, re.sub("^    ", "", output, flags=re.M).encode(), "")


@needs("jq", "column")
def test_recipes(shell):
    ended = shell(commands("Recipes", "A fleet"))
    assert ended.output.decode() == f"""\
images/a.img\t1\t-\t{', '.join(WEAK_SHA1)}
images/b.img\t2\t-\t{', '.join(WEAK_SEVERAL)}
image         version  cipher           key  weak  findings
images/a.img  1        aes-xts-plain64  64   {len(WEAK_SHA1)}     0
images/b.img  2        aes-xts-plain64  64   {len(WEAK_SEVERAL)}     1
["images/a.img",0,1000]
["images/a.img",5,1300]
["images/b.img",0,1000]
["images/b.img",1,1000]
["images/b.img",10,1000]
images/b.img
[0,1,10]
[2,31]
[0,2,true]
[1048576,1,true]
"""


def test_search_with_limits(shell, here, many):
    many.rename(here / "suspect.img")
    assert shell(commands("What a hostile image costs", "One partition")).status == 1
    [found] = audit_lines((here / "headers").read_text())
    assert found["offset"] == 32768


@needs("partx", "sfdisk")
def test_one_partition(shell, audit, disk):
    [alone] = listed(audit, "sha1")
    starts, line = shell(commands("One partition", "Recipes")).output.decode().split("{", 1)
    assert [row.split() for row in starts.splitlines()] == [["1", "2048"], ["2", "40960"]]
    assert json.loads("{" + line) == {**alone, "file": "-"}


SSHD = "/usr/sbin/sshd"
SSHD_CONFIG = """\
HostKey {folder}/host
AuthorizedKeysFile {folder}/user.pub
StrictModes no
UsePAM no
PidFile none
ListenAddress 127.0.0.1:{port}
SetEnv PATH={path}
"""
SSH_CONFIG = """\
Host one two
HostName 127.0.0.1
Port {port}
IdentityFile {folder}/user
UserKnownHostsFile /dev/null
StrictHostKeyChecking no
LogLevel ERROR
"""


@pytest.fixture
def machines(shell, here):
    """This machine by two names, over ssh, and one that does not answer. Instead of devices it has images."""
    for name in "host", "user":
        must("ssh-keygen", "-q", "-t", "ed25519", "-N", "", "-f", here / name)
    with socket.socket() as free:
        free.bind(("127.0.0.1", 0))
        names = {"folder": here, "port": free.getsockname()[1], "path": f"{here / 'bin'}:{os.environ['PATH']}"}
    (here / "sshd_config").write_text(SSHD_CONFIG.format(**names))
    (here / "ssh_config").write_text(SSH_CONFIG.format(**names))
    (here / "machines").write_text("one\ntwo\nthree\n")
    for name, line in {"ssh": f'exec /usr/bin/ssh -F {here}/ssh_config "$@"',
                       "lsblk": f'printf "%s\\n" "/dev/sda vfat" "{here}/images/a.img crypto_LUKS" '
                                f'"{here}/images/b.img crypto_LUKS"'}.items():
        (here / "bin" / name).write_text(f"#!/bin/sh\n{line}\n")
        (here / "bin" / name).chmod(0o755)
    os.makedirs("/run/sshd", exist_ok=True)
    server = subprocess.Popen([SSHD, "-D", "-e", "-f", here / "sshd_config"], stderr=subprocess.DEVNULL)
    yield here
    server.terminate()
    server.wait()


@pytest.mark.skipif(os.getuid() != 0 or not os.path.exists(SSHD), reason="only root runs an ssh server here")
@needs("ssh", "parallel", "jq", "sqlite3")
def test_fleet(shell, machines):
    ended = shell(commands("A fleet", "What is proved"))
    images = [f"{machine}:{machines}/images/{name}.img" for machine in ("one", "two") for name in "ab"]
    lines = audit_lines((machines / "fleet.jsonl").read_text())
    assert sorted(line["file"] for line in lines) == images
    rest = ended.output.decode().splitlines()
    assert rest[0] == "three"
    assert sorted(rest[1:5]) == images
    counts = [line.split() for line in rest[5:-10]]
    found = [(each["severity"], each["name"]) for line in lines for each in line["weak"]]
    assert sorted((int(n), *what) for n, *what in counts) == sorted((found.count(it), *it) for it in set(found))
    rows = [line.split("|") for line in rest[-10:]]
    assert {tuple(row[:2]) for row in rows} <= {(line["file"], each["place"]) for line in lines for each in line["weak"]}
    assert [int(row[2]) for row in rows] == sorted(
        each["value"] for line in lines for each in line["weak"] if each["name"] == "iterations")[:10]


@needs("jq")
def test_examples_of_the_man_page(audit, shell, here):
    ended = shell("\n".join(example(PAGE.name, "What is weak in a hundred images")))
    assert ended == (0, f"""\
images/a.img\t-\t{', '.join(WEAK_SHA1)}
images/b.img\t-\t{', '.join(WEAK_SEVERAL)}
""".encode(), "")
    ended = shell("\n".join(example(PAGE.name, "A partition that begins after")))
    [alone] = listed(audit, "sha1")
    assert json.loads(ended.output) == {**alone, "file": "-"}


@needs("man", "mandoc")
def test_man_page():
    assert run("man", "--warnings", "-l", PAGE)[::2] == (0, "")
    assert run("mandoc", "-Tlint", "-Wwarning", PAGE) == (0, b"", "")


README_AUDIT = "README.md:## Audit headers"
RESCUE_SEARCH = "RESCUE.md:# The place, version and UUID"


@pytest.fixture(params=SHELLS)
def cook(request, audit, tmp_path, monkeypatch):
    """Runs recipes with luksrd-audit, in each shell, in a folder with volumes of both versions."""
    monkeypatch.setattr(documents, "LEFT_OUT", re.compile("/dev/sd"))
    (tmp_path / "bin").mkdir()
    (tmp_path / "bin/luksrd-audit").symlink_to(audit.path)
    path = f"{tmp_path / 'bin'}:{os.environ['PATH']}"
    return Cook(request.param, tmp_path, {**os.environ, "PATH": path})


@pytest.fixture
def images(cook, made1, made2):
    copy_of(made1("aes-cbc-essiv:sha256", "sha1", 256), cook.images / "disk.img")
    copy_of(made2("aes-xts-plain64", 512, plain=bytes(1 << 20)), cook.images / "second.img")
    return cook.images


def columns(*words):
    return "\t".join(map(str, words)) + "\n"


def by_readme(cook):
    """What README's command prints in the folder of images."""
    return run(*SHELLS[cook.shell], "-c", "\n".join(commands_in(README_AUDIT)), cwd=cook.images, env=cook.environment)


@needs("jq", "zsh")
def test_audit_of_a_folder(cook, images):
    """One image ends in its second header, one is empty, and one is short."""
    (images / "empty.img").touch()
    (images / "cut.img").write_bytes((images / "second.img").read_bytes()[:20000])
    (images / "short.img").write_bytes((images / "disk.img").read_bytes()[:500])
    weak2 = [2, "slot 0 iterations", "slot 1 iterations"]
    ended = by_readme(cook)
    assert ended.output.decode() == (
        columns("cut.img", *weak2, "secondary header: not valid")
        + columns("disk.img", 1, "segment cbc", "slot 0 iterations", "slot 0 sha1", "slot 0 cbc", "slot 5 iterations",
                  "slot 5 sha1", "slot 5 cbc", "digest 0 sha1")
        + columns("empty.img", "no LUKS header")
        + columns("second.img", *weak2)
        + columns("short.img", "header is truncated")), ended


@needs("jq", "zsh", "sfdisk")
def test_what_readme_shows(cook):
    """Its three lines are those of a whole disk, of an old volume, and of a new one, which that disk has, too."""
    for name, options in {
            "sda3.img": "--type luks2 --pbkdf argon2id --pbkdf-force-iterations 4 --pbkdf-memory 65536",
            "old.img": "--type luks1 --cipher aes-cbc-essiv:sha256 --hash sha256 --pbkdf-force-iterations 1000"}.items():
        with open(cook.images / name, "wb") as file:
            file.truncate(20 << 20)
        must("cryptsetup", "-q", "luksFormat", *options.split(), cook.images / name, "-", stdin=b"a passphrase")
    with open(cook.images / "laptop.img", "wb") as file:
        file.truncate(24 << 20)
    must("sfdisk", "-q", cook.images / "laptop.img", stdin=b"label: gpt\nstart=2048, size=40960\n")
    overwrite(cook.images / "laptop.img", 1 << 20, (cook.images / "sda3.img").read_bytes())
    shown = re.search(r"^## Audit headers.*?^```text\n(.*?)^```$", document("README.md").read_text(), re.M | re.S)[1]
    ended = by_readme(cook)
    assert ended.output.decode() == shown, ended
    assert "Whole disks need `--search`." in document("README.md").read_text()
    found = must("luksrd-audit", "--search", "laptop.img", cwd=cook.images, env=cook.environment)
    assert [(line["offset"], line["version"]) for line in audit_lines(found)] == [(1 << 20, 2)]


@needs("jq", "zsh")
def test_search_of_a_disk_without_a_partition_table(cook, images):
    whole = images / "whole.img"
    whole.touch()
    os.truncate(whole, 16 << 20)
    wanted = ""
    for version, sector, name in (1, 2048, "disk.img"), (2, 12288, "second.img"):
        overwrite(whole, sector * 512, (images / name).read_bytes())
        wanted += columns(sector * 512, version, cryptsetup("luksUUID", images / name).strip())
    assert wanted in cook([RESCUE_SEARCH], ["whole.img"]).said


@pytest.mark.parametrize("name, place", [("README.md", README_AUDIT), ("RESCUE.md", RESCUE_SEARCH)])
def test_each_command_of_a_page_is_run(name, place):
    commands = re.findall(r"^    (luksrd-audit .*)", document(name).read_text(), re.M)
    assert commands
    assert set(commands) <= set(commands_in(place))
