"""What docs/AUDIT.md says of weaknesses and of the two lists of findings, read anew: from the object of a header, and
for LUKS1 from the cipher's two fields, for LUKS2 from the tree of the JSON area."""
import re

from reading import decimal, get, text, whole

OWASP = {"sha512": 210000, "sha384": 210000, "sha256": 600000, "sha224": 600000}
RANDOM = {"systemd-tpm2", "systemd-fido2", "systemd-pkcs11", "systemd-recovery", "clevis"}
NAMES_OF_INTEGRITY = "type", "journal_encryption", "journal_integrity"
# the lines of luksCheck that are about names: these are texts, or luksCheck finds a member
OF_NAMES = re.compile(r"segment: (type|encryption|hash)|slot \d+: (kdf|hash|encryption)")
HMACS = {"sha1": 20, "sha256": 32, "sha512": 64}


def has_word(cipher, word):
    """Whether a cipher of the kernel's crypto API has this template."""
    return cipher.startswith("capi:") and word in re.split(r"[:(),-]", cipher)[1:]


def mode_of(cipher, name, mode):
    """null, ecb, cbc, xts, lrw or other."""
    if name in ("cipher_null", "null") or has_word(cipher, "cipher_null"):
        return "null"
    return next((word for word in ("ecb", "cbc", "xts", "lrw") if mode.startswith(word) or has_word(cipher, word)), "other")


def mode_in(cipher, fields):
    """The mode of a cipher that is listed. FIELDS are the two of LUKS1."""
    if fields:
        return mode_of(fields[0], *fields)
    if cipher is None:
        return "other"
    name, _, mode = cipher.partition("-")
    return mode_of(cipher, name, mode)


def is_sha1(name):
    return (name or "").lower() == "sha1"


def of_cipher(place, mode, cipher, length):
    """By the mode and the cipher's own key of this length, of which None is not known."""
    if mode in ("null", "ecb", "cbc"):
        name = "null-cipher" if mode == "null" else mode
        yield name, place, cipher, None, "low" if mode == "cbc" else "high"
    own = None if length is None else length // 2 if mode == "xts" else max(length - 16, 0) if mode == "lrw" else length
    if mode != "null" and (own or 0) < 32:
        yield "short-key", place, own, 32, "low"


def of_slot(slot, tokens, fields, minimum):
    place = f"slot {slot['number']}"
    names = [token["type"] for token in tokens if str(slot["number"]) in token["keyslots"]]
    cost = "low" if RANDOM & set(names) else "high"
    if slot["kdf"] == "pbkdf2":
        least = minimum if minimum is not None else OWASP.get((slot["hash"] or "").lower(), 1300000)
        if (slot["iterations"] or 0) < least:
            yield "iterations", place, slot["iterations"], least, cost
    if slot["kdf"] in ("argon2i", "argon2id"):
        memory, passes = slot["memory"] or 0, slot["time"] or 0
        if memory < 64 << 10:
            yield "argon2-memory", place, slot["memory"], 64 << 10, cost
        least = 1 if memory >= 2 << 20 else 3
        if passes < least:
            yield "argon2-time", place, slot["time"], least, "low"
    hashes = [name for name in (slot["hash"], slot["af_hash"]) if is_sha1(name)]
    if hashes:
        yield "sha1", place, hashes[0], None, "low"
    yield from of_cipher(place, mode_in(slot["area_cipher"], fields), slot["area_cipher"], slot["area_key_bytes"])


def of_digest(digest):
    place = f"digest {digest['number']}"
    if is_sha1(digest["hash"]):
        yield "sha1", place, digest["hash"], None, "low"
    if (digest["iterations"] or 0) < 1000:
        yield "digest-iterations", place, digest["iterations"], 1000, "low"


def of_tags(pattern, name):
    """The length of the key for integrity tags that are HMACs, by a name that begins so."""
    found = re.match(pattern, name or "")
    return HMACS[found[1]] if found else 0


def cipher_length(found):
    """The length of the volume key without the key for integrity tags, if it is known and there is a cipher."""
    if found["cipher"] is None or found["key_bytes"] is None:
        return None
    hmac = rf"hmac\(({'|'.join(HMACS)})\)"
    tags = of_tags(rf"capi:authenc\({hmac},", found["cipher"]) or of_tags(f"{hmac}$", found["integrity"])
    return max(found["key_bytes"] - tags, 0)


def of_segments(found, fields, tree):
    segments = get(tree, "segments")
    if isinstance(segments, dict) and any(text(segment, "type") == "linear" for segment in segments.values()):
        yield "null-cipher", "segment", "linear", None, "high"
    length = cipher_length(found)
    for weakness in of_cipher("segment", mode_in(found["cipher"], fields), found["cipher"], length):
        if weakness[0] != "short-key" or length is not None:
            yield weakness


def all_weak(found, fields, tree, minimum):
    yield from of_segments(found, fields, tree)
    for slot in found["slots"]:
        is_held = slot["state"] != "disabled" if fields else \
            text(tree, "keyslots", str(slot["number"]), "type") == "luks2"
        if is_held:
            yield from of_slot(slot, found["tokens"], fields, minimum)
    for digest in found["digests"]:
        yield from of_digest(digest)


def weaknesses(found, header, tree=None, minimum=None):
    """What `weak` has to be in this object of the header with these bytes."""
    fields = None
    if found["version"] == 1:
        fields = tuple(header[at:at + 32].partition(b"\0")[0].decode("latin-1") for at in (8, 40))
    keys = ("name", "place", "value", "limit", "severity")
    return [dict(zip(keys, weakness)) for weakness in all_weak(found, fields, tree, minimum)]


def is_segment(segment):
    """Whether segment 0 is well-formed."""
    kind, size = text(segment, "type"), text(segment, "size")
    of_crypt = [decimal(segment, "offset"), decimal(segment, "iv_tweak"), whole(segment, "sector_size"),
                text(segment, "encryption"), size if size == "dynamic" else decimal(segment, "size")]
    return kind is not None and (kind != "crypt" or None not in of_crypt)


def is_unsupported(line, tree):
    """Whether a line of luksCheck is about what is well-formed, and not supported."""
    segment = get(tree, "segments", "0")
    if line == "segment: requirement":
        names = get(tree, "config", "requirements", "mandatory")
        return isinstance(names, list) and all(isinstance(name, str) for name in names) and is_segment(segment)
    if line == "segment: integrity":
        return all(text(segment, "integrity", name) is not None for name in NAMES_OF_INTEGRITY)
    if slot := re.fullmatch(r"slot (\d+): type", line):
        return text(tree, "keyslots", slot[1], "type") is not None
    return OF_NAMES.fullmatch(line) is not None


def in_two_lists(lines, tree):
    """The lines of luksCheck: what is wrong, and what is not supported."""
    unsupported = [line for line in lines if is_unsupported(line, tree)]
    return [line for line in lines if line not in unsupported], unsupported
