"""The object of a header, read anew from its bytes as docs/AUDIT.md says: all members but those that are judged.

Numbers and texts are the standard's: a whole number in JSON has no sign, fraction or exponent and is below 2^64, one in
a text has 1 to 20 decimal digits, and bytes are in base64 with its padding."""
import base64
import binascii
import json
import re
import struct

SLOT1 = struct.Struct(">II32sII")
HEADER1 = struct.Struct(">6sH32s32s32sII20s32sI40s")
HEADER2 = struct.Struct(">6sHQQ48s32s64s40s48sQ")
FAR = 2 ** 64


def shown(text):
    """A text of a binary header up to its first zero byte, as luksDump shows it."""
    return "".join(chr(byte) if 32 <= byte < 127 and byte != 92 else f"\\x{byte:02x}"
                   for byte in text.partition(b"\0")[0])


class Float(float):
    """A number that has more than one text."""


class Negative(int):
    """A number of 64 bits with a sign."""


def tree_of(area):
    """The JSON text: a number with a sign, or of more than 64 bits, is no whole number."""
    def number(digits):
        if digits.startswith("-"):
            return Negative(digits) if -2 ** 63 <= int(digits) < 0 else Float(digits)
        return int(digits) if int(digits) < FAR else Float(digits)

    return json.loads(area.partition(b"\0")[0].decode(), parse_int=number, parse_float=Float)


def get(owner, *names):
    for name in names:
        owner = owner.get(name) if isinstance(owner, dict) else None
    return owner


def whole(owner, *names):
    found = get(owner, *names)
    return found if type(found) is int else None


def text(owner, *names):
    found = get(owner, *names)
    return found if isinstance(found, str) else None


def decimal(owner, *names):
    found = text(owner, *names)
    fits = found is not None and re.fullmatch("[0-9]{1,20}", found) and int(found) < FAR
    return int(found) if fits else None


def digits(owner, *names):
    """Bytes in base64, as hexadecimal digits. Bits that no byte has are zero."""
    found = text(owner, *names)
    try:
        decoded = None if found is None else base64.b64decode(found.encode(), validate=True)
    except (binascii.Error, UnicodeEncodeError):
        return None
    return decoded.hex() if decoded is not None and base64.b64encode(decoded).decode() == found else None


def texts(owner, *names):
    found = get(owner, *names)
    return [each for each in found if isinstance(each, str)] if isinstance(found, list) else []


def numbered(tree, name):
    """The members that are named 0 to 31, in the order of these numbers."""
    owner = get(tree, name)
    return [(n, owner[str(n)]) for n in range(32) if str(n) in owner] if isinstance(owner, dict) else []


def tree_in(image, found):
    """The JSON text of the header that is listed, if it has one."""
    if found["version"] == 1:
        return None
    start = (found["header_size"] if found["header"] == "secondary" else 0) + 4096
    return tree_of(image[start:start + found["header_size"] - 4096])


def object1(image):
    _, _, name, mode, hash_, payload, key_bytes, digest, salt, iterations, uuid = HEADER1.unpack(image[:208])
    cipher, hash_ = f"{shown(name)}-{shown(mode)}", shown(hash_)
    slots = []
    for number in range(8):
        _, count, slot_salt, area, stripes = SLOT1.unpack_from(image, 208 + 48 * number)
        slots.append({
            "number": number, "priority": 1, "key_bytes": key_bytes, "kdf": "pbkdf2", "hash": hash_,
            "salt": slot_salt.hex(), "iterations": count, "time": None, "memory": None, "threads": None,
            "af_hash": hash_, "stripes": stripes, "area_cipher": cipher, "area_key_bytes": key_bytes,
            "area_offset": 512 * area, "area_size": -(-key_bytes * stripes // 512) * 512, "tokens": []})
    return {
        "version": 1, "uuid": shown(uuid), "label": None, "subsystem": None, "header": None, "other_header": None,
        "seqid": None, "header_size": None, "checksum_hash": None, "salt": None, "cipher": cipher,
        "key_bytes": key_bytes, "sector_size": 512, "iv_tweak": 0, "segment_offset": 512 * payload,
        "segment_size": "dynamic", "segment_type": None, "segment_flags": [], "integrity": None, "flags": [],
        "requirements": [], "slots": slots, "tokens": [], "digests": [{
            "number": 0, "type": "pbkdf2", "hash": hash_, "salt": salt.hex(), "iterations": iterations,
            "digest": digest.hex(), "bytes": 20, "keyslots": [], "segments": []}]}


def slot2(number, slot, tokens):
    priority = 1 if not isinstance(slot, dict) or "priority" not in slot else whole(slot, "priority")
    return {
        "number": number, "priority": priority, "key_bytes": whole(slot, "key_size"), "kdf": text(slot, "kdf", "type"),
        "hash": text(slot, "kdf", "hash"), "salt": digits(slot, "kdf", "salt"),
        "iterations": whole(slot, "kdf", "iterations"), "time": whole(slot, "kdf", "time"),
        "memory": whole(slot, "kdf", "memory"), "threads": whole(slot, "kdf", "cpus"),
        "af_hash": text(slot, "af", "hash"), "stripes": whole(slot, "af", "stripes"),
        "area_cipher": text(slot, "area", "encryption"), "area_key_bytes": whole(slot, "area", "key_size"),
        "area_offset": decimal(slot, "area", "offset"), "area_size": decimal(slot, "area", "size"),
        "tokens": [{"number": each["number"], "type": each["type"]} for each in tokens
                   if str(number) in each["keyslots"]]}


def digest2(number, digest):
    value = digits(digest, "digest")
    return {
        "number": number, "type": text(digest, "type"), "hash": text(digest, "hash"), "salt": digits(digest, "salt"),
        "iterations": whole(digest, "iterations"), "digest": value, "bytes": None if value is None else len(value) // 2,
        "keyslots": texts(digest, "keyslots"), "segments": texts(digest, "segments")}


def token2(number, token):
    return {"number": number, "type": text(token, "type"), "keyslots": texts(token, "keyslots"),
            "stored": None if holds_float(token) else token}


def holds_float(value):
    if isinstance(value, (dict, list)):
        return any(map(holds_float, value.values() if isinstance(value, dict) else value))
    return isinstance(value, Float)


def object2(image, role):
    """The header of this role. For the other one it is not said what is wrong."""
    size = HEADER2.unpack_from(image)[2] if role == "primary" else second_size(image)
    start = 0 if role == "primary" else size
    _, _, size, seqid, label, checksum, salt, uuid, subsystem, _ = HEADER2.unpack_from(image, start)
    tree = tree_of(image[start + 4096:start + size])
    segment = get(tree, "segments", "0")
    length = text(segment, "size")
    tokens = [token2(*each) for each in numbered(tree, "tokens")]
    sizes = [whole(slot, "key_size") for _, slot in numbered(tree, "keyslots") if text(slot, "type") == "luks2"]
    return {
        "version": 2, "uuid": shown(uuid), "label": shown(label), "subsystem": shown(subsystem), "header": role,
        "seqid": seqid, "header_size": size, "checksum_hash": checksum.partition(b"\0")[0].decode().lower(),
        "salt": salt.hex(), "cipher": text(segment, "encryption"),
        "key_bytes": next((each for each in sizes if each is not None), None),
        "sector_size": whole(segment, "sector_size"), "iv_tweak": decimal(segment, "iv_tweak"),
        "segment_offset": decimal(segment, "offset"),
        "segment_size": length if length == "dynamic" else decimal(segment, "size"),
        "segment_type": text(segment, "type"), "segment_flags": texts(segment, "flags"),
        "integrity": text(segment, "integrity", "type"), "flags": texts(tree, "config", "flags"),
        "requirements": texts(tree, "config", "requirements", "mandatory"),
        "slots": [slot2(n, slot, tokens) for n, slot in numbered(tree, "keyslots")],
        "digests": [digest2(n, digest) for n, digest in numbered(tree, "digests")], "tokens": tokens}


def second_size(image):
    """Where the secondary header begins: its length is also its offset."""
    return next(size for size in (16384 << n for n in range(9)) if image[size:size + 6] == b"SKUL\xba\xbe"
                and int.from_bytes(image[size + 8:size + 16], "big") == size)


def read_anew(image, role):
    """The object of the header at the start of these bytes."""
    return object1(image) if role is None else object2(image, role)
