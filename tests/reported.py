"""What cryptsetup reports about a header: as the object that luksrd-audit lists, and as luksrd's
dump.

cryptsetup prints neither the hash function of the checksum nor the salt of the binary header, so
these two are taken from the bytes that the standard gives for them (LUKS2 On-Disk Format
Specification 1.1, section 2.1). Of a disabled key slot of LUKS1 it reports nothing more."""
import base64
import json
import re
import shutil
import tempfile
from pathlib import Path

from volumes import cryptsetup


def digits(text):
    """The bytes of a dump, which stand on several lines, as hexadecimal digits without spaces."""
    return "".join(text.split())


def fields_in(dump, indent=""):
    """The fields of a dump by their names. Bytes go on in lines of their own."""
    bytes_after = r"(?:\n[ \t]+(?:[0-9a-f]{2} ?)+$)*"
    return dict(re.findall(rf"^{indent}([A-Z][A-Za-z ]*):[ \t]*(.*{bytes_after})", dump, re.M))


def slot1(number, text, header):
    """A key slot of LUKS1, whose key material fills whole sectors."""
    if text.startswith("DISABLED"):
        return {"number": number, "state": "disabled"}
    fields = fields_in(text, "\t")
    stripes = int(fields["AF stripes"])
    return {
        "number": number, "priority": 1, "key_bytes": header["key_bytes"], "kdf": "pbkdf2",
        "hash": header["hash"], "salt": digits(fields["Salt"]),
        "iterations": int(fields["Iterations"]), "time": None, "memory": None, "threads": None,
        "af_hash": header["hash"], "stripes": stripes, "area_cipher": header["cipher"],
        "area_key_bytes": header["key_bytes"],
        "area_offset": 512 * int(fields["Key material offset"]),
        "area_size": -(-header["key_bytes"] * stripes // 512) * 512, "tokens": []}


def object1(dump):
    """The object of a LUKS1 header."""
    first, *slots = re.split(r"^Key Slot (\d): ", dump, flags=re.M)
    fields = fields_in(first)
    header = {"cipher": f"{fields['Cipher name']}-{fields['Cipher mode']}",
              "key_bytes": int(fields["MK bits"]) // 8, "hash": fields["Hash spec"]}
    digest = {
        "number": 0, "type": "pbkdf2", "hash": header["hash"], "salt": digits(fields["MK salt"]),
        "iterations": int(fields["MK iterations"]), "digest": digits(fields["MK digest"]),
        "bytes": 20, "keyslots": [], "segments": []}
    return {
        "version": int(fields["Version"]), "offset": 0, "uuid": fields["UUID"], "label": None,
        "subsystem": None, "header": None, "other_header": None, "seqid": None,
        "header_size": None, "checksum_hash": None, "salt": None, "cipher": header["cipher"],
        "key_bytes": header["key_bytes"], "sector_size": 512, "iv_tweak": 0,
        "segment_offset": 512 * int(fields["Payload offset"]), "segment_size": "dynamic",
        "segment_type": None, "segment_flags": [], "integrity": None, "flags": [],
        "requirements": [], "digests": [digest], "tokens": [],
        "slots": [slot1(int(n), text, header) for n, text in zip(slots[::2], slots[1::2])]}


def hexadecimal(text):
    return base64.b64decode(text, validate=True).hex()


def tokens_of(number, tokens):
    """The tokens that name the key slot of this number."""
    return [{"number": each["number"], "type": each["type"]} for each in tokens if str(number) in each["keyslots"]]


def slot2(number, slot, tokens):
    """A key slot of LUKS2."""
    kdf, af, area = slot["kdf"], slot["af"], slot["area"]
    return {
        "number": number, "priority": slot.get("priority", 1), "key_bytes": slot["key_size"],
        "kdf": kdf["type"], "hash": kdf.get("hash"), "salt": hexadecimal(kdf["salt"]),
        "iterations": kdf.get("iterations"), "time": kdf.get("time"), "memory": kdf.get("memory"),
        "threads": kdf.get("cpus"), "af_hash": af["hash"], "stripes": af["stripes"],
        "area_cipher": area["encryption"], "area_key_bytes": area["key_size"],
        "area_offset": int(area["offset"]), "area_size": int(area["size"]), "tokens": tokens_of(number, tokens)}


def digest2(number, digest):
    value = hexadecimal(digest["digest"])
    return {**digest, "number": number, "salt": hexadecimal(digest["salt"]), "digest": value,
            "bytes": len(value) // 2}


def token2(number, token):
    return {"number": number, "type": token["type"], "keyslots": token["keyslots"],
            "stored": token}


def numbered(make, listed):
    """The items of an object whose names are numbers."""
    return [make(number, listed[str(number)]) for number in sorted(map(int, listed))]


def object2(dump, tree, image, role, other):
    """The object of a LUKS2 header. ROLE says which of both headers is listed, and OTHER what is
    wrong with the other one."""
    fields, segment = fields_in(dump), tree["segments"]["0"]
    tokens = numbered(token2, tree["tokens"])
    slots = numbered(lambda number, slot: slot2(number, slot, tokens), tree["keyslots"])
    size = int(fields["Metadata area"].split()[0])
    binary = image[size if role == "secondary" else 0:][:512]
    return {
        "version": int(fields["Version"]), "offset": 0, "uuid": fields["UUID"],
        "label": fields["Label"].replace("(no label)", ""),
        "subsystem": fields["Subsystem"].replace("(no subsystem)", ""), "header": role,
        "other_header": other, "seqid": int(fields["Epoch"]), "header_size": size,
        "checksum_hash": binary[72:104].split(b"\0")[0].decode(), "salt": binary[104:168].hex(),
        "cipher": segment["encryption"], "key_bytes": slots[0]["key_bytes"] if slots else None,
        "sector_size": segment["sector_size"], "iv_tweak": int(segment["iv_tweak"]),
        "segment_offset": int(segment["offset"]),
        "segment_size": segment["size"] if segment["size"] == "dynamic" else int(segment["size"]),
        "segment_type": segment["type"], "segment_flags": segment.get("flags", []),
        "integrity": segment.get("integrity", {}).get("type"), "flags": tree["config"].get("flags", []),
        "requirements": tree["config"].get("requirements", {}).get("mandatory", []),
        "slots": slots, "digests": numbered(digest2, tree["digests"]),
        "tokens": tokens}


def reported(header, image=None, role="primary", other=None):
    """The object of the header in a file, as cryptsetup reports it about a copy, since it repairs
    what it reads. IMAGE has the payload if the header is detached."""
    with tempfile.TemporaryDirectory() as folder:
        copy = Path(shutil.copy(header, folder))
        names = ("--header", copy, image) if image else (copy,)
        dump = cryptsetup("luksDump", *names)
        if re.search(r"^Version:\s+1$", dump, re.M):
            return object1(dump)
        tree = cryptsetup("luksDump --dump-json-metadata", *names)
    return object2(dump, json.loads(tree), Path(header).read_bytes(), role, other)


def dump1(header):
    """The lines of the dump of a LUKS1 header."""
    [digest] = header["digests"]
    yield f"Version: 1\nUUID: {header['uuid']}\nCipher: {header['cipher']}"
    yield f"Hash: {digest['hash']}\nPayload offset: {header['segment_offset'] // 512}"
    yield f"Key bytes: {header['key_bytes']}\nMK digest: {digest['digest']}"
    yield f"MK salt: {digest['salt']}\nMK iterations: {digest['iterations']}"
    for slot in header["slots"]:
        if "state" in slot:
            yield f"Slot {slot['number']}: DISABLED"
        else:
            yield (f"Slot {slot['number']}: ENABLED iterations={slot['iterations']} "
                   f"salt={slot['salt']} offset={slot['area_offset'] // 512} "
                   f"stripes={slot['stripes']}")


def dump2(header):
    """The lines of the dump of a LUKS2 header whose slots are usable if they are by PBKDF2."""
    yield f"Version: 2\nHeader: {header['header']}\nSequence: {header['seqid']}"
    yield f"Header size: {header['header_size']}\nUUID: {header['uuid']}"
    yield f"Label: {header['label']}\nSubsystem: {header['subsystem']}\nChecksum: sha256"
    for slot in header["slots"]:
        if slot["kdf"] == "pbkdf2":
            yield (f"Slot {slot['number']}: USABLE priority={slot['priority']} kdf=pbkdf2 "
                   f"hash={slot['hash']} iterations={slot['iterations']} "
                   f"offset={slot['area_offset']} size={slot['area_size']}")
        else:
            yield f"Slot {slot['number']}: SKIPPED {slot['kdf']}"
    yield (f"Segment 0: offset={header['segment_offset']} size={header['segment_size']} "
           f"iv={header['iv_tweak']} encryption={header['cipher']} "
           f"sector={header['sector_size']}")
    for digest in header["digests"]:
        yield (f"Digest {digest['number']}: USABLE hash={digest['hash']} "
               f"iterations={digest['iterations']} bytes={digest['bytes']} "
               f"keyslots={','.join(digest['keyslots'])} segments={','.join(digest['segments'])}")


def dump_of(header):
    """luksrd's dump of the header with this object."""
    lines = dump1(header) if header["version"] == 1 else dump2(header)
    return "".join(f"{line}\n" for line in lines)
