"""Key slots by Argon2 that are written here, with tags of the program argon2: cryptsetup takes at least four passes and
at most four lanes. The key material is that of a slot by PBKDF2, which cryptsetup split into stripes."""
import base64
import ctypes
import functools
import hashlib
import typing

import volumes
from support import must

SECTOR = 512


class Cost(typing.NamedTuple):
    """The parameters of Argon2 of a key slot."""

    kind: str
    time: int
    memory: int  # in KiB
    cpus: int
    salt: str = "a salt of its own"

    def members(self):
        return {"type": self.kind, "time": self.time, "memory": self.memory, "cpus": self.cpus,
                "salt": base64.b64encode(self.salt.encode()).decode()}

    def tag(self, secret, size):
        """The key of so many bytes that this gives for a passphrase."""
        printed = must("argon2", self.salt, "-id" if self.kind == "argon2id" else "-i", "-v", "13", "-r", "-t",
                       str(self.time), "-k", str(self.memory), "-p", str(self.cpus), "-l", str(size), stdin=secret)
        return bytes.fromhex(printed.decode().strip())


@functools.cache
def _crypto():
    """OpenSSL's library, which cryptsetup uses."""
    library = ctypes.CDLL("libcrypto.so.3")
    for name in "EVP_CIPHER_CTX_new", "EVP_aes_128_xts", "EVP_aes_256_xts":
        getattr(library, name).restype = ctypes.c_void_p
    library.EVP_CipherInit_ex.argtypes = [*[ctypes.c_void_p] * 3, ctypes.c_char_p, ctypes.c_char_p, ctypes.c_int]
    library.EVP_CipherUpdate.argtypes = [ctypes.c_void_p, ctypes.c_char_p, ctypes.c_void_p, ctypes.c_char_p,
                                         ctypes.c_int]
    return library


def aes_xts(key, content, encrypts):
    """Whole sectors under aes-xts-plain64, from number 0 on."""
    library, done = _crypto(), []
    kind = {32: library.EVP_aes_128_xts, 64: library.EVP_aes_256_xts}[len(key)]()
    context, buffer, length = library.EVP_CIPHER_CTX_new(), ctypes.create_string_buffer(SECTOR), ctypes.c_int()
    for number in range(len(content) // SECTOR):
        sector = content[number * SECTOR:(number + 1) * SECTOR]
        assert library.EVP_CipherInit_ex(context, kind, None, key, number.to_bytes(16, "little"), int(encrypts))
        assert library.EVP_CipherUpdate(context, buffer, ctypes.byref(length), sector, SECTOR)
        assert length.value == SECTOR
        done.append(buffer.raw)
    library.EVP_CIPHER_CTX_free(ctypes.c_void_p(context))
    return b"".join(done)


def pbkdf2_key(slot, secret):
    """The key that PBKDF2 derives for a key slot of LUKS2."""
    kdf = slot["kdf"]
    return hashlib.pbkdf2_hmac(kdf["hash"], secret, base64.b64decode(kdf["salt"]), kdf["iterations"],
                               slot["area"]["key_size"])


def rewrite(image, number, before, secret, cost):
    """Makes a slot by Argon2 of this one by PBKDF2, which the passphrase `before` opens; then `secret` does. Gives the
    key that Argon2 derives."""
    slot = volumes.metadata(image)[0]["keyslots"][number]
    area = slot["area"]
    assert (slot["kdf"]["type"], area["encryption"]) == ("pbkdf2", "aes-xts-plain64")
    offset, size = int(area["offset"]), int(area["size"])
    with open(image, "rb") as file:
        file.seek(offset)
        material = aes_xts(pbkdf2_key(slot, before), file.read(size), False)
    tag = cost.tag(secret, area["key_size"])
    volumes.overwrite(image, offset, aes_xts(tag, material, True))
    volumes.edit_metadata(image, lambda tree: tree["keyslots"][number].update(kdf=cost.members()))
    return tag
