"""Keys that luks_kdf derives, beside those of Python's hashlib (OpenSSL)."""
import hashlib

import pytest

LENGTHS = range(1, 513)


@pytest.mark.parametrize("iterations", [1, 2, 3, 1000])
@pytest.mark.parametrize("hash_", ["sha1", "sha224", "sha256", "sha384", "sha512"])
def test_keys_of_each_length(each_tools, hash_, iterations):
    """Each line of the tool is the work, a time and a key; a shorter key is a prefix of a longer
    one."""
    ended = each_tools(f"derive {hash_} {iterations}", *map(str, LENGTHS))
    key = hashlib.pbkdf2_hmac(hash_, b"passphrase", b"0123456789abcdef", iterations, 512).hex()
    size = hashlib.new(hash_).digest_size
    assert ended.status == 0
    assert [line.split()[::2] for line in ended.message.splitlines()] == [
        [str(iterations * -(-length // size)), key[:2 * length]] for length in LENGTHS]
