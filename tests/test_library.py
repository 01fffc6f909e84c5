"""The library for C: small programs over luksrd.h write the plaintext of volumes of all kinds, with
luksCat's messages. The one in C is built with AddressSanitizer and also run under valgrind; it
prints each field of a volume, compares volume keys with headers, and reads ranges by luksrd_read.
Calls leave no part of a key on the stack. What luksrd.h declares is what the library's source does,
and its man pages state."""

import base64
import hashlib
import os
import random
import re
import shutil

import border
import pytest
import volumes
from argon2_slots import Cost, rewrite
from kinds import CUT, LUKS1, NO_LUKS, REFUSED, VOLUME1, VOLUME2, each_kind
from support import TOP, USAGE, expect, must, needs, run, runs_v3
from volumes import cryptsetup

pytestmark = needs("gcc")
STRICT = ["-Wall", "-Wextra", "-Werror"]
GCC = ["gcc", "-std=c11", "-D_GNU_SOURCE", *STRICT]
SANITIZED = ["-fsanitize=address,undefined", "-fno-sanitize-recover=all"]
VALGRIND = ["valgrind", "-q", "--error-exitcode=98", "--leak-check=full",
            "--errors-for-leak-kinds=definite"]
BEFORE = "luksrd: image ends before the payload"
@pytest.fixture
def build(cached, library):
    """build(NAME, SOURCE, ARGUMENT..) gives a program in C, with these arguments for gcc."""
    def get(name, source, *arguments):
        command = [*GCC, "-O1", "-g", f"-I{TOP}/c", TOP / "tests" / source, *arguments, "-lpthread"]
        return cached(name, lambda path: must(*command, "-o", path))

    return get


def program_of(name, build, library, folder):
    """The program in C over one of the libraries, with the command before it and its environment."""
    archive = library.with_name("libluksrd.a")
    if name == "valgrind":
        return [*VALGRIND, build("library-checked", "library.c", archive)], {}
    if name == "AddressSanitizer":
        return [build("library-sanitized", "library.c", archive, *SANITIZED)], {}
    if name.endswith("v3") and not runs_v3():
        pytest.skip("this processor is older")
    built = library if name.endswith("v2") else library.parent / "glibc-hwcaps/x86-64-v3/libluksrd.so.2"
    # a folder for this library alone
    shutil.copy(built, folder / "libluksrd.so.2")
    return [build("library-shared", "library.c", library)], {"LD_LIBRARY_PATH": str(folder)}


@pytest.fixture(params=["AddressSanitizer", "x86-64-v2", "x86-64-v3"])
def in_c(request, build, library, kinds, tmp_path):
    """Runs the program in C, over the archive and over each shared library."""
    command, more = program_of(request.param, build, library, tmp_path)
    return lambda *arguments: run(*command, *arguments, cwd=kinds.folder, env=os.environ | more)


@pytest.fixture(params=["luksCat", "AddressSanitizer", "valgrind", "x86-64-v2", "x86-64-v3"])
def reader(request, build, library, luksrd, kinds, tmp_path):
    """Runs what reads a volume: reader(IMAGE, HEADER or "-", KEY FILE)."""
    name = request.param
    if name == "luksCat":
        # (of an empty payload it writes nothing, as a program would that does nothing)
        expect(luksrd("--help"), message=USAGE, status=1)
        return lambda image, header, key: luksrd(
            "luksCat --key-file", key, *([] if header == "-" else ["--header", header]), image,
            cwd=kinds.folder)
    command, more = program_of(name, build, library, tmp_path)
    if name == "valgrind" and not shutil.which("valgrind"):
        pytest.skip("valgrind is not installed")
    return lambda *arguments: run(*command, *arguments, cwd=kinds.folder, env=os.environ | more)


@each_kind
def test_kinds(reader, kind, kinds):
    """The program in C also reads each sector by itself and 200 ranges from several threads, passes
    structs with any bytes, and makes calls that are refused."""
    ended = reader(kind.image, kind.header or "-", kind.key)
    expect(ended, kinds.text(kind.image), kind.message, 4 if kind.message else 0)


@pytest.mark.parametrize("image, options, message, status", [
    *((image, options, message, status) for image, options, _, status, message in REFUSED
      if not {"key_slot", "max_iterations"} & options.keys()),
    *(("empty", {"header": image}, BEFORE, 4) for image in (VOLUME1, VOLUME2)),
    *((image, {"header": image}, "", 0) for image in (VOLUME1, VOLUME2))], ids=str)
def test_openings(reader, kinds, image, options, message, status):
    ended = reader(image, options.get("header", "-"), options.get("key_file", "pass"))
    expect(ended, b"" if message else kinds.text(image), message, status)


# ---- each field of a volume

FIXED = """\
offset=528384 size=12884901888 iv_tweak=8 has_size=1 sector_size=4096 mode=1 key_size=32 \
key_slot=5 reserved=0 key=KEY
0: len=0 code=12 bytes=0 status=4 luksrd: image ends before the payload
528383: len=0 code=12 bytes=0 status=4 luksrd: image ends before the payload
528384: len=0 code=14 bytes=12884901888 status=4 BEFORE
4294967295: len=4294434816 code=14 bytes=8590462977 status=4 BEFORE
4294967296: len=4294438912 code=14 bytes=8590462976 status=4 BEFORE
5368709120: len=5368180736 code=14 bytes=7516721152 status=4 BEFORE
12885430271: len=12884897792 code=14 bytes=1 status=4 BEFORE
12885430272: len=12884901888 code=0 bytes=0 status=0 \n\
18446744073709551615: len=12884901888 code=0 bytes=0 status=0 \n"""
DYNAMIC = """\
offset=528384 size=0 iv_tweak=8 has_size=0 sector_size=4096 mode=1 key_size=32 \
key_slot=5 reserved=0 key=KEY
528383: len=0 code=12 bytes=0 status=4 luksrd: image ends before the payload
528384: len=0 code=0 bytes=0 status=0 \n\
4294967295: len=4294434816 code=13 bytes=4095 status=4 INSIDE
4294967296: len=4294438912 code=0 bytes=0 status=0 \n\
5368709820: len=5368180736 code=13 bytes=700 status=4 INSIDE
18446744073709551615: len=18446744073709019136 code=13 bytes=4095 status=4 INSIDE
"""
SENTENCES = {"BEFORE": r"luksrd: image ends \1 bytes before the segment does",
             "INSIDE": r"luksrd: image ends inside a sector: \1 bytes left over"}


def with_fields(path, size):
    """A payload of this size in sectors of 4,096 bytes, of which the image has the first five, from
    the second page of the plaintext on; a passphrase opens slot 5."""
    plain = (path.parent / "kinds/plain").read_bytes()[:24576]
    path.write_bytes(plain + bytes(1 << 20))
    options = f"--key-file {path.parent}/kinds/pass --pbkdf pbkdf2 --pbkdf-force-iterations 1000"
    cryptsetup("reencrypt --encrypt --type luks2 --reduce-device-size 1M --force-offline-reencrypt "
               "--luks2-metadata-size 16k --luks2-keyslots-size 256k --cipher aes-xts-plain64 "
               f"--key-size 256 --sector-size 4096 {options}", path)
    cryptsetup(f"luksAddKey --key-slot 5 {options}", path, path.parent / "kinds/pass2")
    os.truncate(path, 548864)
    volumes.edit_segment(path, size=size, iv_tweak="8", offset="528384")


@pytest.mark.parametrize("size, wanted", [("12884901888", FIXED), ("dynamic", DYNAMIC)],
                         ids=["a fixed size", "no fixed size"])
def test_fields(in_c, kinds, tmp_path, size, wanted):
    """As cryptsetup made them; the lengths are worked out from the numbers in the header."""
    (tmp_path / "kinds").symlink_to(kinds.folder)
    image, key = tmp_path / "image", tmp_path / "key"
    with_fields(image, size)
    cryptsetup("luksDump --dump-volume-key --volume-key-file", key, "--key-file", kinds / "pass", image)
    assert key.stat().st_size == 32
    wanted = wanted.replace("KEY", key.read_bytes().hex() + "0" * 64)
    for word, sentence in SENTENCES.items():
        wanted = re.sub(rf"(?<=bytes=)(\d+)( status=4 ){word}", rf"\1\2{sentence}", wanted)
    lengths = re.findall(r"^(\d+): ", wanted, re.MULTILINE)
    expect(in_c("fields", image, kinds / "pass2", *lengths), wanted)


def test_a_header_that_ends_in_an_area_of_argon2(in_c, kinds, tmp_path):
    """The key areas of all slots that are tried are needed, also if an earlier slot opens: slot 0 here."""
    cut = tmp_path / "cut"
    cut.write_bytes(kinds.head_of_argon2())

    def ends(slot, memory, none, message=""):
        expect(in_c("limited", "argon2", cut, "pass", slot, memory, "0", none),
               b"" if message else kinds.text("argon2"), message, 4 if message else 0)

    ends("-", "0", "0", CUT)
    ends("-", "32", "0", CUT)
    ends("-", "31", "0")
    ends("-", "0", "1")
    ends("0", "0", "0")


def test_a_fixed_size_is_read(reader, kinds, tmp_path):
    (tmp_path / "kinds").symlink_to(kinds.folder)
    with_fields(tmp_path / "image", "12884901888")
    expect(reader(tmp_path / "image", "-", "pass2"), (kinds / "plain").read_bytes()[4096:24576],
           "luksrd: image ends 12884881408 bytes before the segment does", 4)


# ---- reading by luksrd_read

def ranges(size, count):
    """Pairs of an offset and a length: at both ends, within sectors and over many of them."""
    chance = random.Random(count)
    found = [(0, size), (0, 0), (size, 0), (size - 1, 1), (511, 2), (262143, 2), (1, size - 2)]
    while len(found) < count:
        offset = chance.randrange(size)
        longest = min(size - offset, chance.choice((600, 5000, 700000)))
        found.append((offset, chance.randrange(longest + 1)))
    return found


@pytest.mark.parametrize("most", [1 << 30, 1000])
def test_read(in_c, kinds, most):
    """The bytes are those that were encrypted, however few a call gives."""
    text = kinds.text(VOLUME1)
    wanted = ranges(len(text), 40)
    ended = in_c("read", VOLUME1, "pass", str(most), "0", *(f"{at}:{count}" for at, count in wanted))
    expect(ended, b"".join(text[at:at + count] for at, count in wanted))


@pytest.mark.parametrize("most, fails, range_, message, status", [
    (1 << 30, 2, "0:300032", "luksrd_read: Input/output error", 100 - 1),
    # the image has ended
    (0, 0, "0:5000", "luksrd_read: Success", 100 - 1),
    # past the plain text: nothing is read. LUKSRD_BAD_RANGE is 17
    *((1 << 30, 1, range_, "", 100 + 17) for range_ in ("0:300033", "300032:1", f"{2 ** 64 - 1}:2"))])
def test_read_that_fails(in_c, most, fails, range_, message, status):
    """Nothing is given, and the error number is that of the call."""
    expect(in_c("read", VOLUME1, "pass", str(most), str(fails), range_), b"", message, status)


def test_modes(in_c):
    """Their names are those by which cryptsetup has made a volume of each, and lead back to the
    same numbers."""
    names = dict.fromkeys(f"aes-{cipher}" for cipher, _ in LUKS1)
    lines = [f"{number} {name} {number}" for number, name in enumerate(names, 1)]
    expect(in_c("modes"), "\n".join([*lines, "0 0", ""]))


# ---- volume keys

KEY = bytes(range(7, 71))
OTHER = "18 2 luksrd: volume key does not match the digest in the header\n"
NONE = "19 1 luksrd: no digest to compare the volume key with\n"
SAME = "0 0 \n"


@pytest.fixture(params=["luks1", "luks2"])
def of_key(request, cached, kinds):
    return make_of_key(request.param, cached, kinds)


def make_of_key(kind, cached, kinds):
    """A volume whose volume key is given to cryptsetup; it may give the digest more iterations than
    it was asked for."""
    def make(path):
        volumes.empty_file(path, 20 << 20)
        (path.parent / "the-key").write_bytes(KEY)
        cryptsetup(f"luksFormat --type {kind} --pbkdf pbkdf2 --pbkdf-force-iterations 1000 "
                   "--cipher aes-xts-plain64 --key-size 512 --volume-key-file the-key --key-file",
                   kinds / "pass", path, cwd=path.parent)

    return cached(f"of-key-{kind}", make)


def finds(in_c, image, key, folder, limit=0, header="-"):
    file = folder / "key"
    file.write_bytes(key)
    return in_c("key", image, header, file, str(limit))


@pytest.mark.parametrize("key, wanted", [
    (KEY, SAME), (KEY[:63] + b"\0", OTHER), (KEY[:32], OTHER), (KEY + b"\0", OTHER), (b"", OTHER)],
    ids=["its key", "another", "half", "longer", "empty"])
def test_volume_key(in_c, of_key, tmp_path, key, wanted):
    expect(finds(in_c, of_key, key, tmp_path), wanted)


def test_volume_key_and_limit(in_c, of_key, tmp_path):
    said = cryptsetup("luksDump", of_key)
    found = re.search(r"MK iterations:\s*(\d+)|Digests:(?:.|\n)*?\tIterations: *(\d+)", said)
    iterations = int(found[1] or found[2])
    expect(finds(in_c, of_key, KEY, tmp_path, iterations), SAME)
    expect(finds(in_c, of_key, KEY, tmp_path, iterations - 1), NONE)


def test_volume_key_and_headers(in_c, of_key, tmp_path):
    expect(finds(in_c, "empty", KEY, tmp_path, header=of_key), SAME)
    erased = volumes.copy_of(of_key, tmp_path / "erased")
    cryptsetup("luksErase", erased)
    expect(finds(in_c, erased, KEY, tmp_path), SAME)
    expect(finds(in_c, "empty", KEY, tmp_path), f"1 4 {NO_LUKS}\n")
    if of_key.name.endswith("luks1"):
        os.truncate(erased, 500)
        expect(finds(in_c, erased, KEY, tmp_path), f"2 4 {CUT}\n")


def moved(tree, **members):
    """The digest is number 31; before it is one of another key with these members."""
    tree["digests"]["31"] = tree["digests"].pop("0")
    if members:
        tree["digests"]["4"] = tree["digests"]["31"] | {"digest": "AAAA" * 8} | members


def keep_a_prefix(tree):
    digest = tree["digests"]["0"]
    text = digest["digest"]
    digest["digest"] = text[:24] + "AAAA" * ((len(text) - 28) // 4) + text[-4:]


@pytest.mark.parametrize("change, wanted", [
    (moved, SAME),
    (lambda tree: moved(tree, segments=["1"]), SAME),
    (lambda tree: moved(tree, type="pbkdf2"), OTHER),
    (lambda tree: moved(tree, hash="md5"), SAME),
    (keep_a_prefix, OTHER),
    (lambda tree: tree["digests"]["0"].update(segments=[]), NONE),
    (lambda tree: tree["digests"].clear(), NONE),
    (lambda tree: tree["segments"]["0"].update(encryption="aes-ecb"),
     "4 1 luksrd: segment refused: encryption\n"),
    (lambda tree: tree.pop("digests"), "3 4 luksrd: LUKS2 JSON area is not readable\n"),
], ids=["of another number", "the first of another segment", "the first of another key",
        "the first not usable", "a prefix alone matches", "of no segment", "none",
        "a segment that is refused", "JSON that is not readable"])
def test_digests(in_c, cached, kinds, tmp_path, change, wanted):
    image = volumes.copy_of(make_of_key("luks2", cached, kinds), tmp_path / "image")
    volumes.edit_metadata(image, change)
    expect(finds(in_c, image, KEY, tmp_path), wanted)


# ---- where the headers end

UNKNOWN = 33554432


def expect_ends(in_c, image, **ends):
    """By so many first bytes of the image, its headers end there."""
    lengths = [name[1:] for name in ends]
    wanted = "".join(f"{length}: {end}\n" for length, end in zip(lengths, ends.values()))
    expect(in_c("headers", image, *lengths), wanted)


def test_headers_of_luks1(in_c, cached, kinds):
    image = make_of_key("luks1", cached, kinds)
    expect_ends(in_c, image, _0=UNKNOWN, _7=UNKNOWN, _8=592, _591=592, _592=592, _65536=592)


@pytest.mark.parametrize("size", [16384, 65536])
def test_headers_of_luks2(in_c, cached, kinds, tmp_path, size):
    """Both have the size that cryptsetup was asked for. One that is whole and valid is enough."""
    def make(path):
        cryptsetup("luksFormat --type luks2 --pbkdf pbkdf2 --pbkdf-force-iterations 1000 "
                   f"--luks2-metadata-size {size} --key-file", kinds / "pass", volumes.empty_file(path, 20 << 20))

    image = cached(f"headers-{size}", make)
    lengths = [0, 4096, size - 1, size, 2 * size - 1, 2 * size, 4 * size]
    valid_from = [(image, size)]
    # the first one is damaged, and the second one is found
    damaged = volumes.copy_of(image, tmp_path / "damaged")
    volumes.overwrite(damaged, 4096, b"!")
    valid_from.append((damaged, 2 * size))
    for file, least in valid_from:
        expect_ends(in_c, file, **{
            f"_{length}": 2 * size if length >= least else UNKNOWN for length in lengths})


def test_headers_of_noise(in_c, tmp_path):
    (tmp_path / "noise").write_bytes(random.Random(1).randbytes(1 << 20))
    expect_ends(in_c, tmp_path / "noise", _0=UNKNOWN, _592=UNKNOWN, _1048576=UNKNOWN)


# ---- the stack

SECRET = bytes(range(90, 130))
STACK = """\
luksrd_open: enough, no part of a key
luksrd_open, another passphrase: enough, no part of a key
luksrd_open, a long passphrase: enough, no part of a key
luksrd_open, a truncated header: enough, no part of a key
luksrd_open, bad options: enough, no part of a key
luksrd_check_key: enough, no part of a key
luksrd_check_key, another key: enough, no part of a key
luksrd_check_key, no header: enough, no part of a key
luksrd_check_key, bad options: enough, no part of a key
luksrd_open_by_key: enough, no part of a key
luksrd_open_by_key, another key: enough, no part of a key
luksrd_header_len: enough, no part of a key
luksrd_prepare: enough, no part of a key
luksrd_prepare, no volume: enough, no part of a key
luksrd_plan: enough, no part of a key
luksrd_finish: enough, no part of a key
luksrd_decrypt: enough, no part of a key
luksrd_decrypt, one sector: enough, no part of a key
luksrd_decrypt, a part of a sector: enough, no part of a key
a copy: enough, a part of a key
a copy, luksrd_wipe_stack: enough, no part of a key
a copy nearby, luksrd_wipe_stack: enough, no part of a key
"""


def derived_key(image):
    """The key that PBKDF2 derives for key slot 0."""
    header = image.read_bytes()
    if header[6:8] == b"\0\1":
        name, size = header[72:104].rstrip(b"\0").decode(), int.from_bytes(header[108:112], "big")
        salt, count = header[216:248], int.from_bytes(header[212:216], "big")
    else:
        slot = volumes.metadata(image)[0]["keyslots"]["0"]
        kdf, size = slot["kdf"], slot["area"]["key_size"]
        name, salt, count = kdf["hash"], base64.b64decode(kdf["salt"]), kdf["iterations"]
    return hashlib.pbkdf2_hmac(name, SECRET, salt, count, size)


def nest(tree):
    """The deepest JSON that is read."""
    for _ in range(126):
        tree["config"]["x"] = {"a": tree["config"]["x"]} if "x" in tree["config"] else 0


@pytest.mark.parametrize("kind, cipher, bits, hash_, change", [
    ("luks2", "aes-xts-plain64", 512, "sha256", None),
    ("luks1", "aes-cbc-essiv:sha256", 256, "sha512", None),
    ("luks2", "aes-cbc-plain64", 128, "sha1", None),
    ("luks2", "aes-xts-plain64", 512, "sha256", nest),
    pytest.param("luks2", "aes-xts-plain64", 512, "sha256", Cost("argon2id", 2, 80, 5),
                 marks=needs("argon2"))])
def test_stack(build, library, each_library, tmp_path, kind, cipher, bits, hash_, change):
    """Each call needs no more stack than luksrd.h states, and leaves no part of a secret on it."""
    image, secret, derived = (tmp_path / name for name in ("image", "secret", "derived"))
    secret.write_bytes(SECRET)
    volumes.empty_file(image, 20 << 20)
    cryptsetup(f"luksFormat --type {kind} --pbkdf pbkdf2 --pbkdf-force-iterations 1000 --cipher",
               cipher, "--key-size", str(bits), "--hash", hash_, "--key-file", secret, image)
    if isinstance(change, Cost):
        derived.write_bytes(rewrite(image, "0", SECRET, SECRET, change))
    else:
        derived.write_bytes(derived_key(image))
        if change:
            volumes.edit_metadata(image, change)
    shutil.copy(each_library, tmp_path / "libluksrd.so.2")
    # the loader saves registers on the stack when it looks up a function
    stack = build("stack", "stack.c", library, "-Wl,-z,now")
    expect(run(stack, image, secret, derived,
               env=os.environ | {"LD_LIBRARY_PATH": str(tmp_path)}), STACK)


# ---- what is declared, exported and installed

def test_declarations(tmp_path):
    rows = border.compared(tmp_path)
    assert len(rows) > 100
    assert [row for row in rows if row[1] != row[2]] == []


@pytest.mark.parametrize("command", [
    "gcc -std=c90 -pedantic -Wdeclaration-after-statement -xc", "gcc -std=c90 -pedantic -O2 -xc", "gcc -std=c99 -xc",
    "gcc -std=c17 -Wshadow -Wconversion -xc", "g++ -std=c++98 -xc++", "g++ -std=c++17 -O2 -xc++"])
def test_header_is_compiled(command, tmp_path):
    """In the old C and in C++ too, whether or not its functions are called."""
    if not shutil.which(command.split()[0]):
        pytest.skip(f"{command.split()[0]} is not installed")
    for body in "return 0;", ("return luksrd_read(0, 0, 0, 0, 0, 0, 0) + "
                              "(luksrd_mode_name(luksrd_mode_of(\"\")) != 0);"):
        source = tmp_path / "program"
        source.write_text(f"#include <luksrd.h>\nint main(void)\n{{\n  {body}\n}}\n")
        expect(run(*command.split(), *STRICT, "-Wno-nonnull", f"-I{TOP}/c", "-c", source, "-o", "/dev/null"))


@needs("mandoc")
def test_man_pages_of_section_3(tmp_path):
    """Each function of luksrd.h has one, with its prototype, and mandoc has nothing to say of them."""
    names = must(TOP / "packaging/manual", tmp_path / "man").decode().split()
    header = (TOP / "c/luksrd.h").read_text()
    exported = re.findall(r"^    (luksrd_\w+);$", (TOP / "c/luksrd.map").read_text(), re.MULTILINE)
    written = ["luksrd_mode_name", "luksrd_mode_of", "luksrd_read", "luksrd_wipe_stack"]
    assert sorted(names) == sorted(f"{name}.3" for name in ["luksrd", *exported, *written])
    assert sorted(path.name for path in (tmp_path / "man").iterdir()) == sorted(names)
    expect(run("mandoc", "-Tlint", "-Wwarning", *(tmp_path / "man").iterdir()))
    for name in exported + written:
        shown = re.sub(r".\x08", "", must("mandoc", "-Tutf8", tmp_path / f"man/{name}.3").decode())
        arguments = re.search(rf"{name}\(([^)]*)\)\s*(?:LUKSRD_\w+)?\s*[;{{]", header)[1]
        assert re.sub(r"\s", "", f"{name}({arguments});") in re.sub(r"\s", "", shown)
    whole = must("mandoc", "-Tascii", tmp_path / "man/luksrd.3").decode()
    for name in re.findall(r"^(?:struct|enum) (\w+) \{$", header, re.MULTILINE):
        assert f"{name} {{" in whole


NAMES = ["luksrd_check_key", "luksrd_decrypt", "luksrd_ending", "luksrd_finish",
         "luksrd_header_len", "luksrd_len", "luksrd_open", "luksrd_open_by_key", "luksrd_plan",
         "luksrd_prepare", "luksrd_status_text", "luksrd_version", "luksrd_wipe"]


@needs("nm", "readelf")
def test_exports(each_library):
    """It exports only the names of luksrd.h, in one version, and its code needs no relocation."""
    names = must("nm", "-D", "--defined-only", each_library).decode()
    assert sorted(line.split()[2] for line in names.splitlines()) == [
        "LUKSRD_2", *(f"{name}@@LUKSRD_2" for name in NAMES)]
    dynamic = must("readelf", "-d", each_library).decode()
    assert "TEXTREL" not in dynamic and "soname: [libluksrd.so.2]" in dynamic


@needs("nm")
def test_archive_exports(library):
    rows = must("nm", "-g", "--defined-only", library.with_name("libluksrd.a")).decode().splitlines()
    assert sorted(row.split()[2] for row in rows if len(row.split()) == 3) == NAMES


@needs("v3")
def test_libraries_differ(library):
    assert library.read_bytes() != (
        library.parent / "glibc-hwcaps/x86-64-v3/libluksrd.so.2").read_bytes()


@pytest.fixture
def installed(library, tmp_path, monkeypatch):
    """The library as it is installed, for gcc by the flags of pkg-config."""
    built = library.parent
    targets = [f"LIBRARY={built}/libluksrd.a", f"SHARED={library}", f"PREFIX={tmp_path}/installed",
               f"SHARED_V3={built}/glibc-hwcaps/x86-64-v3/libluksrd.so.2"]
    must("make", "-s", "-C", TOP, "install-library", *targets)
    folder = tmp_path / "installed/lib"
    monkeypatch.setenv("PKG_CONFIG_PATH", str(folder / "pkgconfig"))
    monkeypatch.setenv("LD_LIBRARY_PATH", str(folder))
    yield must("pkg-config", "--cflags", "--libs", "luksrd").decode().split()
    must("make", "-s", "-C", TOP, "uninstall", f"PREFIX={tmp_path}/installed", "PLUGINS=")
    assert not [path for path in folder.parent.rglob("*") if not path.is_dir()]


@needs("make", "pkg-config")
def test_installed(installed, kinds, tmp_path):
    program = tmp_path / "program"
    must(*GCC, "-o", program, TOP / "tests/library.c", *installed, "-lpthread")
    expect(run(program, VOLUME1, "-", "pass", cwd=kinds.folder), kinds.text(VOLUME1))
    version = must("make", "-s", "-C", TOP, "-f", "Makefile", "-f", "-", "version",
                   stdin=b"version:\n\t@echo $(VERSION)\n").decode()
    assert must("pkg-config", "--modversion", "luksrd").decode() == version
    stated = re.search(r"^#define LUKSRD_VERSION 0x(..)(..)(..)$",
                       (TOP / "c/luksrd.h").read_text(), re.MULTILINE)
    assert ".".join(str(int(digits, 16)) for digits in stated.groups()) == version.strip()


def example_in(language):
    """The example in LIBRARY.md in this language."""
    text = (TOP / "docs/LIBRARY.md").read_text()
    return re.search(rf"^```{language}\n(.*?)^```$", text, re.MULTILINE | re.DOTALL)[1]


@needs("make", "pkg-config")
def test_example_in_c(installed, tmp_path):
    """It reads the same volume as the example in Rattle, whose text is that of its program."""
    folder = TOP / "crates/example_read"
    (tmp_path / "first.c").write_text(example_in("c"))
    must(*GCC, "-o", "first", "first.c", *installed, cwd=tmp_path)
    shutil.copy(folder / "data/disk.img", tmp_path)
    expect(run("./first", cwd=tmp_path), (folder / "stdout").read_bytes())
    assert example_in("rust") in (folder / "src/main.rt").read_text()
