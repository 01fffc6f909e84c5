"""luksrd-rescue decrypt: the plaintext of volumes of all kinds, whole and in part, by passphrase and by volume key;
partitions and logical volumes. What is expected is what was encrypted, or what luksCat writes."""
import os
import random

import pytest
import volumes
from disks import raid
from kinds import BY_VOLUME_KEY, KINDS, VOLUME1, VOLUME2, volume_key_options
from rescuing import says
from support import must, needs, shown


# (the beginning of a volume up to its payload, or to less: as a backup of a header is)
HEADERS_ALONE = ["truncated at the payload", "truncated before the payload"]
each_with_a_payload = pytest.mark.parametrize(
    "kind", [kind for name, kind in KINDS.items() if name not in HEADERS_ALONE], ids=lambda kind: kind.image)


@pytest.mark.parametrize("image, role", [
    *((name, "a backup of a LUKS header, or a copy that ends before the payload") for name in HEADERS_ALONE),
    (VOLUME1, "a backup of a LUKS header"), (VOLUME2, "a backup of a LUKS header"),
    ("header1", "a detached LUKS header"), ("header2", "a detached LUKS header")])
def test_header_alone(rescue, kinds, tmp_path, image, role):
    """It has nothing to decrypt; the next command, with the disk that it belongs to, does that."""
    disk = {"header1": "detached1", "header2": "detached2", VOLUME2: VOLUME2}.get(image, VOLUME1)
    key = ["--key-file", kinds / KINDS[disk].key]
    if image == disk:
        volumes.cryptsetup("luksHeaderBackup --header-backup-file header", kinds / disk, cwd=tmp_path)
    else:
        volumes.copy_of(kinds / image, tmp_path / "header")
    ended = rescue("decrypt", "header", *key, "-o", "plain")
    says(ended, f"header: is {role}", status=4)
    assert not (tmp_path / "plain").exists()
    volumes.copy_of(kinds / disk, tmp_path / "disk.img")
    command = ended.message.rpartition(": luksrd-rescue ")[2].split()
    assert command == ["decrypt", "IMAGE", "--header", "header", "-o", "plain.img"]
    command[1] = "disk.img"
    says(rescue(*command, *key), status=0)
    assert (tmp_path / "plain.img").read_bytes() == kinds.text(disk)


@each_with_a_payload
@needs("cc")
def test_whole(rescue, luks_cat, kinds, kind, bad_sectors):
    """Also if each read and each write is a short one."""
    header = ["--header", kinds / kind.header] if kind.header else []
    wanted = luks_cat("--key-file", kinds / kind.key, *header, kinds / kind.image)
    for env in {}, bad_sectors(kinds / kind.image, [], most=1000):
        ended = rescue("decrypt", kinds / kind.image, "--key-file", kinds / kind.key, *header, "-o", "plain", "--force",
                       env=env)
        assert ended.status == wanted.status == (4 if kind.message else 0), ended
        assert kind.message.removeprefix("luksrd: ") in ended.message
        assert shown((rescue.folder / "plain").read_bytes()) == shown(wanted.output) == shown(kinds.text(kind.image))
        assert not (rescue.folder / "plain.map").exists()


@each_with_a_payload
@needs("cc")
def test_ranges(rescue, kinds, kind, bad_sectors):
    header = ["--header", kinds / kind.header] if kind.header else []
    chance, wanted = random.Random(kind.image), kinds.text(kind.image)
    for number in range(4):
        start = chance.randrange(len(wanted) + 1)
        length = chance.choice((0, 1, 511, 512, 4097, len(wanted))) % (len(wanted) - start + 1)
        ended = rescue("decrypt", kinds / kind.image, "--key-file", kinds / kind.key, *header, "--quiet", "--range",
                       f"{start}:{length}", "-o", f"part{number}",
                       env=bad_sectors(kinds / kind.image, [], most=1000) if number % 2 else {})
        assert ended.status in (0, 4), ended
        assert shown((rescue.folder / f"part{number}").read_bytes()) == shown(wanted[start:start + length])


# (the command has no options for the others)
HERE = [row for row in BY_VOLUME_KEY if not row[2].keys() & {"iv_offset", "size", "max_iterations", "header"}]


@pytest.mark.parametrize("of, image, options, first, end, message", HERE)
def test_volume_key(rescue, kinds, of, image, options, first, end, message):
    given = volume_key_options(of, options)
    words = ["--payload-offset", str(given["payload_offset"]), "--sector-size", str(given["sector_size"])]
    words += ["--cipher", given["cipher"]] if "cipher" in given else []
    ended = rescue("decrypt", kinds / image, "--volume-key-file", kinds / f"{of}.key", *words, "-o", "plain")
    assert ended.status == 0, ended
    is_lost = image.endswith(".lost") or bool(message)
    assert ("nothing tells whether the volume key" in ended.message) == is_lost
    assert (rescue.folder / "plain").read_bytes() == kinds.text(of)[first:end]


@pytest.mark.parametrize("image", [VOLUME1, VOLUME2, "of fixed size", "luks2 cbc-essiv:sha256 256 4096, further on"])
def test_volume_key_with_the_geometry_of_the_header(rescue, kinds, image):
    key = f"{VOLUME1}.key" if image == VOLUME1 else f"{VOLUME2}.key" if "xts" in image or "size" in image else \
        "luks2 cbc-essiv:sha256 256 4096.key"
    ended = rescue("decrypt", kinds / image, "--volume-key-file", kinds / key, "-o", "plain")
    assert ended.status == 0, ended
    assert (rescue.folder / "plain").read_bytes() == kinds.text(image)


def test_wrong_volume_key(rescue, kinds):
    ended = rescue("decrypt", kinds / VOLUME2, "--volume-key-file", kinds / "other_key", "-o", "plain")
    says(ended, "the volume key is not that of the header", status=2)
    assert not (rescue.folder / "plain").exists()


def test_key_slots_in_order(rescue, disk2):
    """The slot of higher priority first; a slot of priority 0 only if it is named."""
    volumes.cryptsetup("config --priority prefer --key-slot 1", disk2)
    ended = rescue("decrypt", disk2, "--key-file", "pass2", "-o", "plain")
    says(ended, "trying key slot 1 (PBKDF2, sha512", status=0)
    assert "key slot 0" not in ended.message
    volumes.cryptsetup("config --priority ignore --key-slot 0", disk2)
    says(rescue("decrypt", disk2, "--key-file", "pass", "-o", "plain2"), "(not tried: 0)", status=2)
    says(rescue("decrypt", disk2, "--key-file", "pass", "--key-slot", "0", "-o", "plain2"), status=0)


def test_partition(rescue, kinds, tmp_path):
    volumes.passphrases(tmp_path)
    content = (kinds / VOLUME2).read_bytes()
    disk = tmp_path / "disk.img"
    disk.write_bytes(bytes(1 << 20) + content + bytes(4 << 20))
    must("sfdisk", "-q", disk, stdin=f"label: gpt\nstart=2048, size={len(content) // 512}\nsize=2048\n".encode())
    for number, options in enumerate(([], ["--partition", "1"], ["--offset", "2048s", "--length", str(len(content))],
                                      ["--offset", "0x100000"])):
        ended = rescue("decrypt", disk, "--key-file", "pass", *options, "-o", f"plain{number}")
        assert ended.status == 0, ended
        plain = (tmp_path / f"plain{number}").read_bytes()
        # (without a length a volume ends with the disk)
        assert plain[:len(kinds.text(VOLUME2))] == kinds.text(VOLUME2)
        assert len(plain) == len(kinds.text(VOLUME2)) or number == 3
    with open(disk, "r+b") as file:
        file.truncate((1 << 20) + len(content) - 8192)
    ended = rescue("decrypt", disk, "--key-file", "pass", "--partition", "1", "-o", "short")
    says(ended, "image ends 8192 bytes before partition 1 does", status=4)
    assert (tmp_path / "short").read_bytes() == kinds.text(VOLUME2)[:-8192]


@pytest.mark.parametrize("words", [["decrypt", "disk.img", "-o", "plain"], ["try", "disk.img", "--candidates", "pass"]],
                         ids=["decrypt", "try"])
def test_several_volumes(rescue, kinds, tmp_path, words):
    """They are listed, and none is opened."""
    volumes.passphrases(tmp_path)
    one, two = (kinds / VOLUME1).read_bytes(), (kinds / VOLUME2).read_bytes()
    sectors = [len(it) // 512 for it in (one, two)]
    disk = tmp_path / "disk.img"
    disk.write_bytes(bytes(1 << 20) + one + two + bytes(1 << 20))
    must("sfdisk", "-q", disk, stdin=f"label: dos\nstart=2048, size={sectors[0]}\nstart={2048 + sectors[0]}, "
         f"size={sectors[1]}\n".encode())
    ended = rescue(*words)
    says(ended, "disk.img: it has 2 LUKS volumes; add one of\n    --partition 1: ", "\n    --partition 2: ", status=1)
    assert (ended.output, (tmp_path / "plain").exists()) == (b"", False)


def test_many_threads_over_a_larger_volume(rescue, made2, tmp_path):
    """Pieces of 1 MiB come out in their order."""
    volumes.passphrases(tmp_path)
    plain = random.Random("larger").randbytes(9 << 20)
    volume = made2("aes-xts-plain64", 512, "--sector-size", "4096", plain=plain)
    assert rescue("decrypt", volume, "--key-file", "pass", "--range", f"0:{len(plain)}", "-o", "out").status == 0
    assert (rescue.folder / "out").read_bytes() == plain
    ended = rescue("decrypt", volume, "--key-file", "pass", "--range", f"777:{7 << 20}", "-o", "-")
    assert (ended.status, shown(ended.output)) == (0, shown(plain[777:777 + (7 << 20)]))


def test_holes(rescue, made2, tmp_path):
    """Blocks of zeros of the plaintext take no room in a file, and are written into a pipe."""
    volumes.passphrases(tmp_path)
    plain = random.Random("holes").randbytes(1 << 20) + bytes(6 << 20) + b"end".ljust(1 << 20, b"\0")
    volume = made2("aes-xts-plain64", 512, "--sector-size", "512", plain=plain)
    assert rescue("decrypt", volume, "--key-file", "pass", "--range", f"0:{len(plain)}", "-o", "out").status == 0
    out = rescue.folder / "out"
    assert out.read_bytes() == plain
    assert out.stat().st_blocks * 512 <= (1 << 20) + 8192
    ended = rescue("decrypt", volume, "--key-file", "pass", "--range", f"0:{len(plain)}", "-o", "-")
    assert ended.output == plain


def test_memory_of_a_long_run(rescue, disk1):
    """4 GiB whose payload is a hole: at most 64 MiB are in memory, whatever the image's size."""
    os.truncate(disk1, 4 << 30)
    ended = rescue("decrypt", disk1, "--key-file", "pass", "--quiet", "-o", "/dev/null", "--range", "0:1", env={})
    says(ended, "is neither a file nor a block device", status=1)
    ended = rescue("decrypt", disk1, "--key-file", "pass", "--quiet", "-o", "-", stdout=open("/dev/null", "wb"),
                   before=["/usr/bin/time", "-f", "%M", "-o", "memory"])
    assert ended.status == 0, ended
    assert int((rescue.folder / "memory").read_text()) < 150 << 10


# ---- refusals

NO_HEADER = "there is no LUKS header here; if there is a backup of it, name it by --header"
NOT_FOUND = "the library of luksrd is not found, or too old: install libluksrd2, or name its file by LUKSRD_LIBRARY ("


def of_script(*row):
    """A row for which it does not matter what is built."""
    return pytest.param(*row, marks=pytest.mark.of_script)


@pytest.mark.parametrize("line, change, message, status", [
    of_script("disk.img --partition 1", "", "disk.img: there is no partition table: choose the volume by --offset", 1),
    of_script("table.img --partition 9", "", "table.img: there is no partition 9, only 1, 2", 1),
    of_script("table.img --partition 1 --offset 0", "", "--partition: does not go with --offset and --length", 1),
    of_script("disk.img --offset 1G", "", "disk.img: --offset 1000000000 is not in it: it has 2400256 bytes", 1),
    of_script("disk.img --payload-offset 1", "", "--payload-offset: goes with --volume-key-file alone", 1),
    of_script("disk.img --volume-key-file pass --key-slot 1", "",
              "--key-slot: does not go with --volume-key-file", 1),
    of_script("disk.img --header disk.img", "os.environ['LUKSRD_AUDIT'] = '/bin/true'",
              "disk.img: luksrd-audit says nothing of it", 4),
    ("table.img --partition 2", "", f"table.img: {NO_HEADER}\n", 4),
    ("table.img --offset 0", "", f"table.img: {NO_HEADER}\n", 4),
    ("table.img --header disk.img", "", "table.img: it has partitions, and --header does not say of which one: add "
     "--partition with one of 1, 2", 1),
    ("table.img --offset 0 --volume-key-file pass", "", "table.img: there is no header to say where the payload "
     "begins: add --payload-offset (often 16Mi in LUKS2, 2Mi in LUKS1), and --cipher and --sector-size if they "
     "differ", 1),
    ("disk.img --volume-key-file pass", "", "pass: ", 1),
    ("disk.img --header pass", "", "pass: no LUKS header", 4),
    ("disk.img --key-slot 7", "", "disk.img: key slot 7 is not in use; in use: 0, 1", 1),
    ("disk.img --range 303104:1", "", "--range: ends at 303105, and there are 303104 bytes", 1),
    ("integrity.img", "", "integrity.img: luksrd does not read this volume: it has integrity protection: cryptsetup "
     "opens it", 1),
    ("disk.img", "os.environ['LUKSRD_LIBRARY'] = '/nowhere'", NOT_FOUND, 1),
    ("disk.img", "unlocking.Unlocked = lambda *_: bytes(1 << 62)", "out of memory\n", 3),
    ("disk.img", "unlocking.Unlocked = lambda *_: {}['x']", "this is a bug: KeyError at <string>:", 6),
    ("disk.img", "unlocking.Unlocked = lambda *_: open('/nowhere')", "/nowhere: No such file or directory\n", 6),
    ("hash.img --key-slot 1", "", "hash.img: key slot 1 cannot be opened: luksrd does not know its hash function\n", 1),
    ("try integrity.img --candidates pass", "", "integrity.img: cannot be decrypted: it has integrity protection: "
     "cryptsetup opens it\n", 1),
    ("try disk.img --candidates pass --state .", "", ".: cannot open: Is a directory\n", 4),
    ("try disk.img --candidates pass", "trying.luksrd.open = lambda *_, **__: {}['x']",
     "this is a bug: KeyError at <string>:", 6)])
def test_refusals(rescue, kinds, disk2, tmp_path, line, change, message, status):
    """Nothing is written."""
    content = disk2.read_bytes()
    (tmp_path / "table.img").write_bytes(bytes(1 << 20) + content + bytes(4 << 20))
    must("sfdisk", "-q", "table.img", stdin=f"label: gpt\nstart=2048, size={len(content) // 512}\nsize=2048\n".encode(),
         cwd=tmp_path)
    volumes.copy_of(disk2, tmp_path / "integrity.img")
    volumes.edit_segment(tmp_path / "integrity.img", integrity={
        "type": "hmac(sha256)", "journal_encryption": "none", "journal_integrity": "none"})
    volumes.edit_metadata(volumes.copy_of(disk2, tmp_path / "hash.img"),
                          lambda tree: tree["keyslots"]["1"]["kdf"].update(hash="md5"))
    key = [] if "--volume-key-file" in line else ["--key-file", "pass"]
    words = line.split() if line.startswith("try ") else ["decrypt", *line.split(), *key, "-o", "plain"]
    ended = rescue.changed("import os", change)(*words)
    says(ended, f"luksrd-rescue: {message}", status=status)
    assert ended.output == b"" and not (tmp_path / "plain").exists()


def swap(path):
    path.write_bytes(bytes(1 << 20))
    must("mkswap", path)
    return path.read_bytes()


def partitioned(path):
    path.write_bytes(bytes(3 << 20))
    must("sfdisk", "-q", path, stdin=b"label: dos\nstart=2048, size=2048\n")
    volumes.overwrite(path, 1 << 20, swap(path.with_name("swap")))
    return path.read_bytes()


@needs("mkswap", "sfdisk")
@pytest.mark.parametrize("make, lines", [
    (swap, ["plain is swap space.", "  swap space: there are no files in it"]),
    (partitioned, ["plain is a partition table (MBR):", "  partition 1: swap space, 1 MiB",
                   "    swap space: there are no files in it"]),
    (lambda path: raid(4 << 20), ["plain is RAID, label host:0.",
                                  "  one disk of a RAID: mdadm reads it, with the others"]),
    (lambda path: path.with_name("disk.img").read_bytes(),
     ["plain is LUKS.", "  luksrd-rescue decrypt plain -o inner.img"]),
    (lambda path: bytes(1 << 20), ["plain is nothing that blkid knows: a damaged file system, or the key and the "
                                   "header are of another volume"])])
def test_what_the_plaintext_is(rescue, disk2, tmp_path, make, lines):
    content = make(tmp_path / "content")
    content += bytes(-len(content) % 512)
    (tmp_path / "outer").mkdir()
    volumes.luks1(tmp_path / "outer/outer.img", "aes-xts-plain64", "sha256", 512)
    volumes.fill1(tmp_path / "outer/outer.img", content)
    ended = rescue("decrypt", "outer/outer.img", "--key-file", "pass", "--quiet", "-o", "plain")
    assert (ended.status, ended.message, ended.output.decode().splitlines()[1:]) == (0, "", lines)
    assert shown((tmp_path / "plain").read_bytes()) == shown(content)


def test_contents_that_are_not_found_out(rescue, disk1, kinds):
    """All is decrypted, and the status says so."""
    ended = rescue.changed("found = tools.found", "tools.found = lambda it: None if it == 'blkid' else found(it)")(
        "decrypt", disk1, "--key-file", "pass", "-o", "plain")
    says(ended, "plain: what it is was not found out: blkid: is not installed: run apt-get install util-linux\n",
         status=0)
    assert (rescue.folder / "plain").read_bytes() == kinds.text(VOLUME1)
    assert ended.output == b"plain: 293 KiB, opened by key slot 0\n"
