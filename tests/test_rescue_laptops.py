"""Three laptops, whose disks are looked at, decrypted, tried and served by the commands that luksrd-rescue prints: GPT
with LUKS2, LVM and ext4; MBR with LUKS1 and ext4; and a whole disk of LUKS2 with XFS and forty bad sectors. In each way
at most four commands lead to the files. The plaintext is what was encrypted."""
import os
import re
import shlex
import signal
import types

import pytest
import volumes
from argon2_slots import Cost
from disks import EFI, LUKS, MIB, disk, file_system, lvm_over, row
from rescuing import Terminal, disk_by_nbdfuse
from documents import document
from support import alone, lack_of, must, namespace, needs, run, wait_until
from volumes import PASS, copy_of, cryptsetup, empty_file, luks1, passphrases

pytestmark = needs("partx", "sfdisk", "cryptsetup", "mke2fs")
FSTAB = b"/dev/vg0/root / ext4 defaults 0 1\n"
KDFS = {"pbkdf2": "--pbkdf pbkdf2 --pbkdf-force-iterations 1000",
        "argon2id": "--pbkdf argon2id --pbkdf-force-iterations 4 --pbkdf-memory 65536 --pbkdf-parallel 1"}
SECTOR = 512


def with_fstab(folder, kind, length):
    """A file system with etc/fstab."""
    (folder / "files/etc").mkdir(parents=True, exist_ok=True)
    (folder / "files/etc/fstab").write_bytes(FSTAB)
    if kind != "xfs":
        return file_system(folder / "fs", kind, length, "rootfs", folder / "files")
    (folder / "prototype").write_text("/\n0 0\nd--755 0 0\netc d--755 0 0\nfstab ---644 0 0 files/etc/fstab\n$\n$\n")
    empty_file(folder / "fs", length)
    must("mkfs.xfs", "-q", "--unsupported", "-L", "rootfs", "-p", "prototype", "fs", cwd=folder)
    return (folder / "fs").read_bytes()


def encrypted(path, plain, kdf):
    """LUKS2 over these bytes, which PASS opens."""
    passphrases(path.parent)
    path.write_bytes(plain + bytes(16 * MIB))
    cryptsetup(f"reencrypt --encrypt --type luks2 --reduce-device-size 16M --force-offline-reencrypt --key-file pass "
               f"{KDFS[kdf]}", path, cwd=path.parent)
    return path.read_bytes()


def physical_volume(folder, loop, root, swap_length, pieces):
    """A physical volume of LVM2 with a logical volume of swap space, unless its length is 0, and one with this file
    system, in one piece or two."""
    path = empty_file(folder / "physical", 4 * MIB + len(root) + swap_length)
    device = loop(path)
    lvm, first = lvm_over(folder, device), len(root) // MIB - 4 * (pieces - 1)
    for line in (f"pvcreate -q {device}", f"vgcreate -q -s 1M --setautoactivation n vg0 {device}",
                 f"lvcreate -q -an -Zn -Wn -n root -l {first} vg0",
                 *([f"lvcreate -q -an -Zn -Wn -n swap -l {swap_length // MIB} vg0"] if swap_length else []),
                 *["lvextend -q -l +4 vg0/root"] * (pieces - 1)):
        lvm(line)
    start = int(lvm(f"pvs --noheadings --units b --nosuffix -o pe_start {device}"))
    content = bytearray(path.read_bytes())
    done = 0
    for line in lvm("lvs --segments --noheadings --units b --nosuffix -o seg_size,seg_pe_ranges vg0/root").splitlines():
        length, extents = line.split()
        place = start + int(extents.partition(":")[2].partition("-")[0]) * MIB
        content[place:place + int(length)] = root[done:done + int(length)]
        done += int(length)
    assert done == len(root)
    return bytes(content)


def first_laptop(folder, loop, kdf, pieces):
    """GPT, LUKS2, LVM, ext4."""
    plain = physical_volume(folder, loop, with_fstab(folder, "ext4", 12 * MIB), 2 * MIB, pieces)
    content = encrypted(folder / "volume", plain, kdf)
    disk(folder / "laptop.img", "gpt", [row(MIB, 2 * MIB, EFI), row(3 * MIB, len(content), LUKS)],
         {MIB: file_system(folder / "efi", "vfat", 2 * MIB, "ESP"), 3 * MIB: content})
    return plain


def second_laptop(folder, *_):
    """MBR, LUKS1, ext4."""
    plain = with_fstab(folder, "ext4", 8 * MIB)
    luks1(folder / "volume", "aes-xts-plain64", "sha256", 512)
    volumes.fill1(folder / "volume", plain)
    content = (folder / "volume").read_bytes()
    length = -(-len(content) // SECTOR) * SECTOR
    disk(folder / "laptop.img", "dos", [row(MIB, MIB, "7"), row(2 * MIB, length, "83")], {2 * MIB: content})
    return plain


def third_laptop(folder, *_):
    """A whole disk of LUKS2, XFS."""
    plain = with_fstab(folder, "xfs", 16 * MIB)
    encrypted(folder / "laptop.img", plain, "pbkdf2")
    return plain


# how each is made, the key derivation, and the pieces of its logical volume
LAPTOPS = {
    "GPT, LUKS2 pbkdf2, LVM, ext4": (first_laptop, "pbkdf2", 2),
    "GPT, LUKS2 argon2id, LVM, ext4": (first_laptop, "argon2id", 1),
    "MBR, LUKS1, ext4": (second_laptop, "pbkdf2", 0),
    "LUKS2, XFS": (third_laptop, "pbkdf2", 0),
}


@pytest.fixture(params=LAPTOPS)
def laptop(request, rescue, loop, cached, tmp_path):
    """The folder with laptop.img, in which commands run, and what was encrypted."""
    make, kdf, pieces = LAPTOPS[request.param]

    def build(folder):
        folder.mkdir()
        (folder / "plain").write_bytes(make(folder, loop, kdf, pieces))

    folder = cached(re.sub(r"\W+", "-", request.param), build)
    copy_of(folder / "laptop.img", tmp_path / "laptop.img")
    shown = must(*rescue.command("look", "laptop.img"), env=rescue.variables, cwd=tmp_path).decode()
    return types.SimpleNamespace(
        folder=tmp_path, plain=(folder / "plain").read_bytes(), shown=shown, kdf=kdf, is_joined=pieces > 1)


pytestmark = [pytestmark, alone, needs("root", "loop", "lvm", "mkfs.xfs", "mkfs.vfat")]


def command(text, name):
    """The arguments of the first command of luksrd-rescue with this name in a text."""
    return shlex.split(re.search(rf"^ *luksrd-rescue ({name} .*)$", text, re.MULTILINE)[1])


def mounts(text, folder):
    """What etc/fstab has, by the first command in a text that mounts something."""
    line = re.search(r"^ *(mount -o .*)$", text, re.MULTILINE)[1]
    ended = run(*namespace(), "sh", "-c", f"mount -t tmpfs none /mnt && {line} && cat /mnt/etc/fstab", cwd=folder)
    if ended.status and "unknown filesystem type" in ended.message:
        pytest.skip("this kernel has no such file system")
    assert ended == (0, FSTAB, ""), (line, ended)


def typed(rescue, words, **how):
    """What a command shows at a terminal at which the passphrase is typed."""
    with Terminal(rescue, *words, **how) as terminal:
        terminal.asked().type(PASS + b"\n")
        return terminal.ended(), terminal.shown.decode().replace("\r\n", "\n")


@needs("mount")
def test_decrypted(rescue, laptop):
    """look, decrypt, mount; or for a logical volume in two pieces look, decrypt, decrypt --lv, mount."""
    cost = "Argon2id, 64 MiB, 4 passes" if laptop.kdf == "argon2id" else "PBKDF2, sha256, 1,000 iterations"
    assert f"opens with a passphrase ({cost})" in laptop.shown
    status, shown = typed(rescue, command(laptop.shown, "decrypt"))
    assert status == 0 and f"trying key slot 0 ({cost})" in shown, shown
    assert (laptop.folder / "plain.img").read_bytes()[:len(laptop.plain)] == laptop.plain
    if laptop.is_joined:
        words = command(shown, "decrypt")
        assert words[-4:-2] == ["--lv", "vg0/root"]
        status, shown = typed(rescue, words)
        assert status == 0, shown
    mounts(shown, laptop.folder)


@needs("nbdkit", "nbdfuse", "fusermount3", "fuse", "mount")
def test_served(rescue, laptop, filter):
    """look, serve, mount."""
    rescue.variables["LUKSRD_FILTER"] = str(filter)
    words = command(laptop.shown, "serve")
    with Terminal(rescue, *words) as terminal:
        terminal.asked().type(PASS + b"\n").until(b"ends it\\.")
        shown = terminal.shown.decode().replace("\r\n", "\n")
        served = laptop.folder / words[-1] / "plain"
        assert served.read_bytes()[:len(laptop.plain)] == laptop.plain
        # (a logical volume in two pieces cannot be mounted from it)
        if laptop.is_joined:
            assert "in 2 pieces" in shown and " --lv vg0/root -o root.img" in shown
        else:
            mounts(shown, laptop.folder)
        terminal.signal(signal.SIGINT)
        assert terminal.ended() == 0
    wait_until(lambda: not served.parent.exists())


def test_tried(rescue, laptop):
    """look, try, the line that writes the key file, decrypt."""
    (laptop.folder / "LIST").write_bytes(b"wrong\n\n" + PASS + b"\n")
    ended = rescue(*command(laptop.shown, "try"))
    assert ended.status == 0, ended
    lines = ended.output.decode().splitlines()
    assert lines[0] == "line 3 opens key slot 0"
    must("bash", "-c", lines[2], cwd=laptop.folder)
    ended = rescue(*shlex.split(lines[3])[1:])
    assert ended.status == 0, ended
    assert (laptop.folder / "plain.img").read_bytes()[:len(laptop.plain)] == laptop.plain


class TestBadSectors:
    """The third laptop, with forty bad sectors in places of the file system that are not in use: reads of them fail by
    a library that is preloaded, or by nbdfuse, over the page cache."""

    pytestmark = pytest.mark.parametrize("laptop", ["LUKS2, XFS"], indirect=True)

    @pytest.fixture(params=["preloaded", "nbdfuse"])
    def bad(self, request, rescue, laptop, bad_sectors):
        start = volumes.payload_start(laptop.folder / "laptop.img")
        unused = [at for at in range(8 * MIB, len(laptop.plain) - MIB, 9 * 4096 + SECTOR * 3)
                  if not any(laptop.plain[at - 4096:at + 8192])]
        places = [at // SECTOR * SECTOR for at in unused[:40]]
        assert len(places) == 40
        lost, image = [(start + at, SECTOR) for at in places], laptop.folder / "laptop.img"
        if request.param == "preloaded":
            yield types.SimpleNamespace(places=places, env=bad_sectors(image, lost), shown=laptop.shown)
            return
        if reason := lack_of("nbdfuse") or lack_of("fuse"):
            pytest.skip(reason)
        with disk_by_nbdfuse(image, lost, laptop.folder / "disk"):
            shown = must(*rescue.command("look", "disk/laptop.img"), env=rescue.variables, cwd=laptop.folder).decode()
            yield types.SimpleNamespace(places=places, env={}, shown=shown)

    @needs("mount")
    def test_decrypted(self, rescue, laptop, bad):
        status, shown = typed(rescue, command(bad.shown, "decrypt"), env=bad.env)
        assert status == 6, shown
        plain = bytearray(laptop.plain)
        unit = 4096  # of the encryption
        for at in bad.places:
            plain[at // unit * unit:at // unit * unit + unit] = bytes(unit)
        assert (laptop.folder / "plain.img").read_bytes()[:len(plain)] == plain
        mounts(shown, laptop.folder)

    @needs("nbdkit", "nbdfuse", "fusermount3", "fuse")
    def test_served(self, rescue, laptop, bad, filter):
        rescue.variables["LUKSRD_FILTER"] = str(filter)
        words = command(bad.shown, "serve")
        with Terminal(rescue, *words, env=bad.env) as terminal:
            terminal.asked().type(PASS + b"\n").until(b"ends it\\.")
            with open(laptop.folder / words[-1] / "plain", "rb", buffering=0) as file:
                assert os.pread(file.fileno(), 65536, 0) == laptop.plain[:65536]
                with pytest.raises(OSError):
                    os.pread(file.fileno(), 4096, bad.places[7])
            terminal.signal(signal.SIGINT)
            assert terminal.ended() == 0




# ---- README and RESCUE.md

def shown_in(name, first):
    """What this document says that a command prints, which begins with this."""
    return re.search(rf"^```text\n({re.escape(first)}.*?)\n```$", document(name).read_text(), re.MULTILINE | re.DOTALL)[1]


def documented_disk(folder, text):
    """A disk like the one in the documents, with the UUID that these have."""
    uuid = re.search(r"UUID ([0-9a-f-]{36})", text)[1]
    passphrases(folder)
    path = folder / "laptop.img"
    for name, length in ("volume", 20 * MIB), ("laptop.img", 16 << 30):
        empty_file(folder / name, length)
    must("sfdisk", "-q", path, stdin=b"label: gpt\nstart=2048, size=1048576, type=uefi, name=\"EFI System Partition\"\n"
         b"size=1048576, type=linux\nsize=+, type=linux\n")
    cryptsetup("luksFormat --type luks2 --key-file pass --pbkdf pbkdf2 --pbkdf-force-iterations 1000 --uuid", uuid,
               "volume", cwd=folder)
    # Where little memory is free, cryptsetup would take less. `look` derives no key.
    cost = Cost("argon2id", 4, 1 << 20, 4)
    volumes.edit_metadata(folder / "volume", lambda tree: tree["keyslots"]["0"].update(kdf=cost.members()))
    for name in "efi", "boot":
        empty_file(folder / name, 512 * MIB)
    must("mkfs.vfat", "-n", "ESP", folder / "efi")
    must("mke2fs", "-q", "-t", "ext4", "-L", "boot", folder / "boot")
    for name, offset in {"efi": 1, "boot": 513, "volume": 1025}.items():
        with open(folder / name, "rb") as file:
            volumes.overwrite(path, offset * MIB, file.read(20 * MIB))


def test_what_look_prints(rescue, tmp_path):
    """What the documents show of a disk like that, with ddrescue's map beside its image; the commands after it depend on
    the room that there is."""
    wanted, _, wanted_steps = shown_in("RESCUE.md", "laptop.img: ").partition("\n\n")
    assert shown_in("README.md", "laptop.img: ") == wanted
    documented_disk(tmp_path, wanted)
    (tmp_path / "laptop.map").write_text(
        f"# Mapfile. Created by GNU ddrescue version 1.27\n0x0 + 1\n0x0 {16 << 30:#x} +\n")
    ended = rescue("look", "laptop.img")
    assert ended.status == 0, ended
    printed, _, steps = ended.output.decode().partition("\n\n")
    assert printed == wanted

    def commands(lines):
        return sorted(line.replace("/PATH/TO/ANOTHER/DISK/", "") for line in lines.splitlines()
                      if line.startswith("    "))

    assert commands(steps) == commands(wanted_steps)


def test_what_decrypt_prints(rescue, loop, tmp_path):
    """What README shows, but for the sizes: LVM in a volume, and an ext4 file system in a logical volume."""
    wanted = shown_in("README.md", "plain.img: ")
    root = file_system(tmp_path / "fs", "ext4", 12 * MIB, "root")
    encrypted(tmp_path / "laptop.img", physical_volume(tmp_path, loop, root, 0, 1), "argon2id")
    ended = rescue("decrypt", "laptop.img", "--key-file", "pass", "-o", "plain.img")
    assert ended.status == 0, ended

    def without_sizes(text):
        return re.sub(r"[0-9.]+ [MG]iB|(?<=sizelimit=)\d+", "N", text.rstrip("\n"))

    assert without_sizes(ended.output.decode()) == without_sizes(wanted)
    mount = re.search(r"mount .*", wanted)[0]
    assert all(re.search(r"^    (mount .*)$", document(name).read_text(), re.MULTILINE)[1] == mount
               for name in ("README.md", "RESCUE.md"))


DOCUMENTED = [line for name in ("README.md", "RESCUE.md") for line in re.findall(
    r"^(?:    |\|.*?`)((?:luksrd-rescue )?(?:look|decrypt|serve|try) [^`#|(\n]*)", document(name).read_text(),
    re.MULTILINE)]


@pytest.mark.of_script
@pytest.mark.parametrize("line", sorted({line.strip() for line in DOCUMENTED}))
def test_commands_of_the_documents(rescue, line):
    """Each is one that the program knows: without the image it says that, and not how it is used."""
    words = shlex.split(line.removeprefix("luksrd-rescue "))
    ended = rescue(*words, env={"LUKSRD_FILTER": "/nowhere"})
    assert ended.status in (1, 4) and "usage:" not in ended.message, (line, ended)
    assert re.search(r"cannot open( the map)?: No such file", ended.message), (line, ended)
