"""Volumes that the library seals, as cryptsetup, qemu-img and luksrd read them. luksrd_tools writes
them, with the passphrases one (slot 0) and two (slot 1), and luksrd for the same processor reads
them."""
import pytest
from payloads import Volume, check_volume, decrypted
from support import must
from volumes import cryptsetup, edit_segment, payload_start

PLAIN = bytes(i % 251 for i in range(32768))
MODES = ["xts-plain64", "xts-plain", "cbc-essiv:sha256", "cbc-plain64"]


@pytest.fixture
def sealed(each_tools, tmp_path):
    """Seals a volume, with the files of its passphrases beside it."""
    for name, text in {"pass": b"one", "pass2": b"two", "wrong": b"three"}.items():
        (tmp_path / name).write_bytes(text)

    def seal(version, mode, sector):
        ended = each_tools(f"seal {version} {mode} {sector}")
        assert ended.status == 0
        (tmp_path / "sealed").write_bytes(ended.output)
        return Volume(tmp_path / "sealed", PLAIN)

    return seal


@pytest.mark.parametrize("mode", MODES)
def test_luks1(each_luksrd, sealed, tmp_path, mode):
    volume = sealed("luks1", mode, 512)
    check_volume(each_luksrd, volume)
    # qemu-img does not read xts-plain
    if mode != "xts-plain":
        must("qemu-img", "convert", "-O", "raw", "--object", "secret,id=s,file=pass2",
             "--image-opts", "driver=luks,key-secret=s,file.driver=file,file.filename=sealed",
             "theirs", cwd=tmp_path)
        assert (tmp_path / "theirs").read_bytes() == PLAIN


@pytest.mark.parametrize("sector", [512, 1024, 2048, 4096])
@pytest.mark.parametrize("mode", MODES)
def test_luks2(each_luksrd, sealed, tmp_path, mode, sector):
    """cryptsetup decrypts the payload under the same header for a payload at the start of its
    file."""
    volume = sealed("luks2", mode, sector)
    check_volume(each_luksrd, volume)
    cryptsetup("luksHeaderBackup --header-backup-file header sealed", cwd=tmp_path)
    payload = volume.image.read_bytes()[payload_start(volume.image):]
    (tmp_path / "image").write_bytes(payload)
    edit_segment(tmp_path / "header", offset="0")
    assert decrypted(tmp_path, "header") == PLAIN
