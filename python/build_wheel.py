"""Makes the wheel and the source archive of luksrd.py for pip, from what pyproject.toml says: the hooks of PEP 517.

Both have the module alone: the library that it loads comes with `make install` or Debian's libluksrd2."""

import base64
import hashlib
import io
import pathlib
import re
import tarfile
import zipfile

HERE = pathlib.Path(__file__).resolve().parent
SOURCES = ["build_wheel.py", "luksrd.py", "pyproject.toml"]
# the oldest time that a zip file can state, so that the same sources make the same wheel
TIME = (1980, 1, 1, 0, 0, 0)
WHEEL = "Wheel-Version: 1.0\nGenerator: luksrd\nRoot-Is-Purelib: true\nTag: py3-none-any\n"


def project():
    """The fields of pyproject.toml, which are strings. (Python has a reader of TOML only since 3.11.)"""
    return dict(re.findall(r'^([\w-]+) = "(.*)"$', (HERE / "pyproject.toml").read_text(), re.MULTILINE))


def metadata():
    fields = project()
    return "".join(f"{name}: {value}\n" for name, value in (
        ("Metadata-Version", "2.1"), ("Name", fields["name"]), ("Version", fields["version"]),
        ("Summary", fields["description"]), ("Requires-Python", fields["requires-python"])))


def release():
    return "{name}-{version}".format(**project())


def recorded(files):
    """The lines of RECORD: the checksum and the length of each file but itself."""
    for name, content in files.items():
        checksum = base64.urlsafe_b64encode(hashlib.sha256(content).digest()).rstrip(b"=").decode()
        yield f"{name},sha256={checksum},{len(content)}\n"


def build_wheel(wheel_directory, config_settings=None, metadata_directory=None):
    folder = f"{release()}.dist-info"
    files = {"luksrd.py": (HERE / "luksrd.py").read_bytes(), f"{folder}/METADATA": metadata().encode(),
             f"{folder}/WHEEL": WHEEL.encode()}
    files[f"{folder}/RECORD"] = "".join([*recorded(files), f"{folder}/RECORD,,\n"]).encode()
    name = f"{release()}-py3-none-any.whl"
    with zipfile.ZipFile(pathlib.Path(wheel_directory, name), "w", zipfile.ZIP_DEFLATED) as wheel:
        for path, content in files.items():
            entry = zipfile.ZipInfo(path, TIME)
            entry.compress_type, entry.external_attr = zipfile.ZIP_DEFLATED, 0o100644 << 16
            wheel.writestr(entry, content)
    return name


def build_sdist(sdist_directory, config_settings=None):
    name = f"{release()}.tar.gz"
    with tarfile.open(pathlib.Path(sdist_directory, name), "w:gz", format=tarfile.PAX_FORMAT) as archive:
        for source in SOURCES:
            archive.add(HERE / source, f"{release()}/{source}")
        entry = tarfile.TarInfo(f"{release()}/PKG-INFO")
        entry.size = len(metadata().encode())
        archive.addfile(entry, io.BytesIO(metadata().encode()))
    return name
