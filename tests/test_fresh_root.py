"""The packages on a fresh Debian 12 and a fresh Debian 13, which debootstrap makes: apt finds all that they need, they
replace those of 1.1.0, what is in them reads the sample volume for an unprivileged user, a program in C is built over the
library, and after a purge nothing is left. nbdkit of Debian 13 is another version than the plugin's package is for, so
apt refuses that there, and plugin and filter are built from their sources. It needs root and the mirror of apt."""
import re
import shutil
import time

import pytest
from support import TOP, alone, must, needs, run
from test_packages import made  # noqa: F401

pytestmark = [alone, needs("root", "debootstrap", "dh", "setpriv"), pytest.mark.timeout(3000)]
PACKAGES = ["libluksrd-dev", "libluksrd2", "luksrd", "luksrd-audit", "luksrd-rescue", "nbdkit-plugin-luksrd",
            "python3-luksrd"]
TOOLS = ["gcc", "libc6-dev", "libnbd-bin", "make", "nbdkit", "nbdkit-plugin-dev", "pkg-config"]
LIBRARIES = "/usr/lib/x86_64-linux-gnu"
COPY = """import luksrd, shutil, sys
shutil.copyfileobj(luksrd.open("disk.img", key_file="sample/passphrase"), sys.stdout.buffer)
"""
# what apt and dpkg note of any run
NOTED = re.compile(r"\./(proc|dev|tmp|run|var/(log|cache|lib/(apt|dpkg/(.*-old|status|triggers/.*|lock.*))))(/|$)")


def again(attempt):
    """What this gives: up to three times, until it succeeds, since a mirror may be busy, or change meanwhile."""
    for seconds in 10, 60:
        ended = attempt()
        if ended.status == 0:
            return ended
        time.sleep(seconds)
    return attempt()


class Root:
    """A system of its own in a folder."""

    def __init__(self, folder):
        self.folder = folder

    def apart(self, *command):
        """With mounts and processes of its own, which end when it does."""
        return run("unshare", "--mount", "--pid", "--fork", "--kill-child", "--propagation", "private", *command,
                   patience=1500)

    def __call__(self, *command):
        """As root, with an environment of its own."""
        return self.apart("env", "-i", "PATH=/usr/sbin:/usr/bin:/sbin:/bin", "LC_ALL=C",
                          "DEBIAN_FRONTEND=noninteractive", "sh", "-c",
                          'root=$0; mount -t proc proc "$root/proc" && exec chroot "$root" "$@"', self.folder, *command)

    def reads(self, script):
        """What another user reads with the given files."""
        ended = self("setpriv", "--reuid", "65534", "--regid", "65534", "--clear-groups", "sh", "-c",
                     f"cd /tmp && ln -sf /given/* . && {script}")
        assert ended.status == 0, ended
        return ended.output

    def install(self, *names):
        """Packages, and those of luksrd from their files."""
        given = {path.name.split("_")[0]: f"/debs/{path.name}" for path in (self.folder / "debs").iterdir()}
        return self("apt-get", "install", "-y", "--no-install-recommends", *(given.get(name, name) for name in names))

    def files(self):
        lines = must("find", ".", "-type", "d", "-printf", "%p/ %m %U %G\n", "-o", "-printf", "%p %m %U %G %s %l\n",
                     cwd=self.folder).decode(errors="replace").splitlines()
        return sorted(line for line in lines if not NOTED.match(line.split(" ")[0]))

    def packages(self):
        return must("dpkg-query", f"--admindir={self.folder}/var/lib/dpkg", "-W", "-f", "${Package}\n").decode().split()


@pytest.fixture
def given(made, sample, tmp_path):  # noqa: F811
    """A folder that anyone can read, with the sample volume, the sources of C, and programs of the documents."""
    folder = tmp_path / "given"
    for name in "c", "nbdkit", "packaging", "sample":
        shutil.copytree(TOP / name, folder / name)
    shutil.copy(TOP / "Makefile", folder)
    shutil.copy(sample.volume, folder / "disk.img")
    program = re.search(r"^```c\n(.*?)^```$", (TOP / "docs/LIBRARY.md").read_text(), re.MULTILINE | re.DOTALL)[1]
    (folder / "first.c").write_text(program.replace("look after this passphrase", sample.key.read_text()))
    (folder / "copy.py").write_text(COPY)
    must("chmod", "-R", "a+rX", folder)
    return folder


@pytest.fixture(params=["bookworm", "trixie"])
def root(request, given, made, tmp_path, monkeypatch):  # noqa: F811
    """The system, with apt's settings of this machine, the packages and the given files."""
    number = {"bookworm": "12", "trixie": "13"}[request.param]
    mirror = must("apt-get", "indextargets", "--format", "$(REPO_URI)", "Created-By: Packages",
                  "Component: main").decode().split()[0].rstrip("/")
    place = f"{mirror}/dists/{request.param}/InRelease"
    if run("/usr/lib/apt/apt-helper", "download-file", place, tmp_path / "InRelease").status != 0:
        pytest.skip(f"Debian {number} cannot be had here")
    proxy = re.search(r"^proxy='(.*)'$", must("apt-config", "shell", "proxy", "Acquire::http::Proxy").decode(), re.M)
    if proxy:
        monkeypatch.setenv("http_proxy", proxy[1])
    made_root = Root(tmp_path / "root")

    def make():
        shutil.rmtree(made_root.folder, ignore_errors=True)
        ended = made_root.apart("debootstrap", "--variant=minbase", request.param, made_root.folder, mirror)
        if ended.status:
            return ended
        settings = [line for line in must("apt-config", "dump").decode().splitlines()
                    if re.match("Acquire::(https?|Check|Retries)", line)]
        (made_root.folder / "etc/apt/apt.conf.d/99as-here").write_text("\n".join(
            ['Acquire::Retries "5";', *settings, ""]))
        shutil.copytree(given, made_root.folder / "given")
        (made_root.folder / "debs").mkdir()
        for name in PACKAGES:
            shutil.copy(made[1][name], made_root.folder / "debs")
        return made_root("apt-get", "-o", "APT::Update::Error-Mode=any", "update")

    assert again(make).status == 0
    yield made_root
    shutil.rmtree(made_root.folder)


def earlier(root, names):
    """Installs packages by these names of 1.1.0, whose program was no alternative, with a file each."""
    files = {"luksrd": "usr/bin/luksrd", "nbdkit-plugin-luksrd": f"{LIBRARIES}/nbdkit/plugins/nbdkit-luksrd-plugin.so"}
    (root.folder / "earlier").mkdir()
    for name in files.keys() & set(names):
        tree = root.folder / "earlier" / name
        file = tree / files[name].lstrip("/")
        file.parent.mkdir(parents=True)
        file.write_text("#!/bin/sh\nexit 9\n")
        file.chmod(0o755)
        (tree / "DEBIAN").mkdir()
        (tree / "DEBIAN/control").write_text(
            f"Package: {name}\nVersion: 1.1.0\nArchitecture: amd64\nMaintainer: nobody <nobody@example>\n"
            "Description: an earlier release\n")
        must("dpkg-deb", "--root-owner-group", "-b", tree, root.folder / "earlier" / f"{name}.deb")
    ended = root("sh", "-c", "dpkg -i /earlier/*.deb")
    shutil.rmtree(root.folder / "earlier")
    return ended


def test_a_fresh_system(root, sample):
    here = PACKAGES
    refusal = root.install("-s", "libluksrd2", "nbdkit-plugin-luksrd")
    if refusal.status:
        here = [name for name in PACKAGES if "nbdkit" not in name]
        assert "nbdkit-plugin-luksrd : Depends: nbdkit (<" in refusal.output.decode() + refusal.message
    simulated = root.install("-s", *here).output.decode()
    needed = [name for name in re.findall(r"^Inst (\S+) ", simulated, re.MULTILINE) if name not in PACKAGES]
    assert again(lambda: root.install(*needed, *TOOLS)).status == 0
    before, had = root.files(), root.packages()
    assert earlier(root, here).status == 0
    assert root("luksrd").status == 9
    assert root.install(*here).status == 0
    assert sorted(set(root.packages()) - set(had)) == sorted(here)
    assert root("readlink", "-f", "/usr/bin/luksrd").output == b"/usr/libexec/luksrd/x86-64-v2/luksrd\n"
    assert root.reads("luksrd luksCat --key-file sample/passphrase disk.img") == sample.plain
    assert b"luksrd-rescue decrypt disk.img -o plain.img" in root.reads("luksrd-rescue look disk.img")
    assert root.reads("luksrd-rescue try disk.img --candidates sample/passphrase").startswith(b"line 1 opens key slot 0\n")
    assert root.reads("luksrd-rescue decrypt disk.img --key-file sample/passphrase --quiet -o - | cat") == sample.plain
    assert root.reads("python3 copy.py") == sample.plain
    for way in "", "-static":
        assert root.reads(f"gcc -D_GNU_SOURCE {way} -o it first.c $(pkg-config --cflags --libs luksrd) && ./it") == \
            sample.plain[:512]
    nbdkit_serves(root, "nbdkit-plugin-luksrd" in here, sample)
    assert root("apt-get", "purge", "-y", *here).status == 0
    assert root.files() == before
    assert root.packages() == had
    assert "luksrd" not in (root.folder / "var/lib/dpkg/status").read_text()


def nbdkit_serves(root, is_packaged, sample):
    """Plugin and filter, from their package, or else as they are built there."""
    plugin = filter_ = "luksrd"
    if not is_packaged:
        plugin, filter_ = "/tmp/out/nbdkit-luksrd-plugin.so", "/tmp/out/nbdkit-luksrd-filter.so"
        said = root.reads(f"make -s nbdkit SHARED={LIBRARIES}/libluksrd.so "
                          f"SHARED_V3={LIBRARIES}/glibc-hwcaps/x86-64-v3/libluksrd.so.2")
        assert b"is for nbdkit" in said
    for way in plugin, f"--filter={filter_} file":
        assert root.reads(f"nbdkit -U - {way} disk.img key-file=sample/passphrase "
                          "--run 'nbdcopy \"$uri\" -'") == sample.plain
