"""Debian packages of what is built: what is in them, what lintian says of it, and that they install and go again. That
needs root, and a machine on which luksrd is not installed."""
import fcntl
import os
import pathlib
import re

import pytest
from support import TOP, alone, expect, must, needs, run, runs_v3
from test_install import FILTER, GUIDES, LIBRARY_PAGES, PLUGIN, RESCUE, VERSION, Make, files_in

pytestmark = [alone, needs("dh", "dh_python3", "chrpath", "lintian", "/usr/include/nbdkit-plugin.h")]
LIBRARIES = "usr/lib/x86_64-linux-gnu"
V3 = "glibc-hwcaps/x86-64-v3/libluksrd.so.2"
MODULES = "usr/lib/python3/dist-packages"
# the files of each package besides three papers; those that are no plain files of mode 644 have their mode before them
FILES = {
    "luksrd": ["-rwxr-xr-x usr/libexec/luksrd/x86-64-v2/luksrd", "-rwxr-xr-x usr/libexec/luksrd/x86-64-v3/luksrd",
               "usr/share/bash-completion/completions/luksrd",
               *(f"usr/share/doc/luksrd/{name}" for name in GUIDES), "usr/share/lintian/overrides/luksrd",
               "usr/share/man/man1/luksrd.1.gz",
               "usr/share/zsh/vendor-completions/_luksrd"],
    "libluksrd2": [f"{LIBRARIES}/{V3}", f"{LIBRARIES}/libluksrd.so.{VERSION}",
                   f"lrwxrwxrwx {LIBRARIES}/libluksrd.so.2"],
    "libluksrd-dev": ["usr/include/luksrd.h", f"{LIBRARIES}/libluksrd.a", f"{LIBRARIES}/pkgconfig/luksrd.pc",
                      f"lrwxrwxrwx {LIBRARIES}/libluksrd.so",
                      *[f"usr/share/man/man3/{page}.gz" for page in LIBRARY_PAGES]],
    "python3-luksrd": [f"{MODULES}/luksrd.py", f"{MODULES}/luksrd_lvm.py"],
    "luksrd-rescue": ["-rwxr-xr-x usr/bin/luksrd-rescue", "usr/share/bash-completion/completions/luksrd-rescue",
                      "usr/share/man/man1/luksrd-rescue.1.gz", "usr/share/zsh/vendor-completions/_luksrd-rescue",
                      *(f"{MODULES}/luksrd_rescue/{name}" for name in RESCUE)],
    "nbdkit-plugin-luksrd": [f"{LIBRARIES}/nbdkit/filters/{FILTER}", f"{LIBRARIES}/nbdkit/plugins/{PLUGIN}",
                             "usr/lib/systemd/system/nbdkit-luksrd@.service",
                             "usr/share/lintian/overrides/nbdkit-plugin-luksrd",
                             "usr/share/man/man1/nbdkit-luksrd-filter.1.gz",
                             "usr/share/man/man1/nbdkit-luksrd-plugin.1.gz"],
    "luksrd-audit": ["-rwxr-xr-x usr/bin/luksrd-audit", "usr/share/bash-completion/completions/luksrd-audit",
                     "usr/share/doc/luksrd-audit/AUDIT.md.gz", "usr/share/lintian/overrides/luksrd-audit",
                     "usr/share/luksrd-audit/luksrd-audit.schema.json", "usr/share/man/man1/luksrd-audit.1.gz", "usr/share/zsh/vendor-completions/_luksrd-audit"],
}
OF_PYTHON = ["python3-luksrd", "luksrd-rescue"]
DEPENDS = [
    ("luksrd-rescue", "python3:any"),
    ("luksrd-rescue", rf"python3-luksrd \(>= {VERSION}\)"),
    ("luksrd-rescue", rf"luksrd-audit \(>= {VERSION}\)"),
    ("luksrd-rescue", r"util-linux \(>= 2\.36\)"),
    ("luksrd", r"libc6 \(>= 2\.[0-9]+\)"),
    ("luksrd-audit", r"libc6 \(>= 2\.[0-9]+\)"),
    ("libluksrd-dev", rf"libluksrd2 \(= {VERSION}-1\)"),
    ("python3-luksrd", "python3:any"),
    ("python3-luksrd", rf"libluksrd2 \(>= {VERSION}\)"),
    ("nbdkit-plugin-luksrd", rf"libluksrd2 \(>= {VERSION}\)"),
]


@pytest.fixture(scope="module")
def made(built, tmp_path_factory):
    """make with what is built, and the packages by name, which it has made into a folder with a blank in its name."""
    make = Make({"PROGRAM": built("luksrd"), "PROGRAM_V2": built("luksrd"), "PROGRAM_V3": built("luksrd-v3"),
                 "AUDIT": built("audit"), "LIBRARY": built("out", "libluksrd.a"),
                 "SHARED": built("out", "libluksrd.so"), "SHARED_V3": built("out", V3),
                 "PLUGIN": built("out", PLUGIN), "FILTER": built("out", FILTER)})
    folder = tmp_path_factory.mktemp("debs") / "a folder"
    ended = make("deb", DEBS=folder)
    assert (ended.status, ended.message) == (0, "")
    packages = {pathlib.Path(line).name.split("_")[0]: pathlib.Path(line) for line in ended.output.decode().splitlines()}
    return make, packages


@pytest.fixture(scope="module")
def unpacked(made, tmp_path_factory):
    """A folder with what is in all packages, and one for each with what it says of itself."""
    folder = tmp_path_factory.mktemp("unpacked")
    for name, package in made[1].items():
        must("dpkg", "-x", package, folder / "all")
        must("dpkg", "-x", package, folder / name)
        must("dpkg", "-e", package, folder / f"{name}.control")
    return folder


def test_which_packages_are_made(made, tmp_path):
    """The same files make the same packages; what is not built is in none."""
    make, packages = made
    assert {name: path.name for name, path in packages.items()} == {
        name: f"{name}_{VERSION}-1_{'all' if name in OF_PYTHON else 'amd64'}.deb" for name in FILES}
    assert make("deb", DEBS=tmp_path / "again").status == 0
    for path in packages.values():
        assert path.read_bytes() == (tmp_path / "again" / path.name).read_bytes()
    no_plugin = {"AUDIT": "no-audit", "PLUGIN": "no-plugin", "FILTER": "no-filter", "DEBS": tmp_path / "fewer"}
    for further, names in [({"LIBRARY": "no-library"}, ["luksrd"]),
                           ({}, ["luksrd", "libluksrd2", "libluksrd-dev", "python3-luksrd"])]:
        lines = make("deb", **no_plugin, **further).output.decode().splitlines()
        assert [pathlib.Path(line).name.split("_")[0] for line in lines] == names


def test_what_is_refused(made, tmp_path):
    other = tmp_path / "other.so"
    other.write_bytes(b"of another version")
    version = must("pkg-config", "nbdkit", "--modversion").decode().strip()
    assert made[0].refusal("deb", FILTER=other, DEBS=tmp_path) == \
        f"{other} is not for nbdkit {version}: run make nbdkit first"
    (tmp_path / "few").mkdir()
    for tool in "bash", "dirname":
        (tmp_path / "few" / tool).symlink_to(f"/usr/bin/{tool}")
    ended = run("/bin/bash", TOP / "packaging/deb", tmp_path, VERSION, env={"PATH": str(tmp_path / "few")})
    expect(ended, message="dh is missing: run apt-get install debhelper", status=1)


def test_what_lintian_says(made):
    assert len(made[1]) == len(FILES)
    # (it takes bytes of machine code for misspelt words)
    expect(run("lintian", "--allow-root", "--display-info", "--pedantic", "--fail-on", "none", "--suppress-tags",
               "spelling-error-in-binary", *made[1].values()))


def field(package, name):
    return must("dpkg", "-f", package, name).decode().strip()


@pytest.mark.parametrize("name", FILES)
def test_what_is_in_a_package(made, unpacked, name):
    package = made[1][name]
    assert (field(package, "Package"), field(package, "Version")) == (name, f"{VERSION}-1")
    for other in "Maintainer", "Installed-Size", "Section", "Priority", "Description":
        assert field(package, other)
    papers = [f"usr/share/doc/{name}/{paper}" for paper in ("changelog.Debian.gz", "changelog.gz", "copyright")]
    wanted = [words if " " in words else f"-rw-r--r-- {words}" for words in FILES[name] + papers]
    listed = [line.split() for line in must("dpkg", "-c", package).decode().splitlines()]
    assert {words[1] for words in listed} == {"root/root"}
    assert {words[0] for words in listed if words[0].startswith("d")} == {"drwxr-xr-x"}
    assert sorted(f"{words[0]} {words[5][2:]}" for words in listed if not words[0].startswith("d")) == sorted(wanted)
    place = unpacked / name
    must("md5sum", "-c", "--quiet", f"../{name}.control/md5sums", cwd=place)
    sums = (unpacked / f"{name}.control/md5sums").read_text().splitlines()
    assert len(sums) == len([path for path in place.rglob("*") if path.is_file() and not path.is_symlink()])


def gunzipped(path):
    return must("zcat", path).decode()


@pytest.mark.parametrize("name", FILES)
def test_papers_of_a_package(unpacked, name):
    papers = unpacked / name / "usr/share/doc" / name
    changes = gunzipped(papers / "changelog.Debian.gz")
    assert changes.startswith(f"luksrd ({VERSION}-1) stable; urgency=medium\n")
    released = re.compile(r"^## [0-9].*", re.MULTILINE | re.DOTALL)
    assert released.search(gunzipped(papers / "changelog.gz"))[0] == \
        released.search((TOP / "CHANGELOG.md").read_text())[0]
    assert "The owner of luksrd gives its licence" in (papers / "copyright").read_text()
    for page in (unpacked / name).glob("usr/share/man/man1/*"):
        source = TOP / "docs" / page.stem
        assert gunzipped(page) == source.read_text()
        assert run("man", "--warnings", "-l", source).message == ""
        expect(run("mandoc", "-Tlint", "-Wwarning", source))


@pytest.mark.parametrize("name, pattern", DEPENDS)
def test_what_a_package_depends_on(made, name, pattern):
    depends = field(made[1][name], "Depends").split(", ")
    assert [one for one in depends if re.fullmatch(pattern, one)]


def test_version_of_nbdkit(made):
    """Plugin and filter depend on the one that is installed, to its last number, and on no other."""
    depends = field(made[1]["nbdkit-plugin-luksrd"], "Depends")
    least, end = re.match(r"nbdkit \(>= ([^)]*)\), nbdkit \(<< ([^)]*)\),", depends).groups()
    installed = must("dpkg-query", "-W", "-f", "${Version}", "nbdkit").decode()
    parts = installed.partition("-")[0].split(".")
    later = ".".join([*parts[:-1], str(int(parts[-1]) + 1)])
    for version, relation, bound, status in [(installed, "ge", least, 0), (installed, "lt", end, 0),
                                             (later, "lt", end, 1)]:
        assert run("dpkg", "--compare-versions", version, relation, bound).status == status


def test_what_the_library_says_of_itself(unpacked):
    control = unpacked / "libluksrd2.control"
    assert (control / "shlibs").read_text() == f"libluksrd 2 libluksrd2 (>= {VERSION})\n"
    symbols = dict(re.findall(r"^ (luksrd_.*)@LUKSRD_2 (.*)$", (control / "symbols").read_text(), re.MULTILINE))
    assert [*symbols] == re.findall(r"^ *(luksrd_.*);$", (TOP / "c/luksrd.map").read_text(), re.MULTILINE)
    # what 1.2.0 has not, or does otherwise
    later = {"luksrd_check_key", "luksrd_finish", "luksrd_header_len", "luksrd_open", "luksrd_open_by_key"}
    assert symbols == {name: "1.3.0" if name in later else "1.2.0" for name in symbols}
    assert "activate-noawait ldconfig" in (control / "triggers").read_text().splitlines()


@pytest.mark.parametrize("file, wanted", [
    (f"{LIBRARIES}/nbdkit/plugins/{PLUGIN}", ["NEEDED libluksrd.so.2"]),
    (f"{LIBRARIES}/nbdkit/filters/{FILTER}", ["NEEDED libluksrd.so.2"]),
    (f"{LIBRARIES}/libluksrd.so.2", ["SONAME libluksrd.so.2"]),
    (f"{LIBRARIES}/{V3}", ["SONAME libluksrd.so.2"]),
])
def test_what_a_binary_loads(unpacked, file, wanted):
    """Its name, the libraries that it loads, and its own folders for them, of which there are none."""
    said = must("readelf", "-d", unpacked / "all" / file).decode()
    found = re.findall(r"\((SONAME|NEEDED|RUNPATH|RPATH)\).*\[(.*)\]", said)
    assert [" ".join(one) for one in found if not one[1].startswith("libc.so")] == wanted


def reads_the_sample(program, here, sample):
    expect(run(program, "luksCat", "--key-file", "pass", "volume", cwd=here), sample.plain)


def nbdkit_serves(plugin, filter, here, sample, **how):
    """The plugin of this name gives the sample's text, and so does the filter of this name."""
    for way in [plugin], [f"--filter={filter}", "file"]:
        copy = here / "copy"
        expect(run("nbdkit", "-U", "-", *way, "volume", "key-file=pass", "--run", 'nbdcopy "$uri" copy', cwd=here,
                   **how))
        assert copy.read_bytes() == sample.plain
        copy.unlink()


def module_gives(folder, here, sample, **variables):
    """Python finds the module in this folder, and it gives the sample's text."""
    script = """import luksrd, shutil, sys
print(luksrd.__file__, file=sys.stderr)
shutil.copyfileobj(luksrd.open("volume", key_file="pass"), sys.stdout.buffer)"""
    expect(run("/usr/bin/python3", "-c", script, cwd=here, env={**os.environ, **variables,
                                                               "PYTHONDONTWRITEBYTECODE": "1"}),
           sample.plain, f"{folder}/luksrd.py")


def test_packaged_programs(unpacked, here, sample):
    for processor in ["x86-64-v2", "x86-64-v3"][:1 + runs_v3()]:
        reads_the_sample(unpacked / "all/usr/libexec/luksrd" / processor / "luksrd", here, sample)
    expect(run(unpacked / "all/usr/bin/luksrd-audit", "--version"), f"luksrd-audit {VERSION}\n")


def test_packaged_library(unpacked, here, sample):
    libraries = unpacked / "all" / LIBRARIES
    loaded = {"LD_LIBRARY_PATH": str(libraries)}
    nbdkit_serves(libraries / "nbdkit/plugins" / PLUGIN, libraries / "nbdkit/filters" / FILTER, here, sample,
                  env={**os.environ, **loaded})
    folder = unpacked / "all" / MODULES
    module_gives(folder, here, sample, PYTHONPATH=str(folder), **loaded)


def is_installed():
    places = ["/usr/bin", "/usr/libexec", "/usr/local", "/usr/include", f"/{LIBRARIES}", "/etc/alternatives"]
    return bool(run("find", *places, "-name", "*luksrd*").output)


@pytest.fixture
def installed(made):
    """The packages, which dpkg has installed. After the test they are purged, and nothing of them is left."""
    if is_installed():
        pytest.skip("luksrd is installed here")
    packages, paths = made[1], []
    try:
        by_dpkg("-i", *packages.values())
        paths = [line for line in must("dpkg", "-L", *packages).decode().splitlines() if "luksrd" in line]
        yield packages
    finally:
        by_dpkg("-P", *packages)
    assert len(paths) > 40
    assert [path for path in paths if os.path.lexists(path)] == []
    assert not os.path.lexists("/var/lib/dpkg/alternatives/luksrd")
    assert known_libraries() == []
    assert "luksrd" not in run("dpkg", "-l", *packages).output.decode()


def by_dpkg(*words):
    """dpkg with these arguments, once no other program has its lock."""
    with open("/var/lib/dpkg/lock-frontend", "w") as lock:
        fcntl.lockf(lock, fcntl.LOCK_EX)
        must("dpkg", *words, env={**os.environ, "DPKG_FRONTEND_LOCKED": "1"})


def chosen():
    """The program that the administrator's choice leads to."""
    return str(pathlib.Path("/usr/bin/luksrd").resolve())


def known_libraries():
    found = re.findall(r"^\tlibluksrd\.so\.2 \(.*\) => (.*)$", must("/sbin/ldconfig", "-p").decode(), re.MULTILINE)
    return sorted(name.replace("/lib/", "/usr/lib/", 1) if name.startswith("/lib/") else name for name in found)


VERSION_OF_LIBRARY = 'import ctypes; print(hex(ctypes.CDLL("libluksrd.so.2").luksrd_version()))'
LIBRARY_VERSION = "0x%x\n" % int(re.search(r"#define LUKSRD_VERSION (0x\w+)", (TOP / "c/luksrd.h").read_text())[1], 16)


@needs("root", "zsh")
def test_installed_packages(installed, made, here, sample, tmp_path):
    """They run from where they are; make installs over none of their files, and removes none."""
    reads_the_sample("/usr/bin/luksrd", here, sample)
    expect(run("python3", "-c", VERSION_OF_LIBRARY), LIBRARY_VERSION)
    assert known_libraries() == [f"/{LIBRARIES}/{V3}", f"/{LIBRARIES}/libluksrd.so.2"]
    nbdkit_serves("luksrd", "luksrd", here, sample)
    module_gives(f"/{MODULES}", here, sample)
    expect(run("zsh", "-fc", "autoload -Uz compinit; compinit -D -u; print -r -- $_comps[luksrd]"), "_luksrd\n")
    make = Make({**made[0].variables, "AUDIT": "no-audit", "DESTDIR": ""})
    late = tmp_path / "late"
    nbdkit = f"/{LIBRARIES}/nbdkit"
    for words, variables, package, file in [
        ("install", {"PREFIX": late, "PLUGINS": f"{nbdkit}/plugins"}, "nbdkit-plugin-luksrd", f"{nbdkit}/plugins/{PLUGIN}"),
        ("install-filter", {"PREFIX": late, "FILTERS": f"{nbdkit}/filters"}, "nbdkit-plugin-luksrd",
         f"{nbdkit}/filters/{FILTER}"),
        ("install-python", {"PREFIX": "/usr"}, "python3-luksrd", f"/{MODULES}/luksrd.py"),
    ]:
        assert make.refusal(words, **variables) == \
            f"the package {package} has {file}: run apt-get remove {package}, or give a PREFIX"
    assert not late.exists() or files_in(late) == []
    assert make("uninstall", PREFIX="/usr").status == 0
    changed = run("dpkg", "-V", *installed).output.decode().splitlines()
    assert [line for line in changed if not re.search("/usr/share/(doc|man)/", line)] == []


@needs("root")
def test_the_choice_of_the_administrator(installed, here, sample):
    """A package that is installed again leaves it."""
    v2, v3 = (f"/usr/libexec/luksrd/{processor}/luksrd" for processor in ("x86-64-v2", "x86-64-v3"))
    assert chosen() == v2
    must("update-alternatives", "--set", "luksrd", v3)
    by_dpkg("-i", installed["luksrd"])
    assert chosen() == v3
    if runs_v3():
        reads_the_sample("/usr/bin/luksrd", here, sample)
    must("update-alternatives", "--auto", "luksrd")
    assert chosen() == v2
    # a choice, too, goes with the packages
    must("update-alternatives", "--set", "luksrd", v3)
