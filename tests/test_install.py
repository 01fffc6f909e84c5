"""What `make install` puts where, what `make uninstall` removes, and what they refuse. Where only how a file is installed
is tried, any file does in its place."""
import os
import pathlib
import re
import shutil

import pytest
from links import broken_links
from support import TOP, expect, must, needs, run

GUIDES = ["README.md", *(f"docs/{name}" for name in (
    "AUDIT.md", "FORMATS.md", "GLOSSARY.md", "LIBRARY.md", "MIGRATION.md", "PROGRAMMERS.md", "PROOFS.md", "RECIPES.md",
    "RESCUE.md", "SECURITY.md", "SPEED.md"))]
# below PREFIX: what is installed, and what in the sources that is
PROGRAM_FILES = {
    "bin/luksrd": None,
    "share/bash-completion/completions/luksrd": "completions/luksrd.bash",
    "share/man/man1/luksrd.1": "docs/luksrd.1",
    "share/zsh/site-functions/_luksrd": "completions/_luksrd",
    **{f"share/doc/luksrd/{name}": None for name in GUIDES},
}
AUDIT_FILES = {
    "bin/luksrd-audit": None,
    "share/bash-completion/completions/luksrd-audit": "completions/luksrd-audit.bash",
    "share/luksrd-audit/luksrd-audit.schema.json": "docs/luksrd-audit.schema.json",
    "share/man/man1/luksrd-audit.1": "docs/luksrd-audit.1",
    "share/zsh/site-functions/_luksrd-audit": "completions/_luksrd-audit",
}
VERSION = re.search(r"^VERSION := (\d+\.\d+\.\d+)$", (TOP / "Makefile").read_text(), re.MULTILINE)[1]
FUNCTIONS = ("check_key decrypt ending finish header_len len mode_name mode_of open open_by_key plan prepare read "
             "status_text version wipe wipe_stack").split()
LIBRARY_PAGES = ["luksrd.3", *[f"luksrd_{name}.3" for name in FUNCTIONS]]
LIBRARY_FILES = ["include/luksrd.h", "lib/glibc-hwcaps/x86-64-v3/libluksrd.so.2", "lib/libluksrd.a", "lib/libluksrd.so",
                 "lib/libluksrd.so.2", f"lib/libluksrd.so.{VERSION}", "lib/pkgconfig/luksrd.pc",
                 *[f"share/man/man3/{page}" for page in LIBRARY_PAGES]]
MODULE = "lib/python3/dist-packages/luksrd.py"
RESCUE = sorted(path.name for path in (TOP / "rescue/luksrd_rescue").glob("*.py"))
# those that need the library alone, and those that need luksrd-audit, too
MODULE_FILES = ["lib/python3/dist-packages/luksrd_lvm.py"]
RESCUE_FILES = ["bin/luksrd-rescue", "share/bash-completion/completions/luksrd-rescue", "share/man/man1/luksrd-rescue.1",
                "share/zsh/site-functions/_luksrd-rescue",
                *(f"lib/python3/dist-packages/luksrd_rescue/{name}" for name in RESCUE)]
NBDKIT_PAGES = ["share/man/man1/nbdkit-luksrd-filter.1", "share/man/man1/nbdkit-luksrd-plugin.1"]
UNIT = "lib/systemd/system/nbdkit-luksrd@.service"
PLUGIN, FILTER = "nbdkit-luksrd-plugin.so", "nbdkit-luksrd-filter.so"
OWN_NBDKIT = [f"lib/nbdkit/plugins/{PLUGIN}", f"lib/nbdkit/filters/{FILTER}"]
ALL_FILES = [*PROGRAM_FILES, *AUDIT_FILES, *LIBRARY_FILES, *MODULE_FILES, MODULE, *RESCUE_FILES, *NBDKIT_PAGES,
             *OWN_NBDKIT]


def files_in(folder):
    """The files and links below a folder."""
    return sorted(str(path.relative_to(folder)) for path in folder.rglob("*") if path.is_symlink() or path.is_file())


class Make:
    """make with these files in the place of what is built."""

    def __init__(self, variables, tools=None):
        self.variables, self.tools = variables, tools

    def __call__(self, *words, top=TOP, **variables):
        given = [f"{name}={value}" for name, value in {**self.variables, **variables}.items()]
        path = f"{self.tools}:{os.environ['PATH']}" if self.tools else os.environ["PATH"]
        return run("make", "-s", "-C", top, *words, *given, env={**os.environ, "PATH": path})

    def refusal(self, *words, **variables):
        """What it says as it fails, but for what make adds."""
        ended = self(*words, **variables)
        assert ended.status != 0
        said = ended.output.decode() + ended.message
        return "\n".join(line for line in said.splitlines() if not re.match(r"make.*\*\*\*|install ", line))


@pytest.fixture
def stand_ins(tmp_path):
    """A folder of tools that stand in the place of others: a dpkg-query that knows the files in `owned`, a pkg-config that
    names folders for nbdkit, and an ldconfig that knows two folders and notes in `notes` that it is to note libraries."""
    folder = tmp_path / "tools"
    folder.mkdir()
    (tmp_path / "owned").touch()
    scripts = {
        "dpkg-query": f"""grep -qxF "$2" '{tmp_path}/owned' && echo "a-package: $2" """,
        "pkg-config": "case $* in *filterdir) echo /nbdkit/filters ;; *) echo /nbdkit/plugins ;; esac",
        "ldconfig": f"""case $* in
-vNX) printf '%s: (from /etc/ld.so.conf:1)\\n\\tlibc.so.6 -> libc.so.6\\n' /usr/lib '{tmp_path}/known/lib' ;;
'') echo noted >>'{tmp_path}/notes' ;;
esac""",
    }
    for name, script in scripts.items():
        (folder / name).write_text(f"#!/bin/sh\n{script}\n")
        (folder / name).chmod(0o755)
    return folder


@pytest.fixture
def make(tmp_path, stand_ins):
    """make with any files in the place of what is built, and with the tools above."""
    folder = tmp_path / "made"
    folder.mkdir()
    variables = {}
    for name in "PROGRAM", "AUDIT", "LIBRARY", "SHARED", "SHARED_V3", "PLUGIN", "FILTER":
        variables[name] = folder / name.lower()
        shutil.copy("/bin/true", variables[name])
    return Make(variables, stand_ins)


@pytest.fixture
def make_program(make):
    """The same, as if neither library nor plugin nor filter were built."""
    return Make({**make.variables, **{name: f"no-{name}" for name in ("AUDIT", "LIBRARY", "PLUGIN", "FILTER")}})


OF_NBDKIT = [f"nbdkit/plugins/{PLUGIN}", f"nbdkit/filters/{FILTER}"]
FOLDERS = {"PLUGINS": "/nbdkit/plugins", "FILTERS": "/nbdkit/filters", "MODULES": "/modules"}


@pytest.mark.parametrize("target, variables, prefix, wanted", [
    ("install", {"PREFIX": "/usr", "LIBRARY": "no-library", "PLUGIN": "no-plugin", "FILTER": "no-filter"}, "usr",
     [*PROGRAM_FILES, *AUDIT_FILES]),
    ("install", {"AUDIT": "no-audit", "LIBRARY": "no-library", "PLUGIN": "no-plugin", "FILTER": "no-filter"},
     "usr/local", PROGRAM_FILES),
    ("install", {"AUDIT": "no-audit", **FOLDERS}, "usr/local",
     [*PROGRAM_FILES, *LIBRARY_FILES, *NBDKIT_PAGES, UNIT, "../../modules/luksrd.py", "../../modules/luksrd_lvm.py",
      *(f"../../{name}" for name in OF_NBDKIT)]),
    # plugin and filter go to nbdkit's own folders, with a unit for systemd
    *(("install-plugin install-filter", {"PREFIX": f"/{prefix}/"}, prefix,
       [*NBDKIT_PAGES, UNIT, *(os.path.relpath(name, prefix) for name in OF_NBDKIT)])
      for prefix in ("usr", "usr/local")),
], ids=["programs", "luksrd", "all but the audit", "nbdkit, /usr", "nbdkit, /usr/local"])
def test_what_is_installed(make, tmp_path, target, variables, prefix, wanted):
    """Into a folder with a blank in its name, and removed again."""
    there = tmp_path / "a folder"
    expect(make(*target.split(), DESTDIR=there, **variables))
    assert files_in(there) == sorted(os.path.normpath(f"{prefix}/{name}") for name in wanted)
    sources = {**PROGRAM_FILES, **AUDIT_FILES, f"lib/libluksrd.so.{VERSION}": make.variables["SHARED"],
               LIBRARY_FILES[1]: make.variables["SHARED_V3"], "bin/luksrd": make.variables["PROGRAM"],
               "bin/luksrd-audit": make.variables["AUDIT"]}
    for name in wanted:
        file = there / prefix / name
        if name in {**PROGRAM_FILES, **AUDIT_FILES}:
            assert file.stat().st_mode & 0o777 == (0o755 if name.startswith("bin/") else 0o644)
        if sources.get(name):
            assert file.read_bytes() == (TOP / sources[name]).read_bytes()
    assert make("uninstall", DESTDIR=there, **variables).status == 0
    assert files_in(there) == []
    assert [*there.rglob("glibc-hwcaps")] == []


def test_another_prefix_leaves_folders_of_nbdkit(make, stand_ins, tmp_path):
    """An empty file in the place of a plugin that this PREFIX did not get stays."""
    nbdkit = tmp_path / "nbdkit"
    nbdkit.mkdir()
    (nbdkit / PLUGIN).touch()
    (stand_ins / "pkg-config").write_text(f"#!/bin/sh\necho '{nbdkit}'\n")
    for target in "install", "uninstall":
        assert make(target, PREFIX=tmp_path / "own").status == 0
        assert (files_in(nbdkit), (nbdkit / PLUGIN).stat().st_size) == ([PLUGIN], 0)
    assert files_in(tmp_path / "own") == []


def test_documents(make_program, tmp_path):
    """They are those of the sources, but for links to what is not installed."""
    assert make_program("install", DESTDIR=tmp_path / "there").status == 0
    documents = tmp_path / "there/usr/local/share/doc/luksrd"

    def unlinked(page):
        return re.sub(r" \([A-Za-z./]* in the sources\)", "", re.sub(r"\[([^]]*)\]\([^)]*\)", r"\1", page.read_text()))

    assert unlinked(documents / "README.md") == unlinked(TOP / "README.md")
    assert re.findall(r"[^(]* in the sources", (documents / "README.md").read_text()) == [
        "CONTRIBUTING.md in the sources"] * 2
    number, broken = broken_links(documents)
    assert number > 50
    assert broken == []


def test_the_installed_program(luksrd, make_program, here, sample):
    assert make_program("install", PROGRAM=luksrd.path, PREFIX=here / "own").status == 0
    expect(run(here / "own/bin/luksrd", "luksCat", "--key-file", "pass", "volume", cwd=here), sample.plain)


def test_a_prefix_with_a_blank(make, tmp_path):
    """All that can be installed, by many commands at once, and nothing outside of it."""
    before = files_in(tmp_path)
    prefix = tmp_path / "a prefix"
    expect(make("-j8", "install", PREFIX=prefix))
    assert files_in(prefix) == sorted(ALL_FILES)
    assert set(files_in(tmp_path)) == {*before, *(f"a prefix/{name}" for name in ALL_FILES)}
    # what packages have stays
    (tmp_path / "owned").write_text("".join(f"{prefix}/{name}\n" for name in ALL_FILES))
    assert make("uninstall", PREFIX=f"{prefix}/").status == 0
    assert files_in(prefix) == sorted(ALL_FILES)
    # what Python makes of the module goes with it; a file whose name is that of the folder up to the blank stays
    (tmp_path / "owned").write_text("")
    (tmp_path / "a").touch()
    cache = prefix / "lib/python3/dist-packages/__pycache__"
    cache.mkdir()
    (cache / "luksrd.cpython-311.pyc").touch()
    assert make("uninstall", PREFIX=prefix).status == 0
    assert files_in(prefix) == []
    assert (tmp_path / "a").exists()
    assert not [path for path in prefix.rglob("*") if path.name in ("luksrd", "glibc-hwcaps", "__pycache__")]
    (prefix / "bin/luksrd").symlink_to("/etc/alternatives/luksrd")
    assert make.refusal("install", PREFIX=prefix) == \
        f"the package luksrd has {prefix}/bin/luksrd: run apt-get remove luksrd, or give a PREFIX"


@pytest.mark.parametrize("file", ["bin/luksrd", "bin/luksrd-audit", "include/luksrd.h", *OWN_NBDKIT, MODULE])
def test_a_file_of_a_package(make, tmp_path, file):
    """Nothing is installed."""
    prefix = tmp_path / "nothing"
    (tmp_path / "owned").write_text(f"{prefix}/{file}\n")
    said = f"the package a-package has {prefix}//{file}: run apt-get remove a-package, or give a PREFIX"
    assert make.refusal("install", PREFIX=f"{prefix}/") == said
    assert not prefix.exists() or files_in(prefix) == []


def test_folders_of_nbdkit(make, tmp_path):
    """Nothing is installed if one cannot be made, or is not known."""
    prefix = tmp_path / "nothing"
    assert make.refusal("install", PREFIX=prefix, FILTERS="/dev/null/filters").splitlines()[-1] == \
        "/dev/null/filters cannot be written to: nothing is installed"
    assert make.refusal("install", PREFIX=prefix, PLUGINS="") == \
        "nbdkit's folder is not known: run apt-get install nbdkit-plugin-dev pkg-config"
    assert not prefix.exists() or files_in(prefix) == []


NO_PROGRAM = "luksrd is not built: run make first"
NO_PROGRAM_V3 = "luksrd is not built: run make CPU=x86-64-v3 first"
NO_LIBRARY = "the library is not built: run make library first"
NO_FILTER = "the filter is not built: run make nbdkit first"


@pytest.mark.parametrize("target, absent, said", [
    ("install", ["PROGRAM"], NO_PROGRAM),
    ("install CPU=x86-64-v3", ["PROGRAM"], NO_PROGRAM_V3),
    ("deb", ["PROGRAM_V2"], NO_PROGRAM),
    ("deb", ["PROGRAM_V3"], NO_PROGRAM_V3),
    ("deb", ["SHARED"], NO_LIBRARY),
    ("deb", ["FILTER"], NO_FILTER),
    ("install-library", ["LIBRARY"], NO_LIBRARY),
    ("install-library", ["SHARED_V3"], NO_LIBRARY),
    ("install", ["FILTER", "LIBRARY"], NO_LIBRARY),
    ("install", ["PLUGIN", "LIBRARY"], NO_LIBRARY),
    ("install-filter", ["FILTER"], NO_FILTER),
    ("install-plugin", ["PLUGIN"], "the plugin is not built: run make nbdkit first"),
    ("install-audit", ["AUDIT"], "luksrd-audit is not built: run make first"),
    ("demo", [], "rt is missing: put the Rattle toolchain on the path"),
])
def test_what_is_not_built(make, tmp_path, target, absent, said):
    """It is said which command makes it, and nothing is installed. (In these folders there is no `rt`.)"""
    nothing = tmp_path / "nothing"
    nothing.mkdir()
    program = make.variables["PROGRAM"]
    variables = {**make.variables, "PROGRAM_V2": program, "PROGRAM_V3": program, "DEBS": nothing, "DESTDIR": nothing}
    given = [f"{name}={f'no-{name}' if name in absent else value}" for name, value in variables.items()]
    ended = run("make", "-s", "-C", TOP, *target.split(), *given, env={"PATH": "/usr/sbin:/usr/bin:/sbin:/bin"})
    lines = [line for line in (ended.output.decode() + ended.message).splitlines() if not line.startswith("make")]
    assert (lines[-1], ended.status) == (said, 2)
    assert files_in(nothing) == []


def test_a_processor_that_there_is_not(make, tmp_path):
    ended = make("install", "CPU=x86-64-v9", DESTDIR=tmp_path / "nothing")
    assert (ended.status, ended.message.rpartition("*** ")[2]) == (2, "CPU is x86-64-v2 or x86-64-v3.  Stop.\n")


@needs("v3")
def test_the_program_for_newer_processors(request, make_program, tmp_path):
    """It is installed once it has run here."""
    program = request.config.getoption("--luksrd-v3").resolve()
    for script in "echo 'it needs AVX2' >&2; exit 127", "exit 0":
        refusing = tmp_path / "refusing"
        refusing.write_text(f"#!/bin/sh\n{script}\n")
        refusing.chmod(0o755)
        for target in "install", "install-program":
            said = make_program.refusal(target, CPU="x86-64-v3", PROGRAM=refusing, DESTDIR=tmp_path / "nothing")
            assert said.replace("it needs AVX2\n", "") == \
                "luksrd for x86-64-v3 does not run here: nothing is installed"
    assert not (tmp_path / "nothing").exists()
    there = tmp_path / "there"
    assert make_program("install", CPU="x86-64-v3", PROGRAM=program, DESTDIR=there).status == 0
    assert files_in(there / "usr/local") == sorted(PROGRAM_FILES)
    assert (there / "usr/local/bin/luksrd").read_bytes() == program.read_bytes()


@needs("root")
@pytest.mark.parametrize("targets, prefix, destdir, notes", [
    (["install-library", "uninstall"], "known", "", 2),
    (["install-library"], "own", "", 0),
    (["install-library"], "known", "there", 0),
])
def test_ldconfig(make, tmp_path, targets, prefix, destdir, notes):
    """It runs for a folder that it knows, if the files are in place."""
    (tmp_path / "notes").touch()
    for target in targets:
        where = tmp_path / destdir if destdir else ""
        assert make(target, PREFIX=tmp_path / prefix, DESTDIR=where).status == 0
    assert (tmp_path / "notes").read_text() == "noted\n" * notes


@pytest.fixture
def another_user(make, tmp_path, request):
    """make as a user who may write neither into the system's folders nor into the tree; `own` is this user's."""
    if os.geteuid() != 0:
        pytest.skip("only root can do this")
    place = pathlib.Path(must("mktemp", "-d").decode().strip())
    request.addfinalizer(lambda: shutil.rmtree(place))
    for name in "c", "completions", "docs", "packaging", "python", "rescue":
        shutil.copytree(TOP / name, place / "tree" / name)
    for name in "Makefile", "README.md":
        shutil.copy(TOP / name, place / "tree")
    shutil.copytree(tmp_path / "made", place / "made")
    shutil.copytree(make.tools, place / "tools")
    (place / "own").mkdir()
    (place / "known").mkdir()
    must("chmod", "-R", "a+rX", place)
    (place / "own").chmod(0o777)
    variables = {name: f"../made/{value.name}" for name, value in make.variables.items()}

    def ends(*words, **further):
        given = [f"{name}={value}" for name, value in {**variables, **further}.items()]
        return run("setpriv", "--reuid", "65534", "--regid", "65534", "--clear-groups", "make", "-s", "-C",
                   place / "tree", *words, *given, env={"PATH": f"{place}/tools:{os.environ['PATH']}"})

    return place, ends


def test_by_another_user(another_user, tmp_path):
    place, make_it = another_user
    (tmp_path / "notes").touch()
    (tmp_path / "notes").chmod(0o666)
    assert make_it("install", PREFIX=place / "own/it").status == 0
    assert files_in(place / "own/it") == sorted(ALL_FILES)
    number, broken = broken_links(place / "own/it/share/doc/luksrd")
    assert (number > 50, broken) == (True, [])
    assert make_it("uninstall", PREFIX=place / "own/it").status == 0
    assert files_in(place / "own/it") == []
    for folder in "PLUGINS", "FILTERS":
        assert make_it("install", PREFIX=place / "own/it", **{folder: place / "known"}).status != 0
        assert files_in(place / "own/it") + files_in(place / "known") == []
    assert make_it("install-library", PREFIX=place / "own").status == 0
    assert (tmp_path / "notes").read_text() == ""
