"""The sources: names with two meanings, the order of the crates, counts of work, versions, links, and pages that are made
from the sources. Nothing has to be built."""
import ast
import collections
import re

import pytest
from links import broken_links
from support import TOP, run


def test_no_name_has_two_meanings():
    """No two definitions share a name, nor a definition in specs/ and a lemma in proofs/: a reader would have to know
    which one is meant."""
    item = re.compile(r"^(?:abbrev |unfoldable |record |pub )+([A-Za-z_]\w*)(?= *[:({]| *$)", re.MULTILINE)
    places = collections.defaultdict(list)
    for folder in "specs", "proofs":
        for path in sorted(TOP.glob(f"crates/*/{folder}/**/*.antt")):
            for found in item.finditer(path.read_text()):
                places[found[1]].append(f"{folder}: {path.relative_to(TOP)}")
    assert len(places) > 1000
    assert {name: found for name, found in places.items()
            if len(found) > 1 and any(place.startswith("specs:") for place in found)} == {}


def test_order_of_the_crates():
    """None uses one above it in crates.txt, and the map in docs/ARCHITECTURE.md has them in that order."""
    lines = re.findall(r"^(\w+)(?: staticlib)?:(.*)", (TOP / "crates.txt").read_text(), re.MULTILINE)
    place = {name: number for number, (name, _) in enumerate(lines)}
    assert len(place) > 20
    assert [(name, other) for name, used in lines for other in used.split()
            if place.get(other, len(place)) <= place[name]] == []
    rows = re.findall(r"^\| (`.*?) \|", (TOP / "docs/ARCHITECTURE.md").read_text(), re.MULTILINE)
    assert [name for row in rows for name in re.findall(r"`(\w+)`", row)] == list(place)


def test_counts_of_work():
    """A contract says how far a call raises the count of work that it is given. No contract sees a count that a body makes
    for itself, under which it could derive keys that nobody counts. So counts are made in these files only."""
    wanted = {
        "luks_commands/src/execute.rt": 1,  # a run
        "luks_access/src/volume.rt": 1,  # the opening of a volume by the library
        "luks_access/src/key.rt": 1,  # the comparison of a known key by the library
        "luks_volume/src/pieces.rt": 1,  # a volume that is sealed
    }
    # a parameter, and an import under its own name
    other = re.compile(r"&(mut )?Work\b(?!::)|^(?:pub )?use luks_kdf::(Work;|\{(.*, )?Work(, .*)?\};)", re.MULTILINE)
    made, used_otherwise = {}, []
    for path in sorted(TOP.glob("crates/*/src/**/*.rt")):
        name = str(path.relative_to(TOP / "crates"))
        if re.fullmatch(r"luks_kdf|luksrd_tools|\w+_tests", name.split("/")[0]):
            continue
        code = re.sub(r"//.*", "", path.read_text())
        news = len(re.findall(r"\bWork::new\(0\)", code))
        if news:
            made[name] = news
        if len(re.findall(r"\bWork\b", code)) != news + len(other.findall(code)):
            used_otherwise.append(name)
    assert (made, used_otherwise) == (wanted, [])


def test_keys_by_argon2():
    """Nor does any contract see what a body derives by Argon2 for itself, without the limits of the options, or how much
    memory it holds at once. So this is done in these places only."""
    found = {}
    for path in sorted(TOP.glob("crates/*/src/**/*.rt")):
        crate, name = path.relative_to(TOP / "crates").parts[0], str(path.relative_to(TOP / "crates"))
        if re.fullmatch(r"luks_argon2|luksrd_tools|\w+_tests", crate):
            continue
        code = re.sub(r"//.*", "", path.read_text())
        for call in re.findall(r"\b(?:WithArgon2|Memory)::new\(|(?<!fn )(?<![\[.\w])derive\(", code):
            found.setdefault(name, []).append(call)
    assert found == {
        "luks_access/src/volume.rt": ["WithArgon2::new("],  # the opening of a volume by the library
        "luks_open/src/held.rt": ["Memory::new("],
        "luks_open/src/with_argon2.rt": ["derive("],
    }


# The first match in each file counts: in CHANGELOG.md that is the newest release.
VERSIONS = {
    "CHANGELOG.md": r"^## ([0-9].*) \(\d{4}-\d\d-\d\d\)$",
    "c/luksrd.h": r"^#define LUKSRD_VERSION 0x(.*)$",
    "crates/luks_c/src/lib.rt": r"^const VERSION: u32 = 0x00(.*);$",
    "crates/luks_audit/src/program.rt": r'^pub const VERSION: &str = "(.*)";$',
    "crates/luks_audit/specs/Table.antt": r'^program_version = codes "(.*)"$',
    "crates/luksrd_audit/stdout": r'"program_version":"(.*)"',
    "crates/luks_audit_tests/src/tests/runs.rt": r"no LUKS header(?:\\t)+([0-9.]+)",
    "python/luksrd.py": r'^__version__ = "(.*)"$',
    "python/luksrd_lvm.py": r'^__version__ = "(.*)"$',
    "python/pyproject.toml": r'^version = "(.*)"$',
    "rescue/luksrd_rescue/__init__.py": r'^__version__ = "(.*)"$',
    **{f"docs/{page.name}": r"^\.Os luksrd (.*)$" for page in TOP.glob("docs/*.[0-9]")},
}
INTERFACES = {
    "c/luksrd.map": r"^LUKSRD_(.*) \{$",
    "python/luksrd.py": r'^_LIBRARY = "libluksrd\.so\.(.*)"$',
}


def stated(path, pattern):
    """What this file states; a number of three bytes as a version of three numbers."""
    text = re.search(pattern, (TOP / path).read_text(), re.MULTILINE)[1]
    if re.fullmatch(r"[0-9A-F]{2}_?[0-9A-F]{4}", text, re.IGNORECASE):
        return ".".join(map(str, bytes.fromhex(text.replace("_", ""))))
    return text


@pytest.mark.parametrize("path", VERSIONS)
def test_version(path):
    assert stated(path, VERSIONS[path]) == stated("Makefile", r"^VERSION := (.*)$")


def test_limits_of_the_library():
    """luksrd-audit says what the library can try by its default limits, which luks_c states."""
    stored, audit = ((TOP / f"crates/{name}.antt").read_text() for name in ("luks_c/specs/Stored", "luks_audit/specs/Audit"))
    memory = re.search(r"or_default c\.argon2_memory_kib (\d+);", stored)[1]
    fill = re.search(r"or_default c\.argon2_fill_mib (\d+) \* 1024;", stored)[1]
    assert f"memory_kib = {memory}; fill_kib = {int(fill) * 1024} }}" in audit


@pytest.mark.parametrize("path", INTERFACES)
def test_number_of_the_interface(path):
    assert stated(path, INTERFACES[path]) == stated("Makefile", r"^INTERFACE := (.*)$")


def test_readme_is_short():
    """A person under stress reads it: 90 lines of 100 columns, 800 words."""
    text = (TOP / "README.md").read_text()
    assert (len(text.splitlines()) <= 90, max(map(len, text.splitlines())) <= 100, len(text.split()) <= 800) == (True,) * 3


def test_example_in_rattle():
    """LIBRARY.md has a function of crates/example_read."""
    shown = re.search(r"^```rust\n(.*?)^```$", (TOP / "docs/LIBRARY.md").read_text(), re.MULTILINE | re.DOTALL)[1]
    assert shown in (TOP / "crates/example_read/src/main.rt").read_text()


def test_links():
    number, broken = broken_links(TOP)
    assert number > 100
    assert broken == []


def test_links_that_lead_nowhere(tmp_path):
    """What the test above would find."""
    (tmp_path / "docs").mkdir()
    (tmp_path / "a.md").write_text("# A heading: of `two`\n\n"
                                   "[a](#a-heading-of-two) [b](docs/b.md#b) `[c](d)`\n\n    [e](f)\n")
    good = "# B\n\n[a](../a.md) [a\nand b](../a.md#a-heading-of-two)\n"
    (tmp_path / "docs/b.md").write_text(good)
    assert broken_links(tmp_path) == (4, [])
    (tmp_path / "docs/b.md").write_text(f"{good}[a](../a.md#another) [c](../c.md)\n[out](../../files) [a][b]\n")
    assert broken_links(tmp_path) == (7, [
        "docs/b.md: ../a.md#another has no such heading",
        "docs/b.md: ../c.md is not there",
        "docs/b.md: ../../files is outside",
        "docs/b.md: [b] is not defined",
    ])


def test_references_to_man_pages():
    """Documents and man pages name pages that are there, and sections of their own."""
    pages = {page.stem for page in TOP.glob("docs/*.1")}
    assert len(pages) > 3
    named = {}
    for page in [*TOP.glob("docs/*.1")]:
        text = page.read_text()
        named[page.name] = set(re.findall(r"^\.Xr ((?:nbdkit-)?luksrd\S*) 1", text, re.MULTILINE))
        sections = set(re.findall(r"^\.Sh (.*)$", text, re.MULTILINE))
        assert set(re.findall(r"\bSx ([A-Z][A-Z ]*[A-Z])", text)) <= sections
    for page in [*TOP.glob("*.md"), *TOP.glob("docs/*.md")]:
        named[page.name] = set(re.findall(r"\b((?:nbdkit-)?luksrd(?:-[a-z]+)*)\(1\)", page.read_text()))
    assert {name: found - pages for name, found in named.items() if found - pages} == {}


def test_files_that_documents_name():
    """A test, a script or a crate that a document or a comment names is there. (CHANGELOG.md names what was.)"""
    missing = []
    texts = [*TOP.glob("*.md"), *TOP.glob("docs/*.md"), *TOP.glob("crates/*/src/**/*.rt"), TOP / "Makefile"]
    for page in texts:
        if page.name == "CHANGELOG.md":
            continue
        for name in re.findall(r"`((?:tests|interop|bench|scripts|packaging)/[\w./@-]+)`", page.read_text()):
            if not (TOP / name.rstrip("/")).exists():
                missing.append(f"{page.relative_to(TOP)}: {name}")
    assert missing == []


@pytest.mark.parametrize("script", ["docs/headline", "docs/contracts", "bench/page"])
def test_page_is_as_it_is_made(script):
    """The headline and the contracts from the sources, and the tables of SPEED.md from the results."""
    assert run(TOP / script, "--check", cwd=TOP).status == 0


def test_quick_takes_no_memory_away():
    """`make quick` runs tests by `rt try`, under which those that take memory away fail."""
    quick = (TOP / "tests/quick").read_text()
    rows = ast.literal_eval(re.search(r"^MODULES = (\{.*?^\})", quick, re.MULTILINE | re.DOTALL)[1])
    left_out = {(crate, name.split("-")[0]): name.split("-")[1:] for crate, names in rows.items() for name in names}
    scarce = [path for path in TOP.glob("crates/*_tests/src/tests/*/*.rt") if "Scarcity" in path.read_text()]
    assert len(scarce) > 5
    for path in scarce:
        assert path.stem in left_out.get((path.parts[-5], path.parts[-2]), [path.stem]), path
