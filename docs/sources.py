"""Shared by the scripts that make pages: the definitions of specs/ and the types in Rust, by crate,
with the comments above them."""
import pathlib
import re
import sys

TOP = pathlib.Path(__file__).resolve().parents[1]

NAME = re.compile(r"[^\W\d][\w']*|[^\s\w(){}\[\],.;:→λ=←_'\"]+")
START = re.compile(
    r"^(?:(?:abbrev|unfoldable|pub|data|record) )*([^\W\d][\w']*|◌\S+◌)(?= *[:({]| *$)"
)
RUST = re.compile(r"^pub (?:struct|enum) (\w+)", re.MULTILINE)

# the model of a type
MODEL = re.compile(r"^(impl(?:<.*>)? Model for (\w+)\S*) \{.*?(ghost Value = .*?;)$", re.MULTILINE | re.DOTALL)

# the name of an enum's variant, which may also be that of a type
VARIANT = re.compile(r"^    [A-Z]\w*", re.MULTILINE)


class Definition:
    """A definition of specs/, or a type in Rust: its text, with the comment above it, and the names
    that it uses."""

    def __init__(self, crate, place, name, comment, lines, imports):
        self.crate, self.place, self.name = crate, place, name
        self.comment, self.lines, self.imports = comment, lines, imports

    def statements(self):
        """Its lines without comments."""
        return [line for line in self.lines if not line.lstrip().startswith(("//", "--"))]

    def uses(self):
        text = "\n".join(self.statements())
        if self.place.endswith(".rt"):
            text = VARIANT.sub("", text)
        return dict.fromkeys(NAME.findall(text))


def imports_of(text):
    """The names that a file of specs/ imports: where each is defined, and under which name."""
    found = {}
    items = r"^(?:pub )?use Rattle\.([\w.]+)\.\{([^}]*)\}"
    for module, names in re.findall(items, text, re.MULTILINE):
        for item in names.split(", "):
            original, _, other = item.partition(" as ")
            found[(other or original).strip("◌")] = (module, original)
    for module, other in re.findall(r"^use Rattle\.([\w.]+) as (\w+)", text, re.MULTILINE):
        found[other] = (module, None)
    return found


def definitions_of(crate, path):
    """The definitions of a file of specs/, by their names."""
    text = path.read_text()
    imports, found, comment, block = imports_of(text), {}, [], []
    for line in [*text.split("\n"), ""]:
        if line.startswith("--") and not block:
            comment.append(line)
        elif line and not line.startswith(("use ", "infix")):
            block.append(line)
        elif not line:
            name = START.match(block[0]) if block else None
            if name:
                above = [line for line in comment if not line.startswith("-- ----")]
                definition = Definition(crate, path.name, name[1], above, block, imports)
                found[name[1].strip("◌")] = definition
            comment, block = [], []
    return found


def types_of(crate, path):
    """The public types of a file in Rust, by their names, without their code. Of one with a model, which is what clauses
    see, that stands in its place."""
    text, found = path.read_text(), {}
    models = {name: (model, value) for model, name, value in MODEL.findall(text)}
    for item in RUST.finditer(text):
        end = text.index("\n", item.start())
        if re.match(r"[^;\n]*\{$", text[item.start() : end]):
            end = text.index("\n}", item.start()) + 2
        above = text[: item.start()].split("\n")[:-1]
        comment = []
        while above and above[-1].startswith(("///", "#[")):
            line = above.pop()
            if line.startswith("///"):
                comment.insert(0, line)
        lines = [line for line in text[item.start():end].split("\n") if line.strip()]
        if item[1] in models:
            model, value = models[item[1]]
            lines = [f"{model} {{", f"    {value}", "}"]
        found[item[1]] = Definition(crate, path.name, item[1], comment, lines, {})
    return found


def all_definitions():
    """Those of all crates: by crate, module and name for specs/, by crate and name for types."""
    found, types = {}, {}
    for crate in sorted((TOP / "crates").iterdir()):
        for path in sorted(crate.glob("specs/**/*.antt")):
            module = ".".join(path.relative_to(crate / "specs").with_suffix("").parts)
            for name, definition in definitions_of(crate.name, path).items():
                found[crate.name, module, name] = definition
        for path in sorted(crate.glob("src/**/*.rt")):
            for name, definition in types_of(crate.name, path).items():
                types[crate.name, name] = definition
    return found, types


def passed_on():
    """The modules of specs/ that a crate passes on from another: the other's, by its own."""
    found = {}
    for path in (TOP / "crates").glob("*/specs/Lib.antt"):
        for crate, module in re.findall(r"^pub use Rattle\.(\w+)\.specs\.([\w.]+)$", path.read_text(), re.MULTILINE):
            found[path.parts[-3], module.split(".")[-1]] = crate, module
    return found


def crates_in_order():
    """The headings of crates.txt, each with its crates, in that order."""
    found = []
    for line in (TOP / "crates.txt").read_text().split("\n\n", 1)[1].split("\n"):
        if line.startswith("# "):
            found.append((line[2:], []))
        elif line:
            found[-1][1].append(re.match(r"\w+", line)[0])
    return found


def write_pages(pages, script, folder=None):
    """Writes the pages, each text by its path, and removes everything else from the folder. With
    --check it writes and removes nothing, and fails if it would have to."""
    others = set(folder.iterdir()) - pages.keys() if folder else set()
    changed = {path for path, text in pages.items() if not path.exists() or path.read_text() != text}
    if sys.argv[1:] == ["--check"]:
        for path in sorted(changed | others):
            print(f"{path.relative_to(TOP)} is stale: run make pages")
        print(f"{script}: {len(pages)} made, {len(changed | others)} stale")
        sys.exit(bool(changed or others))
    for path in others:
        path.unlink()
    for path in changed:
        path.write_text(pages[path])
