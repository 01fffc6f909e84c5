"""Compares what crates/luks_c and c/luksrd.h declare: each struct with its fields, their order,
types and offsets, each function with its parameters and its result, and each constant. Both texts
are read here; a C compiler then says what the header means. A struct whose contents are the
library's own has the same size and alignment in both."""

import re

from support import TOP, must, run

NUMBERS = {"u8": ("uint8_t", 1), "u32": ("uint32_t", 4), "u64": ("uint64_t", 8)}
# the constants of luksrd.h that have another name than the message, or are in another crate
NAMES = {"Done": "OK", "Cut": "TRUNCATED", "_": "OUT_OF_MEMORY", "Tail": "ENDS_INSIDE_SECTOR",
         "CutBeforePayload": "ENDS_BEFORE_PAYLOAD", "Short": "ENDS_BEFORE_SEGMENT"}
ELSEWHERE = {"LUKSRD_HEADER_BYTES": ("luks_format/src/area.rt", "MAX_LEN"),
             "LUKSRD_PASSPHRASE_BYTES": ("luks_access/src/volume.rt", "MAX_PASSPHRASE_LEN"),
             "LUKSRD_SECTOR_BYTES": ("luks_access/src/range.rt", "MAX_SECTOR_LEN")}
# the structs whose contents only the library knows, the crates that declare the structs in them,
# the fields that are text in C, and the functions that take any bytes
OPAQUE = ["luksrd_cipher"]
BELOW = ["luks_aes", "luks_cipher"]
TEXTS = {("luksrd_message", "text")}
UNTYPED = ["luksrd_wipe"]
EXPORTED = re.compile(
    r'#\[unsafe\(no_mangle\)\]\s*pub extern "C" fn (\w+)\(([^)]*)\)(?: -> (\w+))?')
STRUCTS = re.compile(r"#\[repr\(C\)\]\s*(?:#\[derive\([^)]*\)\]\s*)?pub struct (\w+)")


def snake(name):
    return re.sub(r"(?<=[a-z0-9])(?=[A-Z])", "_", name).lower()


def whole(digits):
    return int(digits.replace("_", ""), 0)


def text_of(crate):
    """The code of a crate, without comments."""
    files = sorted((TOP / "crates" / crate / "src").rglob("*.rt"))
    return "\n".join(re.sub(r"//[^\n]*", " ", path.read_text()) for path in files)


def block(source, start):
    """What is between the braces after `start`."""
    at = source.index("{", source.index(start)) + 1
    depth, end = 1, at
    while depth:
        depth += {"{": 1, "}": -1}.get(source[end], 0)
        end += 1
    return source[at:end - 1]


def parts(listed):
    return [part.strip() for part in listed.split(",") if part.strip()]


def declared(source):
    """The fields of each struct that is laid out as in C."""
    return {name: re.findall(r"pub (\w+): ([^,]+),", block(source, f"pub struct {name} "))
            for name in STRUCTS.findall(source)}


def laid_out(fields, structs):
    """The fields with their C types, counts and offsets, and the size and the alignment of the
    struct, by the rules of C."""
    offset, widest, rows = 0, 1, []
    for name, kind in fields:
        array = re.fullmatch(r"\[(\w+); (\w+)\]", kind)
        element, count = (array[1], whole(array[2])) if array else (kind, None)
        if element in NUMBERS:
            c_type, size = NUMBERS[element]
            align = size
        else:
            c_type = f"struct {snake(element)}"
            _, size, align = laid_out(structs[element], structs)
        offset += -offset % align
        rows.append((name, c_type, count, offset))
        offset, widest = offset + size * (count or 1), max(widest, align)
    return rows, offset + -offset % widest, widest


def parameters_of(listed):
    """The C types and the names of parameters; a slice has two, and the allocator none. The length
    of the only slice of a function is called len."""
    rows = []
    for parameter in parts(listed):
        name, kind = re.fullmatch(r"(\w+): (.*)", parameter).groups()
        behind = re.fullmatch(r"&(mut )?(\[?)(\w+)\]?", kind)
        if behind:
            pointee = NUMBERS.get(behind[3], [f"struct {snake(behind[3])}"])[0]
            rows.append((f"{'' if behind[1] else 'const '}{pointee} *", name))
            rows += [("size_t", f"{name}_len")] if behind[2] else []
        elif kind != "Global":
            rows.append((NUMBERS[kind][0], name))
    alone = sum(kind == "size_t" for kind, _ in rows) == 1
    return [(kind, "len" if alone and kind == "size_t" else name) for kind, name in rows]


class Rattle:
    """What luks_c declares."""

    def __init__(self):
        self.source = text_of("luks_c")
        structs = declared("\n".join(map(text_of, BELOW))) | declared(self.source)
        self.structs = {snake(name): laid_out(fields, structs)
                        for name, fields in declared(self.source).items()}
        self.functions = {name: (NUMBERS[result][0] if result else "void", parameters_of(listed))
                          for name, listed, result in EXPORTED.findall(self.source)}
        for name in UNTYPED:
            result, rows = self.functions[name]
            self.functions[name] = (result, [(kind.replace("uint8_t", "void"), field)
                                             for kind, field in rows])
        self.exported = len(re.findall(r'no_mangle|extern "C"', self.source))
        constants = dict(re.findall(r"const (\w+): u32 = (\w+);", self.source))
        self.codes = {f"LUKSRD_{NAMES.get(name, snake(name).upper())}":
                      whole(constants.get(number, number))
                      for name, number in re.findall(
                          r"(?:Message::)?(\w+)(?:\([^)]*\))? => (\w+),", self.arms("code_of"))}
        self.codes |= {f"LUKSRD_{name}": whole(number) for name, number in re.findall(
            r"pub\(crate\) const (\w+): u32 = (\w+);", self.source)}
        self.modes = {f"LUKSRD_{snake(name).upper()}": whole(number) for name, number in re.findall(
            r"Mode::(\w+) => (\w+),", self.arms("number_of_mode"))}
        self.modes_back = {f"LUKSRD_{snake(name).upper()}": whole(number)
                           for number, name in re.findall(r"(\w+) => Some\(Mode::(\w+)\)",
                                                          self.arms("mode_of_number"))}
        self.sentences = [whole(number)
                          for number in re.findall(r"(\d+) => \(", self.arms("sentence"))]
        self.defines = {
            name: whole(re.search(rf"const {constant}: usize = (\w+);",
                                  (TOP / "crates" / path).read_text())[1])
            for name, (path, constant) in ELSEWHERE.items()}
        version = re.search(r"const VERSION: u32 = (\w+);", self.source)
        self.defines["LUKSRD_VERSION"] = whole(version[1])

    def arms(self, function):
        """The arms of the match in a function."""
        return block(self.source[self.source.index(f"fn {function}("):], " match ")


class Header:
    """What luksrd.h declares."""

    def __init__(self):
        source = re.sub(r"/\*.*?\*/", " ", (TOP / "c/luksrd.h").read_text(), flags=re.S)
        source = re.sub(r"\s+LUKSRD_(NONNULL|CHECKED);", ";", source)
        self.asserted = {what: whole(number) for what, number in re.findall(
            r"_Static_assert\((.*) == (\d+), \"layout\"\);", source)}
        self.structs = {name: re.findall(r"(\w+) (\w+)(?:\[(\w+)\])?;",
                                         block(source, f"struct {name} {{"))
                        for name in re.findall(r"^struct (\w+) {", source, re.M)}
        self.functions = {name: (result, self.parameters(" ".join(listed.split())))
                          for result, name, listed in re.findall(
                              r"^(\w+) (luksrd_\w+)\(([^)]*)\);", source, re.M)}
        self.enums = {name: {constant: whole(number) for constant, number in re.findall(
            r"(\w+) = (\w+)", block(source, f"enum {name} {{"))}
            for name in re.findall(r"^enum (\w+) {", source, re.M)}
        self.defines = {name: whole(number)
                        for name, number in re.findall(r"^#define (\w+) (\w+)$", source, re.M)}

    @staticmethod
    def parameters(listed):
        found = [] if listed == "void" else parts(listed)
        pairs = (re.fullmatch(r"(.*?)(\w+)", parameter).groups() for parameter in found)
        return [(kind.strip(), name) for kind, name in pairs]


def declarations(rattle, header):
    """What is compared, as the header and as luks_c has it."""
    yield "structs", sorted(header.structs), sorted(rattle.structs)
    for name in rattle.structs.keys() - OPAQUE:
        got = [(field, kind, whole(count) if count else None)
               for kind, field, count in header.structs.get(name, [])]
        yield f"fields of {name}", got, [
            (field, "char" if (name, field) in TEXTS else kind, count)
            for field, kind, count, _ in rattle.structs[name][0]]
    yield "functions", sorted(header.functions), sorted(rattle.functions)
    yield "what luks_c exports", 2 * len(rattle.functions), rattle.exported
    for name, function in rattle.functions.items():
        yield name, header.functions.get(name), function
    codes = header.enums.get("luksrd_code", {})
    yield "enums", sorted(header.enums), ["luksrd_code", "luksrd_mode"]
    yield "codes", codes, rattle.codes
    yield "codes that have a sentence", sorted(codes.values()), rattle.sentences
    yield "modes", header.enums.get("luksrd_mode"), rattle.modes
    yield "modes, read back", header.enums.get("luksrd_mode"), rattle.modes_back
    yield "other constants", header.defines, rattle.defines


def meanings(rattle, header, folder):
    """What a compiler makes of luksrd.h."""
    numbers = {f"sizeof(struct {name})": size for name, (_, size, _) in rattle.structs.items()}
    kinds = [(name, f"{result}({', '.join(kind for kind, _ in rows)})")
             for name, (result, rows) in rattle.functions.items()]
    for name in rattle.structs.keys() - OPAQUE:
        for field, kind, count, offset in rattle.structs[name][0]:
            numbers[f"offsetof(struct {name}, {field})"] = offset
            kind = "char" if (name, field) in TEXTS else kind
            kinds.append((f"((struct {name} *)0)->{field}", f"{kind}[{count}]" if count else kind))
    asserted = dict(header.asserted)
    asserted.pop("offsetof(struct luksrd_cipher, words)", None)
    yield "the sizes and offsets that luksrd.h asserts", asserted, dict(numbers)
    numbers |= {f"_Alignof(struct {name})": align
                for name, (_, _, align) in rattle.structs.items()}
    numbers |= rattle.codes | rattle.modes | rattle.defines
    numbers |= {f"__builtin_types_compatible_p(__typeof__({what}), {kind})": 1
                for what, kind in kinds}
    prints = [f'  printf("%zu\\n", (size_t)({what}));' for what in numbers]
    program = ['#include "luksrd.h"', "#include <stddef.h>", "#include <stdio.h>",
               "int main(void)", "{", *prints, "}", ""]
    # without optimization gcc keeps the header's own function, which calls the library
    must("gcc", "-std=gnu11", "-O1", "-Wall", "-Wextra", "-Werror", f"-I{TOP}/c", "-o",
         folder / "border", "-x", "c", "-", stdin="\n".join(program).encode())
    printed = run(folder / "border").output.decode().split()
    yield "lines", len(printed), len(numbers)
    for (what, number), got in zip(numbers.items(), printed):
        yield what, got, str(number)


def compared(folder):
    """What is compared, by name, as c/luksrd.h and as crates/luks_c has it."""
    rattle, header = Rattle(), Header()
    return [*declarations(rattle, header), *meanings(rattle, header, folder)]
