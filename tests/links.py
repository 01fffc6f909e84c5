"""Links in documents: where they lead, in the sources, and where documents are installed."""
import os
import pathlib
import re
import urllib.parse

FENCED = re.compile(r"^(```|~~~).*?^\1[^\n]*$", re.MULTILINE | re.DOTALL)
INDENTED = re.compile(r"(?<=\n\n)(?:(?: {4}|\t)[^\n]*\n(?:[ \t]*\n)*)+")
CODE = re.compile(r"(`+)(?!`)(?:(?!\n\s*\n).)*?(?<!`)\1(?!`)", re.DOTALL)
HEADING = re.compile(r"^#{1,6} +(.*?)(?: +#+)? *$", re.MULTILINE)
NAMED = re.compile(r"<a (?:id|name)=\"([^\"]*)\"")
LINK = re.compile(r"\]\(\s*<?([^)\s>]*)>?(?:\s+\"[^\"]*\")?\s*\)")
DEFINED = re.compile(r"^ {0,3}\[([^\]\n]+)\]:\s*<?([^\s>]+)", re.MULTILINE)
REFERENCE = re.compile(r"\]\[([^\]\n]+)\]")
# what is not of the sources
OTHERS = {".git", "out", "rescue", "node_modules"}


def without_code(text):
    """The text, with code as blanks, so that what looks like a link in it is none."""
    for code in (FENCED, INDENTED, CODE):
        text = code.sub(lambda found: re.sub(r"[^\n]", " ", found[0]), text)
    return text


def anchors(text):
    """The names of a page's headings, as GitHub makes them."""
    names = set(NAMED.findall(text))
    counts = {}
    for heading in HEADING.findall(FENCED.sub("", text)):
        heading = re.sub(r"\[([^\]]*)\]\([^)]*\)", r"\1", heading)
        name = re.sub(r"[^\w\- ]", "", heading.lower()).replace(" ", "-")
        counts[name] = counts.get(name, 0) + 1
        names.add(name if counts[name] == 1 else f"{name}-{counts[name] - 1}")
    return names


def fault_of(top, page, target):
    """Why a link of a page leads nowhere, or nothing."""
    path, _, anchor = target.partition("#")
    file = (page.parent / urllib.parse.unquote(path)).resolve() if path else page
    if file != top and top not in file.parents:
        return "is outside"
    if not file.exists():
        return "is not there"
    if anchor and (file.suffix != ".md" or anchor not in anchors(file.read_text())):
        return "has no such heading"
    return None


def pages_below(top):
    """The documents below this folder. What is being built is not looked into: it may go while it is read."""
    pages = []
    for folder, names, files in os.walk(top):
        names[:] = set(names) - OTHERS
        pages += [pathlib.Path(folder, name) for name in files if name.endswith(".md")]
    return sorted(pages)


def broken_links(top):
    """The number of links in the documents below this folder, and a line for each that leads nowhere: to a file that is
    not there or is outside this folder, or to a heading that the file does not have."""
    top = top.resolve()
    number, lines = 0, []
    for page in pages_below(top):
        text = page.read_text()
        defined = {name.lower(): target for name, target in DEFINED.findall(text)}
        plain = without_code(text)
        name_of = page.relative_to(top)
        for target in LINK.findall(plain) + list(defined.values()):
            if re.match(r"[a-z]+:", target):
                continue
            number += 1
            if reason := fault_of(top, page, target):
                lines.append(f"{name_of}: {target} {reason}")
        lines += [f"{name_of}: [{name}] is not defined" for name in REFERENCE.findall(plain)
                  if name.lower() not in defined]
    return number, lines
