"""What bash and zsh offer for arguments, compared with the usage text that luksrd prints and the help of luksrd-audit:
every command and every option of them, and nothing else."""
import re

import pytest
from support import TOP, must, needs, run

COMPLETIONS = TOP / "completions"
HASHES = "sha1 sha224 sha256 sha384 sha512"
AS_BYTES = {"LC_ALL": "C", "PATH": "/usr/bin:/bin"}


@pytest.fixture
def files(tmp_path):
    """A folder with the files that can be offered."""
    folder = tmp_path / "files"
    folder.mkdir()
    for name in "first", "second", "third one":
        (folder / name).touch()
    return folder


def sorted_line(words):
    return " ".join(sorted(words))


def offered_after(form, option):
    """What should be offered after this option of a form of the usage text."""
    kind = re.search(rf"{option} ([A-Z]+)", form)[1]
    return {"FILE": "files", "HASH": HASHES, "N": ""}[kind]


def wanted_lines(usage):
    """Lines to be completed at their ends, each with a bar and what should be offered there."""
    forms = {line.split()[1]: line for line in usage.replace("usage:", "").splitlines()}
    yield f"luksrd |{sorted_line(forms)}"
    yield f"luksrd luks|{sorted_line(name for name in forms if name.startswith('luks'))}"
    yield from ["luksrd --|", "luksrd format |", "luksrd format --|"]
    for name, form in forms.items():
        options = re.findall(r"--[a-z-]+", form)
        yield f"luksrd {name} |files"
        yield f"luksrd {name} -- |files"
        yield f"luksrd {name} -- first --|"
        yield f"luksrd {name} --|{sorted_line(options)}"
        yield f"luksrd {name} first --|{sorted_line(options)}"
        for option in options:
            offers, others = offered_after(form, option), sorted_line(set(options) - {option})
            yield f"luksrd {name} {option} |{offers}"
            yield f"luksrd {name} {option}=|{offers}"
            yield f"luksrd {name} first {option} |{offers}"
            yield f"luksrd {name} {option} 1 |files"
            yield f"luksrd {name} {option}=1 |files"
            yield f"luksrd {name} {option} 1 --|{others}"
            yield f"luksrd {name} {option}=1 --|{others}"
    yield "luksrd afSplit --hash sha2|sha224 sha256"
    yield "luksrd afSplit --hash=sha2|sha224 sha256"
    yield "luksrd afSplit --hash md|"


@pytest.fixture
def wanted(luksrd, tmp_path):
    """The file with these lines."""
    ended = luksrd("")
    assert ended.status == 1
    lines = [*wanted_lines(ended.message)]
    assert len(lines) > 150
    (tmp_path / "wanted").write_text("\n".join(lines) + "\n")
    return lines


# bash calls the function with the words as readline splits them, with = as a word of its own, and lets readline offer
# files if the function requests it
BASH_ANSWERS = r"""
compopt() { [ "$*" = '-o default' ] && files=yes; }
. "$1"
while IFS='|' read -r line _; do
    read -ra COMP_WORDS <<<"${line//=/ = }"
    [[ $line == *' ' ]] && COMP_WORDS+=('')
    COMP_CWORD=$((${#COMP_WORDS[@]} - 1))
    files=
    _luksrd
    echo "$line|${files:+files}$(printf '%s\n' "${COMPREPLY[@]}" | sort | paste -sd' ')"
done
"""


def test_what_bash_offers(wanted, files, tmp_path):
    offered = must("bash", "--norc", "--noprofile", "-c", BASH_ANSWERS, "bash", COMPLETIONS / "luksrd.bash",
                   stdin=tmp_path / "wanted", cwd=files, env=AS_BYTES)
    assert offered.decode().splitlines() == wanted


@pytest.mark.parametrize("typed, completed", [
    ("isL", "<isLuks>"),
    ("luksCat --max", "<luksCat><--max-iterations>"),
    ("afMerge --hash=sha3", "<afMerge><--hash=sha384>"),
    ("isLuks thi", "<isLuks><third one>"),
    ('isLuks "thi', "<isLuks><third one>"),
    ("luksCat --key-file=sec", "<luksCat><--key-file=second>"),
    ("luksCat --key-slot fir", "<luksCat><--key-slot><fir>"),
    ("isLuks first sec", "<isLuks><first><sec>"),
])
def test_what_bash_completes(files, typed, completed):
    """bash reads the line and a tab, and calls a function in the place of the program."""
    script = f""". '{COMPLETIONS}/luksrd.bash'
luksrd() {{ printf "<%s>" "$@" >../called; }}
luksrd {typed}\t
"""
    run("bash", "--norc", "--noprofile", "-i", stdin=script.encode(), cwd=files,
        env={**AS_BYTES, "HISTFILE": "", "INPUTRC": "/dev/null"})
    assert (files.parent / "called").read_text() == completed


# zsh completes only in a terminal, which another zsh makes; there one key completes all lines, and records what that
# would add
ZSH_TERMINAL = r"""
zmodload zsh/zpty
zpty shell zsh -f -i
zpty -w shell "source ../zsh.answers ${(q)1}"
zpty -r -m shell seen '*READY*' || exit
zpty -w -n shell $'\t'
while zpty -r shell seen; do print -rn -- $seen; done
"""
ZSH_ANSWERS = r"""
fpath=($1 $fpath)
autoload -Uz compinit && compinit -u -d ../zsh.dump
compadd() {
    # with one of these options it adds nothing
    if [[ " ${@[1,(i)(-|--)]}" != *' -'[A-Za-z]#[OAD]' '* ]]; then
        local -a hits
        builtin compadd -O hits "$@"
        offers+=($hits)
    fi
    builtin compadd "$@"
}
zle -C offer list-choices _main_complete
answer() {
    local line
    local -aU offers
    while IFS='|' read -r line _; do
        BUFFER=$line CURSOR=$#line offers=()
        zle offer
        offers=(${(o)offers})
        [[ "$offers" == 'first second third\ one' ]] && offers=(files)
        print -r -- "$line|$offers"
    done <../wanted >../offered
    exit
}
zle -N answer
bindkey '^I' answer
print READ''Y
"""


@needs("zsh")
def test_what_zsh_offers(wanted, files, tmp_path):
    (tmp_path / "zsh.terminal").write_text(ZSH_TERMINAL)
    (tmp_path / "zsh.answers").write_text(ZSH_ANSWERS)
    run("zsh", "-f", "../zsh.terminal", COMPLETIONS, cwd=files)
    assert (tmp_path / "offered").read_text().splitlines() == wanted


# luksrd-audit

AUDIT_ANSWERS = r"""
compopt() { :; }
. "$1"
shift
COMP_WORDS=("$@") COMP_CWORD=$(($# - 1))
_luksrd_audit
printf "%s\n" "${COMPREPLY[@]}" | sort
"""


@pytest.fixture
def audit_options(audit):
    """The long options that the help lists."""
    options = sorted(set(re.findall(rb"--[a-z][a-z-]*", audit("--help").output)))
    assert len(options) == 6
    return [option.decode() for option in options]


@pytest.mark.parametrize("words, offers", [
    (["--"], None),
    (["--fail-on", ""], ["high", "low"]),
    (["--fail-on", "h"], ["high"]),
    (["--s"], ["--search"]),
    (["--min-iterations", ""], [""]),
    (["--search", ""], ["first", "second", "third one"]),
    (["first", "sec"], ["second"]),
])
def test_what_bash_offers_for_the_audit(audit_options, files, words, offers):
    offered = must("bash", "--norc", "--noprofile", "-c", AUDIT_ANSWERS, "bash", COMPLETIONS / "luksrd-audit.bash",
                   "luksrd-audit", *words, cwd=files, env=AS_BYTES)
    assert offered.decode().splitlines() == (audit_options if offers is None else offers)


def test_what_zsh_offers_for_the_audit(audit_options):
    text = (COMPLETIONS / "_luksrd-audit").read_text()
    assert sorted(set(re.findall(r"--[a-z][a-z-]*", text))) == audit_options


@needs("zsh")
@pytest.mark.parametrize("name", ["_luksrd", "_luksrd-audit"])
def test_zsh_reads_the_file(name):
    assert run("zsh", "-n", COMPLETIONS / name) == (0, b"", "")


# luksrd-rescue

RESCUE = TOP / "rescue/luksrd-rescue"
RESCUE_ANSWERS = r"""
compopt() { echo files; }
. "$1"
shift
COMP_WORDS=("$@") COMP_CWORD=$(($# - 1))
_luksrd_rescue
printf "%s\n" "${COMPREPLY[@]}"
"""


def rescue_options(*words):
    """The long options that the help lists."""
    shown = must("/usr/bin/python3", RESCUE, *words, "--help").decode()
    return sorted(set(re.findall(r"(?<=[ \[|])--[a-z][a-z-]*", shown.partition("\nexamples:")[0])))


def rescue_offers(*words):
    """What bash offers at the end of these words."""
    offered = must("bash", "--norc", "--noprofile", "-c", RESCUE_ANSWERS, "bash", COMPLETIONS / "luksrd-rescue.bash",
                   "luksrd-rescue", *words, env=AS_BYTES)
    return sorted(offered.decode().split())


@pytest.mark.parametrize("command", ["look", "decrypt", "try", "serve"])
def test_options_of_luksrd_rescue(command):
    """Of each command all options of the help, by bash and by zsh, and no other."""
    wanted = rescue_options(command)
    assert len(wanted) > 2
    assert rescue_offers(command, "disk.img", "--") == wanted
    text = (COMPLETIONS / "_luksrd-rescue").read_text()
    groups = dict(re.findall(r"^    (choice|key)=\((.*?)^    \)", text, re.MULTILINE | re.DOTALL))
    part = re.search(rf"^    {command}\)(.*?);;", text, re.MULTILINE | re.DOTALL)[1]
    part += "".join(groups[name] for name in re.findall(r"\$(choice|key)\b", part))
    found = set(re.findall(r"(?<=['{,)])--[a-z][a-z-]*", part)) | ({"--output"} if "--output" in part else set())
    assert sorted(found) == wanted


@pytest.mark.parametrize("words, offers", [
    ([""], ["decrypt", "look", "serve", "try"]), (["--"], ["--help", "--version"]), (["look", ""], ["files"]),
    (["serve", "disk.img", "--sector-size", ""], ["1024", "2048", "4096", "512"]),
    (["decrypt", "--partition", ""], []), (["decrypt", "--key-file", "="], ["files"])])
def test_words_of_luksrd_rescue(words, offers):
    assert rescue_offers(*words) == offers


@needs("zsh")
def test_zsh_reads_the_file_for_luksrd_rescue():
    assert run("zsh", "-n", COMPLETIONS / "_luksrd-rescue") == (0, b"", "")
