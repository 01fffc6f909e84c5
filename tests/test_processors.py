"""Processors that qemu imitates: which programs they run, what they lack, and which of both libraries the loader takes,
from a folder that a program, the plugin or LD_LIBRARY_PATH names, and by ldconfig's cache. Then, that neither build takes
the place of the other."""
import os
import re
import shutil
import signal

import pytest
from support import TOP, expect, must, needs, run
from test_install import Make
from volumes import copy_of

V3 = "glibc-hwcaps/x86-64-v3/libluksrd.so.2"


def emulated(processor, *words, **how):
    """Runs a command on a processor that qemu imitates; what qemu cannot imitate of it, and says so, is not used."""
    ended = run("qemu-x86_64", "-cpu", processor, *words, **how)
    lines = [line for line in ended.message.splitlines() if not line.startswith("qemu-x86_64: warning: ")]
    return ended._replace(message="".join(line + "\n" for line in lines))


def lack(level):
    """What the kit has a program for this level say on an older processor."""
    return f"this machine lacks a feature of {level}, which this program was built for: run it on another machine, or " \
        "build it with --cpu x86-64"


@needs("qemu-x86_64")
@pytest.mark.parametrize("processor, name, message", [
    ("core2duo", "luksrd", lack("x86-64-v2")),
    ("Westmere", "luksrd-v3", lack("x86-64-v3")),
    ("Westmere", "luksrd", ""),
    ("Haswell", "luksrd", ""),
    ("Haswell", "luksrd-v3", ""),
])
def test_program_on_a_processor(built, here, sample, processor, name, message):
    ended = emulated(processor, built(name), "luksCat", "--key-file", "pass", "volume", cwd=here)
    expect(ended, b"" if message else sample.plain, message, 127 if message else 0)


@pytest.fixture
def system(built, plugin, here):
    """The plugin and a program in C, as they are installed: below a PREFIX, whose library the plugin finds from its own
    folder and the program by the folder that it names; and in a system of its own, whose loader finds the library by
    ldconfig's cache."""
    shared, shared_v3 = built("out", "libluksrd.so"), built("out", V3)
    make = Make({"LIBRARY": shared, "SHARED": shared, "SHARED_V3": shared_v3, "PLUGIN": plugin})
    for where in {"PREFIX": here / "own"}, {"PREFIX": "/usr/local", "PLUGINS": "/plugins", "DESTDIR": here / "system"}:
        ended = make("install-library", "install-plugin", **where)
        assert ended.status == 0, ended
    for name, options in ("by_folder", [f"-Wl,-rpath,{here}/own/lib"]), ("by_cache", []):
        must("gcc", "-std=c11", "-D_GNU_SOURCE", "-o", here / name, TOP / "tests/library.c", f"-I{TOP}/c",
             f"-L{here}/own/lib", "-lluksrd", "-lpthread", *options)
    for file in "/lib64/ld-linux-x86-64.so.2", "/lib/x86_64-linux-gnu/libc.so.6":
        must("install", "-D", file, f"{here}/system{file}")
    (here / "system/etc").mkdir()
    (here / "system/etc/ld.so.conf").write_text("/usr/local/lib\n")
    must("/sbin/ldconfig", "-r", here / "system")
    return here


def taken(processor, *words, cwd):
    """Which library the loader takes, and what the command writes."""
    ended = emulated(processor, "-E", "LD_DEBUG=files", *words, cwd=cwd)
    library = re.search(r"calling init: (.*libluksrd.*)", ended.output.decode(errors="replace") + ended.message)
    return os.path.normpath(library[1]), ended.output


@needs("qemu-x86_64", "nbdkit", "gcc")
@pytest.mark.parametrize("processor, library", [("Haswell", V3), ("Westmere", "libluksrd.so.2")])
def test_library_on_a_processor(system, sample, processor, library):
    words = ["volume", "-", "pass"]
    own, cache = f"{system}/own/lib/{library}", f"/usr/local/lib/{library}"
    for options, place in [(["./by_folder"], own), (["-L", f"{system}/system", "./by_cache"], cache),
                           (["-E", f"LD_LIBRARY_PATH={system}/own/lib", "./by_cache"], own)]:
        assert taken(processor, *options, *words, cwd=system) == (place, sample.plain)
    nbdkit = shutil.which("nbdkit")
    for options, file, place in [([], "own/lib/nbdkit/plugins/nbdkit-luksrd-plugin.so", own),
                                 (["-L", f"{system}/system"], "system/plugins/nbdkit-luksrd-plugin.so", cache)]:
        found, output = taken(processor, *options, nbdkit, system / file, "--dump-plugin", cwd=system)
        assert (found, b"\nluksrd_library_version=" in output) == (place, True)


@needs("qemu-x86_64", "gcc")
def test_library_for_newer_processors_alone(built, system, sample):
    """Past the loader, an older processor does not know its instructions: the program ends by SIGILL."""
    (system / "alone").mkdir()
    copy_of(built("out", V3), system / "alone/libluksrd.so.2")
    words = ["-E", f"LD_LIBRARY_PATH={system}/alone", "./by_cache", "volume", "-", "pass"]
    expect(emulated("Haswell", *words, cwd=system), sample.plain)
    assert emulated("Westmere", *words, cwd=system).status == -signal.SIGILL


@needs("qemu-x86_64", "nbdkit")
def test_library_of_the_built_plugin(plugin, tmp_path):
    assert taken("Haswell", shutil.which("nbdkit"), plugin, "--dump-plugin", cwd=tmp_path)[0] == f"{plugin.parent}/{V3}"


# Builds, with a kit that writes what it should build

RT = """#!/bin/sh
case " $* " in
*' --cpu=x86-64-v3 '*) cpu=x86-64-v3 ;;
*' --cpu='*) exit 2 ;;
*) cpu=x86-64-v2 ;;
esac
crate=$(basename "$PWD")
file=out/$crate
[ "$1" = run ] || file=out/lib$crate.a
mkdir -p out
rm -f $file.stamp
orders=$(cat '{0}/orders')
[ "$orders" != 1 ] || exit 1
echo "$cpu" >$file
chmod +x $file
sleep 0.1
if [ "$orders" = wait ]; then
    : >'{0}/started'
    until [ -e '{0}/go' ]; do sleep 0.05; done
    exit 1
fi
[ $cpu != x86-64-v2 ] || echo "note of $cpu" >$file.stamp
[ $cpu = x86-64-v2 ] || exit $orders
"""
BASE, FAST = "crates/luksrd/out/luksrd", "out/x86-64-v3/luksrd"
BOTH = "x86-64-v2\nnote of x86-64-v2\nx86-64-v3\n"


class Tree:
    """Sources without crates, and the kit. The file `orders` says how the kit ends: with which status, or not before the
    file `go` is there."""

    def __init__(self, folder):
        self.folder, self.top = folder, folder / "tree"
        (folder / "tools").mkdir()
        (folder / "tools/rt").write_text(RT.replace("{0}", str(folder)))
        (folder / "tools/rt").chmod(0o755)
        for crate in "luksrd", "luksrd_audit", "luks_c", "luksrd_tools":
            (self.top / "crates" / crate / "src").mkdir(parents=True)
        shutil.copytree(TOP / "packaging", self.top / "packaging")
        shutil.copy(TOP / "Makefile", self.top)
        self.order("0")

    def order(self, order):
        (self.folder / "orders").write_text(f"{order}\n")

    def builds(self, *words):
        """The status of make, and what then stands in each place, with the kit's note."""
        ended = Make({}, self.folder / "tools")(*words, top=self.top)
        return ended.status, self.texts(BASE, f"{BASE}.stamp", FAST)

    def texts(self, *names):
        return "".join((self.top / name).read_text() for name in names if (self.top / name).exists())


@pytest.fixture
def tree(tmp_path):
    return Tree(tmp_path)


def test_neither_build_takes_the_place_of_the_other(tree):
    assert tree.builds("CPU=x86-64-v3") == (0, "x86-64-v3\n")
    assert [*tree.top.glob("crates/luksrd/out/luksrd*")] == []
    for words in [], ["CPU=x86-64-v3"], [], ["-j2", BASE, FAST], ["tools"], ["tools", "CPU=x86-64-v3"], \
            ["-j2", "crates/luks_c/out/libluks_c.a", "out/x86-64-v3/libluks_c.a"]:
        assert tree.builds(*words) == (0, BOTH)
    for one, other in [("crates/luks_c/out/libluks_c.a", "out/x86-64-v3/libluks_c.a"),
                       ("crates/luksrd_tools/out/luksrd_tools", "out/x86-64-v3/luksrd_tools")]:
        assert tree.texts(one, other) == "x86-64-v2\nx86-64-v3\n"


def test_a_build_that_fails(tree):
    """An older program stays; one that this processor cannot run, so that it ends with 127, is built all the same."""
    assert tree.builds()[0] == tree.builds("CPU=x86-64-v3")[0] == 0
    (tree.top / FAST).write_text("an older one\n")
    tree.order("1")
    assert tree.builds("CPU=x86-64-v3") == (2, "x86-64-v2\nnote of x86-64-v2\nan older one\n")
    tree.order("127")
    assert tree.builds("CPU=x86-64-v3") == (0, BOTH)


def cut_off(tree, start, number):
    """A build for x86-64-v3 that gets this signal while the kit builds."""
    tree.order("wait")
    environment = {**os.environ, "PATH": f"{tree.folder}/tools:{os.environ['PATH']}"}
    build = start("packaging/build", "x86-64-v3", BASE, FAST, "run", cwd=tree.top, env=environment,
                  until=(tree.folder / "started").exists)
    build.send_signal(number)
    build.wait()
    (tree.folder / "go").touch()


def test_a_build_that_is_ended(tree, start):
    assert tree.builds()[0] == 0
    cut_off(tree, start, signal.SIGTERM)
    assert tree.texts(BASE, f"{BASE}.stamp", FAST) == "x86-64-v2\nnote of x86-64-v2\n"
    assert [*tree.top.rglob("aside")] == []


def test_a_build_that_is_cut_off(tree, start, tmp_path):
    """Nothing is installed until the next build, which puts all in place."""
    assert tree.builds()[0] == 0
    cut_off(tree, start, signal.SIGKILL)
    ended = Make({})("install", top=tree.top, DESTDIR=tmp_path / "nothing")
    assert ended.message.startswith("a build for another processor was cut off: run make first\n")
    assert not (tmp_path / "nothing").exists()
    tree.order("0")
    assert tree.builds("CPU=x86-64-v3") == (0, BOTH)
    assert [*tree.top.rglob("aside")] == []
