"""What all tests share: where the built programs are, volumes that are made once, and what may be skipped.

    /usr/bin/python3 -m pytest tests -n 4                                 # all
    /usr/bin/python3 -m pytest tests/test_stripes.py                      # a module
    /usr/bin/python3 -m pytest tests/test_stripes.py::test_full_device    # a test

`make check` builds what they need. The options below take other files in its place."""
import contextlib
import fcntl
import gzip
import os
import pathlib
import signal
import subprocess
import time
import types

import pytest

pytest.register_assert_rewrite("support", "volumes", "kinds", "payloads", "serving", "documents", "rescuing")
import payloads  # noqa: E402
import support  # noqa: E402
import volumes  # noqa: E402
from kinds import kinds  # noqa: E402, F401
from rescuing import bad_sectors, disk1, disk2, luks_cat, rescue  # noqa: E402, F401
from support import MARK, TOP, Audit, Program, wait_until  # noqa: E402

# Under nohup, what a test starts would ignore the signal that it sends.
if signal.getsignal(signal.SIGHUP) == signal.SIG_IGN:
    signal.signal(signal.SIGHUP, lambda *_: None)

# The options of the make that calls pytest are not for those that tests call.
for variable in "MAKEFLAGS", "MFLAGS", "MAKELEVEL":
    os.environ.pop(variable, None)
# Skips for other reasons fail a run with CI=true.
ALLOWED_SKIPS = {
    "Debian 12 cannot be had here",
    "Debian 13 cannot be had here",
    "cryptsetup does not begin to encrypt here",
    "file systems number their files otherwise here",
    "no loop device can be made here",
    "nothing can be mounted by FUSE",
    "this kernel has no such file system",
    "this processor is older",
}
PLACES = {
    "luksrd": "crates/luksrd/out/luksrd",
    "luksrd-v3": "out/x86-64-v3/luksrd",
    "audit": "crates/luksrd_audit/out/luksrd_audit",
    "tools": "crates/luksrd_tools/out/luksrd_tools",
    "tools-v3": "out/x86-64-v3/luksrd_tools",
    "out": "out",
}


def pytest_addoption(parser):
    for name, place in PLACES.items():
        parser.addoption(f"--{name}", type=pathlib.Path, default=TOP / place, help=f"in place of {place}")
    parser.addoption("--impostor", type=pathlib.Path, help="runs the tests of what is built with this file, such as "
                     "/bin/true, in the place of all of it: each has to fail")


def pytest_collection_modifyitems(config, items):
    if config.getoption("--impostor"):
        items[:] = [item for item in items
                    if "built" in item.fixturenames and not item.get_closest_marker("of_script")]


def pytest_runtest_setup(item):
    for mark in item.iter_markers("needs"):
        for tool in mark.args:
            if reason := support.lack_of(tool):
                pytest.skip(reason)


@pytest.hookimpl(hookwrapper=True)
def pytest_runtest_makereport(item):
    report = (yield).get_result()
    if report.skipped and os.environ.get("CI") == "true" and isinstance(report.longrepr, tuple):
        reason = report.longrepr[2].removeprefix("Skipped: ")
        if reason not in ALLOWED_SKIPS:
            report.outcome, report.longrepr = "failed", f"skipped, which is not allowed in CI: {reason}"
    if item.config.getoption("--impostor") and report.when != "teardown":
        if report.failed:
            report.outcome = "passed"
        elif report.when == "call" and report.passed:
            report.outcome, report.longrepr = "failed", "passes with an impostor in the place of what it tests"


@pytest.fixture(scope="session")
def built(request):
    """built(NAME, PART..) is the path of what is built: `luksrd`, `luksrd-v3`, `audit`, `tools`, or a file in the folder
    `out`. What needs it needs this fixture, so that it is run with an impostor, too."""
    def get(name, *parts):
        if impostor := request.config.getoption("--impostor"):
            return impostor
        path = request.config.getoption(f"--{name}").resolve().joinpath(*parts)
        if not path.exists():
            pytest.fail(f"{path} is not built")
        return path

    return get


@pytest.fixture
def luksrd(built, tmp_path):
    """The program, which works in the folder of the test."""
    return Program(built("luksrd"), tmp_path)


@pytest.fixture(params=["x86-64-v2", "x86-64-v3"])
def processor(request):
    """Each processor that there is a build for, for what differs between them."""
    if request.param == "x86-64-v3" and not support.runs_v3():
        pytest.skip("this processor is older")
    return request.param


@pytest.fixture
def each_luksrd(built, processor, tmp_path):
    return Program(built({"x86-64-v2": "luksrd", "x86-64-v3": "luksrd-v3"}[processor]), tmp_path)


@pytest.fixture
def audit(built, tmp_path):
    return Audit(built("audit"), tmp_path)


@pytest.fixture
def each_tools(built, processor, tmp_path):
    return Program(built({"x86-64-v2": "tools", "x86-64-v3": "tools-v3"}[processor]), tmp_path)


@pytest.fixture
def library(built):
    """The shared library; its folder has the static one and the link libluksrd.so."""
    return built("out", "libluksrd.so")


@pytest.fixture
def each_library(built, processor):
    """The shared library for each processor."""
    names = {"x86-64-v2": "libluksrd.so", "x86-64-v3": "glibc-hwcaps/x86-64-v3/libluksrd.so.2"}
    return built("out", names[processor])


@pytest.fixture
def plugin(built):
    return built("out", "nbdkit-luksrd-plugin.so")


@pytest.fixture
def filter(built):
    return built("out", "nbdkit-luksrd-filter.so")


@pytest.fixture(autouse=True)
def no_process_stays(tmp_path, monkeypatch):
    """What a test starts has its folder in the environment; what of it still runs after the test is ended, and fails
    the test, unless it is one of `start`."""
    monkeypatch.setenv(MARK, str(tmp_path))
    yield
    # (those that were ended may take a moment)
    deadline = time.monotonic() + 10
    while (left := support.processes_of(tmp_path)) and time.monotonic() < deadline:
        time.sleep(0.05)
    names = []
    for process in left:
        with contextlib.suppress(OSError):
            names.append(pathlib.Path("/proc", str(process), "comm").read_text().strip())
            os.kill(process, signal.SIGKILL)
    assert not names, f"processes that still ran: {names}"


@pytest.fixture
def start(no_process_stays, tmp_path):
    """Starts a process that runs beside the test and is gone after it: start(command.., until=condition) waits for the
    condition, such as that a socket is there, and fails if the process has ended before it holds."""
    started = []

    def starts(*command, until=None, **how):
        how = {"cwd": tmp_path, "stdin": subprocess.DEVNULL, "start_new_session": True, **how}
        process = subprocess.Popen([os.fspath(word) for word in command], **how)
        started.append(process)
        if until:
            wait_until(lambda: until() or process.poll() is not None)
            assert until(), f"{command} ended with {process.poll()}"
        return process

    yield starts
    for process in started:
        support.end_group(process)


@pytest.fixture
def loop(tmp_path):
    """Makes loop devices over files, which are gone after the test; such a test is marked `alone` and needs("loop")."""
    devices = []

    def attach(file, *options):
        device = support.must("losetup", "-f", "--show", *options, file, cwd=tmp_path).decode().strip()
        devices.append(device)
        return device

    yield attach
    for device in devices:
        support.must("losetup", "-d", device)


@pytest.fixture(scope="session")
def cached(tmp_path_factory):
    """cached(NAME, MAKE) gives the file of this name, which MAKE(path) makes once for all processes of a run. Each module
    that makes files has names of its own. A test changes copies alone."""
    base = tmp_path_factory.getbasetemp()
    if os.environ.get("PYTEST_XDIST_WORKER"):
        base = base.parent

    def get(name, make):
        folder = base / "cached" / make.__module__
        folder.mkdir(parents=True, exist_ok=True)
        place = folder / name
        with open(folder / f"{name}.lock", "w") as lock:
            fcntl.flock(lock, fcntl.LOCK_EX)
            if not place.exists():
                work = folder / f"{name}.work"
                work.mkdir(exist_ok=True)
                make(work / name)
                (work / name).rename(place)
        return place

    return get


@pytest.fixture(scope="session")
def sample(cached):
    """The sample volumes: files `volume` and `volume2`, what they hold, `plain` and `plain2`, and the file `key`."""

    def unpacked(name):
        packed = TOP / "sample" / f"{name}.img.gz"
        return cached(name, lambda path: path.write_bytes(gzip.decompress(packed.read_bytes())))

    return types.SimpleNamespace(
        volume=unpacked("volume"), volume2=unpacked("volume2"), key=TOP / "sample/passphrase",
        plain=(TOP / "sample/plain.txt").read_bytes(), plain2=(TOP / "sample/plain2.txt").read_bytes(),
        opens="Key slot 0 opens the volume.\n")


@pytest.fixture
def here(sample, tmp_path):
    """The folder of the test, with copies of the samples: volume and volume2, pass, which opens both, and wrong."""
    volumes.copy_of(sample.volume, tmp_path / "volume")
    volumes.copy_of(sample.volume2, tmp_path / "volume2")
    volumes.copy_of(sample.key, tmp_path / "pass")
    (tmp_path / "wrong").write_bytes(b"correct horse battery stapler")
    return tmp_path


@pytest.fixture(scope="session")
def made1(cached):
    """made1(CIPHER, HASH, BITS, OPTION.., plain=BYTES) gives a volume of LUKS1 of cryptsetup with a payload of qemu-img
    (see volumes.luks1)."""

    def get(cipher, hash_, bits, *options, plain=b""):
        def make(path):
            volumes.luks1(path, cipher, hash_, bits, *options)
            if plain:
                volumes.fill1(path, plain)

        return cached(name_of("luks1", cipher, hash_, bits, *options, plain), make)

    return get


@pytest.fixture(scope="session")
def made2(cached):
    """made2(CIPHER, BITS, OPTION.., plain=BYTES) gives a volume of LUKS2 that cryptsetup encrypted (see
    volumes.luks2)."""

    def get(cipher, bits, *options, plain):
        return cached(name_of("luks2", cipher, bits, *options, plain),
                      lambda path: volumes.luks2(path, plain, cipher, bits, *options))

    return get


@pytest.fixture(scope="session")
def made(cached):
    """Makes volumes with an attached or a detached header, each once."""
    return payloads.Volumes(cached)


@pytest.fixture
def keys(tmp_path):
    """The passphrases of those volumes are in the folder of the test."""
    volumes.passphrases(tmp_path)


def name_of(*parts):
    """The name of a file for these parts."""
    words = (part if isinstance(part, bytes) else str(part).encode() for part in parts)
    return f"{parts[0]}-{support.checksum(b' '.join(words))[:16]}"
