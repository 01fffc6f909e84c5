"""The systemd unit for the plugin: systemd-analyze finds no fault in it, and little that its sandbox leaves open; and what
it starts serves the sample volume on its socket. No systemd has to run here, so the sandbox itself is not tried."""
import os
import re
import signal

import pytest
from support import TOP, expect, must, needs, processes_of, run, wait_until

pytestmark = needs("nbdkit", "nbdcopy", "systemd-analyze")
UNIT = "nbdkit-luksrd@srv-disk.img.service"


@pytest.fixture
def unit(tmp_path):
    (tmp_path / UNIT).write_bytes((TOP / "packaging/nbdkit-luksrd@.service").read_bytes())
    return tmp_path / UNIT


def test_what_systemd_says_of_the_unit(unit):
    expect(run("systemd-analyze", "verify", "--man=no", "--recursive-errors=no", unit))
    # of 100; what it may still do is to use its socket, its group, and the root folder as it is
    exposure = run("systemd-analyze", "security", "--offline=true", "--threshold=10", "--no-pager", unit)
    assert exposure.status == 0
    assert "Overall exposure level" in exposure.output.decode()


def test_what_the_unit_starts(unit, plugin, library, here, sample):
    """It serves the volume, with the passphrase where systemd would put it, until it is killed."""
    text = unit.read_text().replace("\\\n", " ")
    for name, value in [("%t", f"{here}/run"), ("%d", f"{here}/credentials"), ("%i", "srv-disk.img"),
                        ("%f", f"{here}/volume"), (" luksrd ", f" {plugin} ")]:
        text = text.replace(name, value)
    setting = dict(re.findall(r"^(\w+)=(.*)$", text, re.MULTILINE))
    assert setting["LoadCredential"] == "passphrase:/etc/luksrd/srv-disk.img.passphrase"
    # (a dollar sign in a name stays)
    assert setting["ExecStart"].startswith(":")
    folder = here / "run" / setting["RuntimeDirectory"]
    folder.mkdir(parents=True)
    for name in "credentials", "libraries":
        (here / name).mkdir()
    (here / "libraries/libluksrd.so.2").symlink_to(library)

    def started(passphrase):
        (here / "credentials/passphrase").write_bytes(passphrase)
        return run("sh", "-c", f'umask {setting["UMask"]} && exec "$0" "$@"', *setting["ExecStart"][1:].split(),
                   env={**os.environ, "LD_LIBRARY_PATH": str(here / "libraries")})

    wrong = started(b"wrong")
    assert (wrong.status, "luksrd: no key opens the volume" in wrong.message) == (1, True)
    expect(started(sample.key.read_bytes()))
    pid_file = here / setting["PIDFile"]
    server = int(wait_until(lambda: pid_file.exists() and pid_file.read_text()))
    must(*setting["ExecStartPost"].split())
    assert must("stat", "-c", "%A %F", folder / "socket") == b"srw-rw---- socket\n"
    address = f"nbd+unix:///?socket={folder}/socket"
    expect(run("nbdcopy", address, "-"), sample.plain)
    assert "is_read_only: true" in must("nbdinfo", address).decode()
    os.kill(server, signal.SIGTERM)
    wait_until(lambda: server not in processes_of(here))
