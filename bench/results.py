"""The results of measurements: a file for each machine, docs/speed/MACHINE.json.

Such a file describes the machine, and has the last run of each table: its date, the version of luksrd, the load that
other work was, the rounds (null if instructions or memory were counted, once), and its rows. A row has a figure for
each of its columns: a number, or the median and the best of the rounds. MACHINE in the environment names the machine;
without it nothing is kept."""

import json
import os
import pathlib
import re
import sys
import time

TOP = pathlib.Path(__file__).resolve().parents[1]
FOLDER = TOP / "docs" / "speed"
# The processor's features by which OpenSSL and others choose their code for AES and SHA, and `hypervisor`, which a
# virtual machine has.
FLAGS = ("aes", "avx2", "avx512f", "hypervisor", "sha_ni", "ssse3", "vaes")


def machine():
    """The machine, as the results describe it."""
    lines = pathlib.Path("/proc/cpuinfo").read_text().split("\n\n")[0].splitlines()
    fields = {name.strip(): value.strip() for name, _, value in (line.partition(":") for line in lines)}
    return {
        "processor": f"{fields['model name']}, family {fields['cpu family']}, model {fields['model']}",
        "flags": [flag for flag in FLAGS if flag in fields["flags"].split()],
        "cores": os.cpu_count(),
    }


class Load:
    """How many cores other work of this machine kept busy, and other machines took from it, from now on."""

    def __init__(self):
        self.before = self.now()

    def now(self):
        fields = pathlib.Path("/proc/stat").read_text().splitlines()[0].split()
        user, nice, system, _, _, irq, softirq, stolen = (int(it) / os.sysconf("SC_CLK_TCK") for it in fields[1:9])
        return time.monotonic(), user + nice + system + irq + softirq - sum(os.times()[:4]), stolen

    def text(self):
        elapsed, others, stolen = (now - before for now, before in zip(self.now(), self.before))
        return f"{max(0, others / elapsed):.2f} cores, {stolen / elapsed:.2f} stolen"


def rounded(number):
    """The number to four digits, and from 1,000 on as a whole number."""
    return round(number) if number >= 1000 else float(f"{number:.4g}")


def path_of_machine():
    """The file that MACHINE names, or None. It may not be that of another machine."""
    name = os.environ.get("MACHINE")
    if not name:
        return None
    if not re.fullmatch(r"\w[\w.-]*", name):
        sys.exit(f"MACHINE: {name} is no name of a file")
    path = FOLDER / f"{name}.json"
    if path.exists() and json.loads(path.read_text())["machine"] != machine():
        sys.exit(f"{path.relative_to(TOP)} is of another machine: give this one another name, by MACHINE")
    return path


def text_of(results):
    """The text of a file: JSON, with each row in a line of its own."""
    text = json.dumps(results, indent=1)
    for lists_or_rows in r"\[\n[^][{}]*\]", r"(?<=\": )\{\n[^{}]*\}(?=,?\n {3,4}[\"}])":
        text = re.sub(lists_or_rows, lambda found: json.dumps(json.loads(found[0])), text)
    return text + "\n"


class Run:
    """A run of one table. What it notes is printed, and kept at the end."""

    def __init__(self, table, rounds=None):
        self.table, self.rounds, self.load, self.rows = table, rounds, Load(), {}
        self.path = path_of_machine()

    def note(self, row, column, *numbers):
        """Keeps a figure: a number, or the median and the best of the rounds."""
        kept = [rounded(number) for number in numbers]
        self.rows.setdefault(row, {})[column] = kept if len(kept) > 1 else kept[0]
        print(f"{self.table}: {row}: {column}: {', '.join(map(str, kept))}", flush=True)

    def keep(self):
        """Puts the run in the place of the last one in the file of this machine."""
        if not self.path:
            return
        FOLDER.mkdir(exist_ok=True)
        tables = json.loads(self.path.read_text())["tables"] if self.path.exists() else {}
        version = re.search(r"^VERSION := (\S+)", (TOP / "Makefile").read_text(), re.MULTILINE)[1]
        tables[self.table] = {"date": time.strftime("%Y-%m-%d"), "version": version, "load": self.load.text(),
                              "rounds": self.rounds, "rows": self.rows}
        self.path.write_text(text_of({"machine": machine(), "tables": dict(sorted(tables.items()))}))
