#!/usr/bin/env python3
"""Measures what the merge gate costs: processor seconds of each crate's proof, of its tests and of its must-fail edits.

    python3 bench/gate.py [--kept] [--out FILE]

The last commit is cloned into a temporary folder, and `rt ci --anew` runs there, so that all is proved from nothing; with --kept a plain
`rt ci`, which takes over what earlier runs on this machine passed, so that its figures are those of what is left. While it runs, the prover's processes
are looked at each half second, and what the system says of their processor time is added up by crate and by what they do: a check that runs in a
folder made for an edit counts to the edits, one with `--test` to the tests, any other to the proof. What lies between the last look at a process and
its end is lost, at most half a second a process. Compilers, linkers and the tests and programs themselves count as `other`.

The table is printed (and with --out written) with the most expensive crate first. Last stand the sums, the time by the clock, and the longest chain: the
seconds of proofs on the most expensive path from a crate to the lowest one that it stands on, its tests included. The status is that of `rt ci`.
"""

import argparse
import collections
import os
import subprocess
import sys
import tempfile
import time

HERE = os.path.dirname(os.path.abspath(__file__))
TOP = os.path.dirname(HERE)
TICKS = os.sysconf("SC_CLK_TCK")
PAUSE = 0.5
KINDS = ("proof", "tests", "edits")


def stat_of(process):
    """The session of a process, when it began, and the processor seconds that it used; None where it is gone."""
    try:
        with open(f"/proc/{process}/stat", encoding="utf-8", errors="replace") as file:
            fields = file.read().rpartition(")")[2].split()
    except OSError:
        return None
    return int(fields[3]), fields[19], (int(fields[11]) + int(fields[12])) / TICKS


def role_of(process):
    """The crate that a process works on, and which of the kinds its work is."""
    try:
        with open(f"/proc/{process}/cmdline", "rb") as file:
            words = file.read().decode(errors="replace").split("\0")
        folder = os.readlink(f"/proc/{process}/cwd")
    except OSError:
        return None
    if os.path.basename(words[0]) != "rattle" or "--crate-name" not in words:
        return "other", "other"
    crate = words[words.index("--crate-name") + 1]
    if os.path.basename(folder).startswith("rt-edit-"):
        return crate, "edits"
    return crate, "tests" if "--test" in words else "proof"


def measure(command, folder):
    """Runs a command, and returns its status and the processor seconds of its processes by crate and kind."""
    running = subprocess.Popen(command, cwd=folder, start_new_session=True)
    seconds, roles = {}, {}
    while running.poll() is None:
        for process in filter(str.isdigit, os.listdir("/proc")):
            found = stat_of(process)
            if found is None or found[0] != running.pid:
                continue
            key = process, found[1]
            # (a process that was just forked has the words of its parent: look until the role is one of the prover's)
            if roles.get(key, ("other",))[0] == "other":
                roles[key] = role_of(process) or roles.get(key)
            seconds[key] = found[2]
        time.sleep(PAUSE)
    sums = collections.defaultdict(float)
    for key, used in seconds.items():
        sums[roles.get(key) or ("other", "other")] += used
    return running.returncode, sums


def crates_of(folder):
    """Each crate of the repository with the crates of the repository that it stands on."""
    lines = {}
    with open(os.path.join(folder, "crates.txt"), encoding="utf-8") as file:
        for line in file:
            name, colon, below = line.partition("#")[0].partition(":")
            if colon:
                lines[name.split()[0]] = below.split()
    return {name: [it for it in below if it in lines] for name, below in lines.items()}


def longest_chain(crates, sums):
    """The most expensive path of crates, each on the one before it, and its seconds."""
    best = {}

    def cost(name):
        if name not in best:
            below = max((cost(it) for it in crates[name]), default=(0.0, ()))
            best[name] = below[0] + sums[name, "proof"], (*below[1], name)
        return best[name]

    ends = [(cost(name)[0] + sums[name, "tests"], cost(name)[1]) for name in crates]
    return max(ends, default=(0.0, ()))


def table_of(crates, sums, elapsed):
    """The lines that say what was measured."""
    lines = [f"{'crate':14}" + "".join(f"{kind:>9}" for kind in KINDS) + f"{'all':>9}"]
    whole = {name: sum(sums[name, kind] for kind in KINDS) for name in crates}
    for name in sorted(crates, key=lambda it: -whole[it]):
        lines.append(f"{name:14}" + "".join(f"{sums[name, kind]:9.0f}" for kind in KINDS) + f"{whole[name]:9.0f}")
    totals = [sum(sums[name, kind] for name in crates) for kind in KINDS]
    lines.append(f"{'sum':14}" + "".join(f"{it:9.0f}" for it in totals) + f"{sum(totals):9.0f}")
    seconds, chain = longest_chain(crates, sums)
    lines.append(f"other: {sums['other', 'other']:.0f} s of processor")
    lines.append(f"by the clock: {elapsed / 60:.0f} minutes on {os.cpu_count()} processors")
    lines.append(f"longest chain: {seconds / 60:.0f} minutes of processor: {' '.join(chain)}")
    return lines


def main():
    words = argparse.ArgumentParser(description="Measures what the merge gate costs.")
    words.add_argument("--kept", action="store_true", help="take over what earlier runs passed")
    words.add_argument("--out", help="a file to write the table to")
    given = words.parse_args()
    with tempfile.TemporaryDirectory(prefix="gate-") as room:
        clone = os.path.join(room, "clone")
        subprocess.run(["git", "clone", "-q", TOP, clone], check=True)
        begun = time.monotonic()
        status, sums = measure(["rt", "ci"] + ([] if given.kept else ["--anew"]), clone)
        lines = table_of(crates_of(clone), sums, time.monotonic() - begun)
    print("\n".join(lines))
    if given.out:
        with open(given.out, "w", encoding="utf-8") as file:
            file.write("\n".join(lines) + "\n")
    return status


if __name__ == "__main__":
    sys.exit(main())
