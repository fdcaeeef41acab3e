#!/usr/bin/env python3
"""Runs the rows in tests/rows on a built program and compares what comes out.

    python3 tests/run.py PROGRAM [NAME ..]

Without names all rows are run. A row is a folder whose name says what it shows. Its files:

    about            one line: what a person expects, and why
    old.bpl, new.bpl the two texts; either may be left out
    old.repeat, new.repeat
                     a text by its pieces: each line is a number and a JSON string, which is written so many times; `{n}` in it is
                     the number of the repetition, from 0
    words            the arguments, one a line; without it they are: verify old.bpl new.bpl
    stdin            what stands in the pipe that is the standard input; without it that is empty
    certificate      a file that is there before the run
    stdout           exactly what the program must write; without it, nothing
    status           the exit status; without it, 0
    certificate_out  exactly what the file `certificate` must hold after the run
    branches         how many branches the proofs in the file `certificate` close at most after the run: a line of one number for all of them,
                     of which there is one at least, or lines `PAIR CANDIDATE NUMBER`, each for one that has to be there
    then_words, then_stdout, then_status
                     a second run in the same folder

Each row runs in a folder of its own that holds copies of its texts and of its certificate. Afterwards these must be as they were, but for
the certificate of a row with `certificate_out`, `branches` or a second run, and no other file may be there.
A line is printed for each row that falls short. The last line is `N passed, M failed`.
"""

import json
import os
import subprocess
import sys
import tempfile

ROWS = os.path.join(os.path.dirname(os.path.abspath(__file__)), "rows")
TEXTS = ("old", "new")
KNOWN = {"about", "words", "stdin", "certificate", "stdout", "status", "certificate_out", "branches", "then_words", "then_stdout", "then_status"}
KNOWN |= {name + ending for name in TEXTS for ending in (".bpl", ".repeat")}
SECONDS = 120


def read(path):
    """The bytes of a file, or None where it isn't there."""
    if not os.path.exists(path):
        return None
    with open(path, "rb") as file:
        return file.read()


def repeated(description):
    """The text that a description by pieces stands for."""
    pieces = []
    for line in description.decode().splitlines():
        count, piece = line.split(" ", 1)
        piece = json.loads(piece)
        if "{n}" in piece:
            pieces += [piece.replace("{n}", str(n)) for n in range(int(count))]
        else:
            pieces.append(piece * int(count))
    return "".join(pieces).encode()


def files_of(row):
    """The files that a row's folder holds before the run, by name."""
    files = {"certificate": read(os.path.join(row, "certificate"))}
    for name in TEXTS:
        files[name + ".bpl"] = read(os.path.join(row, name + ".bpl"))
        description = read(os.path.join(row, name + ".repeat"))
        if description is not None:
            files[name + ".bpl"] = repeated(description)
    return {name: text for name, text in files.items() if text is not None}


def fault_of_run(program, folder, row, prefix):
    """Why one run falls short, or None."""
    words = read(os.path.join(row, prefix + "words"))
    words = ["verify", "old.bpl", "new.bpl"] if words is None else words.decode().splitlines()
    status = int(read(os.path.join(row, prefix + "status")) or 0)
    stdout = read(os.path.join(row, prefix + "stdout")) or b""
    piped = read(os.path.join(row, "stdin")) or b""
    try:
        done = subprocess.run([program] + words, cwd=folder, capture_output=True, timeout=SECONDS, input=piped)
    except subprocess.TimeoutExpired:
        return "no end within %d seconds" % SECONDS
    if done.returncode != status:
        return "status %d in place of %d; it wrote %r" % (done.returncode, status, done.stdout[:200])
    if done.stdout != stdout:
        return "it wrote %r in place of %r" % (done.stdout[:200], stdout[:200])
    if done.stderr:
        return "it wrote %r to the standard error" % done.stderr[:200]
    return None


def closed_branches(certificate):
    """How many branches each proof of a certificate closes, by its pair and its candidate."""
    counts, pair = {}, None
    for line in certificate.decode().splitlines():
        words = line.split(" ")
        if words[0] == "pair":
            pair = int(words[1])
        elif words[0] == "candidate":
            place = (pair, int(words[1]))
            counts[place] = 0
        elif words[0] in ("close", "rows"):
            counts[place] += 1
    return counts


def fault_of_branches(certificate, limits):
    """Why the proofs of a certificate are too long, or None."""
    counts = closed_branches(certificate or b"")
    if not counts:
        return "the certificate has no proof"
    for line in limits.decode().splitlines():
        *place, most = map(int, line.split())
        places = [tuple(place)] if place else sorted(counts)
        for pair, candidate in places:
            count = counts.get((pair, candidate))
            if count is None:
                return "pair %d has no proof of its candidate %d" % (pair, candidate)
            if count > most:
                return "the proof of candidate %d of pair %d closes %d branches, and not at most %d" % (candidate, pair, count, most)
    return None


def fault_of(program, row):
    """Why a row falls short, or None."""
    others = sorted(set(os.listdir(row)) - KNOWN)
    if others:
        return "a row has no file %s" % others[0]
    before = files_of(row)
    has_second = os.path.exists(os.path.join(row, "then_words"))
    written = read(os.path.join(row, "certificate_out"))
    with tempfile.TemporaryDirectory() as folder:
        for name, text in before.items():
            with open(os.path.join(folder, name), "wb") as file:
                file.write(text)
        for prefix in ("", "then_") if has_second else ("",):
            fault = fault_of_run(program, folder, row, prefix)
            if fault:
                return ("second run: " if prefix else "") + fault
        after = {name: read(os.path.join(folder, name)) for name in os.listdir(folder)}
    expected = dict(before)
    limits = read(os.path.join(row, "branches"))
    if limits is not None:
        fault = fault_of_branches(after.get("certificate"), limits)
        if fault:
            return fault
        expected["certificate"] = after["certificate"]
    if written is not None:
        expected["certificate"] = written
    elif has_second and "certificate" in after:
        expected["certificate"] = after["certificate"]
    for name in sorted(set(expected) | set(after)):
        if expected.get(name) != after.get(name):
            return "the file %s holds %r in place of %r" % (name, after.get(name), expected.get(name))
    return None


def main(words):
    if not words:
        sys.exit(__doc__)
    program = os.path.abspath(words[0])
    names = words[1:] or (sorted(os.listdir(ROWS)) if os.path.isdir(ROWS) else [])
    passed = failed = 0
    for name in names:
        fault = fault_of(program, os.path.join(ROWS, name))
        if fault:
            print("%s: %s" % (name, fault))
            failed += 1
        else:
            passed += 1
    print("%d passed, %d failed" % (passed, failed))
    return 1 if failed or not passed else 0


if __name__ == "__main__":
    sys.exit(main(sys.argv[1:]))
