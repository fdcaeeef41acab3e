#!/usr/bin/env python3
"""Times the built program, and shows the proofs of some pairs over integers.

    python3 bench/run.py [--count N] [--runs R] [--program PATH]

The program has to be built before: `rt run` in crates/symdiff leaves it as crates/symdiff/out/symdiff. All texts lie in temporary
folders. A time is the least of R runs (3 unless --runs says another number), a peak memory the greatest. These are measured:

- `verify` on texts of N and of 2N procedures over truth values (N is 2048 unless --count gives less; the reader takes 4096
  procedures at most);
- the same on texts of N and of 2N procedures that call themselves, all of which are settled in two sweeps;
- `replay` of a certificate of more than 10000 steps, and of one of twice as many procedures. The old and the new procedures take
  the parity of their parameters, in one order and in the other. The two times are compared by the step, so that twice the steps
  in twice the time have the ratio 2;
- `verify` on texts of N and of 2N procedures of 20 statements each, with contracts and `old`, as the old text, with an empty new
  one: the text is read, checked and turned into its core program, and nothing is compared;
- `verify` on a text of 16777216 bytes, the longest that is read, and on one of half the size, with types, maps, loops, calls and
  contracts, as the old text. It is read and checked whole, and answered with `not yet`, since its form isn't taken;
- `verify` on texts of 200 and of 400 procedures over integers, three in four of which are safe. Where Boogie and Z3 are installed
  (Debian's packages `boogie` and `z3`) Boogie runs on one text of products of the same 200 pairs: a procedure a pair, which takes
  both bodies one after the other with a flag for each, and asserts that the new flag implies the old one.

- `verify` on the rows of `tests/rows` that say how many branches a proof closes at most, and on one body of 50, 100 and 200
  statements that is changed at its end alone.

Last it prints for some pairs over integers how many sweeps there were, and how many branches and steps the proofs of the
certificate have, and sees that `replay` accepts it.

It is no part of the gate. The status is 0 where each answer is right, all ratios are below 2.5, the text of 2N procedures takes
less than a second and 200 MB, the replay of the first certificate less than a second, the text of 2N procedures of 20 statements
less than a second, the longest text less than 4 seconds and 3 GB, the 200 pairs over integers less than Boogie takes for their
products, and each row with a number of branches less than a second. Where one of these fails a line says so, and the status is 1. Where the program isn't there it is 2.
"""

import argparse
import collections
import os
import re
import shutil
import subprocess
import sys
import tempfile
import time

HERE = os.path.dirname(os.path.abspath(__file__))
PROGRAM = os.path.join(HERE, "..", "crates", "symdiff", "out", "symdiff")
GREATEST_RATIO = 2.5
GREATEST_SECONDS = 1.0
GREATEST_BYTES = 200_000_000
LEAST_STEPS = 10_000
REPLAY_PARAMETERS = 8
REPLAY_PROCEDURES = 8
LONGEST_TEXT = 16_777_216
READING_SECONDS = 4.0
READING_BYTES = 3_000_000_000
INTEGER_PAIRS = 200

VERIFY = ("verify", "old", "new")
CERTIFY = ("verify", "old", "new", "--certificate", "certificate")
REPLAY = ("replay", "old", "new", "certificate")

# Two texts, with the status and the text that are right for them.
Case = collections.namedtuple("Case", "old new status report")

# The seconds that a run took, its peak memory in bytes, its status and what it wrote.
Ran = collections.namedtuple("Ran", "seconds peak status written")


# ---- runs


def put_file(folder, name, text):
    """Writes a text as a file in this folder."""
    with open(os.path.join(folder, name), "w", encoding="ascii") as file:
        file.write(text)


def put_texts(folder, case):
    """Writes the two texts of a case as `old` and `new` in this folder."""
    put_file(folder, "old", case.old)
    put_file(folder, "new", case.new)


def read_lines(folder, name):
    """The lines of a file in this folder, without their ends."""
    with open(os.path.join(folder, name), encoding="ascii") as file:
        return file.read().splitlines()


def run_once(command, folder):
    """Runs a command in this folder."""
    with open(os.path.join(folder, "written"), "w+b") as out:
        begin = time.perf_counter()
        process = subprocess.Popen(command, cwd=folder, stdin=subprocess.DEVNULL, stdout=out)
        _, status, usage = os.wait4(process.pid, 0)
        seconds = time.perf_counter() - begin
        process.returncode = os.waitstatus_to_exitcode(status)
        out.seek(0)
        written = out.read().decode("ascii", "replace")
    peak = usage.ru_maxrss * (1 if sys.platform == "darwin" else 1024)
    return Ran(seconds, peak, process.returncode, written)


def least_time(command, folder, runs, is_right, what, complaints):
    """The least time of several runs of a command in this folder, and their greatest peak memory. No run follows a wrong answer."""
    seconds, peaks = [], []
    for _ in range(runs):
        ran = run_once(command, folder)
        seconds.append(ran.seconds)
        peaks.append(ran.peak)
        if not is_right(ran):
            complaints.append("%s: status %d, and the answer isn't the one that is right" % (what, ran.status))
            break
    return min(seconds), max(peaks)


def is_answer(case, ran):
    """Whether a run answered what is right for a case."""
    return (ran.status, ran.written) == (case.status, case.report)


def time_case(program, case, runs, what, complaints):
    """The least time of several runs of `verify` on a case, and their greatest peak memory."""
    with tempfile.TemporaryDirectory() as folder:
        put_texts(folder, case)
        return least_time([program, *VERIFY], folder, runs, lambda ran: is_answer(case, ran), what, complaints)


def last_line(safe, unknown=0, refused=0):
    """The last line of a report with so many pairs of each kind."""
    return "pairs %d safe %d equal 0 unknown %d refused %d axioms 0 0\n" % (safe + unknown + refused, safe, unknown, refused)


def compare_times(what, single, double, complaints):
    """Prints the ratio of two times, and complains of one that is too great."""
    ratio = double / single
    print("ratio of the times %s: %.2f" % (what, ratio))
    if ratio >= GREATEST_RATIO:
        complaints.append("the ratio of the times %s isn't below %.1f" % (what, GREATEST_RATIO))


def keep_below(what, value, limit, unit, complaints):
    """Complains of a value that isn't below its limit."""
    if value >= limit:
        complaints.append("%s: %.3f %s, and not below %.3f" % (what, value, unit, limit))


# ---- procedures over truth values

# One procedure. The parts that the new text may change are the last two assertions.
FORM = """procedure handler_{number:04d}(ready: bool, locked: bool, open: bool, forced: bool)
{{
  var state, result: bool;
  state := ready && !locked;
  if (open || forced) {{
    result := state ==> ready;
  }} else {{
    result := !state;
    return;
  }}
  {last}
}}
"""

# What stands last in the old and in the new procedure, and the word that the report says of them.
LAST = [
    ("assert result && (open || forced);", "assert (forced || open) && result;", "safe"),
    ("assert ready && locked;", "assert locked || !ready;", "safe"),
    ("assert ready || locked;", "assert ready;", "unknown"),
    ("assert state; assert open;", "assert open; assert state;", "safe"),
]


def procedures(count):
    """Texts of so many procedures over truth values."""
    old, new, report = [], [], []
    words = []
    for number in range(count):
        before, after, word = LAST[number % len(LAST)]
        old.append(FORM.format(number=number, last=before))
        new.append(FORM.format(number=number, last=after))
        report.append("{0} handler_{1:04d} handler_{1:04d}\n".format(word, number))
        words.append(word)
    report.append(last_line(words.count("safe"), words.count("unknown")))
    return Case("".join(old), "".join(new), 1, "".join(report))


def measure_procedures(program, count, runs, complaints):
    """The least time on so many procedures, and the greatest peak memory."""
    case = procedures(count)
    seconds, peak = time_case(program, case, runs, "%d procedures" % count, complaints)
    print("%5d procedures  %8d bytes a text  %8.3f s  %7.1f MB" % (count, len(case.old), seconds, peak / 1e6))
    return seconds, peak


def check_procedures(program, given, complaints):
    """Measures procedures over truth values."""
    single, _ = measure_procedures(program, given.count, given.runs, complaints)
    double, peak = measure_procedures(program, 2 * given.count, given.runs, complaints)
    compare_times("at %d and %d procedures" % (2 * given.count, given.count), single, double, complaints)
    keep_below("%d procedures" % (2 * given.count), double, GREATEST_SECONDS, "s", complaints)
    keep_below("%d procedures" % (2 * given.count), peak / 1e6, GREATEST_BYTES / 1e6, "MB", complaints)


# ---- procedures that call themselves

# Procedures that call themselves in two ways that come to the same.
CALLING = [
    """procedure turn_{number:04d}(b: bool) returns (r: bool) {{ if (b) {{ call r := turn_{number:04d}(!b); }} else {{ r := b; }} assert !r; }}
""",
    """procedure turn_{number:04d}(b: bool) returns (r: bool) {{ r := b; if (b) {{ call r := turn_{number:04d}(false); }} assert !r; }}
""",
]


def calling_procedures(count):
    """Texts of so many procedures that call themselves."""
    old, new = ("".join(form.format(number=number) for number in range(count)) for form in CALLING)
    report = ["safe turn_{0:04d} turn_{0:04d}\n".format(number) for number in range(count)]
    return Case(old, new, 0, "".join(report) + last_line(count))


def measure_calls(program, count, runs, complaints):
    """The least time on so many procedures that call themselves."""
    case = calling_procedures(count)
    seconds, _ = time_case(program, case, runs, "%d procedures with calls" % count, complaints)
    print("%5d procedures with calls  %8d bytes a text  %8.3f s" % (count, len(case.old), seconds))
    return seconds


def check_calls(program, given, complaints):
    """Measures procedures that call themselves."""
    single = measure_calls(program, given.count, given.runs, complaints)
    double = measure_calls(program, 2 * given.count, given.runs, complaints)
    compare_times("with calls at %d and %d procedures" % (2 * given.count, given.count), single, double, complaints)


# ---- replay

def parity(name, parameters):
    """A procedure that asserts the parity of its parameters, taken in this order."""
    ordered = sorted(parameters)
    lines = ["procedure %s(%s)" % (name, ", ".join("%s: bool" % p for p in ordered)), "{", "  var odd: bool;", "  odd := false;"]
    for parameter in parameters:
        lines.append("  odd := (odd && !{0}) || (!odd && {0});".format(parameter))
    return "\n".join(lines + ["  assert odd;", "}", ""])


def parities(count):
    """Texts of so many procedures of parities, in one order of the parameters and in the other."""
    parameters = ["p%02d" % number for number in range(REPLAY_PARAMETERS)]
    names = ["odd_%02d" % number for number in range(count)]
    old = "".join(parity(name, parameters) for name in names)
    new = "".join(parity(name, parameters[::-1]) for name in names)
    return Case(old, new, 0, "".join("safe %s %s\n" % (name, name) for name in names) + last_line(count))


def measure_replay(program, count, runs, complaints):
    """The least time of the replay of the certificate of so many procedures of parities, and its number of steps."""
    case = parities(count)
    with tempfile.TemporaryDirectory() as folder:
        put_texts(folder, case)
        ran = run_once([program, *CERTIFY], folder)
        if not is_answer(case, ran):
            sys.exit("%d procedures of parities: status %d, and the answer isn't the one that is right" % (count, ran.status))
        steps, _ = count_steps(read_lines(folder, "certificate"))
        what = "a replay of %d steps" % steps
        seconds, _ = least_time([program, *REPLAY], folder, runs, lambda ran: is_answer(case, ran), what, complaints)
    print("replay of %6d steps  %8.3f s" % (steps, seconds))
    return seconds, steps


def check_replay(program, given, complaints):
    """Measures the replay of certificates."""
    single, steps = measure_replay(program, REPLAY_PROCEDURES, given.runs, complaints)
    double, more = measure_replay(program, 2 * REPLAY_PROCEDURES, given.runs, complaints)
    if steps < LEAST_STEPS:
        complaints.append("the certificate has less than %d steps" % LEAST_STEPS)
    what = "of replay at twice the steps, from %d and %d" % (more, steps)
    compare_times(what, single / steps, 2 * double / more, complaints)
    keep_below("the replay of %d steps" % steps, single, GREATEST_SECONDS, "s", complaints)


# ---- procedures of 20 statements

# A procedure of 20 statements.
STATEMENTS = """procedure guard_{number:04d}(ready: bool, open: bool) returns (taken: bool)
  requires ready || open; modifies count; ensures taken ==> old(count);
{{
  var seen: bool;
{parts}
}}
"""
FIVE = """  seen := ready && count; assume seen || open;
  if (seen) {{ taken := seen ==> old(count); }} else {{ count := !count; }}"""


def long_procedures(count):
    """A text of so many procedures of 20 statements, beside one that has none."""
    parts = "\n".join([FIVE.replace("{{", "{").replace("}}", "}")] * 4)
    text = ["var count: bool;\n"] + [STATEMENTS.format(number=number, parts=parts) for number in range(count)]
    report = ["only old guard_%04d\n" % number for number in range(count)]
    return Case("".join(text), "", 0, "".join(report) + last_line(0))


def measure_statements(program, count, runs, complaints):
    """The least time in which so many procedures of 20 statements are read, checked and turned into their core program."""
    case = long_procedures(count)
    what = "%d procedures of 20 statements" % count
    seconds, _ = time_case(program, case, runs, what, complaints)
    print("%5d procedures of 20 statements  %8d bytes  %8.3f s" % (count, len(case.old), seconds))
    return seconds


def check_statements(program, given, complaints):
    """Measures the extraction of procedures of 20 statements."""
    single = measure_statements(program, given.count, given.runs, complaints)
    double = measure_statements(program, 2 * given.count, given.runs, complaints)
    compare_times("of extraction at %d and %d procedures" % (2 * given.count, given.count), single, double, complaints)
    keep_below("%d procedures of 20 statements" % (2 * given.count), double, GREATEST_SECONDS, "s", complaints)


# ---- the longest text

# A procedure of about 4600 bytes in the whole language, of which PART stands many times.
HEAD = """procedure {{:number {number}}} account_{number:04d}(who: Account, amount: int) returns (ok: bool)
  requires amount >= 0; modifies balance;
{{
  var i, left: int;
"""
PART = """  left := balance[who] - amount * 2; // what stays
  while (i < left && ok ==> i != {part}) invariant i <= left; {{ i := i + 1; call left := least(i, left); }}
  if (left >= 0) {{ balance[who], ok := left, true; }} else {{ assume old(balance[who]) >= 0; }}
"""
DECLARED = """type Account;
var balance: [Account]int;
procedure least(a: int, b: int) returns (c: int) { c := b; if (a < b) { c := a; } }
"""


def long_text(size):
    """A text of exactly so many bytes, in at most 4096 procedures."""
    pieces = [DECLARED]
    length = len(DECLARED)
    number = 0
    while True:
        procedure = HEAD.format(number=number) + "".join(PART.format(part=part) for part in range(18)) + "}\n"
        if length + len(procedure) > size:
            return "".join(pieces) + " " * (size - length)
        pieces.append(procedure)
        length += len(procedure)
        number += 1


def measure_reading(program, size, runs, complaints):
    """The least time of the reading of a text of so many bytes, and the greatest peak memory."""
    case = Case(long_text(size), "", 3, "error: old not yet\n")
    seconds, peak = time_case(program, case, runs, "a text of %d bytes" % size, complaints)
    print("reading of %8d bytes  %8.3f s  %7.1f MB" % (size, seconds, peak / 1e6))
    return seconds, peak


def check_reading(program, given, complaints):
    """Measures the reading of the longest text."""
    half, _ = measure_reading(program, LONGEST_TEXT // 2, given.runs, complaints)
    whole, peak = measure_reading(program, LONGEST_TEXT, given.runs, complaints)
    compare_times("of reading at %d and %d bytes" % (LONGEST_TEXT, LONGEST_TEXT // 2), half, whole, complaints)
    keep_below("the longest text", whole, READING_SECONDS, "s", complaints)
    keep_below("the longest text", peak / 1e6, READING_BYTES / 1e6, "MB", complaints)


# ---- pairs over integers, beside Boogie

# Procedures over integers in two forms, as statements over the parameters X and Y, the result R and the number K of the procedure;
# and whether the new one has no failure that the old one lacks.
INTEGERS = [
    (["R := X;", "if (Y > 0) { R := X + Y; }", "assert R >= X;", "assert Y <= K;"],
     ["R := X + Y;", "if (Y <= 0) { R := X; }", "assert Y <= K + 1 && R >= X;"], True),
    (["R := X - K;", "assert R <= Y;"], ["R := Y - X;", "assert R + K + 1 > 0;", "R := X - K;"], True),
    (["R := X;", "if (X < Y) { R := Y; }", "assert R == X;"], ["R := Y;", "if (X >= Y) { R := X; }", "assert !(R > X);"], True),
    (["R := X + Y;", "assert R <= K;"], ["R := X + Y;", "assert R < K;"], False),
]


def procedure_text(number, body):
    """A procedure with this body."""
    lines = " ".join(body).replace("X", "x").replace("Y", "y").replace("R", "r").replace("K", str(number))
    return "procedure sum_%04d(x: int, y: int) returns (r: int) { %s }\n" % (number, lines)


def flagged(number, body, result, flag):
    """The body over a result and a flag of its own."""
    lines = []
    for line in body:
        if line.startswith("assert "):
            line = "if (!%s && !(%s)) { %s := true; }" % (flag, line[len("assert "):-1], flag)
        lines.append(line.replace("X", "x").replace("Y", "y").replace("R", result).replace("K", str(number)))
    return " ".join(lines)


def product_text(number, old, new):
    """A procedure that takes both bodies, and asserts that the new one fails only where the old one does."""
    return (
        "procedure sum_%04d(x: int, y: int) { var r, s: int; var f, g: bool; f := false; g := false; %s %s assert g ==> f; }\n"
        % (number, flagged(number, old, "r", "f"), flagged(number, new, "s", "g"))
    )


def numbered_pairs(count):
    """The numbers of so many pairs over integers, each with its two bodies and whether it is safe."""
    return [(number, *INTEGERS[number % len(INTEGERS)]) for number in range(count)]


def integer_pairs(count):
    """Texts of so many pairs over integers."""
    old, new, report = [], [], []
    safe = 0
    for number, before, after, is_safe in numbered_pairs(count):
        old.append(procedure_text(number, before))
        new.append(procedure_text(number, after))
        report.append("{0} sum_{1:04d} sum_{1:04d}\n".format("safe" if is_safe else "unknown", number))
        safe += is_safe
    return Case("".join(old), "".join(new), 1, "".join(report) + last_line(safe, count - safe))


def measure_integers(program, count, runs, complaints):
    """The least time on so many pairs over integers."""
    case = integer_pairs(count)
    seconds, _ = time_case(program, case, runs, "%d pairs over integers" % count, complaints)
    print("%5d pairs over integers  %8d bytes a text  %8.3f s" % (count, len(case.old), seconds))
    return seconds


def version_of(command):
    """The first line with a version in what a command writes."""
    ran = subprocess.run(command, stdin=subprocess.DEVNULL, stdout=subprocess.PIPE, stderr=subprocess.STDOUT, text=True)
    return next((line for line in ran.stdout.splitlines() if "version" in line.lower()), "no version is told")


def measure_boogie(count, runs, complaints):
    """The least time that Boogie takes for the products of so many pairs, or None where it isn't installed."""
    if not (shutil.which("boogie") and shutil.which("z3")):
        print("Boogie and Z3 aren't installed, and aren't run")
        return None
    print(version_of(["boogie", "/version"]))
    print(version_of(["z3", "--version"]))
    pairs = numbered_pairs(count)
    failing = sum(not is_safe for _, _, _, is_safe in pairs)
    wanted = "%d verified, %d error" % (count - failing, failing)
    with tempfile.TemporaryDirectory() as folder:
        put_file(folder, "product.bpl", "".join(product_text(number, before, after) for number, before, after, _ in pairs))
        seconds, _ = least_time(["boogie", "product.bpl"], folder, runs, lambda ran: wanted in ran.written, "Boogie", complaints)
    print("%5d products by Boogie  %8.3f s" % (count, seconds))
    return seconds


def check_integers(program, given, complaints):
    """Measures pairs over integers, and Boogie on their products where it is installed."""
    single = measure_integers(program, INTEGER_PAIRS, given.runs, complaints)
    double = measure_integers(program, 2 * INTEGER_PAIRS, given.runs, complaints)
    compare_times("over integers at %d and %d pairs" % (2 * INTEGER_PAIRS, INTEGER_PAIRS), single, double, complaints)
    peer = measure_boogie(INTEGER_PAIRS, given.runs, complaints)
    if peer is not None and single >= peer:
        complaints.append("%d pairs over integers take longer than Boogie takes for their products" % INTEGER_PAIRS)


# ---- the proofs of some pairs over integers

AT_LEAST = "procedure p(x: int) { assert x >= %d; }"
COUNTING = "procedure p(x: int) { var i: int; i := 0; while (i < x) { i := %s; } assert x <= 9; }"
CALLER = "procedure c(k: int) { assert k <= 10; } procedure p(x: int) { call c(%s); }"
WIDEST = "procedure p(x: int) { assert x <= 18446744073709551615; }"
UNMATCHED = "procedure f(x: int) { %sassert x > 0; } procedure g(y: int) { }"

# Texts over integers, by what is changed in the new one.
SHOWN = {
    "an assertion says less": Case(AT_LEAST % 1, AT_LEAST % 0, 0, "safe p p\n" + last_line(1)),
    "an assertion says more": Case(AT_LEAST % 0, AT_LEAST % 1, 1, "unknown p p\n" + last_line(0, 1)),
    "the old assertion always fails": Case(
        "procedure p(x: int) { assert false; }", "procedure p(x: int) { assert x == 7; }", 0, "safe p p\n" + last_line(1)
    ),
    "a loop never ends": Case(COUNTING % "i + 1", COUNTING % "i", 0, "safe p p\n" + last_line(1)),
    "other locals in a recursion": Case(
        "procedure f(n: int) returns (r: int) { var a: int; var b: int; if (n <= 0) { r := 0; return; } a := n - 1; b := n; call r := f(a); r := r + b; assert r >= 0; }",
        "procedure f(n: int) returns (r: int) { var s: int; var t: int; if (n <= 0) { r := 0; return; } t := n; s := n - 1; call r := f(s); r := r + t; assert r >= 0; }",
        0,
        "safe f f\n" + last_line(1),
    ),
    "a counter in a loop": Case(
        "procedure p(n: int, len: int) { var i: int; i := 0; while (i < n) { assert i < len; i := i + 1; } }",
        "var c: int; procedure p(n: int, len: int) modifies c; { var i: int; i := 0; while (i < n) { assert i < len; c := c + 1; i := i + 1; } }",
        0,
        "safe p p\n" + last_line(1),
    ),
    "a call with another argument": Case(CALLER % "x", CALLER % "x - 1", 1, "safe c c\nunknown p p\n" + last_line(1, 1)),
    "the widest number": Case(WIDEST, WIDEST, 0, "safe p p\n" + last_line(1)),
    "a number that is too wide": Case(WIDEST, WIDEST.replace("615", "616"), 3, "error: new wide literal at 34\n"),
    "a helper without partner": Case(
        UNMATCHED % "",
        "procedure helper(k: int) { if (k > 0) { call helper(k - 1); } } " + UNMATCHED % "call helper(x); ",
        1,
        "refused f f unmatched-recursion helper\nsafe g g\nonly new helper\n" + last_line(1, 0, 1),
    ),
    "another type of a parameter": Case(
        "procedure p(x: int) { }", "procedure p(x: bool) { }", 1, "refused p p signature\n" + last_line(0, 0, 1)
    ),
}


def count_steps(lines):
    """How many steps the proofs of a certificate have, and how many branches they close."""
    words = [line.split()[0] for line in lines]
    steps = sum(word in ("term", "split", "order", "ite", "chain", "close", "rows") for word in words)
    return steps, sum(word in ("close", "rows") for word in words)


def has_candidate(program, folder, lines, place, number):
    """Whether the pair at this place of a certificate has a candidate of this number, live or dead.

    Where it has, `replay` of a certificate with that candidate alone, and without steps, finds a step missing below it.
    """
    pairs = [line for line in lines if line.startswith("pair ")]
    asked = lines[:5] + pairs[: place + 1] + ["candidate %d" % number]
    put_file(folder, "asked", "\n".join(asked + pairs[place + 1 :] + ["end", ""]))
    ran = run_once([program, "replay", "old", "new", "asked"], folder)
    return ran.written == "error: certificate line %d shape\n" % (len(asked) + 1)


def count_candidates(program, folder, lines):
    """How many candidates the pairs of a certificate have, live or dead."""
    count = 0
    for place in range(sum(line.startswith("pair ") for line in lines)):
        number = 0
        while has_candidate(program, folder, lines, place, number):
            number += 1
        count += number
    return count


def sweeps_where(case, died):
    """How many sweeps there were over the candidates of a case, of which so many died.

    A sweep judges the live candidates in ascending order, each under the table as it stands then. One in which a candidate died is
    followed by another, and the last one is without a death. So there is one sweep where nothing died, there are two where one died,
    and else at least two and at most one more than deaths. What stands in the table matters at calls and loops alone: without them
    all deaths are those of the first sweep. With them the number would follow from the order of the deaths: judging again under the
    same table comes to the same, so the first death of a later sweep stands before the last one of the sweep before it, and the
    sweeps are the ascending runs of the deaths, and the last sweep. But a certificate tells which candidates died and not in which
    order, and the report tells neither.
    """
    if died == 0:
        return "1"
    if died == 1 or not re.search(r"\b(call|while)\b", case.old + case.new):
        return "2"
    return "2 to %d" % (died + 1)


def check_replayed(program, folder, name, case, complaints):
    """Complains where `replay` doesn't accept the certificate of a case."""
    report = re.sub("^unknown ", "unproved ", case.report, flags=re.MULTILINE)
    ran = run_once([program, *REPLAY], folder)
    if not is_answer(case._replace(report=report), ran):
        complaints.append("%s: replay has the status %d, and the answer isn't the one that is right" % (name, ran.status))


def show_proofs(program, name, case, complaints):
    """Prints how many sweeps, closed branches and steps the proofs of a case take, or why its texts aren't taken."""
    with tempfile.TemporaryDirectory() as folder:
        put_texts(folder, case)
        ran = run_once([program, *CERTIFY], folder)
        if not is_answer(case, ran):
            complaints.append("%s: status %d, and the answer isn't the one that is right" % (name, ran.status))
            return
        if case.status > 1:
            print("%-32s %s" % (name, ran.written.rstrip()))
            return
        lines = read_lines(folder, "certificate")
        check_replayed(program, folder, name, case, complaints)
        live = sum(line.startswith("candidate ") for line in lines)
        candidates = count_candidates(program, folder, lines)
    steps, leaves = count_steps(lines)
    sweeps = sweeps_where(case, candidates - live)
    print("%-32s %2d of %2d candidates live  %6s sweeps" % (name, live, candidates, sweeps), end="")
    print("  %5d branches closed  %6d steps  %8.3f s" % (leaves, steps, ran.seconds))


def check_shown(program, given, complaints):
    """Shows the proofs of all the pairs that are to be shown."""
    for name, case in SHOWN.items():
        show_proofs(program, name, case, complaints)


# ---- how proofs grow

ROWS = os.path.join(HERE, "..", "tests", "rows")
# The counts of statements of one body.
BODY_STATEMENTS = (50, 100, 200)


def read_file(*names):
    with open(os.path.join(*names), encoding="utf-8") as file:
        return file.read()


def proofs_of(lines):
    """The lines of each proof of a certificate."""
    proofs = []
    for line in lines:
        if line.startswith("candidate "):
            proofs.append([])
        elif proofs and not line.startswith(("pair ", "end")):
            proofs[-1].append(line)
    return proofs


def show_growth(program, name, case, runs, complaints):
    """Prints the time of a case, and what its proofs and its certificate come to; the least time is returned."""
    with tempfile.TemporaryDirectory() as folder:
        put_texts(folder, case)
        what = "%s under a certificate" % name
        seconds, _ = least_time([program, *CERTIFY], folder, runs, lambda ran: is_answer(case, ran), what, complaints)
        lines = read_lines(folder, "certificate") if os.path.exists(os.path.join(folder, "certificate")) else []
        size = sum(len(line) + 1 for line in lines)
    counts = [count_steps(proof) for proof in proofs_of(lines)]
    steps, branches = max((steps for steps, _ in counts), default=0), max((leaves for _, leaves in counts), default=0)
    print("%-48s %3d proofs, the longest %5d branches %6d steps  %8d bytes" % (name, len(counts), branches, steps, size), end="")
    print("  %8.3f s" % seconds)
    return seconds


def statements_case(count):
    """One body of so many statements over integers, whose last assertion is written otherwise."""
    kinds = ("  r := r + b;\n", "  if (r > {0}) {{ r := r - 1; }}\n", "  r := r - {0};\n")
    body = "".join(kinds[number % 3].format(number) for number in range(count))
    text = "procedure f(a: int, b: int) returns (r: int) {\n  r := a;\n" + body + "  assert %s;\n}\n"
    return Case(text % "r != 7", text % "!(r == 7)", 0, "safe f f\n" + last_line(1))


def check_growth(program, given, complaints):
    """Shows how the proofs of the rows and of ever longer bodies grow."""
    for name in sorted(os.listdir(ROWS)):
        if os.path.exists(os.path.join(ROWS, name, "branches")):
            texts = [read_file(ROWS, name, file) for file in ("old.bpl", "new.bpl", "stdout")]
            seconds = show_growth(program, name, Case(texts[0], texts[1], 0, texts[2]), given.runs, complaints)
            keep_below(name, seconds, GREATEST_SECONDS, "s", complaints)
    before = None
    for count in BODY_STATEMENTS:
        seconds = show_growth(program, "%d statements" % count, statements_case(count), 1, complaints)
        if before is not None:
            compare_times("of a body of %d and %d statements" % (count, count // 2), before, seconds, complaints)
        before = seconds


# ---- all of it

CHECKS = (
    check_procedures,
    check_calls,
    check_replay,
    check_statements,
    check_reading,
    check_integers,
    check_shown,
    check_growth,
)


def words_given():
    """What the words of the command line say."""
    parser = argparse.ArgumentParser(description="times the built program, and shows the proofs of some pairs over integers")
    parser.add_argument("--count", type=int, default=2048)
    parser.add_argument("--runs", type=int, default=3)
    parser.add_argument("--program", default=PROGRAM)
    given = parser.parse_args()
    if not 4 <= given.count <= 2048 or given.runs < 1:
        parser.error("4 to 2048 procedures, and at least one run")
    return given


def main():
    given = words_given()
    program = os.path.abspath(given.program)
    if not os.path.isfile(program):
        print("there is no %s: run `rt run` in crates/symdiff first" % program)
        return 2
    complaints = []
    for check in CHECKS:
        check(program, given, complaints)
    for complaint in complaints:
        print("falls short: " + complaint)
    return 1 if complaints else 0


if __name__ == "__main__":
    sys.exit(main())
