#!/usr/bin/env python3
"""Times the whole program on large inputs, each in sizes n, 2n, 4n and 8n, and prints a table: processor seconds (the least of some
runs) and peak memory, of which what is below about 9 MiB is the launcher's.

  bench/whole_program.py [PROGRAM] [--beside OTHER] [--only KIND[,KIND]] [--largest] [--runs N] [--count]

PROGRAM is what `rt ci` or `rt run` leaves of crates/rudderrusset. OTHER is another program of the same input and report, as a command
line: both run in turn on each input, their reports are compared, and the last column is how many times its processor time PROGRAM
takes. --largest takes 8n alone. --count counts PROGRAM's instructions with valgrind, which don't depend on the machine's load.
"""
import argparse
import hashlib
import os
import shlex
import shutil
import subprocess
import sys
import tempfile

import inputs

RUN, AUDIT = ["run"], ["run", "--audit"]
# Kind: what a size is, the least size, the words of the program, and the input.
KINDS = {
    "gen": ("drawn steps", 12_500, lambda n: ["gen", "1", str(n)], lambda n: b""),
    "audit": ("steps with the audit, 8 chains of 20 assets", 500, lambda n: AUDIT,
              lambda n: inputs.steps(n, 8, 19, seed=2)),
    "audit-wide": ("steps with the audit, 64 chains of 128 assets", 10, lambda n: AUDIT, lambda n: inputs.steps(n, seed=2)),
    "steps": ("mixed steps, 64 chains of 128 assets", 10_000, lambda n: RUN, inputs.steps),
    "reach": ("lines of calls, exchanges and locks", 5_000, lambda n: RUN, inputs.reach),
    "document": ("bytes of a document, 64 chains of 128 assets", 125_000, lambda n: RUN, inputs.wide_document),
    "document-accounts": ("bytes of a document of accounts", 125_000, lambda n: RUN, inputs.accounts_document),
    "messages": ("messages of 65,000 bytes", 60, lambda n: RUN, inputs.large_messages),
    "accounts": ("accounts, and half as many transfers", 12_500, lambda n: RUN, inputs.many_accounts),
    "drains": ("lines, a drain after each 63", 10_000, lambda n: RUN, inputs.drains),
    "hostile": ("bytes of lines with counts of 2^32-1", 2_500_000, lambda n: RUN, inputs.hostile_lines),
}

# A small process of its own: a child's peak counts what its parent had in memory when it began.
LAUNCHER = """
import resource, subprocess, sys
status = subprocess.run(sys.argv[1:], stdout=subprocess.DEVNULL).returncode
used = resource.getrusage(resource.RUSAGE_CHILDREN)
print(used.ru_utime + used.ru_stime, status, used.ru_maxrss / 1024, file=sys.stderr)
"""


def timed(command, words, given):
    given.seek(0)
    ran = subprocess.run([sys.executable, "-S", "-E", "-c", LAUNCHER, *command, *words], stdin=given, stderr=subprocess.PIPE, text=True)
    seconds, status, peak = ran.stderr.split()
    if int(status):
        sys.exit(f"bench: {command[0]}: status {status}")
    return float(seconds), float(peak)


def report(command, words, given):
    given.seek(0)
    ran = subprocess.run([*command, *words], stdin=given, stdout=subprocess.PIPE)
    return hashlib.sha256(ran.stdout).hexdigest()


def instructions(command, words, given):
    given.seek(0)
    with tempfile.TemporaryDirectory() as room:
        ran = subprocess.run(["valgrind", "--tool=callgrind", f"--callgrind-out-file={room}/out", *command, *words],
                             stdin=given, stdout=subprocess.DEVNULL, stderr=subprocess.PIPE, text=True)
    return int(ran.stderr.split("Collected :")[1].split()[0])


def row(options, command, other, name, words, given):
    if options.count:
        return f"| {name} | {instructions(command, words, given):,} |"
    if other and report(command, words, given) != report(other, words, given):
        sys.exit(f"bench: {name}: the reports differ")
    ours, theirs = [], []
    for _ in range(options.runs):
        ours.append(timed(command, words, given))
        if other:
            theirs.append(timed(other, words, given))
    seconds, peak = min(ours)[0], min(one[1] for one in ours)
    line = f"| {name} | {seconds:.2f} | {peak:.1f} MiB |"
    return line + (f" {seconds / min(theirs)[0]:.1f} |" if other else "")


def main():
    parser = argparse.ArgumentParser(usage=__doc__)
    parser.add_argument("program", nargs="?", default="crates/rudderrusset/out/rudderrusset")
    parser.add_argument("--beside")
    parser.add_argument("--only", default=",".join(KINDS))
    parser.add_argument("--largest", action="store_true")
    parser.add_argument("--runs", type=int, default=3)
    parser.add_argument("--count", action="store_true")
    options = parser.parse_args()
    command, other = [os.path.abspath(options.program)], shlex.split(options.beside or "")
    if options.count and not shutil.which("valgrind"):
        sys.exit("bench: no valgrind")
    if not os.access(command[0], os.X_OK):
        sys.exit(f"bench: no program {command[0]}")
    heads = ["Input", "Instructions"] if options.count else ["Input", "Seconds", "Peak memory"] + ["Times the other"] * bool(other)
    print("| " + " | ".join(heads) + " |\n" + "|---" * len(heads) + "|")
    for kind in options.only.split(","):
        what, least, words_of, input_of = KINDS[kind]
        for size in (8 * least,) if options.largest else (least, 2 * least, 4 * least, 8 * least):
            with tempfile.TemporaryFile() as given:
                given.write(input_of(size))
                given.flush()
                print(row(options, command, other, f"{size:,} {what}", words_of(size), given), flush=True)


if __name__ == "__main__":
    main()
