#!/usr/bin/env python3
"""Times the program on inputs of many lines, and prints time and peak memory for each (Linux).

  bench/exec_lines.py [--program PATH] [--lines N] [--most M]

An input is the empty network `{}`, the line `---` and the line
`exec relay ACCOUNT 04041914` many times: a message with the one instruction Trap(5).
The program runs on N, 2N, 4N and 8N such lines (N is 20,000 if not given), and on
M (700,000, which is near the program's limit of 64 MiB of input). Time should grow
in proportion to the lines, and memory not at all. The report of the first run is
compared with the one that is wanted; the other runs write to the null device.

Without --program it takes crates/rudderrusset/out/rudderrusset of this repository.
`rt run` leaves it there:

  (cd crates/rudderrusset && rt run -- run < stdin)
"""
import argparse
import os
import pathlib
import shutil
import subprocess
import sys
import tempfile
import time

ROOT = pathlib.Path(__file__).resolve().parent.parent
ACCOUNT = "0x" + "01" * 32
HEAD = b"{}\n---\n"
LINE = f"exec relay {ACCOUNT} 04041914\n".encode()
STEP = f"""#{{}} exec relay
  p0 Trap Trap(5)
  end origin 0/AccountId32({ACCOUNT}) topic - surplus 0 0 refunded 0 0
  = incomplete 1000 100 Trap(5)
"""


def write_input(path, lines):
    """Writes an input of so many step lines and answers its size in bytes."""
    with open(path, "wb") as out:
        out.write(HEAD)
        for done in range(0, lines, 10_000):
            out.write(LINE * min(10_000, lines - done))
    return os.path.getsize(path)


def run(program, source, target):
    """Runs the program once; answers its status and seconds."""
    with open(source, "rb") as given, open(target, "wb") as taken:
        start = time.monotonic()
        status = subprocess.call([program, "run"], stdin=given, stdout=taken)
        return status, time.monotonic() - start


def peak_memory(program, source):
    """Runs the program once more, and reads its peak memory, in MiB, before its input ends.

    What the system reports after the end has this script's own memory in it (Linux keeps the
    peak of a process over exec).
    """
    with open(source, "rb") as given, open(os.devnull, "wb") as taken:
        child = subprocess.Popen([program, "run"], stdin=subprocess.PIPE, stdout=taken)
        shutil.copyfileobj(given, child.stdin)
        child.stdin.flush()
        time.sleep(0.1)
        with open(f"/proc/{child.pid}/status", encoding="ascii") as status:
            peak = next(line for line in status if line.startswith("VmHWM"))
        child.stdin.close()
        child.wait()
        return int(peak.split()[1]) / 1024


def is_wanted(report, lines):
    """Whether the file holds the whole report of so many step lines."""
    with open(report, encoding="ascii") as text:
        if text.readline() != "coherent\n":
            return False
        for number in range(1, lines + 1):
            for want in STEP.format(number).splitlines(keepends=True):
                if text.readline() != want:
                    return False
        return text.read() == ""


def main():
    words = argparse.ArgumentParser(description=__doc__, formatter_class=argparse.RawDescriptionHelpFormatter)
    words.add_argument("--program", default=ROOT / "crates/rudderrusset/out/rudderrusset", type=pathlib.Path)
    words.add_argument("--lines", default=20_000, type=int)
    words.add_argument("--most", default=700_000, type=int)
    asked = words.parse_args()
    program = asked.program.resolve()
    if not program.exists():
        sys.exit(f"{program} isn't there: build it first, (cd crates/rudderrusset && rt run -- run < stdin)")

    print(f"{program.name} on {os.cpu_count()} processors")
    print(f"{'lines':>9} {'input':>10} {'seconds':>9} {'us a line':>10} {'peak memory':>12}")
    with tempfile.TemporaryDirectory() as folder:
        source, report = os.path.join(folder, "input"), os.path.join(folder, "report")
        for at, lines in enumerate([asked.lines * k for k in (1, 2, 4, 8)] + [asked.most]):
            size = write_input(source, lines)
            if at == 0:
                status, _ = run(program, source, report)
                if status != 0 or not is_wanted(report, lines):
                    sys.exit(f"{lines} lines: status {status}, and not the report that is wanted")
            status, seconds = run(program, source, os.devnull)
            if status != 0:
                sys.exit(f"{lines} lines: status {status}")
            memory = peak_memory(program, source)
            print(f"{lines:>9} {size / 1e6:>7.1f} MB {seconds:>9.2f} {seconds / lines * 1e6:>10.2f} {memory:>8.1f} MiB")


if __name__ == "__main__":
    main()
