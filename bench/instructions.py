#!/usr/bin/env python3
"""Counts the instructions that decoding takes, which don't depend on the machine's load (Linux, with valgrind).

  bench/instructions.py [--program PATH] [--profile]

Each input is the empty network `{}`, the line `---` and lines `exec relay ACCOUNT MESSAGE`. The program runs under
`valgrind --tool=callgrind` on few and on more lines; the difference, over the bytes or the lines that came on top, is what each
costs. With --profile the functions that take most are listed too. Without valgrind it says so and ends.

- asset lists: messages of 12,000 bytes of asset lists of 20 assets each, with assets of 6 and of 21 bytes, by the byte of the
  message.
- small: a withdrawal, a payment and a deposit of 56 bytes, by the line.
- short: `04041914`, by the line.

Without --program it takes crates/rudderrusset/out/rudderrusset, which `rt run` leaves there:
(cd crates/rudderrusset && rt run -- run < stdin).
"""
import argparse
import pathlib
import re
import shutil
import subprocess
import sys
import tempfile

from decoding import ACCOUNT, HEAD, ROOT, call, compact, list_message, small_message



def pallet_message(size):
    """BurnAssets of 20 assets each, as many as the size allows: an amount of 1 of what a pallet has, of 6 bytes."""
    burn = b"\x1c" + compact(20) + b"".join(bytes([0, 1, 4, number, 0, 4]) for number in range(20))
    count = min(99, (size - 60) // len(burn))
    front = b"\x04" + compact(count + 1) + burn * count
    return front + call(size - len(front))


SHORT = bytes.fromhex("04041914")
INPUTS = [
    ("asset lists (assets of 6 bytes), a byte", pallet_message(12_000), 4, 12_000),
    ("asset lists (assets of 21 bytes), a byte", list_message(12_000), 4, 12_000),
    ("small, a line", small_message(), 200, 1),
    ("short, a line", SHORT, 400, 1),
]


def counted(program, message, lines, profile):
    """The instructions of a run on so many lines with this message."""
    line = f"exec relay {ACCOUNT} {message.hex()}\n"
    with tempfile.NamedTemporaryFile() as file:
        command = ["valgrind", "--tool=callgrind", f"--callgrind-out-file={file.name}", program, "run"]
        text = (HEAD + line * lines).encode()
        done = subprocess.run(command, input=text, capture_output=True, check=False)
        found = re.search(rb"Collected : (\d+)", done.stderr)
        if done.returncode != 0 or not found:
            sys.exit(f"{program}: {done.stderr[-300:]!r}")
        if profile:
            listed = subprocess.run(["callgrind_annotate", file.name], capture_output=True, text=True, check=False)
            print("\n".join(listed.stdout.splitlines()[:60]))
    return int(found.group(1))


def main():
    parser = argparse.ArgumentParser(description=__doc__, formatter_class=argparse.RawDescriptionHelpFormatter)
    parser.add_argument("--program", default=str(ROOT / "crates/rudderrusset/out/rudderrusset"))
    parser.add_argument("--profile", action="store_true")
    given = parser.parse_args()
    if shutil.which("valgrind") is None:
        print("no valgrind: nothing is counted")
        return
    if not pathlib.Path(given.program).exists():
        sys.exit(f"{given.program} isn't there: build it first, (cd crates/rudderrusset && rt run -- run < stdin)")
    for name, message, lines, units in INPUTS:
        few = counted(given.program, message, lines, False)
        more = counted(given.program, message, 2 * lines, given.profile)
        print(f"{name}: {(more - few) / (lines * units):.0f} instructions")


if __name__ == "__main__":
    main()
