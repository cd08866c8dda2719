#!/usr/bin/env python3
"""Times deposits into a ledger (Linux).

  bench/deposits.py [--program PATH]

The program `bench_net` deposits 1 to each of so many accounts, then so many times more to the first of them, and
asks for the asset's sum over all accounts after each deposit.

- growing: N accounts and N deposits more, then 2N, 4N and 8N (N is 50,000). Time should grow as N log N.
- many: 100,000 accounts and 1,000,000 deposits more, which should take a few seconds.

Without --program it takes crates/bench_net/out/bench_net of this repository, which `rt run` leaves there:
(cd crates/bench_net && rt run -- 0 1 100 1000).
"""
import argparse
import pathlib
import subprocess
import sys
import time

ROOT = pathlib.Path(__file__).resolve().parent.parent
STEP = 50_000


def seconds(program, accounts, deposits):
    """Runs the program once, and answers its seconds; each sum must have been right."""
    start = time.monotonic()
    out = subprocess.run([program, "0", "1", str(accounts), str(deposits)], check=True, capture_output=True, text=True).stdout
    spent = time.monotonic() - start
    if out != f"0\n{deposits}\n":
        sys.exit(f"{accounts} accounts and {deposits} deposits: only {out.split()[-1]} sums were right")
    return spent


def main():
    words = argparse.ArgumentParser(description=__doc__, formatter_class=argparse.RawDescriptionHelpFormatter)
    words.add_argument("--program", default=ROOT / "crates/bench_net/out/bench_net", type=pathlib.Path)
    program = words.parse_args().program
    if not program.exists():
        sys.exit(f"no program at {program}; see --help")
    for times in (1, 2, 4, 8):
        accounts = STEP * times
        print(f"growing: {accounts:7} accounts, {accounts:7} more  {seconds(program, accounts, accounts):6.2f} s")
    print(f"many:     100000 accounts, 1000000 more  {seconds(program, 100_000, 1_000_000):6.2f} s")


if __name__ == "__main__":
    main()
