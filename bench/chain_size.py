#!/usr/bin/env python3
"""Times steps at a chain with more and more accounts and traps: withdrawals with deposits, and traps with claims. Each time is the
difference of two runs of the whole program, with those steps and without them.

  bench/chain_size.py [PROGRAM]
"""
import os, subprocess, sys, tempfile, time

PROGRAM = os.path.abspath(sys.argv[1] if len(sys.argv) > 1 else "crates/rudderrusset/out/rudderrusset")
A1 = "0x" + "01" * 32
STEPS = 10_000
NETWORK = (
    '{"chains":[{"assets":[{"id":"0","native":[]}],"rates":[{"asset":"0","per_second":"1000000000","per_mb":"0"}],'
    '"accounts":[{"who":"%s","asset":"0","amount":"1000000000000"}]}]}\n---\n' % A1
)


def compact(number):
    if number < 64:
        return bytes([number << 2])
    if number < 1 << 14:
        return ((number << 2) | 1).to_bytes(2, "little")
    return ((number << 2) | 2).to_bytes(4, "little")


def withdraw(amount):
    return bytes([0, 4, 0, 0, 0]) + compact(amount)


def deposit(who):
    return bytes.fromhex("0d01000001" + "0100") + who


def line(*instructions):
    return f"exec relay {A1} {(bytes([4, len(instructions) << 2]) + b''.join(instructions)).hex()}\n"


def account(number):
    return number.to_bytes(4, "big") + b"\x07" * 28


def accounts(size):
    return "".join(line(withdraw(10), deposit(account(n))) for n in range(size))


def traps(size):
    """Each of another amount, so that none is found for the list of another."""
    return "".join(line(withdraw(1 + n)) for n in range(size))


def moves(size):
    return "".join(line(withdraw(10), deposit(account(n * 7919 % size))) for n in range(STEPS))


def claims(size):
    """A trap of its own amount, and its claim."""
    amount = 300_000
    claim = bytes([24, 4, 0, 0, 0]) + compact(amount) + bytes([0, 0])
    pair = line(withdraw(amount)) + line(claim, deposit(b"\x01" * 32))
    return pair * (STEPS // 2)


def seconds(text):
    with tempfile.TemporaryFile() as given:
        given.write(text.encode())
        best = None
        for _ in range(3):
            given.seek(0)
            began = time.monotonic()
            ran = subprocess.run([PROGRAM, "run"], stdin=given, stdout=subprocess.DEVNULL)
            took = time.monotonic() - began
            if ran.returncode:
                sys.exit(f"bench: status {ran.returncode}")
            best = min(best or took, took)
        return best


def main():
    if not os.access(PROGRAM, os.X_OK):
        sys.exit(f"bench: no program {PROGRAM}")
    print("| Accounts, and as many traps | A withdrawal and a deposit, microseconds | A trap and its claim, microseconds |\n|---|---|---|")
    for size in (1_000, 10_000, 100_000):
        before = NETWORK + accounts(size) + traps(size)
        base = seconds(before)
        moved = (seconds(before + moves(size)) - base) / STEPS * 1e6
        claimed = (seconds(before + claims(size)) - base) / (STEPS // 2) * 1e6
        print(f"| {size:,} | {moved:.0f} | {claimed:.0f} |", flush=True)


if __name__ == "__main__":
    main()
