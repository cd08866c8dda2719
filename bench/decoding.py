#!/usr/bin/env python3
"""Times decoding: one large message, and many small ones (Linux).

  bench/decoding.py [--program PATH]

Each input is the empty network `{}`, the line `---` and lines `exec relay ACCOUNT MESSAGE`. The messages are of version 4; each is
decoded and executed on a relay chain without assets, where its calls and withdrawals are refused and its burns take nothing. Both
together are timed.

- large: 64 lines with one message of 8,192, 16,384, 32,768 and 65,536 bytes, once as one long call (a Transact), once as up to
  100 asset lists of 20 assets.
- small: N, 2N, 4N and 8N lines (N is 10,000) with a message of 56 bytes: a withdrawal, a payment and a deposit.

Time should grow in proportion to the bytes. Without --program it takes crates/rudderrusset/out/rudderrusset of this repository,
which `rt run` leaves there: (cd crates/rudderrusset && rt run -- run < stdin).
"""
import argparse
import pathlib
import subprocess
import sys
import time

ROOT = pathlib.Path(__file__).resolve().parent.parent
ACCOUNT = "0x" + "01" * 32
HEAD = "{}\n---\n"
LINES = 64
SMALL = 10_000


def compact(number):
    """The SCALE codec's compact form."""
    if number < 2**6:
        return bytes([number << 2])
    if number < 2**14:
        return (number << 2 | 1).to_bytes(2, "little")
    if number < 2**30:
        return (number << 2 | 2).to_bytes(4, "little")
    raise ValueError(number)


def call(size):
    """A Transact of so many bytes: as long a call as that allows."""
    front = b"\x06\x00\x00\x00"
    for width in (1, 2, 4):
        length = compact(size - len(front) - width)
        if len(length) == width:
            return front + length + bytes(size - len(front) - width)
    raise ValueError(size)


def call_message(size):
    """One Transact."""
    return b"\x04\x04" + call(size - 2)


def asset(number):
    """An amount of 1 of the asset with this general index, of 21 bytes."""
    index = bytes([0x33]) + number.to_bytes(3, "little") + bytes(12) + b"\x01"
    return b"\x00\x01\x05" + index + b"\x00\x04"


def list_message(size):
    """BurnAssets of 20 assets each, as many as the size allows, and a call that fills up the rest."""
    burn = b"\x1c" + compact(20) + b"".join(asset(number) for number in range(1, 21))
    count = min(99, (size - 60) // len(burn))
    front = b"\x04" + compact(count + 1) + burn * count
    return front + call(size - len(front))


def small_message():
    """A withdrawal, a payment and a deposit to an account."""
    return bytes.fromhex("040c" + "0004000000a10f" + "13000000a10f00" + "0d01020400010100" + "02" * 32)


def run(program, message, lines):
    """The seconds that the program takes for so many lines with this message."""
    line = f"exec relay {ACCOUNT} {message.hex()}\n"
    text = (HEAD + line * lines).encode()
    start = time.monotonic()
    done = subprocess.run([program, "run"], input=text, stdout=subprocess.PIPE, check=False)
    seconds = time.monotonic() - start
    want = b"\n  = incomplete "
    if done.returncode != 0 or done.stdout.count(want) != lines:
        sys.exit(f"{program}: another report: {done.stdout[-200:]!r}")
    return seconds


def main():
    parser = argparse.ArgumentParser(description=__doc__, formatter_class=argparse.RawDescriptionHelpFormatter)
    parser.add_argument("--program", default=str(ROOT / "crates/rudderrusset/out/rudderrusset"))
    program = parser.parse_args().program
    if not pathlib.Path(program).exists():
        sys.exit(f"{program} isn't there: build it first, (cd crates/rudderrusset && rt run -- run < stdin)")
    print("message bytes, lines, seconds: one call; asset lists")
    for size in (8_192, 16_384, 32_768, 65_536):
        times = []
        for message in (call_message(size), list_message(size)):
            assert len(message) == size, (len(message), size)
            times.append(run(program, message, LINES))
        print(f"{size}, {LINES}, {times[0]:.3f}; {times[1]:.3f}")
    message = small_message()
    print(f"lines with a message of {len(message)} bytes, seconds")
    for lines in (SMALL, 2 * SMALL, 4 * SMALL, 8 * SMALL):
        print(f"{lines}, {run(program, message, lines):.3f}")


if __name__ == "__main__":
    main()
