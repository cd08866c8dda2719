"""Inputs of any size for the program: what bench/whole_program.py times.

Each function gives the bytes of an input. Messages are of version 4, spelled here by hand (SCALE codec, XCM format).
"""
import json
import random

ACCOUNTS = [bytes([n]) * 32 for n in range(1, 9)]
RICH = str(10**15)


def compact(number):
    """The compact spelling of the SCALE codec."""
    for bits, mode, size in ((6, 0, 1), (14, 1, 2), (30, 2, 4)):
        if number < 1 << bits:
            return (number << 2 | mode).to_bytes(size, "little")
    size = max(4, (number.bit_length() + 7) // 8)
    return bytes([(size - 4) << 2 | 3]) + number.to_bytes(size, "little")


def place(parents, *junctions):
    return bytes([parents, len(junctions)]) + b"".join(junctions)


def para(number):
    return b"\x00" + compact(number)


def general(number):
    return b"\x05" + compact(number)


def holder(account):
    return b"\x01\x00" + account


def amount_of(location, amount):
    return location + b"\x00" + compact(amount)


def listed(items):
    return compact(len(items)) + b"".join(items)


def message(*instructions):
    return b"\x04" + listed(instructions)


def withdraw(*items):
    return b"\x00" + listed(sorted(items))


def transfer(item, account):
    return b"\x04" + listed([item]) + place(0, holder(account))


def reserve_transfer(items, dest, xcm):
    return b"\x05" + listed(sorted(items)) + dest + xcm


def deposit(count, account):
    return b"\x0d\x01\x02" + compact(count) + place(0, holder(account))


def deposit_just(item, account):
    return b"\x0d\x00" + listed([item]) + place(0, holder(account))


def buy(item):
    return b"\x13" + item + b"\x00"


def home(dest, xcm):
    """What is held goes back to its reserve."""
    return b"\x10\x01\x00" + dest + xcm


def who(account):
    return "0x" + account.hex()


def exec_line(chain, account, *instructions):
    return f"exec {chain} {who(account)} 0x{message(*instructions).hex()}"


def text(document, lines=None):
    head = json.dumps(document, separators=(",", ":"))
    if lines is None:
        return head.encode()
    return ("\n".join([head, "---", *lines]) + "\n").encode()


def rate(asset):
    return {"asset": asset, "per_second": "1000000000", "per_mb": "0"}


def named(number, parents):
    """The relay chain's asset of this number, as it is named at the chain that is so far below it."""
    return str(parents) + (f"/GeneralIndex({number})" if number else "")


def at(number, parents):
    return place(parents, *([general(number)] if number else []))


def wide(chains, assets, people=8):
    """A relay chain with assets, and parachains that hold each of them in reserve there and a native one of their own."""
    numbers = [2000 + n for n in range(chains - 1)]
    entries = [{
        "assets": [{"id": named(n, 0), "native": []} for n in range(assets)],
        "rates": [rate("0")],
        "accounts": [{"who": who(a), "asset": named(n, 0), "amount": RICH}
                     for a in ACCOUNTS[:people] for n in range(assets)],
    }]
    channels = []
    for number in numbers:
        entries.append({
            "para": number,
            "assets": [{"id": "0", "native": []}] + [{"id": named(n, 1), "reserve": "relay"} for n in range(assets)],
            "rates": [rate("1"), rate("0")],
            "accounts": [{"who": who(a), "asset": "0", "amount": RICH} for a in ACCOUNTS[:2]],
        })
        channels += [{"from": "relay", "to": number}, {"from": number, "to": "relay"}]
    return {"chains": entries, "channels": channels}, numbers


def steps(count, chains=64, assets=127, drains=True, seed=1):
    """Transfers on the relay chain and to parachains, ways back, deliveries of each and, now and then, a drain."""
    document, numbers = wide(chains, assets)
    draw = random.Random(seed)
    lines = []
    for _ in range(count):
        kind, account = draw.randrange(100), draw.choice(ACCOUNTS)
        number, asset, amount = draw.choice(numbers), draw.randrange(assets), 1000 + draw.randrange(100_000)
        if kind < 25:
            items = [amount_of(at(n, 0), amount) for n in sorted({0, asset})]
            xcm = listed([buy(amount_of(at(0, 1), 100)), deposit(2, draw.choice(ACCOUNTS))])
            lines.append(exec_line("relay", account, reserve_transfer(items, place(0, para(number)), xcm)))
        elif kind < 40:
            xcm = listed([buy(amount_of(at(0, 0), 10)), deposit(1, draw.choice(ACCOUNTS))])
            lines.append(exec_line(number, account, withdraw(amount_of(at(0, 1), 500)), home(place(1), xcm)))
        elif kind < 55:
            lines.append(exec_line("relay", account, transfer(amount_of(at(asset, 0), amount), draw.randbytes(32))))
        elif kind < 70:
            lines.append(exec_line("relay", account, withdraw(amount_of(at(asset, 0), amount)), deposit(1, draw.choice(ACCOUNTS))))
        elif kind < 84:
            lines.append(f"deliver relay {number}")
        elif kind < 99 or not drains:
            lines.append(f"deliver {number} relay")
        else:
            lines.append("drain")
    return text(document, lines + ["drain", "balances", "supply"])


def drains(count):
    """Rounds of 63 messages, one to each parachain, and a drain."""
    document, numbers = wide(64, 2)
    lines = []
    for _ in range(count // 64):
        for number in numbers:
            xcm = listed([buy(amount_of(at(0, 1), 100)), deposit(1, ACCOUNTS[1])])
            lines.append(exec_line("relay", ACCOUNTS[0], reserve_transfer([amount_of(at(0, 0), 1000)], place(0, para(number)), xcm)))
        lines.append("drain")
    return text(document, lines)


def large_messages(count):
    """Messages of almost 65,536 bytes: 85 lists of 20 assets; nothing of the first is held, so each ends there."""
    document = {"chains": [{"assets": [{"id": "0", "native": []}], "accounts": [{"who": who(ACCOUNTS[0]), "asset": "0", "amount": RICH}]}]}
    draw = random.Random(7)
    burns = []
    for _ in range(85):
        keys = sorted(draw.randbytes(32) for _ in range(20))
        burns.append(b"\x1c" + listed([amount_of(place(0, holder(key)), 1 + key[0] % 60) for key in keys]))
    return text(document, [exec_line("relay", ACCOUNTS[0], *burns)] * count)


def hostile_lines(size):
    """Lines that end in a count of 2^32-1 where assets, instructions or bytes should follow, in turn."""
    document, _ = wide(2, 1, people=1)
    counts = ["0404", "04", "0404000403ffffffff", "04040004000000"]
    some = [f"exec relay {who(ACCOUNTS[7])} 0x{front}03ffffffff" for front in counts]
    return text(document, some * (size // sum(len(line) + 1 for line in some)))


def wide_document(size):
    """A document of 64 chains that list 128 assets each, filled up with accounts."""
    document, _ = wide(64 if size > 900_000 else max(2, 64 * size // 1_000_000), 127, people=1)
    draw = random.Random(3)
    accounts = document["chains"][0]["accounts"]
    one = len(json.dumps(accounts[0], separators=(",", ":"))) + 1
    for _ in range(max(0, size - len(text(document)) - 64) // one):
        accounts.append({"who": who(draw.randbytes(32)), "asset": "0", "amount": "1000000"})
    return text(document)


def accounts_document(size):
    """A document of one chain with as many accounts as the size holds."""
    row = {"who": who(bytes(32)), "asset": "0", "amount": "1000000000"}
    count = (size - 200) // (len(json.dumps(row, separators=(",", ":"))) + 1)
    return text({"chains": [{"assets": [{"id": "0", "native": []}],
                             "accounts": [dict(row, who="0x%064x" % (n + 1)) for n in range(count)]}]})


def many_accounts(count):
    """So many accounts that come to hold something, and transfers between them."""
    document = {"chains": [{"assets": [{"id": "0", "native": []}], "accounts": [{"who": who(ACCOUNTS[0]), "asset": "0", "amount": RICH}]}]}
    draw = random.Random(11)
    people = [draw.randbytes(32) for _ in range(count)]
    lines = []
    for start in range(0, count, 98):
        some = people[start:start + 98]
        lines.append(exec_line("relay", ACCOUNTS[0], withdraw(amount_of(place(0), 100_000 * len(some))),
                               *[deposit_just(amount_of(place(0), 100_000), account) for account in some]))
    for _ in range(count // 2):
        lines.append(exec_line("relay", draw.choice(people), transfer(amount_of(place(0), 1 + draw.randrange(500)), draw.choice(people))))
    return text(document, lines + ["balances", "supply"])


def reach(count):
    """Transfers by Transact, exchanges with a pool, locks that are set, noted, requested and let go, and plain withdrawals."""
    pool = b"pool" + bytes(28)
    people = [bytes([n % 251, n // 251]) * 16 for n in range(400)]
    pair = ("0", "0/GeneralIndex(1)")
    rows = [{"who": who(a), "asset": asset, "amount": RICH} for a in people + [pool] for asset in pair]
    document = {"format": 2, "chains": [
        {"assets": [{"id": asset, "native": []} for asset in pair], "rates": [rate("0")], "accounts": rows,
         "barriers": ["credit", "paid", "responses", {"unpaid": ["0/Parachain(2000)"]}],
         "calls": True, "locks": True, "pools": [{"first": pair[0], "second": pair[1], "fee": 3}]},
        {"para": 2000, "assets": [{"id": "1", "reserve": "relay"}], "rates": [rate("1")], "locks": True,
         "barriers": ["credit", "paid", "responses", {"unpaid": ["1"]}]},
    ], "channels": [{"from": "relay", "to": 2000}, {"from": 2000, "to": "relay"}]}
    draw = random.Random(17)
    lines = []
    while len(lines) < count:
        kind, account, amount = draw.randrange(4), draw.choice(people), 1 + draw.randrange(100_000)
        if kind == 0:
            call = b"\x01" + compact(draw.randrange(2)) + draw.choice(people) + compact(amount)
            lines.append(exec_line("relay", account, b"\x06\x01" + compact(1000) + compact(100) + compact(len(call)) + call))
        elif kind == 1:
            give, want = draw.sample([at(0, 0), at(1, 0)], 2)
            deal = b"\x0f\x01\x00" + listed([amount_of(want, 1 + amount // 4)]) + bytes([draw.randrange(2)])
            lines.append(exec_line("relay", account, withdraw(amount_of(give, amount)), deal, deposit(2, account)))
        elif kind == 2:
            lines.append(exec_line("relay", account, withdraw(amount_of(at(0, 0), amount)), deposit(1, draw.choice(people))))
        else:
            lock = b"\x27" + amount_of(at(0, 0), amount) + place(0, para(2000))
            request = b"\x2a" + amount_of(at(0, 1), amount) + place(1)
            lines += [exec_line("relay", account, lock), "deliver relay 2000", exec_line(2000, account, request), "deliver 2000 relay"]
    return text(document, lines)
