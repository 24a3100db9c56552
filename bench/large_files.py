#!/usr/bin/env python3
"""Makes large order files to measure the program with, the same each time.

usage: bench/large_files.py FOLDER
"""

import random
import sys
from pathlib import Path

MOST_BYTES = 65_536
CUSTOMERS = range(8, 64)
HOUSES = range(8)

# the fields of each kind of order, by their widths in bytes
KINDS = {
    "open": (1, (1, 1)),
    "mark": (2, (1, 4, 2)),
    "position": (3, (1, 1, 4, 4)),
    "declare": (4, (1, 8, 8, 8)),
    "deposit": (5, (1, 1, 1, 8)),
    "withdraw": (6, (1, 1, 1, 8)),
    "suspend": (7, (1,)),
    "settle": (8, (1,)),
    "seize": (9, (1, 1, 1, 1, 1, 8)),
}


def order(name, *numbers):
    kind, widths = KINDS[name]
    assert len(numbers) == len(widths)
    return bytes([kind]) + b"".join(n.to_bytes(width, "big") for n, width in zip(numbers, widths))


def pockets(account):
    return (0,) if account in HOUSES else (0, 1)


def stocked(owner, margin, customer_debt, participant_debt):
    """A full book: assets marked, accounts open, every box filled, every row declared."""
    yield order("mark", 1, 15_025, 50)
    yield order("mark", 2, 9_850, 20)
    yield order("mark", 3, 1_234, 300)
    for account in CUSTOMERS:
        yield order("open", account, owner(account))
    for account in range(64):
        for pocket in pockets(account):
            for asset in range(4):
                yield order("deposit", account, pocket, asset, 10**9)
    for account in CUSTOMERS:
        yield order("declare", account, margin, customer_debt, participant_debt)
    for account in HOUSES:
        yield order("declare", account, 0, 0, participant_debt)


def withdrawals(chance, accounts):
    while True:
        account = chance.choice(accounts)
        yield order("withdraw", account, chance.choice(pockets(account)), chance.randrange(4), chance.randrange(1, 1_000))


def seizures(chance, owner):
    """Customers pay for themselves, and houses and replacement pockets for accounts of their participant."""
    while True:
        paid = chance.choice(CUSTOMERS)
        units = chance.randrange(10**4, 10**5)
        asset = chance.randrange(4)
        if chance.randrange(2) == 0:
            yield order("seize", 0, paid, chance.randrange(2), asset, paid, units)
            continue
        house = owner(paid)
        paying = chance.choice([house] + [a for a in CUSTOMERS if owner(a) == house])
        yield order("seize", 1, paying, 0 if paying == house else 1, asset, chance.choice([paid, house]), units)


def mixed(chance, owner):
    """Days of business, with defaults in between."""
    calm = withdrawals(chance, range(64))
    defaults = seizures(chance, owner)
    while True:
        account = chance.randrange(64)
        what = chance.randrange(100)
        if what < 30:
            yield order("deposit", account, chance.choice(pockets(account)), chance.randrange(4), chance.randrange(1, 10**6))
        elif what < 50:
            yield next(calm)
        elif what < 70:
            yield next(defaults)
        elif what < 80:
            yield order("position", account, chance.randrange(8), chance.randrange(3), chance.randrange(3))
        elif what < 90:
            customer = account in CUSTOMERS
            margin, debt = (chance.randrange(10**8), chance.randrange(10**8)) if customer else (0, 0)
            yield order("declare", account, margin, debt, chance.randrange(10**8))
        elif what < 96:
            yield order("mark", chance.randrange(1, 4), chance.randrange(100_001), chance.randrange(1_001))
        else:
            yield order(chance.choice(["suspend", "settle"]), chance.randrange(8))


def filled(*parts):
    """Orders of all parts in turn, as many as a file can have."""
    text = b""
    for part in parts:
        for one in part:
            if len(text) + len(one) > MOST_BYTES:
                return text
            text += one
    return text


def files():
    def spread(account):
        return account % 8

    def alone(_):
        return 0

    yield "suspends", filled([order("suspend", 0)] * 32_768)
    calm = (10**6, 10**5, 10**5)
    yield "withdraw_8_participants", filled(stocked(spread, *calm), withdrawals(random.Random(1), range(64)))
    yield "withdraw_1_participant", filled(stocked(alone, *calm), withdrawals(random.Random(2), [0, *CUSTOMERS]))
    ruin = (10**9, 10**15, 10**15)
    suspended = [order("suspend", p) for p in HOUSES]
    yield "seize_8_participants", filled(stocked(spread, *ruin), suspended, seizures(random.Random(3), spread))
    yield "seize_1_participant", filled(stocked(alone, *ruin), suspended, seizures(random.Random(4), alone))
    yield "mixed", filled(stocked(spread, *calm), mixed(random.Random(5), spread))


def main():
    if len(sys.argv) != 2:
        sys.exit(__doc__)
    folder = Path(sys.argv[1])
    folder.mkdir(parents=True, exist_ok=True)
    for name, text in files():
        (folder / f"{name}.bin").write_bytes(text)


if __name__ == "__main__":
    main()
