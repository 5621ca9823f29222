#!/usr/bin/env python3
"""Holds the margin of many small books against all their worlds.

    check_worlds.py SEED COUNT [MOST]

Books with more than MOST worlds (200,000 if not said) are passed over. After the
day, some orders are filled or cancelled: the margin must not rise, and must
still be the least cover.
"""

import random
import sys

import generate
import second


def tiny_book(rng):
    """A book with few worlds: one or two orders, one or two months."""
    book = generate.make_book(rng, rng.choice(["tiny", "tiny", "small"]))
    generate.add_held(rng, book, rng.choice([0.5, 1.0]))
    generate.add_orders(rng, book, rng.choice([0, 1, 1, 2, 2, 3]))
    return book.text()


def fill_or_cancel(rng, account):
    """One good fill or cancel of an open order, at a price no worse than its limit."""
    order = rng.choice(account.orders)
    if rng.random() < 0.3:
        account.cancel(order.number)
        return
    better = rng.choice([0, 1, order.limit // 30])
    price = order.limit - better if order.left > 0 else order.limit + better
    price = max(0, min(second.MOST_PRICE, price))
    account.fill(order.number, rng.randint(1, abs(order.left)), price)


def main(seed, count, most):
    rng = random.Random(seed)
    compared, passed_over, worlds, wrong = 0, 0, 0, 0
    for _ in range(count):
        _, account = second.run_day(tiny_book(rng))
        if account is None:
            continue
        while True:
            line = second.compare_worlds(account, most)
            if line.startswith("(worlds more"):
                passed_over += 1
            else:
                compared += 1
                worlds += int(line.split()[1])
                if not line.endswith("(same))"):
                    wrong += 1
                    print(line)
            if not account.orders:
                break
            before = second.margin(account).amount
            fill_or_cancel(rng, account)
            if second.margin(account).amount > before:
                wrong += 1
                print("the margin rose from %d" % before)
    print("%d accounts compared over %d worlds, %d passed over, %d wrong"
          % (compared, worlds, passed_over, wrong))
    return 1 if wrong else 0


if __name__ == "__main__":
    most = int(sys.argv[3]) if len(sys.argv) > 3 else 200_000
    sys.exit(main(sys.argv[1], int(sys.argv[2]), most))
