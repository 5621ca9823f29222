#!/usr/bin/env python3
"""Writes the two accounts that bench.rs times: wide.session and small.session."""

import os
import random
import sys

HERE = os.path.dirname(os.path.abspath(__file__))
sys.path.insert(0, os.path.dirname(HERE))

import generate  # noqa: E402


def widest(rng):
    """All that may be: 16 lines held, 32 orders of 300, half 8, every rule."""
    book = generate.make_book(rng, "wide", 8)
    book.families = [(1, 3), (0, 0)]
    book.baskets = [(0, 1), (0, 0), (1, 1), (1, 0)]
    book.months = [m // 2 for m in range(8)]
    book.futures = [generate.make_future(rng, m, 100_000) for m in range(8)]
    book.options = list(range(8))
    book.rows = [generate.make_rows(rng, book, m) for m in range(8)]
    for line in range(16):
        book.held.append((line, generate.quantity(rng, 60), generate.price_near(rng, book, line)))
        book.orders.append((line, 300, generate.price_near(rng, book, line)))
        book.orders.append((line, -300, generate.price_near(rng, book, line)))
    return book


def smallest(rng):
    """One future, half 1, one position, two orders of 300."""
    book = generate.make_book(rng, "tiny", 1)
    book.families, book.baskets, book.months = [(1, 0)], [(0, 1)], [0]
    book.futures = [generate.make_future(rng, 0, 100_000)]
    book.options, book.rows = [], []
    book.held = [(0, 5, generate.price_near(rng, book, 0))]
    book.orders = [(0, 300, generate.price_near(rng, book, 0)),
                   (0, -300, generate.price_near(rng, book, 0))]
    return book


def main():
    for name, book in (("wide", widest(random.Random(1))), ("small", smallest(random.Random(2)))):
        with open(os.path.join(HERE, name + ".session"), "wb") as file:
            file.write(book.text())


if __name__ == "__main__":
    main()
