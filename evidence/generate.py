#!/usr/bin/env python3
"""Makes session files from a seed: good books, orders of every kind, damaged texts.

    generate.py SEED COUNT DIR [KIND ...]

writes COUNT files NAME.session into DIR, the kinds in turn (all kinds, or
those named). The same seed gives the same files. A NAME.calls beside a file of
kind 'calls' is a script of further calls for second.py --calls.
"""

import os
import random
import sys

import second

MOST_PRICE = 10_000_000
HALVES = (1, 2, 4, 8)


class Book:
    """Everything that a session file says."""

    def __init__(self):
        self.half = 1
        self.families = []     # (rule, window)
        self.baskets = []      # (family, rule)
        self.months = []       # basket
        self.futures = []      # (month, price, spot, change, rates, limits)
        self.options = []      # month
        self.rows = []         # for each option seven lists of prices
        self.cash = 0
        self.held = []         # (line, net, price)
        self.orders = []       # (line, net, price)

    def lines(self):
        return len(self.futures) + len(self.options)

    def forms(self):
        """The book as lists: [head, [inner head, number, ...], ...]"""
        out = [["grid", ["half", self.half]]]
        out += [["family", ["rule", r], ["window", w]] for r, w in self.families]
        out += [["basket", ["family", f], ["rule", r]] for f, r in self.baskets]
        out += [["month", ["basket", b]] for b in self.months]
        for month, price, spot, change, rates, limits in self.futures:
            out.append(["future", ["month", month], ["price", price], ["spot", spot],
                        ["change", change], ["rates", *rates], ["limits", *limits]])
        out += [["option", ["month", m]] for m in self.options]
        for number, columns in enumerate(self.rows):
            for column, prices in enumerate(columns):
                out.append(["row", ["line", len(self.futures) + number],
                            ["column", column], ["prices", *prices]])
        out.append(["cash", ["amount", self.cash]])
        out += [["held", ["line", l], ["net", n], ["price", p]] for l, n, p in self.held]
        out += [["order", ["line", l], ["net", n], ["price", p]] for l, n, p in self.orders]
        return out

    def text(self):
        return written(self.forms())


def written(forms):
    """Forms as bytes. A number may be given as text, to be written as it is."""
    lines = []
    for head, *inners in forms:
        parts = [head] + ["(%s)" % " ".join(str(item) for item in inner) for inner in inners]
        lines.append("(%s)\n" % " ".join(parts))
    return "".join(lines).encode("latin-1")


# ---------------------------------------------------------------- books


SIZES = {                # families, baskets, months, futures, options, halves
    "wide": ((2, 2), (4, 4), (8, 8), (8, 8), (8, 8), HALVES),
    "middle": ((1, 2), (1, 4), (1, 8), (1, 8), (0, 4), (1, 2, 4)),
    "small": ((1, 2), (1, 2), (1, 3), (1, 3), (0, 1), (1, 1, 2)),
    "tiny": ((1, 2), (1, 2), (1, 2), (1, 2), (0, 1), (1,)),
    "futures": ((1, 2), (1, 4), (1, 8), (1, 16), (0, 0), HALVES),
    "spreads": ((1, 2), (2, 4), (3, 8), (3, 6), (0, 4), (1, 2, 2, 4)),
    "most futures": ((2, 2), (4, 4), (8, 8), (16, 16), (0, 0), (8,)),
    "most options": ((2, 2), (4, 4), (8, 8), (1, 1), (15, 15), (8,)),
}


def some(rng, bounds):
    return rng.randint(*bounds)


def make_book(rng, size, half=None):
    families, baskets, months, futures, options, halves = SIZES[size]
    book = Book()
    book.half = half if half else rng.choice(halves)
    windows = [0, 0, 1, 2, 3, book.half, 2 * book.half, 16, rng.randint(0, 16)]
    book.families = [(rng.randint(0, 1), rng.choice(windows)) for _ in range(some(rng, families))]
    book.baskets = spread_names(rng, some(rng, baskets), len(book.families), "rule")
    book.months = spread_names(rng, some(rng, months), len(book.baskets))
    lines = some(rng, futures)
    homes = spread_names(rng, lines, len(book.months))
    scale = rng.choice([50, 3_000, 100_000, 100_000, 2_000_000])
    book.futures = [make_future(rng, home, scale) for home in homes]
    book.options = spread_names(rng, some(rng, options), len(book.months))
    book.rows = [make_rows(rng, book, home) for home in book.options]
    book.cash = 100_000_000_000_000
    return book


def spread_names(rng, many, cards, also_rule=None):
    """Names for a kind of card, spread over the cards named, some left without."""
    names = list(range(cards)) + [rng.randrange(cards) for _ in range(many)]
    names = names[:many] if rng.random() < 0.7 else [rng.randrange(cards) for _ in range(many)]
    rng.shuffle(names)
    return [(n, rng.randint(0, 1)) for n in names] if also_rule else names


def make_future(rng, month, scale):
    price = rng.randint(scale // 2, scale * 3 // 2)
    spot = min(MOST_PRICE, max(0, price + rng.randint(-scale // 10, scale // 10)))
    change = rng.choice([0, rng.randint(0, scale // 100 + 1), rng.randint(0, scale // 20 + 1)])
    rates = sorted(rng.choice([rng.randint(1, 300), rng.randint(100, 2500)]) for _ in range(3))
    limits = sorted(rng.choice([0, 1, 5, 10, 20, 50, 200]) for _ in range(2))
    return (month, price, spot, change, rates, limits)


def make_rows(rng, book, month):
    """Prices of an option that bend with a future's, or are plain noise."""
    points = range(2 * book.half + 1)
    _, price, spot, _, rates, _ = rng.choice(book.futures)
    move = rates[0] * spot // 10_000
    strike = price + rng.randint(-move - 1, move + 1)
    call = rng.random() < 0.5
    columns = []
    for column in range(7):
        prices = []
        for point in points:
            future = price + move * (point - book.half) // book.half
            if column <= 2:
                inside = max(0, future - strike if call else strike - future)
                time = move * (column + 1) // 6 + rng.randint(0, move // 20 + 1)
                prices.append(min(MOST_PRICE, max(0, inside + time)))
            else:
                width = move // rng.choice([5, 10, 40]) + 1
                change = rng.randint(-width, width)
                prices.append(max(-MOST_PRICE, min(MOST_PRICE, change)))
        columns.append(prices)
    if rng.random() < 0.15:
        columns[rng.randint(3, 6)] = [0 for _ in points]
    return columns


def price_near(rng, book, line):
    """A price at which a contract of the line might be traded."""
    if line < len(book.futures):
        _, price, spot, _, rates, _ = book.futures[line]
        move = rates[0] * spot // 10_000 + 1
        price += rng.randint(-move * 5 // 4, move * 5 // 4)
    else:
        price = rng.choice(rng.choice(book.rows[line - len(book.futures)][:3]))
        price += rng.randint(-price // 4 - 1, price // 4 + 1)
    return max(0, min(MOST_PRICE, price))


def quantity(rng, most):
    """A signed number of contracts, small ones more often."""
    return rng.choice([-1, 1]) * rng.randint(1, rng.choice([1, 3, 12, 40, most]))


def add_held(rng, book, share=0.7, most=60):
    lines = [l for l in range(book.lines()) if rng.random() < share]
    rng.shuffle(lines)
    for line in lines:
        net = rng.choice([0, quantity(rng, most), quantity(rng, most), quantity(rng, most)])
        book.held.append((line, net, price_near(rng, book, line)))


def add_orders(rng, book, many, most=60):
    for _ in range(many):
        line = rng.randrange(book.lines())
        book.orders.append((line, quantity(rng, most), price_near(rng, book, line)))


def margin_of(book):
    """The margin once all orders of the book stand."""
    kept, book.cash = book.cash, 100_000_000_000_000
    _, account = second.run_day(book.text())
    book.cash = kept
    return second.margin(account).amount


# ---------------------------------------------------------------- kinds of file


def wide(rng):
    book = make_book(rng, "wide")
    add_held(rng, book)
    add_orders(rng, book, rng.choice([0, 4, 12, 32]))
    book.cash = margin_of(book) + rng.choice([0, 1, 5_000_000])
    return book.text()


def full(rng):
    """The most lines, and the most prices that a file can have."""
    book = make_book(rng, rng.choice(["most futures", "most options"]))
    add_held(rng, book)
    add_orders(rng, book, rng.choice([4, 32]))
    book.cash = margin_of(book)
    return book.text()


def middle(rng):
    book = make_book(rng, rng.choice(["middle", "futures"]))
    add_held(rng, book)
    add_orders(rng, book, rng.choice([0, 2, 6, 15]))
    book.cash = margin_of(book) + rng.choice([0, 1, 5_000_000])
    return book.text()


def spreads(rng):
    """Positions that net: like contracts, bought in one place and sold in another."""
    book = make_book(rng, "spreads")
    book.families = [(rng.choice([1, 1, 0]), rng.choice([0, 0, 1, 2])) for _ in book.families]
    book.baskets = [(f, rng.choice([1, 1, 0])) for f, _ in book.baskets]
    like = book.futures[0]
    book.futures = [
        (future[0], max(0, like[1] + rng.randint(-50, 50)), like[2], future[3], *future[4:])
        for future in book.futures
    ]
    side = rng.choice([-1, 1])
    for line in range(book.lines()):
        side = -side if rng.random() < 0.8 else side
        net = side * rng.randint(5, 15)
        book.held.append((line, net, price_near(rng, book, line)))
    add_orders(rng, book, rng.choice([0, 0, 2, 5]), 12)
    book.cash = margin_of(book) + rng.choice([0, 10_000])
    return book.text()


def small(rng):
    book = make_book(rng, rng.choice(["small", "tiny"]))
    add_held(rng, book)
    add_orders(rng, book, rng.choice([0, 1, 2, 3]))
    book.cash = margin_of(book) + rng.choice([0, 77])
    return book.text()


def tight(rng):
    """Collateral at the edge: begin or some of the orders are refused with 24."""
    book = make_book(rng, rng.choice(["small", "small", "middle", "futures"]))
    add_held(rng, book)
    begin = margin_of(book)
    add_orders(rng, book, rng.choice([0, 3, 8]))
    orders = book.orders
    book.orders = orders[:rng.randint(0, len(orders))]
    some_orders = margin_of(book)
    book.orders = orders
    book.cash = max(0, rng.choice([begin - 1, begin, begin + 1, some_orders - 1, some_orders,
                                   some_orders, (begin + some_orders) // 2]))
    return book.text()


def edge(rng, least, most):
    """A number of a field: mostly one of its bounds."""
    return rng.choice([least, least, most, most, least + 1, most - 1, rng.randint(least, most)])


def bounds(rng):
    """Good books with numbers at the bounds of their fields."""
    book = make_book(rng, rng.choice(["tiny", "small", "middle", "wide"]))
    book.families = [(r, edge(rng, 0, 16)) for r, _ in book.families]
    book.futures = [
        (m, edge(rng, 0, MOST_PRICE), edge(rng, 0, MOST_PRICE), edge(rng, 0, 1_000_000),
         sorted(edge(rng, 1, 10_000) for _ in range(3)),
         sorted(edge(rng, 0, 10_000) for _ in range(2)))
        for m, *_ in book.futures
    ]
    book.rows = [
        [[edge(rng, 0 if column <= 2 else -MOST_PRICE, MOST_PRICE) for _ in prices]
         for column, prices in enumerate(columns)]
        for columns in book.rows
    ]
    for line in range(book.lines()):
        if rng.random() < 0.8:
            book.held.append((line, edge(rng, -10_000, 10_000), edge(rng, 0, MOST_PRICE)))
    for _ in range(rng.choice([0, 2, 10])):
        line = rng.randrange(book.lines())
        net = rng.choice([-1, 1]) * edge(rng, 1, 10_000)
        book.orders.append((line, net, edge(rng, 0, MOST_PRICE)))
    book.cash = rng.choice([100_000_000_000_000] * 4 + [99_999_999_999_999, 45_600_000_000_000, 0])
    return book.text()


WILD = 999_999_999_999_999


def orders(rng):
    """Orders refused for every reason that a file can reach, good ones between."""
    book = make_book(rng, rng.choice(["tiny", "small", "futures"]))
    if rng.random() < 0.6:
        add_held(rng, book, 0.5)
    for _ in range(rng.randint(4, 14)):
        book.orders += rng.choice(ORDER_FAULTS)(rng, book)
    if rng.random() < 0.4:
        book.cash = margin_of(book) // 2
        held_only = Book()
        held_only.__dict__.update(book.__dict__, orders=[])
        book.cash = max(book.cash, margin_of(held_only))
    return book.text()


def good_order(rng, book):
    line = rng.randrange(book.lines())
    return [(line, quantity(rng, 60), price_near(rng, book, line))]


def bad_line(rng, book):
    line = rng.choice([-1, book.lines(), book.lines() + 1, 16, WILD, -WILD])
    return [(line, rng.choice([1, 0, 10_001]), rng.choice([1, -1]))]


def bad_quantity(rng, book):
    net = rng.choice([0, 10_001, -10_001, WILD, -WILD, 20_000])
    return [(rng.randrange(book.lines()), net, rng.choice([1, 1, -1, MOST_PRICE + 1]))]


def bad_limit(rng, book):
    limit = rng.choice([-1, MOST_PRICE + 1, WILD, -WILD])
    return [(rng.randrange(book.lines()), quantity(rng, 60), limit)]


def too_large_a_net(rng, book):
    """Orders of one line up to 10,000 and one more, on one side or both."""
    line = rng.randrange(book.lines())
    net = sum(n for l, n, _ in book.held if l == line)
    sign = rng.choice([-1, 1])
    room = 10_000 - sign * net
    open_now = sum(sign * n for l, n, _ in book.orders if l == line and 0 < sign * n <= 10_000)
    room = room - open_now
    found = []
    for size in (room + 1, room, 1, 10_000):
        if 1 <= size <= 10_000:
            found.append((line, sign * size, price_near(rng, book, line)))
    return found


def both_sides_full(rng, book):
    """10,000 bought and 10,000 sold, and one more on either side."""
    line = rng.randrange(book.lines())
    price = price_near(rng, book, line)
    return [(line, n, price) for n in (10_000, -10_000, 1, -1)]


def too_many(rng, book):
    """More orders than may be open; those behind have other faults as well."""
    line = rng.randrange(book.lines())
    many = [(line, rng.choice([-1, 1]), price_near(rng, book, line)) for _ in range(34)]
    return many + [(line, 10_000, 1), (line, 10_001, 1), (line, 1, -1), (-1, 1, 1)]


ORDER_FAULTS = [good_order, good_order, good_order, bad_line, bad_quantity, bad_limit,
                too_large_a_net, both_sides_full, too_many]


def held(rng):
    """Held records: none, all, a few, in any order, net 0, and some that are bad."""
    book = make_book(rng, rng.choice(["tiny", "small", "futures"]))
    add_held(rng, book, rng.choice([0.3, 1.0]))
    fault = rng.choice(["none", "none", "twice", "line", "net", "price", "many", "cash behind"])
    line = rng.randrange(book.lines())
    at = rng.randint(0, len(book.held))
    if fault == "twice" and book.held:
        book.held.insert(at, (rng.choice(book.held)[0], 1, 1))
    if fault == "line":
        book.held.insert(at, (rng.choice([-1, book.lines(), WILD, -WILD]), 1, 1))
    if fault == "net":
        book.held.insert(at, (line, rng.choice([-10_001, 10_001, WILD]), 1))
    if fault == "price":
        book.held.insert(at, (line, 1, rng.choice([-1, MOST_PRICE + 1, -WILD])))
    if fault == "many":
        book.held = [(n % book.lines(), 0, 1) for n in range(17)]
    forms = book.forms()
    if fault == "cash behind":
        forms.append(forms.pop([f[0] for f in forms].index("cash")))
    return written(forms)


def names(rng):
    """Cards that name nothing, and falling rates and limits, one or several."""
    book = make_book(rng, rng.choice(["tiny", "small", "futures"]))
    add_held(rng, book, 0.3)
    add_orders(rng, book, 1)
    forms = book.forms()
    places = [
        inner
        for head, *inners in forms
        for inner in inners
        if (head, inner[0]) in (("basket", "family"), ("month", "basket"), ("future", "month"),
                                ("option", "month"), ("held", "line"))
        or inner[0] in ("rates", "limits")
    ]
    for inner in rng.sample(places, min(len(places), rng.choice([1, 1, 2, 3]))):
        if inner[0] in ("rates", "limits"):
            least = 1 if inner[0] == "rates" else 0
            inner[1:] = sorted((rng.randint(least, 10_000) for _ in inner[1:]), reverse=True)
        else:
            count = {"family": len(book.families), "basket": len(book.baskets),
                     "month": len(book.months), "line": book.lines()}[inner[0]]
            inner[1] = rng.choice([-1, count, count + 1, WILD, -WILD])
    return written(forms)


# ---------------------------------------------------------------- damaged texts


def one_for_damage(rng):
    book = make_book(rng, rng.choice(["tiny", "tiny", "small"]))
    add_held(rng, book, 0.5)
    add_orders(rng, book, rng.randint(0, 2))
    return book


ODD_BYTES = b"() -0123456789az\n\r\tAZ+.\xe9\x00\x7f`{[_,"


def bytes_damaged(rng):
    """One or two bytes changed, taken away, doubled, put in, or the end cut off."""
    text = bytearray(one_for_damage(rng).text())
    for _ in range(rng.choice([1, 1, 2])):
        at = rng.randrange(len(text))
        what = rng.randrange(5)
        if what == 0:
            text[at] = rng.choice(ODD_BYTES)
        elif what == 1:
            del text[at]
        elif what == 2:
            text.insert(at, text[at])
        elif what == 3:
            text.insert(at, rng.choice(ODD_BYTES))
        elif rng.random() < 0.3:
            del text[at:]
    return bytes(text)


def lines_damaged(rng):
    """Lines swapped, missing, doubled, moved, or from another file."""
    lines = one_for_damage(rng).text().splitlines(keepends=True)
    at, to = rng.randrange(len(lines)), rng.randrange(len(lines))
    what = rng.randrange(6)
    if what == 0:
        lines[at], lines[to] = lines[to], lines[at]
    elif what == 1:
        del lines[at]
    elif what == 2:
        lines.insert(at, lines[at])
    elif what == 3:
        lines.insert(to, lines.pop(at))
    elif what == 4:
        other = one_for_damage(rng).text().splitlines(keepends=True)
        lines.insert(at, rng.choice(other))
    else:
        del lines[at:]
    return b"".join(lines)


NUMBERS = ["-0", "00", "01", "-01", "-", "--1", "+1", "1.5", "1e3", "1234567890123456",
           "-1234567890123456", "0x1", ""]
OUT = {
    "half": [0, 3, 5, 6, 7, 9, 16, -1, WILD], "rule": [-1, 2, WILD], "window": [-1, 17, -WILD],
    "price": [-1, 10_000_001], "spot": [-1, 10_000_001], "change": [-1, 1_000_001],
    "rates": [0, -1, 10_001], "limits": [-1, 10_001],
    "amount": [-1, 100_000_000_000_001, WILD], "net": [-10_001, 10_001],
    "prices": [-10_000_001, 10_000_001, -1], "family": [-1, 2], "basket": [-1, 4],
    "month": [-1, 8], "line": [-1, 16, 0], "column": [-1, 7, 0, 3],
}
HEADS = ["grid", "family", "basket", "month", "future", "option", "row", "cash", "held",
         "order", "half", "rule", "window", "price", "spot", "change", "rates", "limits",
         "line", "column", "prices", "amount", "net", "x", "foo", "zzz"]


def numbers_damaged(rng):
    """Numbers that are none, or stand outside their fields."""
    forms = one_for_damage(rng).forms()
    for _ in range(rng.choice([1, 1, 2])):
        inner = rng.choice(rng.choice(forms)[1:])
        at = rng.randrange(1, len(inner))
        if rng.random() < 0.25:
            inner[at] = rng.choice(NUMBERS)
        else:
            inner[at] = rng.choice(OUT[inner[0]])
    return written(forms)


def forms_damaged(rng):
    """Heads, inner forms and counts of numbers that are not the wanted ones."""
    forms = one_for_damage(rng).forms()
    for _ in range(rng.choice([1, 1, 2])):
        form = rng.choice(forms)
        rng.choice(FORM_FAULTS)(rng, form)
        if rng.random() < 0.2:
            number_out(rng, rng.choice(forms))
    return written(forms)


def other_head(rng, form):
    whose = form if rng.random() < 0.5 or len(form) == 1 else rng.choice(form[1:])
    head = whose[0]
    whose[0] = rng.choice([head[:-1] or "q", head + "s", head[::-1], rng.choice(HEADS)])


def inner_missing(rng, form):
    if len(form) > 1:
        del form[rng.randrange(1, len(form))]


def inner_doubled(rng, form):
    if len(form) > 1:
        form.insert(rng.randrange(1, len(form) + 1), list(rng.choice(form[1:])))


def inner_swapped(rng, form):
    if len(form) > 2:
        form[1], form[2] = form[2], form[1]


def number_added(rng, form):
    if len(form) > 1:
        rng.choice(form[1:]).append(rng.choice([0, 1, -1, WILD]))


def number_missing(rng, form):
    if len(form) > 1:
        inner = rng.choice(form[1:])
        if len(inner) > 1:
            inner.pop()


def number_out(rng, form):
    for inner in form[1:]:
        if len(inner) > 1 and inner[0] in OUT:
            inner[-1] = rng.choice(OUT[inner[0]])
            return


FORM_FAULTS = [other_head, inner_missing, inner_doubled, inner_swapped, number_added,
               number_missing]


def rows_damaged(rng):
    """Rows that are missing, doubled, not due, of wrong form or with bad prices."""
    book = make_book(rng, "small")
    if not book.options:
        book.options = [rng.randrange(len(book.months))]
        book.rows = [make_rows(rng, book, book.options[0])]
    forms = book.forms()
    rows = [n for n, form in enumerate(forms) if form[0] == "row"]
    at = rng.choice(rows)
    row = forms[at]
    for _ in range(rng.choice([1, 1, 2])):
        what = rng.randrange(11)
        if what == 0:
            forms.remove(row) if row in forms else None
        elif what == 1:
            forms.insert(rng.choice([at, rows[-1] + 1]), row)
        elif what == 2:
            row[1] = ["line", rng.choice([0, -1, 16, row[1][-1] + 1 if row[1][1:] else 0])]
        elif what == 3:
            row[2:3] = [["column", rng.choice([-1, 0, 3, 6, 7, WILD])]]
        elif what == 4:
            number_added(rng, row)
        elif what == 5:
            number_missing(rng, row)
        elif what == 6 and len(row) > 3 and len(row[3]) > 1:
            row[3][rng.randrange(1, len(row[3]))] = rng.choice([-1, -10_000_001, 10_000_001])
        elif what == 7:
            inner_missing(rng, row)
        elif what == 8:
            other_head(rng, row)
        elif what == 9:
            forms.append(forms.pop(at)) if at < len(forms) else None
        elif what == 10:
            del forms[at:]
    return written(forms)


def long(rng):
    """Texts at and over the length that is read."""
    book = make_book(rng, "tiny")
    line = b"(order (line 0) (net 1) (price 1))\n"
    text = book.text()
    wanted = rng.choice([65_535, 65_536, 65_536, 65_537, 70_000])
    while len(text) + 2 * len(line) <= wanted:
        text += line
    missing = wanted - len(text) - len(line)
    if missing >= 0:
        wide_line = b"(order (line %s) (net %s) (price %s))\n"
        digits = []
        for _ in range(3):
            take = min(14, missing)
            digits.append(b"1" * (1 + take))
            missing -= take
        text += wide_line % tuple(digits)
    text = text[:wanted] if rng.random() < 0.8 else text[:wanted - 1] + b"x"
    return text


# ---------------------------------------------------------------- scripts of calls


def calls(rng):
    """A good book; the script of its calls comes from make_calls."""
    book = make_book(rng, rng.choice(["tiny", "small", "middle"]))
    add_held(rng, book, 0.5)
    add_orders(rng, book, rng.choice([0, 2, 5]))
    needed = margin_of(book)
    book.cash = rng.choice([needed, needed + 1_000, needed + 10_000_000, needed + 10**10, 10**14])
    return book.text()


def make_calls(rng, text):
    """Calls that are mostly good, tried on the account as they are made."""
    _, account = second.run_day(text)
    script = []
    rich = account.collateral == 10**14
    mix = MIXES[2] if rich and rng.random() < 0.7 else rng.choice(MIXES)
    for _ in range(rng.choice([10, 40, 120])):
        call = one_call(rng, account, rng.choice(mix))
        script.append(call)
        second.run_calls(account, call)
    for _ in range(2):
        script.append("margin")
    return "\n".join(script) + "\n"


RARE = ["margin", "deposit", "withdraw"]
MIXES = [
    ["place"] * 5 + ["fill"] * 6 + ["cancel"] * 2 + RARE,
    ["place"] * 12 + ["fill"] + RARE,
    ["churn"] * 8 + ["place"] * 2 + ["fill"] * 2 + RARE,
]


def one_call(rng, account, kind):
    lines = len(account.net)
    numbers = [o.number for o in account.orders]
    if kind == "place":
        line = rng.choice([rng.randrange(lines)] * 12 + [-1, lines])
        size = rng.choice([quantity(rng, 60)] * 8 + [quantity(rng, 10_000), 0, 10_001])
        middle = account.bank.price(line, account.bank.half, 0) // 80_000
        limit = max(0, min(MOST_PRICE, middle + rng.randint(-middle // 10 - 1, middle // 10 + 1)))
        limit = rng.choice([limit] * 12 + [-1, MOST_PRICE + 1])
        return "place %d %d %d" % (line, size, limit)
    if kind == "fill" and numbers:
        order = rng.choice(account.orders)
        f = rng.choice([rng.randint(1, abs(order.left))] * 8
                       + [abs(order.left)] * 4 + [abs(order.left) + 1, 0, -1, 10_001])
        sign = 1 if order.left > 0 else -1
        better = order.limit - sign * rng.choice([0, 0, 1, order.limit // 20])
        price = rng.choice([max(0, min(MOST_PRICE, better))] * 10
                           + [order.limit + sign, -1, MOST_PRICE + 1])
        number = rng.choice([order.number] * 12 + [0, account.last_number + 1])
        return "fill %d %d %d" % (number, f, price)
    if kind == "cancel":
        return "cancel %d" % rng.choice(numbers * 3 + [0, 1, account.last_number, -1])
    if kind == "deposit":
        room = 100_000_000_000_000 - account.collateral
        return "deposit %d" % rng.choice([0, 1, 5_000, 5_000_000, -1, room + 1, 100_000_000_000_001])
    if kind == "withdraw":
        free = account.collateral - second.margin(account).amount
        return "withdraw %d" % rng.choice([
            0, free // 3, free // 2, free + 1, min(account.collateral + 1, 10**14), -1, 10**14 + 1])
    if kind == "churn":
        # Large orders on line 0, cancelled or filled: its accepted contracts add up.
        large = [o for o in account.orders if o.line == 0 and abs(o.left) > 3_000]
        if large and rng.random() < 0.5:
            return "cancel %d" % large[0].number
        if large and rng.random() < 0.7:
            return "fill %d %d %d" % (large[0].number, abs(large[0].left), large[0].limit)
        side = rng.choice([-1, 1]) if abs(account.net[0]) < 3_000 else -account.net[0]
        size = rng.randint(3_000, 10_000)
        return "place 0 %d %d" % ((size, 0) if side > 0 else (-size, MOST_PRICE))
    return "margin"


# ---------------------------------------------------------------- all of it


KINDS = {f.__name__.replace("_", "-"): f for f in (
    wide, full, middle, spreads, small, tight, bounds, orders, held, names, bytes_damaged, lines_damaged,
    numbers_damaged, forms_damaged, rows_damaged, long, calls)}
IN_TURN = ["wide", "middle", "spreads", "small", "small", "tight", "tight", "bounds", "orders", "orders",
           "held", "names", "bytes-damaged", "bytes-damaged", "lines-damaged",
           "numbers-damaged", "forms-damaged", "rows-damaged", "rows-damaged", "calls"]


def make(seed, count, kinds):
    """Name and text of each file; the script of calls too, or None."""
    for number in range(count):
        kind = kinds[number % len(kinds)]
        if kinds is IN_TURN and number % 100 == 99:
            kind = "long" if number % 400 == 399 else "full"
        rng = random.Random("%s %d %s" % (seed, number, kind))
        text = KINDS[kind](rng)
        script = make_calls(rng, text) if kind == "calls" else None
        yield "%s-%s-%05d" % (kind, seed, number), text, script


def main(arguments):
    seed, count, where = arguments[0], int(arguments[1]), arguments[2]
    kinds = arguments[3:] or IN_TURN
    os.makedirs(where, exist_ok=True)
    for name, text, script in make(seed, count, kinds):
        with open(os.path.join(where, name + ".session"), "wb") as file:
            file.write(text)
        if script is not None:
            with open(os.path.join(where, name + ".calls"), "w") as file:
                file.write(script)


if __name__ == "__main__":
    main(sys.argv[1:])
