#!/usr/bin/env python3
"""Holds second.py against every worked case of docs/RULES.md.

    check_rules.py docs/RULES.md

The cases of texts are read from the tables of the page itself, so a changed
row is checked as it stands. The figures of books are built here.
"""

import re
import sys

import second

EXAMPLE = b"""(grid (half 1))
(family (rule 1) (window 0))
(basket (family 0) (rule 1))
(month (basket 0))
(month (basket 0))
(future (month 0) (price 100000) (spot 100000) (change 500) (rates 1000 1500 2000) (limits 10 20))
(future (month 1) (price 100000) (spot 100000) (change 700) (rates 1000 1500 2000) (limits 10 20))
(cash (amount 500000))
(held (line 0) (net 3) (price 100000))
(held (line 1) (net -2) (price 100000))
(order (line 0) (net 1) (price 95000))
"""

Z = b"""(grid (half 1))
(family (rule 1) (window 0))
(basket (family 0) (rule 1))
(month (basket 0))
(future (month 0) (price 100000) (spot 100000) (change 0) (rates 1000 1500 2000) (limits 10 20))
(cash (amount 500000))
"""

T = Z.replace(b"(cash", b"""(option (month 0))
(row (line 1) (column 0) (prices 5 5 5))
(row (line 1) (column 1) (prices 5 5 5))
(row (line 1) (column 2) (prices 5 5 5))
(row (line 1) (column 3) (prices -1 0 1))
(row (line 1) (column 4) (prices -1 0 1))
(row (line 1) (column 5) (prices -1 0 1))
(row (line 1) (column 6) (prices -1 0 1))
(cash""")

TWO_FAMILIES = b"""(grid (half 1))
(family (rule 0) (window 0))
(family (rule 1) (window 3))
(basket (family 0) (rule 1))
(basket (family 1) (rule 0))
(month (basket 0))
(month (basket 1))
(future (month 0) (price 10000) (spot 3000) (change 0) (rates 1 1 1) (limits 0 0))
(future (month 1) (price 10000) (spot 3000) (change 0) (rates 1 1 1) (limits 0 0))
(cash (amount 500000))
(held (line 0) (net 1) (price 10000))
(held (line 1) (net 1) (price 10000))
"""


def as_bytes(quoted):
    """A text as a table writes it: \\n, \\r, \\t and \\xE9 stand for bytes."""
    out = quoted.encode("latin-1")
    for written, meant in ((rb"\n", b"\n"), (rb"\r", b"\r"), (rb"\t", b"\t"), (rb"\xE9", b"\xe9")):
        out = out.replace(written, meant)
    return out


def printed(text):
    return second.run_day(text)[0]


def load_answer(text):
    """'N at P', or 'accepted'."""
    try:
        second.load(text)
    except second.Refusal as refusal:
        return "%d at %d" % (refusal.number, refusal.place)
    return "accepted"


def changed(how):
    """The text that the words of a table describe."""
    quoted = [as_bytes(q) for q in re.findall(r"`([^`]*)`", how)]
    base = {b"Z": Z, b"T": T}[quoted[0]]
    if "→" in how:
        assert quoted[1] in base, how
        return base.replace(quoted[1], quoted[2], 1)
    if " then " in how:
        return base + quoted[1]
    if " without " in how:
        assert quoted[1] in base, how
        return base.replace(quoted[1], b"", 1)
    raise AssertionError(how)


def table_cases(page):
    """Name, text and answer of every row of the tables of nasty texts."""
    section = page.split("### Nasty cases")[1].split("\nOthers:")[0]
    for row in section.splitlines():
        cells = [c.strip() for c in row.strip().strip("|").split(" | ")]
        answer = cells[-1].replace(",", "")
        if not re.fullmatch(r"\d+ at \d+|accepted", answer):
            continue
        if len(cells) == 2:
            text = b"" if cells[0] == "(no bytes)" else as_bytes(cells[0].strip("`"))
            yield cells[0], text, answer
        else:
            yield cells[0], changed(cells[1]), answer


def named_cases():
    """Name and text of the other cases of texts, with their answers."""
    for kind, many in (("family", 2), ("basket", 4), ("month", 8)):
        line = re.search(rb"\(%s [^\n]*\n" % kind.encode(), Z)
        text = Z[:line.start()] + line.group() * (many + 1) + Z[line.end():]
        yield "one %s too many" % kind, text, "3 at %d" % (line.start() + many * len(line.group()))
    line = re.search(rb"\(future [^\n]*\n", Z)
    text = Z[:line.start()] + line.group() * 17 + Z[line.end():]
    yield "a seventeenth line", text, "3 at %d" % (line.start() + 16 * len(line.group()))
    held = b"".join(b"(held (line %d) (net 0) (price 0))\n" % n for n in range(17))
    yield "a seventeenth held record", Z + held, "3 at %d" % (len(Z) + held.rindex(b"(held"))
    yield "a text one byte too long", b"x" * 65_537, "5 at 65536"
    yield "a text as long as may be", b"x" * 65_536, "1 at 0"


def z_with(held=None, orders=(), cash=500_000):
    text = Z.replace(b"500000", b"%d" % cash)
    if held is not None:
        text += b"(held (line 0) (net %d) (price %d))\n" % held
    for net, price in orders:
        text += b"(order (line 0) (net %d) (price %d))\n" % (net, price)
    return text


def figures():
    """What was printed against what must be."""
    margin = lambda text: [l for l in printed(text) if l.startswith("(margin")]
    for held, amount in ((None, 0), (10, 100_000), (12, 130_000), (-12, 130_000), (21, 270_000)):
        text = z_with(None if held is None else (held, 100_000))
        yield "net %s" % held, margin(text), ["(margin %d)" % amount]
    open_sell = z_with((12, 100_000), [(-5, 100_000)])
    yield "net 12 with a sell of 5", margin(open_sell), ["(margin 130000)"]
    account = second.run_day(open_sell)[1]
    account.fill(1, 5, 100_000)
    yield "the sell filled", second.margin(account).amount, 70_000
    yield "a buy at 90000", margin(z_with(orders=[(1, 90_000)])), ["(margin 0)"]
    yield "a buy at 90001", margin(z_with(orders=[(1, 90_001)])), ["(margin 1)"]
    tight = z_with(orders=[(10, 100_000), (1, 100_000)], cash=100_000)
    yield "collateral just enough", printed(tight)[:3], [
        "(order 1)", "(refused (number 24) (place 0))", "(margin 100000)"]
    yield "the example", printed(EXAMPLE), [
        "(order 1)", "(margin 18400)", "(family 0 (loss 1472000000) (point 0))", "(free 481600)"]
    half = EXAMPLE.replace(b"(family 0) (rule 1)", b"(family 0) (rule 0)")
    yield "the example, half basket", margin(half), ["(margin 37000)"]
    yield "two families", printed(TWO_FAMILIES), [
        "(margin 1)", "(family 0 (loss 24000) (point 0))",
        "(family 1 (loss 24000) (point 0))", "(free 499999)"]
    for window in range(17):
        wider = TWO_FAMILIES.replace(b"(window 3)", b"(window %d)" % window)
        yield "two families, window %d" % window, margin(wider), ["(margin 1)"]
    wild = Z + (b"(order (line 7) (net 0) (price -1))\n(order (line 0) (net 0) (price -1))\n"
                b"(order (line 0) (net 1) (price -1))\n(order (line 0) (net 1) (price 100000))\n")
    yield "four orders", printed(wild), [
        "(refused (number 8) (place 0))", "(refused (number 9) (place 0))",
        "(refused (number 10) (place 0))", "(order 1)", "(margin 10000)",
        "(family 0 (loss 800000000) (point 0))", "(free 490000)"]
    yield "nothing held", printed(Z), [
        "(margin 0)", "(family 0 (loss 0) (out))", "(free 500000)"]
    yield "no cash", printed(z_with((1, 100_000), cash=0)), ["(refused (number 24) (place 0))"]
    world = second.handed_out(second.run_day(EXAMPLE)[1])
    yield "the world handed out", world, [
        (0, [(0, 0, [(0, [(0, [1]), (3, [1])]), (1, [(0, []), (4, [])])])])]


def refused_with(make):
    try:
        make()
    except second.Refusal as refusal:
        return (refusal.number, refusal.place)
    return None


def bank_cases():
    """What the constructors of banks refuse."""
    good = {"month": 99, "price": 1, "spot": 1, "change": 0, "rates": [1, 1, 1], "limits": [0, 0]}
    bad = dict(good, price=-1)
    strip, table, pair, scale = second.Strip, second.Table, second.Pair, second.Scale
    yield "a strip with month 99", refused_with(lambda: strip(1, [good])), None
    yield "half 3 and a bad card", refused_with(lambda: strip(3, [good, bad])), (4, 1)
    yield "20 cards, one bad", refused_with(lambda: strip(1, [good] * 18 + [bad, good])), (4, 18)
    yield "20 cards", refused_with(lambda: strip(1, [good] * 20)), (6, 0)
    yield "no card", refused_with(lambda: strip(1, [])), (6, 0)
    yield "a table of half 3", refused_with(lambda: table(3, 1, [])), (6, 0)
    yield "a short table", refused_with(lambda: table(1, 1, [0] * 20)), (5, 21)
    yield "a bad entry", refused_with(lambda: table(1, 1, [0] * 9 + [-1] * 12)), None
    yield "a bad price", refused_with(lambda: table(1, 1, [0] * 8 + [-1] * 13)), (2, 8)
    t = table(1, 1, [0] * 21)
    yield "a scale of 0", refused_with(lambda: scale(0, t)), (9, 0)
    yield "a scale of 101", refused_with(lambda: scale(101, t)), (9, 0)
    yield "a scale of 3 over a table", refused_with(lambda: scale(3, t)), (7, 0)
    yield "a scale of 2 over a table", refused_with(lambda: scale(2, t)), None
    yield "unequal halves", refused_with(lambda: pair(t, strip(2, [good]))), (6, 0)
    yield "17 lines", refused_with(lambda: pair(t, strip(1, [good] * 16))), (6, 0)
    cards = second.Cards()
    cards.baskets = [{"family": 0, "rule": 0}]
    yield "no families", refused_with(lambda: second.Account(t, cards, 0, [])), (4, 0)


def main(path):
    with open(path, encoding="utf-8") as file:
        page = file.read()
    cases = [(n, load_answer(t), a) for n, t, a in table_cases(page)]
    print("%d texts in the tables" % len(cases))
    cases += [(n, load_answer(t), a) for n, t, a in named_cases()]
    cases += list(figures()) + list(bank_cases())
    wrong = [c for c in cases if c[1] != c[2]]
    for name, got, wanted in wrong:
        print("differs: %s: got %s, wanted %s" % (name, got, wanted))
    print("%d cases, %d differ" % (len(cases), len(wrong)))
    return 1 if wrong else 0


if __name__ == "__main__":
    sys.exit(main(sys.argv[1]))
