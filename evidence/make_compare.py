#!/usr/bin/env python3
"""Chooses the comparison files and writes them with their answers.

    make_compare.py docs/RULES.md DIR CALLS

For each case DIR gets NAME.session and NAME.answer: what second.py prints for
it. First come the worked cases of the page, then generated files, each of which
brings something that the files before it have not. CALLS gets cases with a
script of further calls as well: NAME.session, NAME.calls and NAME.answer.
"""

import os
import sys

import check_rules
import generate
import second

# How many generated files of each kind are kept.
QUOTAS = {
    "wide": 12, "full": 3, "middle": 14, "spreads": 24, "small": 20, "tight": 20,
    "bounds": 16, "orders": 18,
    "held": 10, "names": 12, "bytes-damaged": 16, "lines-damaged": 10,
    "numbers-damaged": 14, "forms-damaged": 14, "rows-damaged": 14,
}


def rule_texts(path):
    """Every text of the page, apart from the longest ones."""
    with open(path, encoding="utf-8") as file:
        page = file.read()
    cases = list(check_rules.table_cases(page)) + list(check_rules.named_cases())
    for number, (_, text, _) in enumerate(cases):
        if len(text) <= 10_000:
            yield "text-%03d" % number, text


def figure_texts():
    z = check_rules.z_with
    yield "z-empty", z()
    for net in (10, 12, -12, 21):
        yield "z-net-%s%d" % ("minus-" if net < 0 else "", abs(net)), z((net, 100_000))
    yield "z-net-12-sell-5", z((12, 100_000), [(-5, 100_000)])
    yield "z-buy-at-90000", z(orders=[(1, 90_000)])
    yield "z-buy-at-90001", z(orders=[(1, 90_001)])
    yield "z-just-covered", z(orders=[(10, 100_000), (1, 100_000)], cash=100_000)
    yield "z-not-covered", z((1, 100_000), cash=0)
    yield "z-covered-to-the-kopeck", z((1, 100_000), cash=10_000)
    yield "z-a-kopeck-short", z((1, 100_000), cash=9_999)
    yield "example", check_rules.EXAMPLE
    half = check_rules.EXAMPLE.replace(b"(family 0) (rule 1)", b"(family 0) (rule 0)")
    yield "example-half-basket", half
    yield "two-families", check_rules.TWO_FAMILIES
    yield "z-order-faults", check_rules.Z + b"".join(
        b"(order (line %d) (net %d) (price %d))\n" % order
        for order in ((7, 0, -1), (0, 0, -1), (0, 1, -1), (0, 1, 100_000)))
    yield "z-many-orders", z(orders=[(1, 90_000)] * 33 + [(10_001, 1), (1, -1), (10_000, 1)])
    yield "z-both-sides-full", z(cash=10**14, orders=[
        (10_000, 100_000), (1, 100_000), (-10_000, 100_000), (-1, 100_000)])
    yield "z-net-and-orders-full", z((-10_000, 1), cash=10**14, orders=[
        (10_000, 1), (10_000, 1), (1, 1), (-1, 1)])


def long_texts():
    line = b"(order (line 0) (net 1) (price 1))\n"
    room = 65_536 - len(check_rules.Z)
    spare = room % len(line)
    last = b"(order (line 0) (net 1) (price 1%s))\n" % (b"0" * spare)
    if spare > 14:
        last = b"(order (line 1%s) (net 1) (price 1%s))\n" % (b"0" * (spare - 14), b"0" * 14)
    whole = check_rules.Z + line * (room // len(line) - 1) + last
    assert len(whole) == 65_536
    yield "long-as-may-be", whole
    yield "long-by-one", whole[:-1] + b" \n"
    yield "long-and-cut", whole[:-1] + b")"
    yield "long-and-malformed", b"x" * 65_537


def signature(kind, text, answer):
    """What a file brings: two files of one signature tell the same."""
    refusals = frozenset(line for line in answer if "refused" in line)
    if kind in ("wide", "full", "middle", "spreads", "small", "bounds", "tight", "orders"):
        cards = second.load(text)
        rules = tuple(c["rule"] for c in cards.cards.families + cards.cards.baskets)
        points = tuple(line.split("(")[-1] for line in answer if line.startswith("(family"))
        return (cards.half, rules, bool(cards.prices), refusals, points)
    return refusals


def chosen(kind, many):
    """The first generated files of a kind that each bring something new."""
    seen, found = set(), []
    for name, text, _ in generate.make("compare", 40 * many, [kind]):
        if len(found) == many:
            break
        if kind == "wide":
            # Every half equally often: files of half 8 are large.
            half = second.load(text).half
            if sum(1 for _, t in found if second.load(t).half == half) >= many // 4:
                continue
        answer, _ = second.run_day(text)
        mark = signature(kind, text, answer)
        if mark in seen:
            continue
        seen.add(mark)
        found.append((name, text))
    return found


def all_texts(path):
    yield from rule_texts(path)
    yield from figure_texts()
    yield from long_texts()
    for kind, many in QUOTAS.items():
        yield from chosen(kind, many)


def call_cases(many):
    """Session, script and answer of accounts that run further calls."""
    for name, text, script in generate.make("compare", many, ["calls"]):
        out, account = second.run_day(text)
        yield name, text, script, out + second.run_calls(account, script)


def write(where, name, ending, content):
    with open(os.path.join(where, name + ending), "wb") as file:
        file.write(content)
    return len(content)


def as_bytes(lines):
    return "".join(line + "\n" for line in lines).encode()


def refusals(answer):
    return {int(line.split()[2].rstrip(")")) for line in answer if line.startswith("(refused")}


def main(path, where, where_calls):
    os.makedirs(where, exist_ok=True)
    os.makedirs(where_calls, exist_ok=True)
    count = size = 0
    reached = set()
    for name, text in all_texts(path):
        answer = second.run_day(text)[0]
        reached |= refusals(answer)
        size += write(where, name, ".session", text)
        size += write(where, name, ".answer", as_bytes(answer))
        count += 1
    assert reached == {1, 2, 3, 4, 5, 8, 9, 10, 21, 22, 24}, reached
    print("%d cases, %d bytes" % (count, size))
    count = size = 0
    reached = set()
    for name, text, script, answer in call_cases(40):
        reached |= refusals(answer)
        size += write(where_calls, name, ".session", text)
        size += write(where_calls, name, ".calls", script.encode())
        size += write(where_calls, name, ".answer", as_bytes(answer))
        count += 1
    assert reached == {8, 9, 10, 11, 21, 22, 23, 24, 25, 26, 27, 28}, reached
    print("%d cases of calls, %d bytes" % (count, size))


if __name__ == "__main__":
    main(sys.argv[1], sys.argv[2], sys.argv[3])
