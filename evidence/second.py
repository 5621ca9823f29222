#!/usr/bin/env python3
"""A second margin engine, written from docs/RULES.md without a look at the engine.

    second.py < FILE              runs the day of a session file, as daybook does
    second.py --worlds < FILE     the same day, then every world of its account
    second.py --calls SCRIPT < FILE
                                  the same day, then the calls of the script

It follows the rules word by word and is not made for speed.
All sums are Python integers, so nothing is rounded and nothing overflows.
"""

import itertools
import sys

GRAINS = 80_000                        # grains in a kopeck
MOST_PRICE = 10_000_000                # kopecks
MOST_AMOUNT = 100_000_000_000_000      # kopecks
MOST_QUANTITY = 10_000                 # contracts
MOST_REACH = 2_000_000_000_000         # grains
MOST_TEXT = 65_536                     # bytes
HALVES = (1, 2, 4, 8)


class Refusal(Exception):
    """One refusal: a number and a place."""

    def __init__(self, number, place=0):
        super().__init__(number, place)
        self.number = number
        self.place = place

    def line(self):
        return "(refused (number %d) (place %d))" % (self.number, self.place)


# ---------------------------------------------------------------- price banks


class Strip:
    """Futures: the price moves in equal steps over the points."""

    def __init__(self, half, futures):
        for place, card in enumerate(futures):
            if future_is_bad(card):
                raise Refusal(4, place)
        if half not in HALVES or not 1 <= len(futures) <= 16:
            raise Refusal(6)
        self.half = half
        self.lines = len(futures)
        self.cards = futures
        self.reach = max(
            max(GRAINS * f["price"] + 8 * f["rates"][0] * f["spot"], GRAINS * f["change"])
            for f in futures
        )

    def price(self, line, point, column):
        if not in_grid(self, line, point, column):
            return 0
        card = self.cards[line]
        if column in (0, 1, 2):
            step = (8 // self.half) * card["rates"][0] * card["spot"]
            return GRAINS * card["price"] + (point - self.half) * step
        if column == 3:
            return -GRAINS * card["change"]
        if column == 4:
            return GRAINS * card["change"]
        return 0


class Table:
    """Prices in whole kopecks, read from a list."""

    def __init__(self, half, lines, entries):
        if half not in HALVES or not 1 <= lines <= 16:
            raise Refusal(6)
        wanted = lines * 7 * (2 * half + 1)
        if len(entries) != wanted:
            raise Refusal(5, wanted)
        for index, entry in enumerate(entries):
            column = (index // (2 * half + 1)) % 7
            if not price_fits(column, entry):
                raise Refusal(2, index)
        self.half = half
        self.lines = lines
        self.entries = entries
        self.reach = 800_000_000_000

    def price(self, line, point, column):
        if not in_grid(self, line, point, column):
            return 0
        return GRAINS * self.entries[(line * 7 + column) * (2 * self.half + 1) + point]


class Pair:
    """Two banks side by side."""

    def __init__(self, first, second):
        if first.half != second.half or first.lines + second.lines > 16:
            raise Refusal(6)
        self.half = first.half
        self.lines = first.lines + second.lines
        self.reach = max(first.reach, second.reach)
        self.first = first
        self.second = second

    def price(self, line, point, column):
        if line < self.first.lines:
            return self.first.price(line, point, column)
        return self.second.price(line - self.first.lines, point, column)


class Scale:
    """One bank with every price times a factor."""

    def __init__(self, factor, bank):
        if not 1 <= factor <= 100:
            raise Refusal(9)
        if bank.reach * factor > MOST_REACH:
            raise Refusal(7)
        self.half = bank.half
        self.lines = bank.lines
        self.reach = bank.reach * factor
        self.factor = factor
        self.bank = bank

    def price(self, line, point, column):
        return self.factor * self.bank.price(line, point, column)


def in_grid(bank, line, point, column):
    return 0 <= line < bank.lines and 0 <= point <= 2 * bank.half and 0 <= column <= 6


def price_fits(column, entry):
    """The field of a table's entry depends on its column."""
    least = 0 if column <= 2 else -MOST_PRICE
    return least <= entry <= MOST_PRICE


def future_is_bad(card):
    """A number outside its field (the month aside), or falling rates or limits."""
    r1, r2, r3 = card["rates"]
    a, b = card["limits"]
    return not (
        0 <= card["price"] <= MOST_PRICE
        and 0 <= card["spot"] <= MOST_PRICE
        and 0 <= card["change"] <= 1_000_000
        and all(1 <= r <= 10_000 for r in (r1, r2, r3))
        and all(0 <= limit <= 10_000 for limit in (a, b))
        and r1 <= r2 <= r3
        and a <= b
    )


# ---------------------------------------------------------------- cards


class Cards:
    """The cards of a session, each kind numbered from 0."""

    def __init__(self):
        self.families = []     # rule, window
        self.baskets = []      # family, rule
        self.months = []       # basket
        self.futures = []      # month, price, spot, change, rates, limits
        self.options = []      # month

    def lines(self):
        return self.futures + self.options


def first_bad_card(cards, held, fields_too):
    """The place of the first bad card or held record, or None.

    With fields_too the numbers are judged by their fields as well: a file's
    numbers have been judged before.
    """
    place = 0
    for card in cards.families:
        if fields_too and not (card["rule"] in (0, 1) and 0 <= card["window"] <= 16):
            return place
        place += 1
    for card in cards.baskets:
        if not 0 <= card["family"] < len(cards.families):
            return place
        if fields_too and card["rule"] not in (0, 1):
            return place
        place += 1
    for card in cards.months:
        if not 0 <= card["basket"] < len(cards.baskets):
            return place
        place += 1
    for card in cards.futures:
        if not 0 <= card["month"] < len(cards.months) or future_is_bad(card):
            return place
        place += 1
    for card in cards.options:
        if not 0 <= card["month"] < len(cards.months):
            return place
        place += 1
    seen = set()
    for record in held:
        if not 0 <= record["line"] < len(cards.lines()) or record["line"] in seen:
            return place
        if fields_too and not (
            -MOST_QUANTITY <= record["net"] <= MOST_QUANTITY
            and 0 <= record["price"] <= MOST_PRICE
        ):
            return place
        seen.add(record["line"])
        place += 1
    return None


# ---------------------------------------------------------------- the account


class Order:
    def __init__(self, number, line, left, limit):
        self.number = number
        self.line = line
        self.left = left       # signed, buy positive
        self.limit = limit     # kopecks


class Account:
    def __init__(self, bank, cards, collateral, held):
        bad = first_bad_card(cards, held, True)
        if bad is not None:
            raise Refusal(4, bad)
        lines = len(cards.lines())
        if not (
            1 <= len(cards.families) <= 2
            and 1 <= len(cards.baskets) <= 4
            and 1 <= len(cards.months) <= 8
            and 1 <= lines <= 16
            and len(cards.futures) >= 1
            and lines == bank.lines
        ):
            raise Refusal(6)
        if not 0 <= collateral <= MOST_AMOUNT:
            raise Refusal(11)
        self.bank = bank
        self.cards = cards
        self.collateral = collateral
        self.net = [0] * lines
        self.cost = [0] * lines
        self.accepted = [0] * lines
        self.orders = []
        self.last_number = 0
        for record in held:
            self.net[record["line"]] = record["net"]
            self.cost[record["line"]] = GRAINS * record["net"] * record["price"]
        if margin(self).amount > self.collateral:
            raise Refusal(24)

    def place(self, line, quantity, limit):
        if not 0 <= line < len(self.net):
            raise Refusal(8)
        if not 1 <= abs(quantity) <= MOST_QUANTITY:
            raise Refusal(9)
        if not 0 <= limit <= MOST_PRICE:
            raise Refusal(10)
        if len(self.orders) == 32:
            raise Refusal(21)
        buys = open_buys(self, line) + max(0, quantity)
        sells = open_sells(self, line) + max(0, -quantity)
        if self.net[line] + buys > 10_000 or sells - self.net[line] > 10_000:
            raise Refusal(22)
        if self.accepted[line] + abs(quantity) > 20_000:
            raise Refusal(23)
        self.orders.append(Order(self.last_number + 1, line, quantity, limit))
        if margin(self).amount > self.collateral:
            self.orders.pop()
            raise Refusal(24)
        self.accepted[line] += abs(quantity)
        self.last_number += 1
        return self.last_number

    def fill(self, number, quantity, price):
        if not 1 <= quantity <= MOST_QUANTITY:
            raise Refusal(9)
        if not 0 <= price <= MOST_PRICE:
            raise Refusal(10)
        order = self.find(number)
        if quantity > abs(order.left):
            raise Refusal(26)
        if order.left > 0 and price > order.limit:
            raise Refusal(27)
        if order.left < 0 and price < order.limit:
            raise Refusal(27)
        sign = 1 if order.left > 0 else -1
        self.net[order.line] += sign * quantity
        self.cost[order.line] += sign * GRAINS * quantity * price
        order.left -= sign * quantity
        if order.left == 0:
            self.orders.remove(order)
        return abs(order.left)

    def cancel(self, number):
        order = self.find(number)
        self.orders.remove(order)
        return abs(order.left)

    def deposit(self, amount):
        if not 0 <= amount <= MOST_AMOUNT:
            raise Refusal(11)
        if self.collateral + amount > MOST_AMOUNT:
            raise Refusal(28)
        self.collateral += amount
        return self.collateral

    def withdraw(self, amount):
        if not 0 <= amount <= MOST_AMOUNT:
            raise Refusal(11)
        if margin(self).amount > self.collateral - amount:
            raise Refusal(24)
        self.collateral -= amount
        return self.collateral

    def find(self, number):
        for order in self.orders:
            if order.number == number:
                return order
        raise Refusal(25)


def open_buys(account, line):
    return sum(o.left for o in account.orders if o.line == line and o.left > 0)


def open_sells(account, line):
    return sum(-o.left for o in account.orders if o.line == line and o.left < 0)


# ---------------------------------------------------------------- the margin


class Answer:
    """What margin answers, the world aside."""

    def __init__(self, amount, losses, points):
        self.amount = amount       # kopecks
        self.losses = losses       # grains, for each family
        self.points = points       # the first worst point, for each family


def points_of(account):
    return range(2 * account.bank.half + 1)


def position_result(account, line, point, column):
    value = account.net[line] * account.bank.price(line, point, column)
    return value - account.cost[line] if column <= 2 else value


def order_result(account, order, point, column):
    price = account.bank.price(order.line, point, column)
    if column <= 2:
        return order.left * (price - GRAINS * order.limit)
    return order.left * price


def charge(card, reach):
    r1, r2, r3 = card["rates"]
    a, b = card["limits"]
    return 8 * card["spot"] * (
        (r2 - r1) * max(0, reach - a) + (r3 - r2) * max(0, reach - b)
    )


def charge_in_cell(account, line, point, column):
    """Futures only, columns 0 to 2: long at the lowest point, short at the highest."""
    if line >= len(account.cards.futures) or column > 2:
        return 0
    card = account.cards.futures[line]
    if point == 0:
        return charge(card, max(0, account.net[line] + open_buys(account, line)))
    if point == 2 * account.bank.half:
        return charge(card, max(0, open_sells(account, line) - account.net[line]))
    return 0


def lines_of(account, month):
    return [l for l, card in enumerate(account.cards.lines()) if card["month"] == month]


def months_of(account, basket):
    return [m for m, card in enumerate(account.cards.months) if card["basket"] == basket]


def baskets_of(account, family):
    return [b for b, card in enumerate(account.cards.baskets) if card["family"] == family]


def orders_of(account, month):
    lines = lines_of(account, month)
    return [o for o in account.orders if o.line in lines]


def month_cell(account, month, point, column):
    total = 0
    for line in lines_of(account, month):
        total += position_result(account, line, point, column)
        total -= charge_in_cell(account, line, point, column)
    for order in orders_of(account, month):
        total += min(0, order_result(account, order, point, column))
    return total


def all_cells(account):
    """cells[month][point][column]"""
    return [
        [[month_cell(account, m, p, k) for k in range(7)] for p in points_of(account)]
        for m in range(len(account.cards.months))
    ]


def rate_result(cell):
    return min(0, cell[3], cell[4])


def twist_result(cell):
    return min(0, cell[5], cell[6])


def basket_result(account, cells, basket, point):
    here = [cells[m][point] for m in months_of(account, basket)]
    if account.cards.baskets[basket]["rule"] == 1:
        worst = min(sum(cell[v] for cell in here) for v in (0, 1, 2))
        return worst + sum(rate_result(cell) + twist_result(cell) for cell in here)
    return sum(
        min(0, min(cell[0], cell[1], cell[2]) + rate_result(cell) + twist_result(cell))
        for cell in here
    )


def window(account, family, point):
    """The points of the grid within the family's window of this one."""
    w = account.cards.families[family]["window"]
    return [p for p in points_of(account) if abs(p - point) <= w]


def family_row(account, cells, family):
    baskets = baskets_of(account, family)
    results = {
        b: [basket_result(account, cells, b, p) for p in points_of(account)] for b in baskets
    }
    row = []
    for point in points_of(account):
        if account.cards.families[family]["rule"] == 1:
            near = window(account, family, point)
            row.append(sum(min(results[b][p] for p in near) for b in baskets))
        else:
            row.append(sum(min(0, results[b][point]) for b in baskets))
    return row


def rounded_up(grains):
    return -(-grains // GRAINS)


def margin(account):
    cells = all_cells(account)
    losses, points = [], []
    for family in range(len(account.cards.families)):
        row = family_row(account, cells, family)
        worst = min(row)
        points.append(row.index(worst))
        losses.append(max(0, -worst))
    return Answer(rounded_up(sum(losses)), losses, points)


def costliest(answer):
    """The greatest loss; of equal losses the lowest number."""
    return answer.losses.index(max(answer.losses))


# ---------------------------------------------------------------- worlds


class TooManyWorlds(Exception):
    pass


def sums(lists, most):
    """One total for each way to take one item from each list."""
    ways = 1
    for items in lists:
        ways *= len(items)
    if ways > most:
        raise TooManyWorlds()
    return [sum(taken) for taken in itertools.product(*lists)]


def worlds_of_cell(account, month, point, column, most):
    """A cell taken: its positions less charges, and each order counted or not."""
    base = sum(
        position_result(account, l, point, column) - charge_in_cell(account, l, point, column)
        for l in lines_of(account, month)
    )
    choices = [[base]]
    for order in orders_of(account, month):
        choices.append([0, order_result(account, order, point, column)])
    return sums(choices, most)


def worlds_of_month(account, month, point, volatility, most):
    """A month kept: its volatility cell, at most one rate and one twist cell."""

    def cell(column):
        return worlds_of_cell(account, month, point, column, most)

    rates = [0] + cell(3) + cell(4)
    twists = [0] + cell(5) + cell(6)
    return sums([cell(volatility), rates, twists], most)


def worlds_of_basket(account, basket, point, most):
    months = months_of(account, basket)
    if account.cards.baskets[basket]["rule"] == 1:
        found = []
        for v in (0, 1, 2):
            found += sums([worlds_of_month(account, m, point, v, most) for m in months], most)
        return found
    choices = []
    for m in months:
        left_out = [0]
        choices.append(
            left_out + [s for v in (0, 1, 2) for s in worlds_of_month(account, m, point, v, most)]
        )
    return sums(choices, most)


def worlds_of_family(account, family, most):
    found = [0]                        # left out
    for point in points_of(account):
        choices = []
        for b in baskets_of(account, family):
            if account.cards.families[family]["rule"] == 1:
                near = window(account, family, point)
                choices.append([s for p in near for s in worlds_of_basket(account, b, p, most)])
            else:
                choices.append([0] + worlds_of_basket(account, b, point, most))
        found += sums(choices, most)
        if len(found) > most:
            raise TooManyWorlds()
    return found


def every_world(account, most):
    """The sum of the cells taken, for every world of the account."""
    families = range(len(account.cards.families))
    return sums([worlds_of_family(account, f, most) for f in families], most)


def handed_out(account):
    """The world handed out with the margin, as nested lists.

    For each family None or (point, baskets); for each of its baskets None or
    (basket, point, months); for each of its months None or
    (month, cells), a cell being (column, numbers of the orders counted).
    """
    cells = all_cells(account)
    world = []
    for family in range(len(account.cards.families)):
        row = family_row(account, cells, family)
        worst = min(row)
        if worst >= 0:
            world.append(None)
            continue
        point = row.index(worst)
        chosen = [handed_basket(account, cells, family, b, point)
                  for b in baskets_of(account, family)]
        world.append((point, chosen))
    return world


def handed_basket(account, cells, family, basket, point):
    if account.cards.families[family]["rule"] == 1:
        near = window(account, family, point)
        point = min(near, key=lambda p: (basket_result(account, cells, basket, p), p))
    elif basket_result(account, cells, basket, point) >= 0:
        return None
    months = months_of(account, basket)
    if account.cards.baskets[basket]["rule"] == 1:
        v = min((0, 1, 2), key=lambda k: (sum(cells[m][point][k] for m in months), k))
        kept = [handed_month(account, cells, m, point, v) for m in months]
    else:
        kept = []
        for m in months:
            cell = cells[m][point]
            v = min((0, 1, 2), key=lambda k: (cell[k], k))
            if cell[v] + rate_result(cell) + twist_result(cell) >= 0:
                kept.append(None)
            else:
                kept.append(handed_month(account, cells, m, point, v))
    return (basket, point, kept)


def handed_month(account, cells, month, point, v):
    cell = cells[month][point]
    columns = [v]
    if rate_result(cell) < 0:
        columns.append(3 if cell[3] <= cell[4] else 4)
    if twist_result(cell) < 0:
        columns.append(5 if cell[5] <= cell[6] else 6)
    taken = []
    for k in columns:
        counted = [o.number for o in orders_of(account, month)
                   if order_result(account, o, point, k) < 0]
        taken.append((k, counted))
    return (month, taken)


def loss_of_world(account, world):
    """Minus the sum of the cells taken, straight from the world's own choices."""
    total = 0
    for family in world:
        if family is None:
            continue
        for basket in family[1]:
            if basket is None:
                continue
            _, point, months = basket
            for month in months:
                if month is not None:
                    total += month_taken(account, month, point)
    return -total


def month_taken(account, chosen, point):
    month, taken = chosen
    total = 0
    for column, counted in taken:
        for line in lines_of(account, month):
            total += position_result(account, line, point, column)
            total -= charge_in_cell(account, line, point, column)
        for order in orders_of(account, month):
            if order.number in counted:
                total += order_result(account, order, point, column)
    return total


def compare_worlds(account, most=2_000_000):
    """One line: least cover by all worlds against the margin by its steps."""
    try:
        totals = every_world(account, most)
    except TooManyWorlds:
        return "(worlds more than %d)" % most
    greatest = -min(totals)
    cover = rounded_up(greatest)
    answer = margin(account)
    handed = loss_of_world(account, handed_out(account))
    same = cover == answer.amount and greatest == sum(answer.losses) == handed
    return "(worlds %d (greatest %d) (cover %d) (margin %d) (handed %d) (%s))" % (
        len(totals), greatest, cover, answer.amount, handed, "same" if same else "differs")


# ---------------------------------------------------------------- the text


def may_follow(state, byte, digits):
    """The state after this byte, or None where it cannot continue."""
    letter = 97 <= byte <= 122
    c = chr(byte)
    if state == "start":
        return "outer open" if c == "(" else None
    if state == "outer open":
        return "outer head" if letter else None
    if state == "outer head":
        if letter:
            return "outer head"
        return {" ": "outer space", ")": "outer closed"}.get(c)
    if state == "outer space":
        return "inner open" if c == "(" else None
    if state == "inner open":
        return "inner head" if letter else None
    if state == "inner head":
        if letter:
            return "inner head"
        return {" ": "inner space", ")": "inner closed"}.get(c)
    if state == "inner space":
        if c == "-":
            return "minus"
        if c == "0":
            return "zero"
        return "number" if c in "123456789" else None
    if state == "minus":
        return "number" if c in "123456789" else None
    if state == "number" and c in "0123456789":
        return "number" if digits < 15 else None
    if state in ("zero", "number"):
        return {" ": "inner space", ")": "inner closed"}.get(c)
    if state == "inner closed":
        return {" ": "outer space", ")": "outer closed"}.get(c)
    if state == "outer closed":
        return "start" if byte == 10 else None
    raise AssertionError(state)


def judge_shape(text):
    """Refuses with 1 at the first byte, or the end, that cannot continue."""
    state, digits = "start", 0
    for place, byte in enumerate(text):
        state = may_follow(state, byte, digits)
        if state is None:
            raise Refusal(1, place)
        digits = digits + 1 if state == "number" else 0
    if state != "start":
        raise Refusal(1, len(text))


class Inner:
    def __init__(self, place, head, numbers):
        self.place = place         # of its opening bracket
        self.head = head
        self.numbers = numbers     # pairs of place and value


class Outer:
    def __init__(self, place, head, inners, close):
        self.place = place         # of its opening bracket
        self.head = head
        self.inners = inners
        self.close = close         # of its closing bracket


def forms_of(text):
    """The outer forms of a text of good shape."""
    forms = []
    place = 0
    for line in text.split(b"\n")[:-1]:
        forms.append(outer_form(line, place))
        place += len(line) + 1
    return forms


def outer_form(line, start):
    """One line without its last byte: (head (inner) (inner))"""
    parts = line[1:-1].split(b" (")
    place = start + 1 + len(parts[0]) + 1
    inners = []
    for part in parts[1:]:
        inners.append(inner_form(part[:-1], place))
        place += 1 + len(part) + 1
    return Outer(start, parts[0].decode(), inners, start + len(line) - 1)


def inner_form(inside, start):
    """What stands between the brackets: head number number"""
    words = inside.split(b" ")
    place = start + 1 + len(words[0]) + 1
    numbers = []
    for word in words[1:]:
        numbers.append((place, int(word)))
        place += len(word) + 1
    return Inner(start, words[0].decode(), numbers)


# ---------------------------------------------------------------- load


def between(least, most):
    return lambda value: least <= value <= most


ANY = lambda value: True               # names, and the numbers of orders
RULE = between(0, 1)
PRICE = between(0, MOST_PRICE)

# For each kind of form: its inner heads in order, with the field of each number.
INNER = {
    "grid": [("half", [lambda value: value in HALVES])],
    "family": [("rule", [RULE]), ("window", [between(0, 16)])],
    "basket": [("family", [ANY]), ("rule", [RULE])],
    "month": [("basket", [ANY])],
    "future": [
        ("month", [ANY]), ("price", [PRICE]), ("spot", [PRICE]),
        ("change", [between(0, 1_000_000)]),
        ("rates", [between(1, 10_000)] * 3), ("limits", [between(0, 10_000)] * 2),
    ],
    "option": [("month", [ANY])],
    "cash": [("amount", [between(0, MOST_AMOUNT)])],
    "held": [("line", [ANY]), ("net", [between(-MOST_QUANTITY, MOST_QUANTITY)]),
             ("price", [PRICE])],
    "order": [("line", [ANY]), ("net", [ANY]), ("price", [ANY])],
}

ORDER_OF_FORMS = ["grid", "family", "basket", "month", "future", "option", "row",
                  "cash", "held", "order"]


class Session:
    def __init__(self):
        self.half = 0
        self.cash = 0
        self.cards = Cards()
        self.prices = []
        self.held = []
        self.orders = []


def how_many(session, kind):
    """The least and the most forms of a kind, given the forms before it."""
    futures = len(session.cards.futures)
    options = len(session.cards.options)
    return {
        "grid": (1, 1), "family": (1, 2), "basket": (1, 4), "month": (1, 8),
        "future": (1, 16), "option": (0, 16 - futures),
        "row": (7 * options, 7 * options), "cash": (1, 1), "held": (0, 16),
        "order": (0, None),
    }[kind]


def load(text):
    if len(text) > MOST_TEXT:
        raise Refusal(5, MOST_TEXT)
    judge_shape(text)
    session = Session()
    stage, count = 0, 0                # the kind that may stand now, and how many have
    for form in forms_of(text):
        while True:
            if stage == len(ORDER_OF_FORMS):
                raise Refusal(3, form.place)
            kind = ORDER_OF_FORMS[stage]
            least, most = how_many(session, kind)
            if form.head == kind and (most is None or count < most):
                break
            if count < least:
                raise Refusal(3, form.place)
            stage, count = stage + 1, 0
        read_form(session, kind, form, count)
        count += 1
    while stage < len(ORDER_OF_FORMS):
        if count < how_many(session, ORDER_OF_FORMS[stage])[0]:
            raise Refusal(3, len(text))
        stage, count = stage + 1, 0
    bad = first_bad_card(session.cards, session.held, False)
    if bad is not None:
        raise Refusal(4, bad)
    return session


def wanted_inner(form, index, head, count):
    """The inner form at this index, which must have this head and count."""
    if index >= len(form.inners):
        raise Refusal(3, form.close)
    inner = form.inners[index]
    if inner.head != head or len(inner.numbers) != count:
        raise Refusal(3, inner.place)
    return inner


def judge_numbers(inner, fields):
    for (place, value), fits in zip(inner.numbers, fields):
        if not fits(value):
            raise Refusal(2, place)
    return [value for _, value in inner.numbers]


def no_more_inner(form, wanted):
    if len(form.inners) > wanted:
        raise Refusal(3, form.inners[wanted].place)


def read_form(session, kind, form, count):
    if kind == "row":
        read_row(session, form, count)
        return
    record = {}
    for index, (head, fields) in enumerate(INNER[kind]):
        inner = wanted_inner(form, index, head, len(fields))
        values = judge_numbers(inner, fields)
        record[head] = values if len(values) > 1 else values[0]
    no_more_inner(form, len(INNER[kind]))
    keep(session, kind, record)


def read_row(session, form, count):
    """The row number count, counted from 0 over all rows."""
    line_due = len(session.cards.futures) + count // 7
    column_due = count % 7
    if wanted_inner(form, 0, "line", 1).numbers[0][1] != line_due:
        raise Refusal(3, form.place)
    if wanted_inner(form, 1, "column", 1).numbers[0][1] != column_due:
        raise Refusal(3, form.place)
    points = 2 * session.half + 1
    inner = wanted_inner(form, 2, "prices", points)
    fields = [lambda value: price_fits(column_due, value)] * points
    prices = judge_numbers(inner, fields)
    no_more_inner(form, 3)
    session.prices += prices


def keep(session, kind, record):
    if kind == "grid":
        session.half = record["half"]
    elif kind == "cash":
        session.cash = record["amount"]
    else:
        {
            "family": session.cards.families, "basket": session.cards.baskets,
            "month": session.cards.months, "future": session.cards.futures,
            "option": session.cards.options, "held": session.held,
            "order": session.orders,
        }[kind].append(record)


# ---------------------------------------------------------------- the day


def bank_of(session):
    strip = Strip(session.half, session.cards.futures)
    if not session.cards.options:
        return strip
    return Pair(strip, Table(session.half, len(session.cards.options), session.prices))


def run_day(text):
    """The lines that daybook prints, and the account, None if there is none."""
    try:
        session = load(text)
        account = Account(bank_of(session), session.cards, session.cash, session.held)
    except Refusal as refusal:
        return [refusal.line()], None
    out = []
    for order in session.orders:
        try:
            number = account.place(order["line"], order["net"], order["price"])
            out.append("(order %d)" % number)
        except Refusal as refusal:
            out.append(refusal.line())
    return out + margin_lines(account), account


def margin_lines(account):
    answer = margin(account)
    out = ["(margin %d)" % answer.amount]
    for family, loss in enumerate(answer.losses):
        if loss == 0:
            out.append("(family %d (loss 0) (out))" % family)
        else:
            out.append("(family %d (loss %d) (point %d))" % (family, loss, answer.points[family]))
    out.append("(free %d)" % (account.collateral - answer.amount))
    return out


def run_calls(account, script):
    """One line for each call of the script: its answer or its refusal.

    A line of a script is a call's name and its numbers, such as
    'place 0 5 100000' or 'margin'.
    """
    out = []
    for line in script.splitlines():
        name, *numbers = line.split()
        try:
            if name == "margin":
                answer = margin(account)
                out += margin_lines(account) + ["(costliest %d)" % costliest(answer)]
            else:
                numbers = [int(n) for n in numbers]
                call = {"place": account.place, "fill": account.fill,
                        "cancel": account.cancel, "deposit": account.deposit,
                        "withdraw": account.withdraw}[name]
                out.append("(%s %d)" % (name, call(*numbers)))
        except Refusal as refusal:
            out.append(refusal.line())
    return out


def main(arguments):
    text = sys.stdin.buffer.read()
    out, account = run_day(text)
    if arguments[:1] == ["--worlds"] and account is not None:
        out.append(compare_worlds(account))
    if arguments[:1] == ["--calls"] and account is not None:
        with open(arguments[1]) as script:
            out += run_calls(account, script.read())
    for line in out:
        print(line)


if __name__ == "__main__":
    main(sys.argv[1:])
