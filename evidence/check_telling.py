#!/usr/bin/env python3
"""Says which wrong readings of the rules the comparison files notice.

    check_telling.py DIR CALLS

DIR holds session files with answers, CALLS those with a script of calls. Each reading below changes one function of second.py to something plausible and
false. The number of files that notice it is printed; where that is 0, the program
ends with 1.
"""

import contextlib
import os
import sys

import second
from second import (GRAINS, Refusal, baskets_of, basket_result, charge, lines_of, months_of,
                    open_buys, open_sells, order_result, orders_of, points_of,
                    position_result, window)


def cells_with(order_part):
    """A month's cell with another way to count its orders."""
    def month_cell(account, month, point, column):
        total = 0
        for line in lines_of(account, month):
            total += position_result(account, line, point, column)
            total -= second.charge_in_cell(account, line, point, column)
        results = [(o, order_result(account, o, point, column)) for o in orders_of(account, month)]
        return total + order_part(account, results, column)
    return month_cell


def netted_by_line(account, results, column):
    by_line = {}
    for order, result in results:
        by_line[order.line] = by_line.get(order.line, 0) + result
    return sum(min(0, total) for total in by_line.values())


def gains_too(account, results, column):
    return sum(result for _, result in results)


def no_rate_orders(account, results, column):
    return sum(min(0, result) for _, result in results) if column <= 2 else 0


def month_orders_netted(account, results, column):
    return min(0, gains_too(account, results, column))


def charges_with(long, short, columns=2, lowest=0, futures_only=True):
    def charge_in_cell(account, line, point, column):
        if line >= len(account.cards.futures) or column > columns:
            return 0
        card = account.cards.futures[line]
        last = 2 * account.bank.half
        n, b, s = account.net[line], open_buys(account, line), open_sells(account, line)
        if point == (0 if lowest == 0 else last):
            return charge(card, max(0, long(n, b, s)))
        if point == (last if lowest == 0 else 0):
            return charge(card, max(0, short(n, b, s)))
        return 0
    return charge_in_cell


LONG = lambda n, b, s: n + b
SHORT = lambda n, b, s: s - n


def charge_everywhere(account, line, point, column):
    if line >= len(account.cards.futures) or column > 2:
        return 0
    n, b, s = account.net[line], open_buys(account, line), open_sells(account, line)
    return charge(account.cards.futures[line], max(0, n + b, s - n))


def charge_by_pieces(card, reach):
    """Replaces the rate above B instead of adding to it."""
    r1, r2, r3 = card["rates"]
    a, b = card["limits"]
    above_b = max(0, reach - b)
    return 8 * card["spot"] * ((r2 - r1) * (max(0, reach - a) - above_b) + (r3 - r2) * above_b)


def charge_whole(card, reach):
    r1, r2, r3 = card["rates"]
    a, b = card["limits"]
    return 8 * card["spot"] * ((r2 - r1) * (reach if reach > a else 0)
                               + (r3 - r2) * (reach if reach > b else 0))


def baskets_with(netted, half):
    def basket_result_(account, cells, basket, point):
        here = [cells[m][point] for m in months_of(account, basket)]
        rule = account.cards.baskets[basket]["rule"]
        return netted(here) if rule == 1 else half(here)
    return basket_result_


def extra(cell):
    return second.rate_result(cell) + second.twist_result(cell)


def netted(here):
    return min(sum(c[v] for c in here) for v in (0, 1, 2)) + sum(extra(c) for c in here)


def half(here):
    return sum(min(0, min(c[:3]) + extra(c)) for c in here)


def netted_own_columns(here):
    return sum(min(c[:3]) for c in here) + sum(extra(c) for c in here)


def netted_with_zero(here):
    return min(0, netted(here))


def netted_rates_together(here):
    total = [sum(c[k] for c in here) for k in range(7)]
    return min(total[:3]) + extra(total)


def half_zero_first(here):
    return sum(min(0, min(c[:3])) + extra(c) for c in here)


def half_one_column(here):
    return min(sum(min(0, c[v] + extra(c)) for c in here) for v in (0, 1, 2))


def half_zero_last(here):
    return min(0, sum(min(c[:3]) + extra(c) for c in here))


def half_no_zero(here):
    return sum(min(c[:3]) + extra(c) for c in here)


def rows_with(netted_part, half_part, near_of=window):
    def family_row(account, cells, family):
        baskets = baskets_of(account, family)
        row = []
        for p in points_of(account):
            if account.cards.families[family]["rule"] == 1:
                near = near_of(account, family, p)
                row.append(sum(netted_part([basket_result(account, cells, b, q) for q in near])
                               for b in baskets))
            else:
                row.append(half_part(account, cells, family, p))
        return row
    return family_row


def half_row(account, cells, family, p):
    return sum(min(0, basket_result(account, cells, b, p)) for b in baskets_of(account, family))


def half_row_no_zero(account, cells, family, p):
    return sum(basket_result(account, cells, b, p) for b in baskets_of(account, family))


def half_row_window(account, cells, family, p):
    return sum(min([0] + [basket_result(account, cells, b, q) for q in window(account, family, p)])
               for b in baskets_of(account, family))


def window_scaled(account, family, point):
    w = account.cards.families[family]["window"] * account.bank.half
    return [p for p in points_of(account) if abs(p - point) <= w]


def window_short(account, family, point):
    w = account.cards.families[family]["window"]
    return [p for p in points_of(account) if p == point or abs(p - point) < w]


def window_one_sided(account, family, point):
    w = account.cards.families[family]["window"]
    return [p for p in points_of(account) if 0 <= p - point <= w]


def window_none(account, family, point):
    return [point]


def margin_with(pick=min, place=lambda row, worst: row.index(worst), rounding=None):
    def margin(account):
        cells = second.all_cells(account)
        losses, points = [], []
        for family in range(len(account.cards.families)):
            row = second.family_row(account, cells, family)
            worst = pick(row)
            points.append(place(row, worst))
            losses.append(max(0, -worst))
        amount = rounding(losses) if rounding else second.rounded_up(sum(losses))
        return second.Answer(amount, losses, points)
    return margin


def last_place(row, worst):
    return len(row) - 1 - row[::-1].index(worst)


def nearest_place(row, worst):
    middle = len(row) // 2
    return min((p for p, r in enumerate(row) if r == worst), key=lambda p: abs(p - middle))


def position_cost_everywhere(account, line, point, column):
    return account.net[line] * account.bank.price(line, point, column) - account.cost[line]


def order_limit_everywhere(account, order, point, column):
    price = account.bank.price(order.line, point, column)
    return order.left * (price - GRAINS * order.limit)


def place_without(number):
    """Place, with one of its refusals forgotten."""
    real = second.Account.place

    def place(self, line, quantity, limit):
        try:
            return real(self, line, quantity, limit)
        except Refusal as refusal:
            if refusal.number != number:
                raise
            self.orders.append(second.Order(self.last_number + 1, line, quantity, limit))
            self.last_number += 1
            return self.last_number
    return place


def refused_takes_number(self, line, quantity, limit, real=second.Account.place):
    try:
        return real(self, line, quantity, limit)
    except Refusal:
        self.last_number += 1
        raise


def covered_needs_more(self, line, quantity, limit, real=second.Account.place):
    """Refuses an order that takes all the collateral."""
    number = real(self, line, quantity, limit)
    if second.margin(self).amount == self.collateral > 0:
        self.orders.pop()
        self.last_number -= 1
        raise Refusal(24)
    return number


def net_only(self, line, quantity, limit, real=second.Account.place):
    """22 by the net and this order alone, other open orders forgotten."""
    kept, self.orders = self.orders, []
    try:
        if len(kept) == 32 or not 0 <= line < len(self.net):
            self.orders = kept
            return real(self, line, quantity, limit)
        number = self.last_number + 1
        if not 1 <= abs(quantity) <= 10_000:
            raise Refusal(9)
        if not 0 <= limit <= second.MOST_PRICE:
            raise Refusal(10)
        if abs(self.net[line] + quantity) > 10_000:
            raise Refusal(22)
        self.orders = kept + [second.Order(number, line, quantity, limit)]
        if second.margin(self).amount > self.collateral:
            raise Refusal(24)
        kept = self.orders
        self.last_number = number
        return number
    finally:
        self.orders = kept


def no_cost_at_net_0(account, line, point, column):
    if account.net[line] == 0:
        return 0
    return real_position(account, line, point, column)


def fill_at_limit(self, number, quantity, price, real=second.Account.fill):
    """The cost moves by the limit, not by the price."""
    limit = [o.limit for o in self.orders if o.number == number]
    better = limit and within_limit(self, number, price)
    return real(self, number, quantity, limit[0] if better else price)


def within_limit(account, number, price):
    order = account.find(number)
    return price <= order.limit if order.left > 0 else price >= order.limit


def fill_not_at_limit(self, number, quantity, price, real=second.Account.fill):
    """A fill at the limit itself is refused."""
    if any(o.number == number and o.limit == price for o in self.orders):
        if 1 <= quantity <= 10_000:
            raise Refusal(27)
    return real(self, number, quantity, price)


def fill_price_first(self, number, quantity, price, real=second.Account.fill):
    """A price worse than the limit is noticed ahead of a size that is too large."""
    if 1 <= quantity <= 10_000 and 0 <= price <= second.MOST_PRICE:
        if not within_limit(self, number, price):
            raise Refusal(27)
    return real(self, number, quantity, price)


def cancel_takes_off(self, number, real=second.Account.cancel):
    """A cancel lowers the line's accepted contracts."""
    line = self.find(number).line
    size = real(self, number)
    self.accepted[line] -= size
    return size


def fill_takes_off(self, number, quantity, price, real=second.Account.fill):
    """A fill lowers the line's accepted contracts."""
    lines = [o.line for o in self.orders if o.number == number]
    left = real(self, number, quantity, price)
    self.accepted[lines[0]] -= quantity
    return left


def cancel_answers_0(self, number, real=second.Account.cancel):
    real(self, number)
    return 0


def fill_answers_size(self, number, quantity, price, real=second.Account.fill):
    real(self, number, quantity, price)
    return quantity


def numbers_again(self, line, quantity, limit, real=second.Account.place):
    """A gone order's number is given again."""
    taken = {o.number for o in self.orders}
    self.last_number = min(n for n in range(1, 100) if n not in taken) - 1
    return real(self, line, quantity, limit)


def withdraw_28(self, amount, real=second.Account.withdraw):
    if 0 <= amount <= second.MOST_AMOUNT and amount > self.collateral:
        raise Refusal(28)
    return real(self, amount)


def deposit_11(self, amount, real=second.Account.deposit):
    if self.collateral + amount > second.MOST_AMOUNT:
        raise Refusal(11)
    return real(self, amount)


def last_of_equals(answer):
    return max(range(len(answer.losses)), key=lambda f: (answer.losses[f], f))


def strip_price(change):
    real = second.Strip.price

    def price(self, line, point, column):
        return change(self, real, line, point, column)
    return price


def strip_rates_swapped(self, real, line, point, column):
    return real(self, line, point, {3: 4, 4: 3}.get(column, column))


def strip_never_below_zero(self, real, line, point, column):
    value = real(self, line, point, column)
    return max(0, value) if column <= 2 else value


def strip_step_of_price(self, real, line, point, column):
    if column > 2:
        return real(self, line, point, column)
    card = self.cards[line]
    step = (8 // self.half) * card["rates"][0] * card["price"]
    return GRAINS * card["price"] + (point - self.half) * step


def table_turned(self, line, point, column):
    if not second.in_grid(self, line, point, column):
        return 0
    return GRAINS * self.entries[(line * (2 * self.half + 1) + point) * 7 + column]


def first_fault_only(text):
    """A reader that stops at the first fault of any kind, in the order of bytes."""
    try:
        second_judge(text)
    except Refusal as shape:
        good = text[:text.rfind(b"\n", 0, shape.place) + 1]
        try:
            real_load(good)
        except Refusal as refusal:
            if refusal.number in (2, 3) and refusal.place < len(good):
                raise
        raise shape
    return real_load(text)


def twos_first(text):
    """All numbers are judged before any form."""
    try:
        return real_load(text)
    except Refusal as refusal:
        if refusal.number != 3:
            raise
        for form in second.forms_of(text):
            fields = dict(second.INNER.get(form.head, []))
            for inner in form.inners:
                for (place, value), fits in zip(inner.numbers, fields.get(inner.head, [])):
                    if not fits(value):
                        raise Refusal(2, place)
        raise


def count_behind_numbers(form, index, head, count):
    """A wrong count of numbers is noticed behind the numbers."""
    if index >= len(form.inners):
        raise Refusal(3, form.close)
    inner = form.inners[index]
    if inner.head != head:
        raise Refusal(3, inner.place)
    for place, value in inner.numbers:
        if head == "half" and value not in second.HALVES:
            raise Refusal(2, place)
    if len(inner.numbers) != count:
        raise Refusal(3, inner.place)
    return inner


def missing_at_outer(form, index, head, count):
    """A missing inner form is placed at the outer form's opening bracket."""
    if index >= len(form.inners):
        raise Refusal(3, form.place)
    return real_wanted(form, index, head, count)


def heads_by_start(form, index, head, count):
    """A head that only begins as it should is taken."""
    if index < len(form.inners) and form.inners[index].head.startswith(head):
        form.inners[index].head = head
    return real_wanted(form, index, head, count)


def row_by_order(session, form, count):
    """A row that is not due is noticed only once its prices are good."""
    points = 2 * session.half + 1
    line = second.wanted_inner(form, 0, "line", 1).numbers[0][1]
    column = second.wanted_inner(form, 1, "column", 1).numbers[0][1]
    inner = second.wanted_inner(form, 2, "prices", points)
    prices = second.judge_numbers(inner, [lambda v: second.price_fits(column, v)] * points)
    second.no_more_inner(form, 3)
    if line != len(session.cards.futures) + count // 7 or column != count % 7:
        raise Refusal(3, form.place)
    session.prices += prices


def rows_from_line_0(session, form, count):
    """The line of a row counted among the options."""
    inner = form.inners[0] if form.inners else None
    if inner and inner.head == "line" and len(inner.numbers) == 1:
        place, value = inner.numbers[0]
        inner.numbers[0] = (place, value + len(session.cards.futures))
    return real_row(session, form, count)


def cards_by_kind(cards, held, fields_too):
    """The place of 4 counted among its own kind."""
    place = real_bad(cards, held, fields_too)
    if place is None:
        return None
    for kind in (cards.families, cards.baskets, cards.months, cards.lines()):
        if place < len(kind):
            return place
        place -= len(kind)
    return place


def held_twice_fine(cards, held, fields_too):
    one_each = {r["line"]: r for r in held}
    return real_bad(cards, list(one_each.values()), fields_too)


def first_of_two(cards, held, fields_too):
    """Of a line held twice, the earlier record is called the bad one."""
    place = real_bad(cards, held, fields_too)
    before = len(cards.families) + len(cards.baskets) + len(cards.months) + len(cards.lines())
    if place is None or place < before:
        return place
    line = held[place - before]["line"]
    return before + [r["line"] for r in held].index(line)


def shape_of(digits):
    real = second.may_follow

    def may_follow(state, byte, so_far):
        return digits(real, state, byte, so_far)
    return may_follow


def sixteen_digits(real, state, byte, so_far):
    return real(state, byte, max(0, so_far - 1))


def minus_zero(real, state, byte, so_far):
    return "zero" if state == "minus" and byte == 48 else real(state, byte, so_far)


def leading_zeros(real, state, byte, so_far):
    return "zero" if state == "zero" and 48 <= byte <= 57 else real(state, byte, so_far)


def blank_lines(real, state, byte, so_far):
    return "start" if state == "start" and byte == 10 else real(state, byte, so_far)


real_position = second.position_result
second_judge = second.judge_shape
real_load, real_wanted = second.load, second.wanted_inner
real_row, real_bad = second.read_row, second.first_bad_card

READINGS = [
    ("orders of a line netted first", "month_cell", cells_with(netted_by_line)),
    ("orders of a month netted first", "month_cell", cells_with(month_orders_netted)),
    ("gains of orders counted", "month_cell", cells_with(gains_too)),
    ("orders not counted in columns 3 to 6", "month_cell", cells_with(no_rate_orders)),
    ("charge on the net alone", "charge_in_cell",
     charges_with(lambda n, b, s: n, lambda n, b, s: -n)),
    ("long and short charge exchanged", "charge_in_cell", charges_with(LONG, SHORT, lowest=1)),
    ("charge in the rate columns too", "charge_in_cell", charges_with(LONG, SHORT, columns=4)),
    ("reach of the net with all orders", "charge_in_cell",
     charges_with(lambda n, b, s: n + b - s, lambda n, b, s: s - b - n)),
    ("reach without the net", "charge_in_cell",
     charges_with(lambda n, b, s: b, lambda n, b, s: s)),
    ("charge at every point", "charge_in_cell", charge_everywhere),
    ("no charge", "charge_in_cell", lambda *_: 0),
    ("rate above B in place of the one above A", "charge", charge_by_pieces),
    ("the whole reach charged", "charge", charge_whole),
    ("a rate gain pays", "rate_result", lambda cell: min(cell[3], cell[4])),
    ("a twist gain pays", "twist_result", lambda cell: min(cell[5], cell[6])),
    ("only the rate down", "rate_result", lambda cell: min(0, cell[3])),
    ("only the rate up", "rate_result", lambda cell: min(0, cell[4])),
    ("only the first twist", "twist_result", lambda cell: min(0, cell[5])),
    ("only the second twist", "twist_result", lambda cell: min(0, cell[6])),
    ("rate and twist in one", "rate_result", lambda cell: min(0, *cell[3:])),
    ("own columns in a netted basket", "basket_result", baskets_with(netted_own_columns, half)),
    ("a netted basket with a 0", "basket_result", baskets_with(netted_with_zero, half)),
    ("rates netted over months", "basket_result", baskets_with(netted_rates_together, half)),
    ("0 before rate and twist", "basket_result", baskets_with(netted, half_zero_first)),
    ("one column in a half basket", "basket_result", baskets_with(netted, half_one_column)),
    ("one 0 for a half basket", "basket_result", baskets_with(netted, half_zero_last)),
    ("a half basket without 0", "basket_result", baskets_with(netted, half_no_zero)),
    ("rules of baskets exchanged", "basket_result", baskets_with(half, netted)),
    ("a netted family's basket with a 0", "family_row",
     rows_with(lambda near: min([0] + near), half_row)),
    ("a half family without 0", "family_row", rows_with(min, half_row_no_zero)),
    ("a half family's window read", "family_row", rows_with(min, half_row_window)),
    ("window scaled with the half", "window", window_scaled),
    ("window one point short", "window", window_short),
    ("window to one side", "window", window_one_sided),
    ("no window", "window", window_none),
    ("last worst point", "margin", margin_with(place=last_place)),
    ("worst point nearest the middle", "margin", margin_with(place=nearest_place)),
    ("each family rounded", "margin",
     margin_with(rounding=lambda losses: sum(second.rounded_up(l) for l in losses))),
    ("rounded down", "margin", margin_with(rounding=lambda losses: sum(losses) // GRAINS)),
    ("only the costliest family", "margin",
     margin_with(rounding=lambda losses: second.rounded_up(max(losses)))),
    ("cost in every column", "position_result", position_cost_everywhere),
    ("limit in every column", "order_result", order_limit_everywhere),
    ("21 forgotten", "Account.place", place_without(21)),
    ("22 forgotten", "Account.place", place_without(22)),
    ("24 forgotten at place", "Account.place", place_without(24)),
    ("22 without open orders", "Account.place", net_only),
    ("a refused order takes a number", "Account.place", refused_takes_number),
    ("24 at equal margin and collateral", "Account.place", covered_needs_more),
    ("rate down and up exchanged", "Strip.price", strip_price(strip_rates_swapped)),
    ("no price below 0", "Strip.price", strip_price(strip_never_below_zero)),
    ("step of the price, not the spot", "Strip.price", strip_price(strip_step_of_price)),
    ("a table turned", "Table.price", table_turned),
    ("no cost at net 0", "position_result", no_cost_at_net_0),
    ("a fill moves the cost by the limit", "Account.fill", fill_at_limit),
    ("27 at the limit itself", "Account.fill", fill_not_at_limit),
    ("27 ahead of 26", "Account.fill", fill_price_first),
    ("a fill takes off accepted contracts", "Account.fill", fill_takes_off),
    ("a fill answers its own size", "Account.fill", fill_answers_size),
    ("a cancel takes off accepted contracts", "Account.cancel", cancel_takes_off),
    ("a cancel answers 0", "Account.cancel", cancel_answers_0),
    ("23 forgotten", "Account.place", place_without(23)),
    ("numbers given again", "Account.place", numbers_again),
    ("28 for a withdrawal above the collateral", "Account.withdraw", withdraw_28),
    ("11 for collateral above its bound", "Account.deposit", deposit_11),
    ("the last of equal families", "costliest", last_of_equals),
    ("stops at the first fault", "load", first_fault_only),
    ("2 ahead of 3", "load", twos_first),
    ("count behind numbers", "wanted_inner", count_behind_numbers),
    ("missing inner form at the outer bracket", "wanted_inner", missing_at_outer),
    ("heads by their start", "wanted_inner", heads_by_start),
    ("a row not due noticed late", "read_row", row_by_order),
    ("rows counted among options", "read_row", rows_from_line_0),
    ("cards counted by kind", "first_bad_card", cards_by_kind),
    ("a line held twice is fine", "first_bad_card", held_twice_fine),
    ("the earlier of two held records", "first_bad_card", first_of_two),
    ("16 digits", "may_follow", shape_of(sixteen_digits)),
    ("minus 0", "may_follow", shape_of(minus_zero)),
    ("leading zeros", "may_follow", shape_of(leading_zeros)),
    ("blank lines", "may_follow", shape_of(blank_lines)),
]


@contextlib.contextmanager
def changed(name, new):
    owner, _, last = name.rpartition(".")
    owner = getattr(second, owner) if owner else second
    old = getattr(owner, last)
    setattr(owner, last, new)
    try:
        yield
    finally:
        setattr(owner, last, old)


def content(where, name, ending):
    with open(os.path.join(where, name + ending), "rb") as file:
        return file.read()


def cases(where):
    """Session, script or None, and answer of each case but the longest."""
    for name in sorted(n[:-8] for n in os.listdir(where) if n.endswith(".session")):
        text = content(where, name, ".session")
        script = None
        if os.path.exists(os.path.join(where, name + ".calls")):
            script = content(where, name, ".calls").decode()
        if len(text) < 60_000:
            yield text, script, content(where, name, ".answer").decode().splitlines()


def same_answer(text, script, answer):
    """A reading may also end in an error: that is noticed too."""
    try:
        out, account = second.run_day(text)
        if script is not None:
            out += second.run_calls(account, script)
        return out == answer
    except Exception:
        return False


def main(wheres):
    files = [case for where in wheres for case in cases(where)]
    unnoticed = 0
    for reading, name, new in READINGS:
        with changed(name, new):
            noticed = sum(not same_answer(*case) for case in files)
        print("%4d files notice: %s" % (noticed, reading), flush=True)
        unnoticed += noticed == 0
    print("%d readings, %d unnoticed" % (len(READINGS), unnoticed))
    return 1 if unnoticed else 0


if __name__ == "__main__":
    sys.exit(main(sys.argv[1:]))
