//! The margin rules in plain Rust, for speed: whole numbers of 64 bits, no allocation in a call.
//! It is what a faster or safer engine may be measured against.
//!
//!     rustc --edition 2021 -O -o bench bench.rs
//!     bench                        times the two accounts beside this file
//!     bench --day < FILE           what daybook prints for a session file known to be good
//!     bench --calls SCRIPT < FILE  the same, then the calls of a script
//!
//! A file that is not good is not refused here: it may end the program.

use std::hint::black_box;
use std::io::{Read, Write};
use std::time::Instant;

const GRAINS: i64 = 80_000;
const MOST_PRICE: i64 = 10_000_000;
const MOST_AMOUNT: i64 = 100_000_000_000_000;
const FAMILIES: usize = 2;
const BASKETS: usize = 4;
const MONTHS: usize = 8;
const LINES: usize = 16;
const ORDERS: usize = 32;
const POINTS: usize = 17;
const COLUMNS: usize = 7;

// ------------------------------------------------------------------ banks

trait Bank {
    fn half(&self) -> usize;
    fn lines(&self) -> usize;
    fn price(&self, line: usize, point: usize, column: usize) -> i64;
}

struct Strip {
    half: usize,
    lines: usize,
    cards: [Future; LINES],
}

impl Bank for Strip {
    fn half(&self) -> usize {
        self.half
    }

    fn lines(&self) -> usize {
        self.lines
    }

    #[inline]
    fn price(&self, line: usize, point: usize, column: usize) -> i64 {
        let card = &self.cards[line];
        match column {
            0..=2 => {
                let step = (8 / self.half as i64) * card.rates[0] * card.spot;
                GRAINS * card.price + (point as i64 - self.half as i64) * step
            }
            3 => -GRAINS * card.change,
            4 => GRAINS * card.change,
            _ => 0,
        }
    }
}

struct Table<'a> {
    half: usize,
    lines: usize,
    entries: &'a [i64],
}

impl Bank for Table<'_> {
    fn half(&self) -> usize {
        self.half
    }

    fn lines(&self) -> usize {
        self.lines
    }

    #[inline]
    fn price(&self, line: usize, point: usize, column: usize) -> i64 {
        GRAINS * self.entries[(line * COLUMNS + column) * (2 * self.half + 1) + point]
    }
}

struct Pair<A, B> {
    first: A,
    second: B,
}

impl<A: Bank, B: Bank> Bank for Pair<A, B> {
    fn half(&self) -> usize {
        self.first.half()
    }

    fn lines(&self) -> usize {
        self.first.lines() + self.second.lines()
    }

    #[inline]
    fn price(&self, line: usize, point: usize, column: usize) -> i64 {
        let firsts = self.first.lines();
        if line < firsts {
            self.first.price(line, point, column)
        } else {
            self.second.price(line - firsts, point, column)
        }
    }
}

// ------------------------------------------------------------------ cards

#[derive(Clone, Copy, Default)]
struct Family {
    netted: bool,
    window: usize,
}

#[derive(Clone, Copy, Default)]
struct Basket {
    family: usize,
    netted: bool,
}

#[derive(Clone, Copy, Default)]
struct Future {
    price: i64,
    spot: i64,
    change: i64,
    rates: [i64; 3],
    limits: [i64; 2],
}

#[derive(Clone, Copy, Default)]
struct Cards {
    families: [Family; FAMILIES],
    baskets: [Basket; BASKETS],
    months: [usize; MONTHS],
    lines: [usize; LINES],
    futures: [Future; LINES],
    family_count: usize,
    basket_count: usize,
    month_count: usize,
    line_count: usize,
    future_count: usize,
}

// ------------------------------------------------------------------ the account

#[derive(Clone, Copy, Default)]
struct Position {
    net: i64,
    cost: i64,
    accepted: i64,
    buys: i64,
    sells: i64,
}

#[derive(Clone, Copy, Default)]
struct Order {
    number: i64,
    line: usize,
    left: i64,
    limit: i64,
}

#[derive(Clone, Copy, Default)]
struct Answer {
    amount: i64,
    losses: [i64; FAMILIES],
    points: [usize; FAMILIES],
}

type Refusal = i64;

struct Account<'b, B> {
    bank: &'b B,
    cards: Cards,
    collateral: i64,
    positions: [Position; LINES],
    orders: [Order; ORDERS],
    open: usize,
    last_number: i64,
}

impl<B> Clone for Account<'_, B> {
    fn clone(&self) -> Self {
        Account { ..*self }
    }
}

impl<'b, B: Bank> Account<'b, B> {
    fn begin(bank: &'b B, cards: Cards, collateral: i64, held: &[[i64; 3]]) -> Result<Self, Refusal> {
        if bank.lines() != cards.line_count {
            return Err(6);
        }
        if !(0..=MOST_AMOUNT).contains(&collateral) {
            return Err(11);
        }
        let mut account = Account {
            bank,
            cards,
            collateral,
            positions: Default::default(),
            orders: Default::default(),
            open: 0,
            last_number: 0,
        };
        for &[line, net, price] in held {
            let position = &mut account.positions[line as usize];
            position.net = net;
            position.cost = GRAINS * net * price;
        }
        if account.margin().amount > collateral {
            return Err(24);
        }
        Ok(account)
    }

    fn place(&mut self, line: i64, quantity: i64, limit: i64) -> Result<i64, Refusal> {
        if !(0..self.cards.line_count as i64).contains(&line) {
            return Err(8);
        }
        let line = line as usize;
        if quantity == 0 || !(-10_000..=10_000).contains(&quantity) {
            return Err(9);
        }
        if !(0..=MOST_PRICE).contains(&limit) {
            return Err(10);
        }
        if self.open == ORDERS {
            return Err(21);
        }
        let before = self.positions[line];
        let mut after = before;
        if quantity > 0 {
            after.buys += quantity;
        } else {
            after.sells -= quantity;
        }
        after.accepted += quantity.abs();
        if after.net + after.buys > 10_000 || after.sells - after.net > 10_000 {
            return Err(22);
        }
        if after.accepted > 20_000 {
            return Err(23);
        }
        self.positions[line] = after;
        let number = self.last_number + 1;
        self.orders[self.open] = Order { number, line, left: quantity, limit };
        self.open += 1;
        if self.margin().amount > self.collateral {
            self.open -= 1;
            self.positions[line] = before;
            return Err(24);
        }
        self.last_number = number;
        Ok(number)
    }

    fn fill(&mut self, number: i64, quantity: i64, price: i64) -> Result<i64, Refusal> {
        if !(1..=10_000).contains(&quantity) {
            return Err(9);
        }
        if !(0..=MOST_PRICE).contains(&price) {
            return Err(10);
        }
        let at = self.find(number)?;
        let order = &mut self.orders[at];
        if quantity > order.left.abs() {
            return Err(26);
        }
        let position = &mut self.positions[order.line];
        if order.left > 0 {
            if price > order.limit {
                return Err(27);
            }
            position.net += quantity;
            position.cost += GRAINS * quantity * price;
            position.buys -= quantity;
            order.left -= quantity;
        } else {
            if price < order.limit {
                return Err(27);
            }
            position.net -= quantity;
            position.cost -= GRAINS * quantity * price;
            position.sells -= quantity;
            order.left += quantity;
        }
        let left = order.left.abs();
        if left == 0 {
            self.remove(at);
        }
        Ok(left)
    }

    fn cancel(&mut self, number: i64) -> Result<i64, Refusal> {
        let at = self.find(number)?;
        let order = self.orders[at];
        let position = &mut self.positions[order.line];
        if order.left > 0 {
            position.buys -= order.left;
        } else {
            position.sells += order.left;
        }
        self.remove(at);
        Ok(order.left.abs())
    }

    fn deposit(&mut self, amount: i64) -> Result<i64, Refusal> {
        if !(0..=MOST_AMOUNT).contains(&amount) {
            return Err(11);
        }
        if self.collateral + amount > MOST_AMOUNT {
            return Err(28);
        }
        self.collateral += amount;
        Ok(self.collateral)
    }

    fn withdraw(&mut self, amount: i64) -> Result<i64, Refusal> {
        if !(0..=MOST_AMOUNT).contains(&amount) {
            return Err(11);
        }
        if self.margin().amount > self.collateral - amount {
            return Err(24);
        }
        self.collateral -= amount;
        Ok(self.collateral)
    }

    fn find(&self, number: i64) -> Result<usize, Refusal> {
        self.orders[..self.open].iter().position(|o| o.number == number).ok_or(25)
    }

    fn remove(&mut self, at: usize) {
        self.orders.copy_within(at + 1..self.open, at);
        self.open -= 1;
    }

    // -------------------------------------------------------------- margin

    fn margin(&self) -> Answer {
        let points = 2 * self.bank.half() + 1;
        let mut results = [[0i64; POINTS]; BASKETS];
        let mut columns = [[[0i64; POINTS]; 3]; BASKETS];
        for month in 0..self.cards.month_count {
            let mut cells = [[0i64; POINTS]; COLUMNS];
            for line in 0..self.cards.line_count {
                if self.cards.lines[line] == month {
                    self.add_line(line, points, &mut cells);
                }
            }
            let basket = self.cards.months[month];
            let netted = self.cards.baskets[basket].netted;
            add_month(netted, points, &cells, &mut results[basket], &mut columns[basket]);
        }
        for basket in 0..self.cards.basket_count {
            let [a, b, c] = &columns[basket];
            for point in 0..points {
                results[basket][point] += a[point].min(b[point]).min(c[point]);
            }
        }
        let mut answer = Answer::default();
        let mut total = 0;
        for family in 0..self.cards.family_count {
            let (worst, point) = self.worst(family, points, &results);
            let loss = (-worst).max(0);
            answer.losses[family] = loss;
            answer.points[family] = point;
            total += loss;
        }
        answer.amount = (total + GRAINS - 1) / GRAINS;
        answer
    }

    /// Adds a line's position, orders and charges to its month's cells.
    fn add_line(&self, line: usize, points: usize, cells: &mut [[i64; POINTS]; COLUMNS]) {
        let position = &self.positions[line];
        let mut prices = [[0i64; POINTS]; COLUMNS];
        for column in 0..COLUMNS {
            let cost = if column <= 2 { position.cost } else { 0 };
            for point in 0..points {
                let price = self.bank.price(line, point, column);
                prices[column][point] = price;
                cells[column][point] += position.net * price - cost;
            }
        }
        for order in self.orders[..self.open].iter().filter(|o| o.line == line) {
            for column in 0..COLUMNS {
                let limit = if column <= 2 { GRAINS * order.limit } else { 0 };
                for point in 0..points {
                    cells[column][point] += (order.left * (prices[column][point] - limit)).min(0);
                }
            }
        }
        if line < self.cards.future_count {
            let card = &self.cards.futures[line];
            let long = charge(card, (position.net + position.buys).max(0));
            let short = charge(card, (position.sells - position.net).max(0));
            for column in 0..3 {
                cells[column][0] -= long;
                cells[column][points - 1] -= short;
            }
        }
    }

    /// The least result of a family's row and its first point.
    fn worst(&self, family: usize, points: usize, results: &[[i64; POINTS]; BASKETS]) -> (i64, usize) {
        let Family { netted, window } = self.cards.families[family];
        let mut row = [0i64; POINTS];
        for basket in 0..self.cards.basket_count {
            if self.cards.baskets[basket].family != family {
                continue;
            }
            let result = &results[basket];
            for point in 0..points {
                row[point] += if netted {
                    let first = point.saturating_sub(window);
                    let last = (point + window).min(points - 1);
                    result[first..=last].iter().fold(i64::MAX, |least, &r| least.min(r))
                } else {
                    result[point].min(0)
                };
            }
        }
        let mut found = (row[0], 0);
        for point in 1..points {
            if row[point] < found.0 {
                found = (row[point], point);
            }
        }
        found
    }
}

/// Adds a month to its basket: a netted basket keeps its volatility columns apart.
fn add_month(
    netted: bool,
    points: usize,
    cells: &[[i64; POINTS]; COLUMNS],
    result: &mut [i64; POINTS],
    columns: &mut [[i64; POINTS]; 3],
) {
    for point in 0..points {
        let rate = cells[3][point].min(cells[4][point]).min(0);
        let twist = cells[5][point].min(cells[6][point]).min(0);
        if netted {
            result[point] += rate + twist;
            for v in 0..3 {
                columns[v][point] += cells[v][point];
            }
        } else {
            let worst = cells[0][point].min(cells[1][point]).min(cells[2][point]);
            result[point] += (worst + rate + twist).min(0);
        }
    }
}

fn charge(card: &Future, reach: i64) -> i64 {
    let [r1, r2, r3] = card.rates;
    let [a, b] = card.limits;
    8 * card.spot * ((r2 - r1) * (reach - a).max(0) + (r3 - r2) * (reach - b).max(0))
}

// ------------------------------------------------------------------ a good session file

#[derive(Default)]
struct Session {
    half: usize,
    cards: Cards,
    prices: Vec<i64>,
    cash: i64,
    held: Vec<[i64; 3]>,
    orders: Vec<[i64; 3]>,
}

/// Reads a session file that is known to be good.
fn read(text: &str) -> Session {
    let mut session = Session::default();
    for line in text.lines() {
        let words: Vec<&str> = line.split(['(', ')', ' ']).filter(|w| !w.is_empty()).collect();
        let numbers: Vec<i64> = words.iter().filter_map(|w| w.parse().ok()).collect();
        keep(&mut session, words[0], &numbers);
    }
    session
}

fn keep(session: &mut Session, head: &str, numbers: &[i64]) {
    let cards = &mut session.cards;
    match (head, numbers) {
        ("grid", &[half]) => session.half = half as usize,
        ("family", &[rule, window]) => {
            cards.families[cards.family_count] = Family { netted: rule == 1, window: window as usize };
            cards.family_count += 1;
        }
        ("basket", &[family, rule]) => {
            cards.baskets[cards.basket_count] = Basket { family: family as usize, netted: rule == 1 };
            cards.basket_count += 1;
        }
        ("month", &[basket]) => {
            cards.months[cards.month_count] = basket as usize;
            cards.month_count += 1;
        }
        ("future", &[month, price, spot, change, r1, r2, r3, a, b]) => {
            cards.lines[cards.line_count] = month as usize;
            cards.futures[cards.future_count] =
                Future { price, spot, change, rates: [r1, r2, r3], limits: [a, b] };
            cards.line_count += 1;
            cards.future_count += 1;
        }
        ("option", &[month]) => {
            cards.lines[cards.line_count] = month as usize;
            cards.line_count += 1;
        }
        ("row", [_, _, prices @ ..]) => session.prices.extend_from_slice(prices),
        ("cash", &[amount]) => session.cash = amount,
        ("held", &[line, net, price]) => session.held.push([line, net, price]),
        ("order", &[line, net, price]) => session.orders.push([line, net, price]),
        _ => panic!("not a good session file: {head}"),
    }
}

fn strip_of(session: &Session) -> Strip {
    let Session { half, cards, .. } = session;
    Strip { half: *half, lines: cards.future_count, cards: cards.futures }
}

fn pair_of(session: &Session) -> Pair<Strip, Table<'_>> {
    let cards = &session.cards;
    let lines = cards.line_count - cards.future_count;
    let table = Table { half: session.half, lines, entries: &session.prices };
    Pair { first: strip_of(session), second: table }
}

// ------------------------------------------------------------------ the day

fn refused(out: &mut impl Write, number: Refusal) {
    writeln!(out, "(refused (number {number}) (place 0))").unwrap();
}

fn print_margin<B: Bank>(out: &mut impl Write, account: &Account<B>) -> Answer {
    let answer = account.margin();
    writeln!(out, "(margin {})", answer.amount).unwrap();
    for family in 0..account.cards.family_count {
        let (loss, point) = (answer.losses[family], answer.points[family]);
        if loss == 0 {
            writeln!(out, "(family {family} (loss 0) (out))").unwrap();
        } else {
            writeln!(out, "(family {family} (loss {loss}) (point {point}))").unwrap();
        }
    }
    writeln!(out, "(free {})", account.collateral - answer.amount).unwrap();
    answer
}

fn run_day<'b, B: Bank>(out: &mut impl Write, bank: &'b B, session: &Session) -> Option<Account<'b, B>> {
    let mut account = match Account::begin(bank, session.cards, session.cash, &session.held) {
        Ok(account) => account,
        Err(number) => {
            refused(out, number);
            return None;
        }
    };
    for &[line, net, price] in &session.orders {
        match account.place(line, net, price) {
            Ok(number) => writeln!(out, "(order {number})").unwrap(),
            Err(number) => refused(out, number),
        }
    }
    print_margin(out, &account);
    Some(account)
}

fn run_calls<B: Bank>(out: &mut impl Write, account: &mut Account<B>, script: &str) {
    for line in script.lines() {
        let mut words = line.split(' ');
        let name = words.next().unwrap();
        let numbers: Vec<i64> = words.map(|w| w.parse().unwrap()).collect();
        let answer = match (name, numbers.as_slice()) {
            ("place", &[line, quantity, limit]) => account.place(line, quantity, limit),
            ("fill", &[number, quantity, price]) => account.fill(number, quantity, price),
            ("cancel", &[number]) => account.cancel(number),
            ("deposit", &[amount]) => account.deposit(amount),
            ("withdraw", &[amount]) => account.withdraw(amount),
            _ => {
                let answer = print_margin(out, account);
                let costliest = (answer.losses[1] > answer.losses[0]) as usize;
                writeln!(out, "(costliest {costliest})").unwrap();
                continue;
            }
        };
        match answer {
            Ok(answer) => writeln!(out, "({name} {answer})").unwrap(),
            Err(number) => refused(out, number),
        }
    }
}

fn run<B: Bank>(bank: &B, session: &Session, script: Option<&str>) {
    let mut out = std::io::stdout().lock();
    let account = run_day(&mut out, bank, session);
    if let (Some(mut account), Some(script)) = (account, script) {
        run_calls(&mut out, &mut account, script);
    }
}

// ------------------------------------------------------------------ timing

/// Prints the best of five rounds: other work on the machine only slows a round.
fn report(what: &str, mut round: impl FnMut() -> f64) {
    let seconds = (0..5).map(|_| round()).fold(f64::INFINITY, f64::min);
    println!("  {what:<20} {:>12.0} calls a second {:>10.1} ns each", 1.0 / seconds, seconds * 1e9);
}

/// Seconds for each call, as in the functions below.
fn time_margin<B: Bank>(account: &Account<B>, calls: u64) -> f64 {
    let start = Instant::now();
    for _ in 0..calls {
        black_box(black_box(account).margin());
    }
    start.elapsed().as_secs_f64() / calls as f64
}

/// Places orders of one contract in the last place of the list; each is cancelled again.
fn time_place<B: Bank>(account: &Account<B>, calls: u64) -> f64 {
    let mut full = account.clone();
    let last = full.orders[full.open - 1];
    full.cancel(last.number).unwrap();
    let lines = full.cards.line_count as i64;
    let (mut done, mut seconds) = (0, 0.0);
    while done < calls {
        let mut account = full.clone();
        let start = Instant::now();
        for n in 0..1_000 {
            let side = if n % 2 == 0 { 1 } else { -1 };
            let number = account.place(black_box(n % lines), side, last.limit).unwrap();
            black_box(account.cancel(number).unwrap());
        }
        seconds += start.elapsed().as_secs_f64();
        done += 1_000;
    }
    seconds / done as f64
}

/// Fills each open order a contract at a time, in turn, until little is left.
fn time_fill<B: Bank>(account: &Account<B>, calls: u64) -> f64 {
    let rounds = account.orders[..account.open].iter().map(|o| o.left.abs()).min().unwrap() - 1;
    let (mut done, mut seconds) = (0, 0.0);
    while done < calls {
        let mut account = account.clone();
        let start = Instant::now();
        for _ in 0..rounds {
            for at in 0..account.open {
                let Order { number, limit, .. } = account.orders[at];
                black_box(account.fill(black_box(number), 1, limit).unwrap());
            }
        }
        seconds += start.elapsed().as_secs_f64();
        done += rounds as u64 * account.open as u64;
    }
    seconds / done as f64
}

fn time_all<B: Bank>(name: &str, bank: &B, session: &Session, calls: u64) {
    let mut nowhere = std::io::sink();
    let account = run_day(&mut nowhere, bank, session).expect("begin was refused");
    println!(
        "{name}: {} lines, half {}, {} open orders",
        bank.lines(), bank.half(), account.open
    );
    report("place (and cancel)", || time_place(&account, calls));
    report("fill", || time_fill(&account, 50 * calls));
    report("margin", || time_margin(&account, calls));
}

fn main() {
    let arguments: Vec<String> = std::env::args().skip(1).collect();
    if arguments.is_empty() {
        let wide = read(include_str!("wide.session"));
        time_all("wide", &pair_of(&wide), &wide, 50_000);
        let small = read(include_str!("small.session"));
        time_all("small", &strip_of(&small), &small, 1_000_000);
        return;
    }
    let mut text = String::new();
    std::io::stdin().read_to_string(&mut text).unwrap();
    let session = read(&text);
    let script = arguments.get(1).map(|path| std::fs::read_to_string(path).unwrap());
    if session.prices.is_empty() {
        run(&strip_of(&session), &session, script.as_deref());
    } else {
        run(&pair_of(&session), &session, script.as_deref());
    }
}
