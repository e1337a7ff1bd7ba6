//! The linear program of a game and its path by Bland's rule, on whole-number rows.
//!
//! After the opening only the unlisted columns are kept: a row has its own column's number, the
//! right side and one number per unlisted column, and is 0 everywhere else.

use crate::game::EndKind;
use crate::seq::{Abstract, Frac, Plan, choices, first_plan};

pub struct Program {
    pub rows: usize,
    pub cols: usize,
    pub free: Vec<bool>,
    /// each row as (column, number), and its right side
    pub numbers: Vec<(Vec<(u32, i64)>, i64)>,
    /// the aim as (column, number)
    pub aim: Vec<(u32, i64)>,
    pub opening: Vec<(u32, u32)>,
    pub seqs: [usize; 2],
}

pub enum Stop {
    Table(u64),
    Wide { step: u64, row: usize, col: usize, number: i128 },
    Pivots,
    Unbounded(usize),
    Total(u8, u128),
}

impl Stop {
    pub fn line(&self) -> (i32, String) {
        match self {
            Stop::Table(n) => (11, format!("too large: table numbers: {n}")),
            Stop::Wide { step, row, col, number } => (9, format!("overflow: step {step} row {row} column {col} number {number}")),
            Stop::Pivots => (10, "more than 8192 pivots".into()),
            Stop::Unbounded(c) => (99, format!("unbounded: column {c}")),
            Stop::Total(p, n) => (9, format!("overflow: player {p} total {n}")),
        }
    }
}

/// The program of a game in sequence form; columns count from 0. `limit` is on the table's numbers.
pub fn program(a: &Abstract, limit: u64) -> Result<Program, Stop> {
    let g = a.game;
    let classes = |p: u32| a.c.count(g.points[p as usize].round as usize);
    let pairs = |pl: u8| -> Vec<(u32, usize)> {
        let of = |i: u32| (0..classes(i)).map(move |k| (i, k));
        (0..g.points.len() as u32).filter(|&i| g.points[i as usize].player == pl).flat_map(of).collect()
    };
    let (p1, p2) = (pairs(0), pairs(1));
    let seqs = [a.slots[0] + 1, a.slots[1] + 1];
    let rows = 1 + p1.len() + seqs[1];
    let cols = seqs[0] + 1 + p2.len() + seqs[1];
    let count = (rows as u64 + 1) * (cols as u64 + 1);
    if count > limit {
        return Err(Stop::Table(count));
    }
    let q0 = seqs[0];
    let slack = q0 + 1 + p2.len();
    let before = |i: u32, k: usize| {
        let p = &g.points[i as usize];
        p.own.map_or(0, |st| 1 + a.slot(st, p.round as usize, k))
    };
    let mut numbers: Vec<(Vec<(u32, i64)>, i64)> = vec![(vec![(0, 1)], 1)];
    for &(i, k) in &p1 {
        let at = 1 + a.offset[i as usize] as usize + k * g.points[i as usize].moves.len();
        let mut r = vec![(before(i, k) as u32, -1)];
        r.extend((at..at + g.points[i as usize].moves.len()).map(|c| (c as u32, 1)));
        numbers.push((r, 0));
    }
    // the rows of player 2's sequences
    let mut two: Vec<std::collections::BTreeMap<u32, i64>> = vec![Default::default(); seqs[1]];
    two[0].insert(q0 as u32, 1);
    for (n, &(i, k)) in p2.iter().enumerate() {
        let col = (q0 + 1 + n) as u32;
        let m = g.points[i as usize].moves.len();
        let at = 1 + a.offset[i as usize] as usize + k * m;
        for r in &mut two[at..at + m] {
            *r.entry(col).or_default() += 1;
        }
        *two[before(i, k)].entry(col).or_default() -= 1;
    }
    for z in &g.ends {
        let j = z.round as usize;
        let rows = a.rows[j].as_ref().unwrap();
        let seq = |p: usize, k: usize| z.last[p].map_or(0, |st| 1 + a.slot(st, j, k));
        for k in 0..a.c.count(j) {
            let s1 = seq(0, k) as u32;
            for e in rows.row(k) {
                let pay = g.pay(z) * if z.kind == EndKind::Show { e.signed } else { e.weight } as i64;
                *two[seq(1, e.two as usize)].entry(s1).or_default() -= pay;
            }
        }
    }
    for (n, r) in two.into_iter().enumerate() {
        let mut r: Vec<(u32, i64)> = r.into_iter().filter(|x| x.1 != 0).collect();
        r.push(((slack + n) as u32, 1));
        numbers.push((r, 0));
    }
    let mut free = vec![false; cols];
    free[q0..slack].fill(true);
    // the opening, in the order of its columns
    let mut opening = vec![(0u32, 0u32)];
    let mut chosen = vec![false; seqs[1]];
    for (n, &(i, k)) in p1.iter().enumerate() {
        opening.push((1 + n as u32, 1 + a.offset[i as usize] + (k * g.points[i as usize].moves.len()) as u32));
    }
    let two_row = |q: usize| (1 + p1.len() + q) as u32;
    opening.push((two_row(0), q0 as u32));
    chosen[0] = true;
    let best = choices(a, 1, &first_plan(a, 0));
    for (n, &(i, k)) in p2.iter().enumerate() {
        let q = 1 + a.offset[i as usize] as usize + k * g.points[i as usize].moves.len() + best[n] as usize;
        chosen[q] = true;
        opening.push((two_row(q), (q0 + 1 + n) as u32));
    }
    for q in 0..seqs[1] {
        if !chosen[q] {
            opening.push((two_row(q), (slack + q) as u32));
        }
    }
    Ok(Program { rows, cols, free, numbers, aim: vec![(q0 as u32, 1)], opening, seqs })
}

pub struct Best {
    pub start: Frac,
    pub aim: Frac,
    pub turns: Vec<(u32, u32)>,
    pub value: Vec<Frac>,
    pub price: Vec<Frac>,
}

fn gcd64(mut a: u64, mut b: u64) -> u64 {
    if a == 0 || b == 0 {
        return a | b;
    }
    let z = (a | b).trailing_zeros();
    a >>= a.trailing_zeros();
    while b != 0 {
        b >>= b.trailing_zeros();
        if a > b {
            (a, b) = (b, a);
        }
        b -= a;
    }
    a << z
}

fn gcd128(mut a: u128, mut b: u128) -> u128 {
    while a >> 64 != 0 || b >> 64 != 0 {
        if b == 0 {
            return a;
        }
        (a, b) = (b, a % b);
    }
    gcd64(a as u64, b as u64) as u128
}

const WIDE: u128 = 1 << 62;

/// The inverse of an odd number modulo 2^64.
fn inverse(odd: u64) -> u64 {
    let mut x = odd.wrapping_mul(3) ^ 2;
    for _ in 0..4 {
        x = x.wrapping_mul(2u64.wrapping_sub(odd.wrapping_mul(x)));
    }
    x
}

/// A divisor with what is needed to test and to divide by it quickly.
struct Divisor {
    g: u64,
    shift: u32,
    inverse: u64,
    most: u64,
    low: i64,
}

impl Divisor {
    /// Condition: `g` is from 1 to 2^63 - 1.
    fn of(g: u64) -> Divisor {
        let shift = g.trailing_zeros();
        Divisor { g, shift, inverse: inverse(g >> shift), most: i64::MAX as u64 / g, low: (1 << shift) - 1 }
    }
    /// The quotient, where it is one.
    #[inline(always)]
    fn quotient(&self, x: i64) -> i64 {
        ((x >> self.shift) as u64).wrapping_mul(self.inverse) as i64
    }
    #[inline(always)]
    fn divides(&self, x: i64) -> bool {
        // a quotient of size at most `most`, and no low bit
        let q = (self.quotient(x) as u64).wrapping_add(self.most);
        (q <= 2 * self.most) & (x & self.low == 0)
    }
}

/// The size of a number, or one less.
#[inline(always)]
fn near(x: i64) -> u64 {
    (x ^ (x >> 63)) as u64
}

/// `row = (p * row - a * pivot) / gcd`, in place; `nz` are the places where `pivot` is not 0. `g` is
/// a multiple of the common divisor, or 0. The answer is a bound on the numbers' size. `Err`: some
/// number is 2^62 or more in size; then `wide` has the true numbers.
fn combine(row: &mut [i64], pivot: &[i64], nz: &[u32], p: i64, a: i64, g: u128, tops: (u64, u64), wide: &mut Vec<i128>) -> Result<u64, ()> {
    let bound = |top: u64| p as u128 * top as u128 + a.unsigned_abs() as u128 * tops.1 as u128;
    let mut top = tops.0;
    if bound(top) >= 1 << 63 {
        top = row.iter().fold(0, |t, x| t.max(x.unsigned_abs()));
        if bound(top) >= 1 << 63 {
            return combine_wide(row, pivot, p, a, g, wide);
        }
    }
    let mut bits = 0;
    if p != 1 {
        for x in row.iter_mut() {
            *x *= p;
            bits |= near(*x);
        }
    } else {
        bits = top;
    }
    for &k in nz {
        let x = &mut row[k as usize];
        *x -= pivot[k as usize] * a;
        bits |= near(*x);
    }
    top = bits + 1;
    let mut g = g as u64;
    if g == 0 {
        match row.iter().find(|x| **x != 0) {
            None => return Ok(0),
            Some(x) => g = x.unsigned_abs(),
        }
    }
    if g > 1 {
        let mut d = Divisor::of(g);
        for chunk in row.rchunks(8) {
            if d.g == 1 {
                break;
            }
            if chunk.iter().fold(true, |t, &x| t & d.divides(x)) {
                continue;
            }
            for &x in chunk.iter().filter(|x| **x != 0) {
                if !d.divides(x) {
                    d = Divisor::of(gcd64(d.g, x.unsigned_abs()));
                }
            }
        }
        if d.g > 1 {
            row.iter_mut().for_each(|x| *x = d.quotient(*x));
            top /= d.g;
        }
    }
    if top as u128 >= WIDE {
        // the bound is loose
        top = row.iter().fold(0, |t, x| t.max(x.unsigned_abs()));
        if top as u128 >= WIDE {
            wide.clear();
            wide.extend(row.iter().map(|&x| x as i128));
            return Err(());
        }
    }
    Ok(top)
}

fn combine_wide(row: &mut [i64], pivot: &[i64], p: i64, a: i64, mut g: u128, wide: &mut Vec<i128>) -> Result<u64, ()> {
    wide.clear();
    wide.extend(row.iter().zip(pivot).map(|(&x, &y)| x as i128 * p as i128 - y as i128 * a as i128));
    for &x in wide.iter().rev() {
        if g == 1 {
            break;
        }
        if g >> 63 != 0 || g == 0 {
            g = gcd128(g, x.unsigned_abs());
        } else if x != 0 {
            // a quotient below 2^63 in size is found by the inverse and shown by one product
            let d = Divisor::of(g as u64);
            let q = ((x >> d.shift) as u64).wrapping_mul(d.inverse) as i64;
            if q as i128 * g as i128 != x {
                g = gcd128(g, x.unsigned_abs());
            }
        }
    }
    if g == 0 {
        row.fill(0);
        return Ok(0);
    }
    let mut top = 0u128;
    if g >> 63 != 0 {
        for x in wide.iter_mut() {
            *x /= g as i128;
            top = top.max(x.unsigned_abs());
        }
    } else {
        let d = Divisor::of(g as u64);
        for x in wide.iter_mut() {
            let q = ((*x >> d.shift) as u64).wrapping_mul(d.inverse) as i64;
            *x = if q as i128 * g as i128 == *x { q as i128 } else { *x / g as i128 };
            top = top.max(x.unsigned_abs());
        }
    }
    if top >= WIDE {
        return Err(());
    }
    row.iter_mut().zip(wide.iter()).for_each(|(r, &x)| *r = x as i64);
    Ok(top as u64)
}

/// Rows of one length, each with numbers for `n` slots, then the right side, then the own number.
/// The aim's row stands last. It is `sum(number * column) = multiple * aim - last`, so its right side
/// is minus its last number, and the multiple is its own number; a step changes it as any other row.
struct Table {
    n: usize,
    stride: usize,
    data: Vec<i64>,
    /// no number of the row is greater in size
    top: Vec<u64>,
    /// listed column of each row
    listed: Vec<u32>,
    /// column of each slot
    slot: Vec<u32>,
    wide: Vec<i128>,
    mine: Vec<i64>,
    others: Vec<i64>,
    nz: Vec<u32>,
}

impl Table {
    fn row(&self, i: usize) -> &[i64] {
        &self.data[i * self.stride..i * self.stride + self.n + 2]
    }

    /// One pivot: row `r` is listed with the column of slot `e`, and the column that was listed takes
    /// the slot. `Err` names row, column and number of the first wide number.
    fn pivot(&mut self, r: usize, e: usize, m: usize) -> Result<(), (usize, usize, i128)> {
        let (n, stride) = (self.n, self.stride);
        let (rhs, own) = (n, n + 1);
        let from = r * stride;
        self.mine.clear();
        self.mine.extend_from_slice(&self.data[from..from + n + 2]);
        let (p, old_own) = (self.mine[e], self.mine[own]);
        self.mine[e] = old_own;
        self.mine[own] = p;
        // what is taken from the others: in the slot now stands the leaving column, and their own
        // numbers stay
        self.others.clear();
        self.others.extend_from_slice(&self.mine);
        self.others[own] = 0;
        self.nz.clear();
        self.nz.extend((0..n + 2).filter(|&k| self.others[k] != 0).map(|k| k as u32));
        std::mem::swap(&mut self.listed[r], &mut self.slot[e]);
        for i in (0..=m).filter(|&i| i != r) {
            let row = &mut self.data[i * stride..i * stride + n + 2];
            let a = row[e];
            if a == 0 {
                continue;
            }
            let h = gcd64(p as u64, a.unsigned_abs()) as i64;
            let (ps, a) = (p / h, a / h);
            row[e] = 0;
            // two numbers of the new row to begin the divisor with
            let (x, y) = (row[own].unsigned_abs() as u128 * ps as u128, old_own as u128 * a.unsigned_abs() as u128);
            let g = gcd128(x, y);
            let tops = (self.top[i], self.top[r]);
            match combine(row, &self.others, &self.nz, ps, a, g, tops, &mut self.wide) {
                Ok(top) => self.top[i] = top,
                Err(()) => {
                    let col = |k: usize| match k {
                        _ if k == rhs => usize::MAX - 1,
                        _ if k == own && i == m => usize::MAX,
                        _ if k == own => self.listed[i] as usize,
                        _ => self.slot[k] as usize,
                    };
                    let k = (0..n + 2).filter(|&k| self.wide[k].unsigned_abs() >= WIDE).min_by_key(|&k| col(k)).unwrap();
                    return Err((i, col(k), if i == m && k == rhs { -self.wide[k] } else { self.wide[k] }));
                }
            }
        }
        self.data[from..from + n + 2].copy_from_slice(&self.mine);
        Ok(())
    }
}

/// A sparse row: (column, number) by column; the right side stands at `usize::MAX - 1`, the aim's
/// multiple at `usize::MAX`.
type Sparse = Vec<(usize, i128)>;

fn primitive(row: &mut Sparse) {
    let mut g = 0;
    for x in row.iter() {
        g = gcd128(g, x.1.unsigned_abs());
        if g == 1 {
            return;
        }
    }
    if g > 1 {
        row.iter_mut().for_each(|x| x.1 /= g as i128);
    }
}

/// The steps of the opening, on sparse rows; the aim's row is the last.
fn open(p: &Program) -> Result<Vec<Sparse>, (u64, usize, usize, i128)> {
    const RHS: usize = usize::MAX - 1;
    let mut rows: Vec<Sparse> = Vec::new();
    for (r, rhs) in &p.numbers {
        let mut row: Sparse = r.iter().filter(|x| x.1 != 0).map(|&(c, x)| (c as usize, x as i128)).collect();
        row.sort_unstable();
        if *rhs != 0 {
            row.push((RHS, *rhs as i128));
        }
        rows.push(row);
    }
    let mut aim: Sparse = p.aim.iter().filter(|x| x.1 != 0).map(|&(c, x)| (c as usize, x as i128)).collect();
    aim.push((usize::MAX, 1));
    rows.push(aim);
    // the rows that have, or once had, a number in each column
    let mut places: Vec<Vec<u32>> = vec![vec![]; p.cols];
    for (i, row) in rows.iter_mut().enumerate() {
        primitive(row);
        row.iter().filter(|x| x.0 < p.cols).for_each(|x| places[x.0].push(i as u32));
    }
    for (step, &(r, c)) in p.opening.iter().enumerate() {
        let (r, c) = (r as usize, c as usize);
        let find = |row: &Sparse| row.binary_search_by_key(&c, |x| x.0).map_or(0, |k| row[k].1);
        let mut pivot = std::mem::take(&mut rows[r]);
        let mut q = find(&pivot);
        if q < 0 {
            pivot.iter_mut().for_each(|x| x.1 = -x.1);
            q = -q;
        }
        let mut at = std::mem::take(&mut places[c]);
        at.sort_unstable();
        at.dedup();
        for &i in at.iter().filter(|i| **i as usize != r) {
            let a = find(&rows[i as usize]);
            if a == 0 {
                continue;
            }
            let h = gcd128(q as u128, a.unsigned_abs()) as i128;
            let (q, a) = (q / h, a / h);
            let row = std::mem::take(&mut rows[i as usize]);
            let mut new: Sparse = Vec::with_capacity(row.len() + pivot.len());
            let (mut x, mut y) = (row.iter().peekable(), pivot.iter().peekable());
            loop {
                let (cx, cy) = (x.peek().map(|e| e.0), y.peek().map(|e| e.0));
                let (col, n) = match (cx, cy) {
                    (None, None) => break,
                    (Some(k), l) if l.is_none_or(|l| k < l) => (k, q * x.next().unwrap().1),
                    (k, Some(l)) if k.is_none_or(|k| l < k) => {
                        if l < p.cols {
                            places[l].push(i);
                        }
                        (l, -a * y.next().unwrap().1)
                    }
                    (Some(k), _) => (k, q * x.next().unwrap().1 - a * y.next().unwrap().1),
                    _ => unreachable!(),
                };
                if n != 0 {
                    new.push((col, n));
                }
            }
            primitive(&mut new);
            if let Some(&(col, n)) = new.iter().find(|x| x.1.unsigned_abs() >= WIDE) {
                let n = if col == RHS && i as usize == p.rows { -n } else { n };
                return Err((step as u64 + 1, i as usize, col, n));
            }
            rows[i as usize] = new;
        }
        places[c].push(r as u32);
        rows[r] = pivot;
    }
    Ok(rows)
}

/// The path from the opening, with at most `limit` pivots.
pub fn run(p: &Program, limit: u64) -> Result<Best, Stop> {
    let (m, cols) = (p.rows, p.cols);
    let wide = |step: u64, (row, col, number): (usize, usize, i128)| {
        let col = match col {
            usize::MAX => cols + 2,
            c if c == usize::MAX - 1 => cols + 1,
            c => c + 1,
        };
        Stop::Wide { step, row: row + 1, col, number }
    };
    let rows = open(p).map_err(|(step, r, c, n)| wide(step, (r, c, n)))?;
    let mut step = p.opening.len() as u64;
    let mut listed = vec![u32::MAX; m + 1];
    let mut place = vec![usize::MAX; cols];
    p.opening.iter().for_each(|&(r, c)| listed[r as usize] = c);
    let mut slot: Vec<u32> = Vec::new();
    for c in 0..cols as u32 {
        slot.push(c);
    }
    let taken: std::collections::HashSet<u32> = listed.iter().copied().collect();
    slot.retain(|c| !taken.contains(c));
    slot.iter().enumerate().for_each(|(k, &c)| place[c as usize] = k);
    let n = slot.len();
    let ns = n + 2;
    let mut data = vec![0i64; (m + 1) * ns];
    let mut top = Vec::with_capacity(m + 1);
    for (i, row) in rows.iter().enumerate() {
        for &(c, x) in row {
            let k = match c {
                usize::MAX => n + 1,
                c if c == usize::MAX - 1 => n,
                c if c == listed[i] as usize => n + 1,
                c => place[c],
            };
            data[i * ns + k] = x as i64;
        }
        top.push(row.iter().map(|x| x.1.unsigned_abs() as u64).max().unwrap_or(0));
    }
    drop(rows);
    let mut t = Table { n, stride: ns, data, top, listed, slot, wide: vec![], mine: vec![], others: vec![], nz: vec![] };
    let aim_of = |t: &Table| Frac::new(-(t.row(m)[n] as i128), t.row(m)[n + 1] as i128);
    let start = aim_of(&t);
    let mut turns: Vec<(u32, u32)> = Vec::new();
    loop {
        let aim = t.row(m);
        let Some(e) = (0..n).filter(|&s| aim[s] > 0).min_by_key(|&s| t.slot[s]) else { break };
        let mut leave: Option<(usize, i64, i64)> = None;
        for i in 0..m {
            let a = t.data[i * ns + e];
            if a <= 0 || p.free[t.listed[i] as usize] {
                continue;
            }
            let b = t.data[i * ns + n];
            let less = match leave {
                None => true,
                Some((k, a0, b0)) => {
                    let (x, y) = (b as i128 * a0 as i128, b0 as i128 * a as i128);
                    x < y || x == y && t.listed[i] < t.listed[k]
                }
            };
            if less {
                leave = Some((i, a, b));
            }
        }
        let Some((r, _, _)) = leave else { return Err(Stop::Unbounded(t.slot[e] as usize + 1)) };
        if turns.len() as u64 == limit {
            return Err(Stop::Pivots);
        }
        step += 1;
        turns.push((t.slot[e] + 1, t.listed[r] + 1));
        t.pivot(r, e, m).map_err(|w| wide(step, w))?;
    }
    let mut value = vec![Frac(0, 1); cols];
    let mut price = vec![Frac(0, 1); cols];
    for i in 0..m {
        value[t.listed[i] as usize] = Frac::new(t.row(i)[n] as i128, t.row(i)[n + 1] as i128);
    }
    let aim = t.row(m);
    for s in 0..n {
        price[t.slot[s] as usize] = Frac::new(-(aim[s] as i128), aim[n + 1] as i128);
    }
    Ok(Best { start, aim: aim_of(&t), turns, value, price })
}

/// The plans at the last basis, each with its least total.
pub fn plans(p: &Program, b: &Best) -> Result<[Plan; 2], Stop> {
    let slack = p.cols - p.seqs[1];
    let lists = [&b.value[..p.seqs[0]], &b.price[slack..]];
    let mut out = Vec::new();
    for (i, l) in lists.iter().enumerate() {
        let mut total = 1u128;
        for f in *l {
            let d = f.1 as u128;
            total = total / gcd128(total, d) * d;
            if total > 1 << 36 {
                return Err(Stop::Total(i as u8 + 1, total));
            }
        }
        let weights = l[1..].iter().map(|f| (f.0 * (total as i128 / f.1)) as u64).collect();
        out.push(Plan { total: total as u64, weights });
    }
    Ok(out.try_into().unwrap())
}
