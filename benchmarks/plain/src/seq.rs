//! Sequence form over classes, best answers, the verdict, and fictitious play.

use crate::classes::{Classes, Ranked, ranked};
use crate::game::{EndKind, Game, Step, Target};
use crate::signals::Signals;
use std::ops::{Add, AddAssign, Mul, Sub};

pub trait Num: Copy + Ord + Default + From<i64> + AddAssign + Add<Output = Self> + Sub<Output = Self> + Mul<Output = Self> {
    fn wide(self) -> i128;
}
impl Num for i64 {
    fn wide(self) -> i128 {
        self as i128
    }
}
impl Num for i128 {
    fn wide(self) -> i128 {
        self
    }
}

#[derive(Clone, Copy)]
pub struct Pair {
    pub two: u32,
    pub weight: i32,
    pub signed: i32,
}

/// The sums by class pair of one round, by the class of the one player: kept as lists, or, for
/// single signals with one own card, read off the order of hands on each board.
pub enum Rows {
    Kept { start: Vec<u32>, pairs: Vec<Pair> },
    Boards { ranked: Ranked, rest: i64 },
}

impl Rows {
    pub fn row(&self, c: usize) -> &[Pair] {
        match self {
            Rows::Kept { start, pairs } => &pairs[start[c] as usize..start[c + 1] as usize],
            Rows::Boards { .. } => unreachable!(),
        }
    }

    fn pairs(&self) -> u64 {
        match self {
            Rows::Kept { pairs, .. } => pairs.len() as u64,
            Rows::Boards { ranked, .. } => {
                let mut n = 0;
                ranked.boards(|runs| {
                    let m = (runs[runs.len() - 1] - runs[0]) as u64;
                    n += m * (m - 1);
                });
                n
            }
        }
    }

    /// Sums for up to `keep` pairs are always kept as lists.
    fn of(s: &Signals, c: &Classes, j: usize, keep: u64) -> Rows {
        let last = j == s.last();
        let n = c.count(j);
        let list = &c.lists[j];
        let rest = s.levels[j].rest as i64;
        let small = keep > 0 && s.levels[j].board_start.windows(2).map(|w| (w[1] - w[0]) as u64).map(|n| n * n).sum::<u64>() <= keep;
        if !small && n == list.len() && s.unit && s.levels[j].own == 1 && s.game.bonus.iter().all(|&b| b == 1) {
            return Rows::Boards { ranked: ranked(s, j), rest };
        }
        let mut start = Vec::with_capacity(n + 1);
        let mut pairs: Vec<Pair> = Vec::new();
        let mut place = vec![u32::MAX; n];
        for k in 0..n {
            let from = pairs.len();
            start.push(from as u32);
            // equal sums for each member: the first one, taken as often as there are members
            let x = c.first[j][k];
            let unit = s.down(j, x) as i64 * rest * c.size[j][k] as i64;
            s.each(j, x, |t, w| {
                let k2 = list[t as usize];
                let w = (unit * w as i64) as i32;
                let o = if last { s.outcome(x, t) } else { 0 };
                let p = place[k2 as usize];
                if p == u32::MAX {
                    place[k2 as usize] = pairs.len() as u32;
                    pairs.push(Pair { two: k2, weight: w, signed: w * o });
                } else {
                    pairs[p as usize].weight += w;
                    pairs[p as usize].signed += w * o;
                }
            });
            let new = &mut pairs[from..];
            for p in new.iter() {
                place[p.two as usize] = u32::MAX;
            }
            new.sort_unstable_by_key(|p| p.two);
        }
        start.push(pairs.len() as u32);
        Rows::Kept { start, pairs }
    }
}

#[derive(Clone, Debug, PartialEq)]
pub struct Plan {
    pub total: u64,
    pub weights: Vec<u64>,
}

pub struct Abstract<'a> {
    pub game: &'a Game,
    pub c: &'a Classes,
    /// first slot of each point, within its player's slots
    pub offset: Vec<u32>,
    pub slots: [usize; 2],
    /// `up[j][i][k]`: the class in round i that class k of round j descends from
    pub up: Vec<Vec<Vec<u32>>>,
    pub rows: Vec<Option<Rows>>,
}

impl<'a> Abstract<'a> {
    pub fn of(s: &'a Signals<'a>, c: &'a Classes, cells_limit: u64, keep: u64) -> Result<Abstract<'a>, String> {
        let mut a = Abstract::bare(s, c);
        if cells_limit < 5_000_000 {
            for p in 0..2 {
                if a.slots[p] + 1 > 262_144 {
                    return Err(format!("too large: sequences of player {}: {}", p + 1, a.slots[p] + 1));
                }
            }
        }
        let mut ends = vec![0u64; a.game.rounds()];
        for z in &a.game.ends {
            ends[z.round as usize] += 1;
        }
        a.rows = (0..ends.len()).map(|j| (ends[j] > 0).then(|| Rows::of(s, c, j, keep))).collect();
        let cells: u64 = a.rows.iter().zip(&ends).map(|(r, n)| r.as_ref().map_or(0, |r| r.pairs() * n)).sum();
        if cells > cells_limit {
            return Err(format!("too large: {}cells: {cells}", if cells_limit > 5_000_000 { "raw " } else { "" }));
        }
        Ok(a)
    }

    /// Without the sums: enough for the order of slots.
    pub fn bare(s: &'a Signals<'a>, c: &'a Classes) -> Abstract<'a> {
        let (game, mut offset, mut slots) = (s.game, Vec::new(), [0usize; 2]);
        for p in &game.points {
            offset.push(slots[p.player as usize] as u32);
            slots[p.player as usize] += c.count(p.round as usize) * p.moves.len();
        }
        let mut up: Vec<Vec<Vec<u32>>> = Vec::new();
        for j in 0..game.rounds() {
            let mut lists: Vec<Vec<u32>> = Vec::new();
            for i in 0..j {
                lists.push(c.parent[j].iter().map(|&p| up[j - 1][i][p as usize]).collect());
            }
            lists.push((0..c.count(j) as u32).collect());
            up.push(lists);
        }
        Abstract { game, c, offset, slots, up, rows: vec![] }
    }

    /// The slot of a step for a class of round `j`.
    #[inline]
    pub fn slot(&self, step: Step, j: usize, class: usize) -> usize {
        let p = &self.game.points[step.0 as usize];
        let k = self.up[j][p.round as usize][class];
        self.offset[step.0 as usize] as usize + k as usize * p.moves.len() + step.1 as usize
    }

    fn gate(&self, step: Option<Step>, j: usize) -> Vec<u32> {
        match step {
            None => vec![],
            Some(step) => (0..self.c.count(j)).map(|k| self.slot(step, j, k) as u32).collect(),
        }
    }

    pub fn flow_fault(&self, player: u8, plan: &Plan) -> Option<String> {
        if plan.weights.len() != self.slots[player as usize] {
            return Some("length".into());
        }
        if plan.total == 0 || plan.total > 1 << 36 {
            return Some("total".into());
        }
        for (i, p) in self.game.points.iter().enumerate().filter(|(_, p)| p.player == player) {
            for k in 0..self.c.count(p.round as usize) {
                let at = self.offset[i] as usize + k * p.moves.len();
                let sum: u128 = plan.weights[at..at + p.moves.len()].iter().map(|&w| w as u128).sum();
                let want = p.own.map_or(plan.total, |st| plan.weights[self.slot(st, p.round as usize, k)]);
                if sum != want as u128 {
                    return Some(format!("flow at point {i} class {}", k + 1));
                }
            }
        }
        None
    }
}

/// Ends that look alike to the deviator: one round, one last step of the other player.
struct Group {
    round: usize,
    /// the other's slot per class; empty where the other has made no step
    gate: Vec<u32>,
    weights: Option<usize>,
    signed: Option<usize>,
}

/// A target's numbers: where they stand and what to multiply them with.
#[derive(Clone, Copy)]
struct Source {
    at: usize,
    pay: i64,
}

enum Op {
    /// a target of a later round, added up over the classes that descend from one
    Gather { from: Source, round: usize, to_round: usize, n: usize, dst: usize },
    /// a point; for an own one `choice` is the place of its first choice
    Point { moves: std::ops::Range<usize>, n: usize, dst: usize, choice: Option<usize> },
}

/// An own point: its first slot, its moves, its first choice, and its step before per class.
struct Own {
    slot: usize,
    moves: usize,
    choice: usize,
    n: usize,
    gate: Vec<u32>,
}

/// One player's deviation: the other's numbers pushed through the sums, and the backward pass. All
/// numbers stand in one list: first the sums, then the values, each after what it is made from.
pub struct Side<'a> {
    a: &'a Abstract<'a>,
    groups: Vec<Group>,
    acc_len: usize,
    len: usize,
    /// per end: place and payoff
    ends: Vec<Source>,
    ops: Vec<Op>,
    sources: Vec<Source>,
    pub choice_len: usize,
    own: Vec<Own>,
    start: (Source, usize),
}

impl<'a> Side<'a> {
    pub fn new(a: &'a Abstract<'a>, player: u8) -> Side<'a> {
        let g = a.game;
        let other = 1 - player as usize;
        let mut groups: Vec<Group> = Vec::new();
        let mut keys: std::collections::HashMap<(u8, Option<Step>), usize> = Default::default();
        let mut acc_len = 0;
        let mut ends = Vec::new();
        for z in &g.ends {
            let j = z.round as usize;
            let gi = *keys.entry((z.round, z.last[other])).or_insert_with(|| {
                groups.push(Group { round: j, gate: a.gate(z.last[other], j), weights: None, signed: None });
                groups.len() - 1
            });
            let (place, pay) = match z.kind {
                EndKind::Show => (&mut groups[gi].signed, z.put as i64),
                EndKind::Folded(p) => (&mut groups[gi].weights, if p == player { -(z.put as i64) } else { z.put as i64 }),
            };
            let at = *place.get_or_insert_with(|| {
                acc_len += a.c.count(j);
                acc_len - a.c.count(j)
            });
            ends.push(Source { at, pay });
        }
        let mut choice_len = 0;
        let mut own = Vec::new();
        let mut first = vec![None; g.points.len()];
        for (i, p) in g.points.iter().enumerate().filter(|(_, p)| p.player == player) {
            let n = a.c.count(p.round as usize);
            first[i] = Some(choice_len);
            own.push(Own {
                slot: a.offset[i] as usize,
                moves: p.moves.len(),
                choice: choice_len,
                n,
                gate: a.gate(p.own, p.round as usize),
            });
            choice_len += n;
        }
        let mut len = acc_len;
        let (mut ops, mut sources) = (Vec::new(), Vec::new());
        let mut val = vec![Source { at: 0, pay: 1 }; g.points.len()];
        for (i, p) in g.points.iter().enumerate().rev() {
            let round = p.round as usize;
            let n = a.c.count(round);
            let at = sources.len();
            for &(_, t) in &p.moves {
                let from = match t {
                    Target::Point(q) => val[q as usize],
                    Target::End(z) => ends[z as usize],
                };
                let later = g.round_of(t);
                sources.push(if later == round {
                    from
                } else {
                    ops.push(Op::Gather { from, round: later, to_round: round, n, dst: len });
                    len += n;
                    Source { at: len - n, pay: 1 }
                });
            }
            ops.push(Op::Point { moves: at..sources.len(), n, dst: len, choice: first[i] });
            val[i].at = len;
            len += n;
        }
        let start = match g.start {
            Target::Point(q) => val[q as usize],
            Target::End(z) => ends[z as usize],
        };
        Side { a, groups, acc_len, len, ends, ops, sources, choice_len, own, start: (start, g.round_of(g.start)) }
    }

    /// Adds the other's numbers, pushed through the sums, to `acc`.
    pub fn push<T: Num>(&self, total: u64, numbers: impl Fn(usize) -> u64, acc: &mut [T]) {
        let mut y: Vec<T> = Vec::new();
        for g in &self.groups {
            let number = |k: usize| T::from(if g.gate.is_empty() { total } else { numbers(g.gate[k] as usize) } as i64);
            match self.a.rows[g.round].as_ref().unwrap() {
                Rows::Kept { start, pairs } => {
                    for k in 0..self.a.c.count(g.round) {
                        let y = number(k);
                        if y == T::default() {
                            continue;
                        }
                        // the row is seen from the other player, and so is the outcome
                        for e in &pairs[start[k] as usize..start[k + 1] as usize] {
                            if let Some(w) = g.weights {
                                acc[w + e.two as usize] += y * T::from(e.weight as i64);
                            }
                            if let Some(s) = g.signed {
                                acc[s + e.two as usize] += y * T::from(-(e.signed as i64));
                            }
                        }
                    }
                }
                Rows::Boards { ranked, rest } => {
                    let rest = T::from(*rest);
                    ranked.boards(|runs| {
                        let (lo, hi) = (runs[0] as usize, runs[runs.len() - 1] as usize);
                        y.clear();
                        y.extend(ranked.order[lo..hi].iter().map(|&t| number(t as usize)));
                        let mut all = T::default();
                        y.iter().for_each(|&x| all += x);
                        if let Some(w) = g.weights {
                            for (&t, &x) in ranked.order[lo..hi].iter().zip(&y) {
                                acc[w + t as usize] += (all - x) * rest;
                            }
                        }
                        if let Some(s) = g.signed {
                            let mut below = T::default();
                            for w in runs.windows(2) {
                                let mut run = T::default();
                                y[w[0] as usize - lo..w[1] as usize - lo].iter().for_each(|&x| run += x);
                                let won = below + below + run - all;
                                below += run;
                                for &t in &ranked.order[w[0] as usize..w[1] as usize] {
                                    acc[s + t as usize] += won;
                                }
                            }
                        }
                    });
                }
            }
        }
    }

    /// Backward induction over classes, every number taken once per member of the class. Fills `choice` with the
    /// first move of greatest worth.
    pub fn best<T: Num>(&self, mem: &mut [T], choice: &mut [u8]) {
        for op in &self.ops {
            match op {
                Op::Point { moves, n, dst, choice: at } => {
                    let n = *n;
                    let (lo, hi) = mem.split_at_mut(*dst);
                    let out = &mut hi[..n];
                    let src = &self.sources[moves.clone()];
                    let (first, rest) = src.split_first().unwrap();
                    let read = |s: &Source| (&lo[s.at..s.at + n], T::from(s.pay));
                    let (x, px) = read(first);
                    match (at, rest) {
                        (None, []) => (0..n).for_each(|k| out[k] = x[k] * px),
                        (None, [s]) => {
                            let (y, py) = read(s);
                            (0..n).for_each(|k| out[k] = x[k] * px + y[k] * py);
                        }
                        (None, _) => {
                            (0..n).for_each(|k| out[k] = x[k] * px);
                            for s in rest {
                                let (y, py) = read(s);
                                (0..n).for_each(|k| out[k] += y[k] * py);
                            }
                        }
                        (Some(at), _) => {
                            let choice = &mut choice[*at..*at + n];
                            let best = |a: T, b: T, i: u8, c: u8| if b > a { (b, i) } else { (a, c) };
                            match rest {
                                [] => {
                                    for k in 0..n {
                                        (out[k], choice[k]) = (x[k] * px, 0);
                                    }
                                }
                                [s] => {
                                    let (y, py) = read(s);
                                    for k in 0..n {
                                        (out[k], choice[k]) = best(x[k] * px, y[k] * py, 1, 0);
                                    }
                                }
                                [s, t, more @ ..] => {
                                    let ((y, py), (z, pz)) = (read(s), read(t));
                                    for k in 0..n {
                                        let (v, c) = best(x[k] * px, y[k] * py, 1, 0);
                                        (out[k], choice[k]) = best(v, z[k] * pz, 2, c);
                                    }
                                    for (s, i) in more.iter().zip(3u8..) {
                                        let (y, py) = read(s);
                                        for k in 0..n {
                                            (out[k], choice[k]) = best(out[k], y[k] * py, i, choice[k]);
                                        }
                                    }
                                }
                            }
                        }
                    }
                }
                Op::Gather { from, round, to_round, n, dst } => self.gather(mem, from, *round, *to_round, *n, *dst),
            }
        }
    }

    fn gather<T: Num>(&self, mem: &mut [T], from: &Source, round: usize, to_round: usize, n: usize, dst: usize) {
        let (lo, hi) = mem.split_at_mut(dst);
        let out = &mut hi[..n];
        out.fill(T::default());
        let up = &self.a.up[round][to_round];
        let pay = T::from(from.pay);
        for (x, &k) in lo[from.at..from.at + up.len()].iter().zip(up) {
            out[k as usize] += *x * pay;
        }
    }

    fn total<T: Num>(&self, mem: &[T]) -> i128 {
        let (s, round) = self.start;
        mem[s.at..s.at + self.a.c.count(round)].iter().map(|x| x.wide() * s.pay as i128).sum()
    }

    /// The slots of the first best plan. `on` has a 1 for each slot of `slots`, before and after.
    pub fn pure(&self, choice: &[u8], slots: &mut Vec<u32>, on: &mut [u8]) {
        for &s in slots.iter() {
            on[s as usize] = 0;
        }
        slots.clear();
        for o in &self.own {
            for k in 0..o.n {
                if o.gate.is_empty() || on[o.gate[k] as usize] != 0 {
                    let s = o.slot + k * o.moves + choice[o.choice + k] as usize;
                    on[s] = 1;
                    slots.push(s as u32);
                }
            }
        }
    }

    /// The sum over ends and classes of this player's numbers times what the ends pay. It is also added up by the class
    /// of round 1 in `hands`, if that is not empty.
    pub fn payoff<T: Num>(&self, player: usize, x: &Plan, mem: &[T], hands: &mut [i128]) -> i128 {
        let mut r = 0i128;
        for (z, s) in self.a.game.ends.iter().zip(&self.ends) {
            let j = z.round as usize;
            let mut sum = 0i128;
            for k in 0..self.a.c.count(j) {
                let n = z.last[player].map_or(x.total, |st| x.weights[self.a.slot(st, j, k)]);
                if n != 0 {
                    let worth = n as i128 * mem[s.at + k].wide();
                    sum += worth;
                    if !hands.is_empty() {
                        hands[self.a.up[j][0][k] as usize] += worth * s.pay as i128;
                    }
                }
            }
            r += sum * s.pay as i128;
        }
        r
    }

    /// For how many turns, at least 1 and at most `limit`, the choices stay where the sums grow by
    /// those of `step` each turn. `mem` and `choice` are those of now; `step` gets its slopes.
    fn stay(&self, mem: &[i64], choice: &[u8], step: &mut [i64], limit: u64) -> u64 {
        let mut turns = limit;
        for op in &self.ops {
            match op {
                Op::Gather { from, round, to_round, n, dst } => self.gather(step, from, *round, *to_round, *n, *dst),
                Op::Point { moves, n, dst, choice: at } => {
                    let src = &self.sources[moves.clone()];
                    for c in 0..*n {
                        let Some(at) = at else {
                            step[dst + c] = src.iter().map(|s| step[s.at + c] * s.pay).sum();
                            continue;
                        };
                        let chosen = choice[at + c] as usize;
                        let slope = step[src[chosen].at + c] * src[chosen].pay;
                        step[dst + c] = slope;
                        for (i, s) in src.iter().enumerate() {
                            let rise = step[s.at + c] * s.pay - slope;
                            if rise > 0 {
                                let gap = mem[dst + c] - mem[s.at + c] * s.pay;
                                // an earlier move wins when equal, a later one when greater
                                let k = if i < chosen { (gap + rise - 1) / rise } else { gap / rise + 1 };
                                turns = turns.min(k as u64);
                            }
                        }
                    }
                }
            }
        }
        turns
    }

    /// The pushes slot by slot: for each slot of the other player the sums that it adds to. Those of
    /// groups without a step stand last. `None` where rows are not kept.
    fn compile(&self) -> Option<Pushes> {
        let other_slots = self.groups.iter().flat_map(|g| g.gate.iter()).max().map_or(0, |m| *m as usize + 1);
        let mut lists: Vec<Vec<(u32, i32)>> = vec![Vec::new(); other_slots + 1];
        for g in &self.groups {
            let Rows::Kept { start, pairs } = self.a.rows[g.round].as_ref().unwrap() else { return None };
            for k in 0..self.a.c.count(g.round) {
                let list = &mut lists[if g.gate.is_empty() { other_slots } else { g.gate[k] as usize }];
                let row = &pairs[start[k] as usize..start[k + 1] as usize];
                if let Some(w) = g.weights {
                    list.extend(row.iter().map(|e| ((w + e.two as usize) as u32, e.weight)));
                }
                if let Some(s) = g.signed {
                    list.extend(row.iter().filter(|e| e.signed != 0).map(|e| ((s + e.two as usize) as u32, -e.signed)));
                }
            }
        }
        let mut p = Pushes { start: vec![0], list: vec![] };
        for l in lists {
            p.list.extend(l);
            p.start.push(p.list.len() as u32);
        }
        Some(p)
    }
}

struct Pushes {
    start: Vec<u32>,
    list: Vec<(u32, i32)>,
}

impl Pushes {
    #[inline]
    fn push(&self, slots: &[u32], acc: &mut [i64]) {
        // the last list is that of the groups without a step; slots past the others have no end
        let last = self.start.len() as u32 - 2;
        for &s in slots.iter().filter(|s| **s < last).chain([&last]) {
            for &(at, x) in &self.list[self.start[s as usize] as usize..self.start[s as usize + 1] as usize] {
                acc[at as usize] += x as i64;
            }
        }
    }
}

fn gcd(mut a: u128, mut b: u128) -> u128 {
    while b != 0 {
        (a, b) = (b, a % b);
    }
    a
}

#[derive(Clone, Copy, PartialEq, Eq, Debug)]
pub struct Frac(pub i128, pub i128);

impl Frac {
    pub fn new(num: i128, den: i128) -> Frac {
        let g = gcd(num.unsigned_abs(), den.unsigned_abs()) as i128 * den.signum();
        Frac(num / g, den / g)
    }
}
impl std::fmt::Display for Frac {
    fn fmt(&self, f: &mut std::fmt::Formatter) -> std::fmt::Result {
        write!(f, "{}/{}", self.0, self.1)
    }
}

#[derive(Clone, Copy, PartialEq, Eq, Debug)]
pub struct Verdict {
    pub value: Frac,
    pub gap: [Frac; 2],
}

fn finish(game: &Game, r: i128, best: [i128; 2], t: [u64; 2]) -> Verdict {
    let w = game.weight as i128;
    let (t1, t2) = (t[0] as i128, t[1] as i128);
    let all = w * t1 * t2;
    Verdict { value: Frac::new(r, all), gap: [Frac::new(best[0] * t1 - r, all), Frac::new(best[1] * t2 + r, all)] }
}

/// The value and both gaps.
pub fn verdict(a: &Abstract, x: &Plan, y: &Plan) -> Verdict {
    verdict_with(a, x, y, &mut [])
}

fn verdict_with(a: &Abstract, x: &Plan, y: &Plan, hands: &mut [i128]) -> Verdict {
    let most = a.game.weight as u128 * a.game.greatest_pay() as u128 * x.total.max(y.total) as u128;
    if most < 1 << 62 { verdict_in::<i64>(a, x, y, hands) } else { verdict_in::<i128>(a, x, y, hands) }
}

/// The verdict of two plans over single signals, and the value of each hand of player 1 in round 1.
pub fn duel(s: &Signals, a: &Abstract, x: &Plan, y: &Plan) -> (Verdict, Vec<Frac>) {
    let mut hands = vec![0; s.levels[0].len()];
    let verdict = verdict_with(a, x, y, &mut hands);
    let value = |(hand, &payoff): (usize, &i128)| {
        let hand = hand as u32;
        let mut weight = 0;
        s.each(0, hand, |_, ways| weight += ways);
        weight *= s.down(0, hand) * s.levels[0].rest;
        Frac::new(payoff, weight as i128 * x.total as i128 * y.total as i128)
    };
    let values = hands.iter().enumerate().map(value).collect();
    (verdict, values)
}

fn verdict_in<T: Num>(a: &Abstract, x: &Plan, y: &Plan, hands: &mut [i128]) -> Verdict {
    let mut r = 0;
    let mut best = [0; 2];
    for p in 0..2 {
        let side = Side::new(a, p as u8);
        let mut mem = vec![T::default(); side.len];
        let other = if p == 0 { y } else { x };
        side.push(other.total, |i| other.weights[i], &mut mem);
        if p == 0 {
            r = side.payoff(0, x, &mem, hands);
        }
        side.best(&mut mem, &mut vec![0; side.choice_len]);
        best[p] = side.total(&mem);
    }
    finish(a.game, r, best, [x.total, y.total])
}

/// The first-move plan.
pub fn first_plan(a: &Abstract, player: u8) -> Plan {
    let side = Side::new(a, player);
    let mut on = vec![0u8; a.slots[player as usize]];
    side.pure(&vec![0; side.choice_len], &mut vec![], &mut on);
    Plan { total: 1, weights: on.iter().map(|&x| x as u64).collect() }
}

/// The first best move at every own point and class.
pub fn choices(a: &Abstract, player: u8, other: &Plan) -> Vec<u8> {
    let side = Side::new(a, player);
    let mut mem = vec![0i128; side.len];
    let mut choice = vec![0; side.choice_len];
    side.push(other.total, |i| other.weights[i], &mut mem);
    side.best(&mut mem, &mut choice);
    choice
}

pub struct Played {
    pub plans: [Plan; 2],
    pub verdict: Verdict,
}

/// One player's part of `play`.
struct Seat<'a> {
    side: Side<'a>,
    pushes: Option<Pushes>,
    /// the sums of the other's totals, and the values
    mem: Vec<i64>,
    step: Vec<i64>,
    choice: Vec<u8>,
    slots: Vec<u32>,
    on: Vec<u8>,
    plan: Plan,
}

impl Seat<'_> {
    /// Adds the other's present pure plan to the sums, or sets the step to it.
    fn meet(&mut self, slots: &[u32], on: &[u8], step: bool) {
        let acc = if step { &mut self.step } else { &mut self.mem };
        if step {
            acc[..self.side.acc_len].fill(0);
        }
        match &self.pushes {
            Some(p) => p.push(slots, acc),
            None => self.side.push(1, |i| on[i] as u64, acc),
        }
    }
}

/// Turns of fictitious play. With `jump`, turns in which no choice changes are taken together.
pub fn play(a: &Abstract, turns: u64, jump: bool) -> Played {
    // W * pay * total is below 2^26 * 2^12 * 2^20
    let jump = jump && turns > 1;
    let [mut s0, mut s1] = [0, 1].map(|p| {
        let side = Side::new(a, p as u8);
        let n = a.slots[p];
        let plan = Plan { total: 0, weights: vec![0; n] };
        let pushes = if turns > 20 { side.compile() } else { None };
        let choice = vec![0; side.choice_len];
        Seat {
            pushes,
            mem: vec![0; side.len],
            step: vec![0; if jump { side.len } else { 0 }],
            choice,
            slots: vec![],
            on: vec![0; n],
            plan,
            side,
        }
    });
    let mut done = 0;
    // the first-move plans are added like the answers of a turn, turn 0
    while done <= turns {
        if done > 0 {
            for s in [&mut s0, &mut s1] {
                s.side.best(&mut s.mem, &mut s.choice);
            }
        }
        for s in [&mut s0, &mut s1] {
            s.side.pure(&s.choice, &mut s.slots, &mut s.on);
        }
        let jump = jump && done > 0 && done < turns;
        s0.meet(&s1.slots, &s1.on, jump);
        s1.meet(&s0.slots, &s0.on, jump);
        let mut times = 1;
        if jump {
            times = turns + 1 - done;
            for s in [&mut s0, &mut s1] {
                times = s.side.stay(&s.mem, &s.choice, &mut s.step, times);
            }
            for s in [&mut s0, &mut s1] {
                for (x, d) in s.mem[..s.side.acc_len].iter_mut().zip(&s.step) {
                    *x += d * times as i64;
                }
            }
        }
        for s in [&mut s0, &mut s1] {
            s.plan.total += times;
            for &k in &s.slots {
                s.plan.weights[k as usize] += times;
            }
        }
        done += times;
    }
    let r = s0.side.payoff(0, &s0.plan, &s0.mem, &mut []);
    let best = [&mut s0, &mut s1].map(|s| {
        s.side.best(&mut s.mem, &mut s.choice);
        s.side.total(&s.mem)
    });
    let verdict = finish(a.game, r, best, [s0.plan.total, s1.plan.total]);
    Played { plans: [s0.plan, s1.plan], verdict }
}

/// A plan over classes as a plan over single signals.
pub fn lift(a: &Abstract, raw: &Abstract, player: u8, plan: &Plan) -> Plan {
    let mut weights = vec![0; raw.slots[player as usize]];
    for (i, p) in a.game.points.iter().enumerate().filter(|(_, p)| p.player == player) {
        let m = p.moves.len();
        for (x, &k) in a.c.lists[p.round as usize].iter().enumerate() {
            let to = raw.offset[i] as usize + x * m;
            let from = a.offset[i] as usize + k as usize * m;
            weights[to..to + m].copy_from_slice(&plan.weights[from..from + m]);
        }
    }
    Plan { total: plan.total, weights }
}
