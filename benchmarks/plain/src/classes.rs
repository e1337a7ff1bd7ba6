//! Signal classes: ordered game isomorphism by signatures, the lossless check, the coarsest
//! lossless refinement.

use crate::signals::{FxMap, Signals};

#[derive(Clone, PartialEq, Debug)]
pub struct Classes {
    /// class of each signal, from 0, numbered by first member
    pub lists: Vec<Vec<u32>>,
    pub first: Vec<Vec<u32>>,
    pub size: Vec<Vec<u32>>,
    pub parent: Vec<Vec<u32>>,
}

impl Classes {
    pub fn new(s: &Signals, lists: Vec<Vec<u32>>) -> Classes {
        let (mut first, mut size, mut parent) = (vec![], vec![], vec![]);
        for (j, l) in lists.iter().enumerate() {
            let (mut f, mut n, mut p): (Vec<u32>, Vec<u32>, Vec<u32>) = (vec![], vec![], vec![]);
            for (x, &c) in l.iter().enumerate() {
                if c as usize == f.len() {
                    f.push(x as u32);
                    n.push(0);
                    p.push(if j > 0 { lists[j - 1][s.levels[j].parent[x] as usize] } else { 0 });
                }
                n[c as usize] += 1;
            }
            first.push(f);
            size.push(n);
            parent.push(p);
        }
        Classes { lists, first, size, parent }
    }
    pub fn identity(s: &Signals) -> Classes {
        let all: Vec<Vec<u32>> = s.levels.iter().map(|l| (0..l.len() as u32).collect()).collect();
        let size = all.iter().map(|l| vec![1; l.len()]).collect();
        let parent = s.levels.iter().map(|l| l.parent.clone()).collect();
        Classes { lists: all.clone(), first: all, size, parent }
    }
    pub fn count(&self, j: usize) -> usize {
        self.first[j].len()
    }
}

/// Numbers for keys in order of first occurrence.
fn number<K: std::hash::Hash + Eq + Copy>(keys: impl Iterator<Item = K>) -> Vec<u32> {
    let mut map: FxMap<K, u32> = FxMap::default();
    let mut last: Option<(K, u32)> = None;
    keys.map(|k| match last {
        Some((l, n)) if l == k => n,
        _ => {
            let next = map.len() as u32;
            let n = *map.entry(k).or_insert(next);
            last = Some((k, n));
            n
        }
    })
    .collect()
}

/// Whether opponents on one board differ from a signal by nothing but being another hand, and a
/// win is a win: then wins, ties and losses are read off the board's order.
fn simple(s: &Signals) -> bool {
    s.unit && s.levels[s.last()].own == 1 && s.game.bonus.iter().all(|&b| b == 1)
}

/// A round's signals, board by board and, in the last round, on each board by strength, with the
/// start of each run of equal strength (and the end), board by board.
pub struct Ranked {
    pub order: Vec<u32>,
    /// for each board the runs `runs[at[b]..at[b + 1]]`, each a start in `order`
    runs: Vec<u32>,
    at: Vec<u32>,
}

pub fn ranked(s: &Signals, j: usize) -> Ranked {
    let l = &s.levels[j];
    let strength = |t: u32| if j == s.last() { s.strength[t as usize] } else { 0 };
    let mut order = Vec::with_capacity(l.len());
    let mut runs = Vec::with_capacity(l.len() / 2);
    let mut at = Vec::with_capacity(l.boards.len() + 1);
    let mut keys: Vec<u64> = Vec::new();
    for b in 0..l.boards.len() {
        at.push(runs.len() as u32);
        let on = &l.on_board[l.board_start[b] as usize..l.board_start[b + 1] as usize];
        keys.clear();
        keys.extend(on.iter().map(|&t| (strength(t) as u64) << 32 | t as u64));
        keys.sort_unstable();
        let mut before = u32::MAX;
        for &k in &keys {
            if (k >> 32) as u32 != before {
                before = (k >> 32) as u32;
                runs.push(order.len() as u32);
            }
            order.push(k as u32);
        }
    }
    at.push(runs.len() as u32);
    runs.push(order.len() as u32);
    Ranked { order, runs, at }
}

fn by_strength<'a>(s: &'a Signals) -> &'a Ranked {
    s.by_strength.get_or_init(|| ranked(s, s.last()))
}

impl Ranked {
    /// Calls `f` for each board with its runs, the last number being the board's end.
    pub fn boards(&self, mut f: impl FnMut(&[u32])) {
        for w in self.at.windows(2) {
            f(&self.runs[w[0] as usize..=w[1] as usize]);
        }
    }
}

/// Equal numbers for isomorphic nodes of one round.
fn iso_numbers(s: &Signals) -> Vec<Vec<u32>> {
    let last = s.last();
    let l = &s.levels[last];
    let mut nums = vec![Vec::new(); last + 1];
    if simple(s) {
        let r = by_strength(s);
        let mut map: FxMap<u64, u32> = FxMap::default();
        let mut out = vec![0u32; l.len()];
        r.boards(|runs| {
            let (lo, hi) = (runs[0], runs[runs.len() - 1]);
            for w in runs.windows(2) {
                let key = ((w[0] - lo) as u64) << 32 | (hi - w[1]) as u64 | ((w[1] - w[0]) as u64) << 16;
                // fewer than 2^16 rivals on a board: 8,000,000 deals bound the square
                let next = map.len() as u32;
                let n = *map.entry(key).or_insert(next);
                for &t in &r.order[w[0] as usize..w[1] as usize] {
                    out[t as usize] = n;
                }
            }
        });
        nums[last] = out;
    } else {
        let mut map: FxMap<Vec<u64>, u32> = FxMap::default();
        let mut out = Vec::with_capacity(l.len());
        let mut key: Vec<u64> = Vec::new();
        for x in 0..l.len() as u32 {
            key.clear();
            if s.unit {
                key.resize(19, 0);
                s.each(last, x, |t, _| key[(s.outcome(x, t) + 9) as usize] += 1);
            } else {
                s.each(last, x, |t, w| key.push(w << 5 | (s.outcome(x, t) + 9) as u64));
                key.sort_unstable();
            }
            out.push(intern(&mut map, &key));
        }
        nums[last] = out;
    }
    for j in (0..last).rev() {
        let (l, below) = (&s.levels[j], &s.levels[j + 1]);
        let mut map: FxMap<Vec<u32>, u32> = FxMap::default();
        let mut wide: FxMap<Vec<u64>, u32> = FxMap::default();
        let (mut key, mut long) = (Vec::new(), Vec::new());
        nums[j] = (0..l.len())
            .map(|x| {
                let kids = l.child[x] as usize..l.child[x + 1] as usize;
                if s.unit {
                    key.clear();
                    key.extend_from_slice(&nums[j + 1][kids]);
                    key.sort_unstable();
                    intern(&mut map, &key)
                } else {
                    long.clear();
                    long.extend(kids.map(|k| (below.edge[k] as u64) << 32 | nums[j + 1][k] as u64));
                    long.sort_unstable();
                    intern(&mut wide, &long)
                }
            })
            .collect();
    }
    nums
}

fn intern<T: Clone + std::hash::Hash + Eq>(map: &mut FxMap<Vec<T>, u32>, key: &[T]) -> u32 {
    if let Some(&n) = map.get(key) {
        return n;
    }
    let n = map.len() as u32;
    map.insert(key.to_vec(), n);
    n
}

/// The signal classes: isomorphic signals under parents of one class.
pub fn shrink(s: &Signals) -> Classes {
    let nums = iso_numbers(s);
    let mut lists: Vec<Vec<u32>> = vec![number(nums[0].iter().copied())];
    for j in 1..nums.len() {
        let up = &lists[j - 1];
        let l = number(nums[j].iter().zip(&s.levels[j].parent).map(|(&n, &p)| (up[p as usize] as u64) << 32 | n as u64));
        lists.push(l);
    }
    Classes::new(s, lists)
}

/// What must agree within lossless classes, for one round's signals: where asked for the weights against each
/// class (by outcome in the last round), and the counts of children in each class.
struct Numbers<'a> {
    s: &'a Signals<'a>,
    c: &'a Classes,
    j: usize,
    deals: bool,
    /// outcomes run from -spread to spread
    spread: i32,
    simple: bool,
}

impl<'a> Numbers<'a> {
    fn new(s: &'a Signals<'a>, c: &'a Classes, j: usize, deals: bool) -> Numbers<'a> {
        let last = j == s.last();
        let spread = if last { *s.game.bonus.iter().max().unwrap() as i32 } else { 0 };
        Numbers { s, c, j, deals, spread, simple: last && simple(s) }
    }
    fn keys(&self) -> usize {
        let kids = if self.j < self.s.last() { self.c.count(self.j + 1) } else { 0 };
        self.c.count(self.j) * (2 * self.spread as usize + 1) + kids
    }
    /// Calls `f` with places and what to add there.
    #[inline(always)]
    fn visit(&self, x: u32, mut f: impl FnMut(usize, u64)) {
        let (s, j) = (self.s, self.j);
        let list = &self.c.lists[j];
        let l = &s.levels[j];
        let width = 2 * self.spread as usize + 1;
        if self.deals && self.simple {
            let st = s.strength[x as usize];
            for &t in l.rivals(x).iter().filter(|t| **t != x) {
                let u = s.strength[t as usize];
                f(list[t as usize] as usize * 3 + (st > u) as usize + (st >= u) as usize, 1);
            }
        } else if self.deals {
            let d = s.down(j, x);
            s.each(j, x, |t, w| {
                let o = if self.spread > 0 { s.outcome(x, t) + self.spread } else { 0 };
                f(list[t as usize] as usize * width + o as usize, d * w);
            });
        }
        if j < s.last() {
            let base = self.c.count(j) * width;
            for y in l.child[x as usize]..l.child[x as usize + 1] {
                f(base + self.c.lists[j + 1][y as usize] as usize, 1);
            }
        }
    }
    /// The first signal whose numbers differ from those of its class's first member.
    fn first_unlike(&self) -> Option<(u32, u32)> {
        let (c, j) = (self.c, self.j);
        let cells = if self.deals && self.simple { cells(self.s, &c.lists[j]) } else { vec![] };
        let mut seen: Vec<u32> = Vec::new();
        let mut want = vec![0u64; self.keys()];
        let mut got = vec![0u64; self.keys()];
        let mut found: Option<(u32, u32)> = None;
        let (start, members) = members(c, j);
        for k in 0..c.count(j) {
            let m = &members[start[k] as usize..start[k + 1] as usize];
            if m.len() < 2 {
                continue;
            }
            let mut places = 0;
            self.visit(m[0], |p, w| {
                places += (want[p] == 0) as usize;
                want[p] += w;
            });
            seen.clear();
            if !cells.is_empty() {
                seen.push(cells[m[0] as usize]);
            }
            for &x in &m[1..] {
                if found.is_some_and(|f| f.1 < x) {
                    break;
                }
                if !cells.is_empty() {
                    // of the same class in a like place of a like board: the same numbers
                    let cell = cells[x as usize];
                    if seen.contains(&cell) {
                        continue;
                    }
                    seen.push(cell);
                }
                let mut mine = 0;
                self.visit(x, |p, w| {
                    mine += (got[p] == 0) as usize;
                    got[p] += w;
                });
                let mut same = mine == places;
                self.visit(x, |p, _| {
                    same &= got[p] == 0 || got[p] == want[p];
                    got[p] = 0;
                });
                if !same {
                    found = Some((m[0], x));
                }
            }
            self.visit(m[0], |p, _| want[p] = 0);
        }
        found
    }
}

/// For each last-round signal a number for what its board looks like from it: boards whose runs of
/// equal strength hold the same classes, as often, are alike, and so are their runs one by one.
fn cells(s: &Signals, list: &[u32]) -> Vec<u32> {
    let r = by_strength(s);
    let mut boards: FxMap<Vec<u32>, u32> = FxMap::default();
    let mut out = vec![0u32; list.len()];
    let mut key: Vec<u32> = Vec::new();
    r.boards(|runs| {
        key.clear();
        for w in runs.windows(2) {
            let from = key.len();
            key.extend(r.order[w[0] as usize..w[1] as usize].iter().map(|&t| list[t as usize]));
            key[from..].sort_unstable();
            key.push(u32::MAX);
        }
        let like = match boards.get(&key) {
            Some(&b) => b,
            None => {
                boards.insert(key.clone(), runs[0]);
                runs[0]
            }
        };
        for w in runs.windows(2) {
            for &t in &r.order[w[0] as usize..w[1] as usize] {
                out[t as usize] = like + (w[0] - runs[0]);
            }
        }
    });
    out
}

/// The members class by class.
fn members(c: &Classes, j: usize) -> (Vec<u32>, Vec<u32>) {
    let mut start = vec![0u32; c.count(j) + 1];
    for (k, &n) in c.size[j].iter().enumerate() {
        start[k + 1] = start[k] + n;
    }
    let mut at = start.clone();
    let mut members = vec![0u32; c.lists[j].len()];
    for (x, &k) in c.lists[j].iter().enumerate() {
        members[at[k as usize] as usize] = x as u32;
        at[k as usize] += 1;
    }
    (start, members)
}

/// Whether classes are lossless. `Err` has the first unlike pair: the round (from 0) and both signals.
pub fn check(s: &Signals, c: &Classes) -> Result<(), (usize, u32, u32)> {
    let last = s.last();
    let all_single = (0..=last).all(|j| c.count(j) == c.lists[j].len());
    // if the last round agrees by outcome, and the children agree, the other rounds do too
    if all_single || (0..=last).all(|j| Numbers::new(s, c, j, j == last).first_unlike().is_none()) {
        return Ok(());
    }
    for j in 0..=last {
        if let Some((a, b)) = Numbers::new(s, c, j, true).first_unlike() {
            return Err((j, a, b));
        }
    }
    unreachable!()
}

fn mix(x: u64) -> u128 {
    let one = |mut z: u64| {
        z = (z ^ (z >> 30)).wrapping_mul(0xbf58_476d_1ce4_e5b9);
        z = (z ^ (z >> 27)).wrapping_mul(0x94d0_49bb_1331_11eb);
        z ^ (z >> 31)
    };
    (one(x.wrapping_mul(0x9e37_79b9_7f4a_7c15).wrapping_add(0x1234_5678_9abc_def1)) as u128) << 64
        | one(x.wrapping_add(0x9e37_79b9_7f4a_7c15).wrapping_mul(0xd134_2543_de82_ef95)) as u128
}

/// The coarsest lossless refinement. Each pass splits the classes by sums of 128-bit random-looking numbers; equal
/// lists have equal sums, so a pass never splits too much. `check` on the result is exact and shows that it split
/// enough. If two sums were equal by chance, which was never met, a pass with other numbers would follow.
pub fn split(s: &Signals, from: &Classes) -> Classes {
    let last = s.last();
    let rank = if simple(s) { Some(by_strength(s)) } else { None };
    let mut lists = from.lists.clone();
    let mut count: Vec<u32> = (0..=last).map(|j| from.count(j) as u32).collect();
    for salt in 1u64.. {
        let salt = salt << 40;
        for pass in 0.. {
            let before = count.clone();
            // the weights in the last round
            let sums = deal_sums(s, &lists[last], count[last], rank, salt);
            refine(&mut lists[last], &mut count[last], &sums);
            // the counts of children, upwards; then the parents' classes, downwards
            if pass > 0 && count == before {
                break;
            }
            for j in (0..last).rev() {
                let tab: Vec<u128> = (0..count[j + 1] as u64).map(|k| mix(k + salt)).collect();
                let child = &s.levels[j].child;
                let sums: Vec<u128> = child
                    .windows(2)
                    .map(|w| lists[j + 1][w[0] as usize..w[1] as usize].iter().fold(0u128, |a, &k| a.wrapping_add(tab[k as usize])))
                    .collect();
                refine(&mut lists[j], &mut count[j], &sums);
            }
            for j in 1..=last {
                if count[j - 1] != before[j - 1] {
                    let up: Vec<u32> = s.levels[j].parent.iter().map(|&p| lists[j - 1][p as usize]).collect();
                    refine(&mut lists[j], &mut count[j], &up);
                }
            }
        }
        let c = Classes::new(s, lists);
        match check(s, &c) {
            Ok(()) => return c,
            Err(_) => lists = c.lists,
        }
    }
    unreachable!()
}

/// Splits classes by further keys.
fn refine<K: std::hash::Hash + Eq + Copy>(list: &mut [u32], count: &mut u32, keys: &[K]) {
    let mut map: FxMap<(u32, K), u32> = FxMap::default();
    for (c, &k) in list.iter_mut().zip(keys) {
        let next = map.len() as u32;
        *c = *map.entry((*c, k)).or_insert(next);
    }
    *count = map.len() as u32;
}

/// For each last-round signal the sum, over its deals, of weight times a number for the opponent's
/// class and the outcome.
fn deal_sums(s: &Signals, list: &[u32], count: u32, rank: Option<&Ranked>, salt: u64) -> Vec<u128> {
    let mut sum = vec![0u128; list.len()];
    let Some(r) = rank else {
        let last = s.last();
        for x in 0..list.len() as u32 {
            let d = s.down(last, x);
            let mut h = 0u128;
            s.each(last, x, |t, w| {
                let key = list[t as usize] as u64 * 32 + (s.outcome(x, t) + 9) as u64 + salt;
                h = h.wrapping_add(mix(key).wrapping_mul((d * w) as u128));
            });
            sum[x as usize] = h;
        }
        return sum;
    };
    let tab: Vec<[u128; 3]> = (0..count as u64).map(|k| [0, 1, 2].map(|o| mix(k * 3 + o + salt))).collect();
    r.boards(|runs| {
        let at = |t: u32| &tab[list[t as usize] as usize];
        let mut loss = 0u128;
        for &t in &r.order[runs[0] as usize..runs[runs.len() - 1] as usize] {
            loss = loss.wrapping_add(at(t)[0]);
        }
        let mut win = 0u128;
        for w in runs.windows(2) {
            let run = &r.order[w[0] as usize..w[1] as usize];
            let (mut won, mut tie) = (0u128, 0u128);
            for &t in run {
                let m = at(t);
                loss = loss.wrapping_sub(m[0]);
                tie = tie.wrapping_add(m[1]);
                won = won.wrapping_add(m[2]);
            }
            let all = win.wrapping_add(tie).wrapping_add(loss);
            for &t in run {
                sum[t as usize] = all.wrapping_sub(at(t)[1]);
            }
            win = win.wrapping_add(won);
        }
    });
    sum
}

pub fn class_text(s: &Signals, c: &Classes, summary: bool) -> Vec<u8> {
    use std::io::Write;
    let mut out = Vec::new();
    if summary {
        writeln!(out, "deals {} weight {}", s.deals, s.game.weight).unwrap();
    }
    let mut texts = (vec![], vec![]);
    for j in 0..=s.last() {
        writeln!(out, "round {} classes {} signals {}", j + 1, c.count(j), c.lists[j].len()).unwrap();
        if !summary {
            let (start, members) = members(c, j);
            texts = s.texts(j, &texts);
            out.reserve(texts.0.len() + 2 * members.len());
            for k in 0..c.count(j) {
                write!(out, "{}:", k + 1).unwrap();
                for &x in &members[start[k] as usize..start[k + 1] as usize] {
                    out.push(b' ');
                    out.extend_from_slice(&texts.0[texts.1[x as usize] as usize..texts.1[x as usize + 1] as usize]);
                }
                out.push(b'\n');
            }
        }
    }
    out
}
