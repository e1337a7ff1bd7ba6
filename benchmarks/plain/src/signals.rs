//! Raw signals. A signal is a pair of an own path (the hand) and a public path (the board). The opponents of a signal
//! are the signals of the same board, so deals are never listed.

use crate::game::{Deck, Game, Ranking, three};
use std::collections::HashMap;
use std::hash::{BuildHasherDefault, Hasher};

#[derive(Default, Clone)]
pub struct Fx(u64);
const K: u64 = 0x9e37_79b9_7f4a_7c15;
impl Hasher for Fx {
    fn write(&mut self, bytes: &[u8]) {
        let mut it = bytes.chunks_exact(8);
        for c in &mut it {
            self.write_u64(u64::from_le_bytes(c.try_into().unwrap()));
        }
        for &b in it.remainder() {
            self.write_u64(b as u64);
        }
    }
    fn write_u64(&mut self, x: u64) {
        let m = (self.0 ^ x) as u128 * K as u128;
        self.0 = (m as u64) ^ (m >> 64) as u64;
    }
    fn write_u32(&mut self, x: u32) {
        self.write_u64(x as u64)
    }
    fn write_usize(&mut self, x: usize) {
        self.write_u64(x as u64)
    }
    fn write_u128(&mut self, x: u128) {
        self.write_u64(x as u64);
        self.write_u64((x >> 64) as u64);
    }
    fn finish(&self) -> u64 {
        self.0
    }
}
pub type FxMap<A, B> = HashMap<A, B, BuildHasherDefault<Fx>>;

pub const NO_CARD: u8 = 63;

/// The groups that one side (a player, or the public) has drawn in rounds 1 to j.
#[derive(Clone)]
pub struct Path {
    pub group: [u8; 3],
    /// kinds and how often each was taken, over all rounds
    pub taken: Vec<(u8, u8)>,
    pub mask: u64,
    /// the product, over groups and kinds, of the factorial of the number taken
    denom: u64,
}

impl Path {
    fn root() -> Path {
        Path { group: [NO_CARD; 3], taken: vec![], mask: 0, denom: 1 }
    }
    fn child(&self, group: [u8; 3]) -> Path {
        let mut p = Path { group, taken: self.taken.clone(), mask: self.mask, denom: self.denom };
        let mut same = 1;
        for (i, &c) in group.iter().enumerate().take_while(|(_, c)| **c != NO_CARD) {
            same = if i > 0 && group[i - 1] == c { same + 1 } else { 1 };
            p.denom *= same;
            p.mask |= 1 << c;
            match p.taken.iter_mut().find(|t| t.0 == c) {
                Some(t) => t.1 += 1,
                None => p.taken.push((c, 1)),
            }
        }
        p
    }
    fn cards(&self) -> impl Iterator<Item = u8> + '_ {
        self.taken.iter().flat_map(|&(k, n)| std::iter::repeat_n(k, n as usize))
    }
}

/// Numbers for (path, group) pairs in order of first occurrence.
struct Intern {
    kinds: usize,
    direct: Vec<u32>,
    map: FxMap<u64, u32>,
    paths: Vec<Path>,
}

impl Intern {
    fn new(before: usize, size: u8, kinds: usize) -> Intern {
        let direct = if size <= 1 { vec![u32::MAX; before * (kinds + 1)] } else { vec![] };
        Intern { kinds, direct, map: FxMap::default(), paths: vec![] }
    }
    #[inline(always)]
    fn id(&mut self, before: &[Path], parent: u32, group: [u8; 3]) -> u32 {
        let n = self.paths.len() as u32;
        let slot = if !self.direct.is_empty() {
            let k = if group[0] == NO_CARD { self.kinds } else { group[0] as usize };
            &mut self.direct[parent as usize * (self.kinds + 1) + k]
        } else {
            let key = (parent as u64) << 18 | (group[0] as u64) << 12 | (group[1] as u64) << 6 | group[2] as u64;
            self.map.entry(key).or_insert(u32::MAX)
        };
        if *slot == u32::MAX {
            *slot = n;
            self.paths.push(before[parent as usize].child(group));
        }
        *slot
    }
}

pub struct Level {
    pub parent: Vec<u32>,
    /// empty where every kind has at most one copy: then each edge is 1
    pub edge: Vec<u32>,
    pub path_weight: Vec<u64>,
    pub hand: Vec<u32>,
    pub board: Vec<u32>,
    /// first child of each signal, one more entry at the end; empty in the last round
    pub child: Vec<u32>,
    pub hands: Vec<Path>,
    pub boards: Vec<Path>,
    pub board_start: Vec<u32>,
    pub on_board: Vec<u32>,
    /// one player's own cards up to this round
    pub own: u32,
    /// the ways to go on from a pair of signals of this round to a whole deal
    pub rest: u64,
}

impl Level {
    pub fn len(&self) -> usize {
        self.parent.len()
    }
    pub fn rivals(&self, s: u32) -> &[u32] {
        let b = self.board[s as usize] as usize;
        &self.on_board[self.board_start[b] as usize..self.board_start[b + 1] as usize]
    }
}

pub struct Signals<'g> {
    pub game: &'g Game,
    pub levels: Vec<Level>,
    pub strength: Vec<u32>,
    pub unit: bool,
    pub deals: u64,
    /// the last round by strength, once it is asked for
    pub by_strength: std::cell::OnceCell<crate::classes::Ranked>,
}

fn groups(left: &[u8], size: u8, out: &mut Vec<[u8; 3]>) {
    fn go(left: &[u8], from: usize, at: usize, size: usize, g: &mut [u8; 3], out: &mut Vec<[u8; 3]>) {
        if at == size {
            out.push(*g);
            return;
        }
        for k in from..left.len() {
            let used = g[..at].iter().filter(|&&c| c as usize == k).count();
            if (left[k] as usize) > used {
                g[at] = k as u8;
                go(left, k, at + 1, size, g, out);
                g[at] = NO_CARD;
            }
        }
    }
    out.clear();
    if size == 1 {
        out.extend(left.iter().enumerate().filter(|(_, n)| **n > 0).map(|(k, _)| [k as u8, NO_CARD, NO_CARD]));
    } else {
        go(left, 0, 0, size as usize, &mut [NO_CARD; 3], out);
    }
}

fn take(left: &mut [u8], g: &[u8; 3], back: bool) {
    for &c in g.iter().take_while(|c| **c != NO_CARD) {
        left[c as usize] = if back { left[c as usize] + 1 } else { left[c as usize] - 1 };
    }
}

fn ways(left: &[u8], g: &[u8; 3]) -> u64 {
    let mut w = 1u64;
    let mut same = 0u64;
    for (i, &c) in g.iter().enumerate().take_while(|(_, c)| **c != NO_CARD) {
        same = if i > 0 && g[i - 1] == c { same + 1 } else { 0 };
        w = w * (left[c as usize] as u64 - same) / (same + 1);
    }
    w
}

impl<'g> Signals<'g> {
    pub fn of(game: &'g Game) -> Result<Signals<'g>, String> {
        let deck = &game.deck;
        let kinds = deck.kinds();
        let unit = deck.copies.iter().all(|&c| c <= 1);
        let mut levels: Vec<Level> = Vec::new();
        let (mut own_list, mut pub_list) = (Vec::new(), Vec::new());
        for (j, r) in game.rounds.iter().enumerate() {
            let roots = [Path::root()];
            let (hb, bb): (&[Path], &[Path]) = match levels.last() {
                Some(l) => (&l.hands, &l.boards),
                None => (&roots, &roots),
            };
            let n = levels.last().map_or(1, Level::len);
            let mut hands = Intern::new(hb.len(), r.private, kinds);
            let mut boards = Intern::new(bb.len(), r.public, kinds);
            let guess = n * if r.private + r.public == 1 { kinds } else { 4 };
            let mut parent = Vec::with_capacity(guess);
            let (mut hand, mut board) = (Vec::with_capacity(guess), Vec::with_capacity(guess));
            let (mut edge, mut path_weight) = (Vec::new(), Vec::new());
            let mut child = Vec::with_capacity(if j > 0 { n + 1 } else { 0 });
            let mut left = deck.copies.clone();
            for p in 0..n {
                child.push(parent.len() as u32);
                let (h, b, pw) = match levels.last() {
                    Some(l) => (l.hand[p], l.board[p], if unit { 1 } else { l.path_weight[p] }),
                    None => (0, 0, 1),
                };
                left.copy_from_slice(&deck.copies);
                for &(k, t) in hb[h as usize].taken.iter().chain(&bb[b as usize].taken) {
                    left[k as usize] -= t;
                }
                groups(&left, r.private, &mut own_list);
                for g in &own_list {
                    let nh = hands.id(hb, h, *g);
                    let w = if unit { 1 } else { ways(&left, g) };
                    take(&mut left, g, false);
                    groups(&left, r.public, &mut pub_list);
                    parent.extend(std::iter::repeat_n(p as u32, pub_list.len()));
                    hand.extend(std::iter::repeat_n(nh, pub_list.len()));
                    board.extend(pub_list.iter().map(|q| boards.id(bb, b, *q)));
                    if !unit {
                        edge.extend(pub_list.iter().map(|q| (w * ways(&left, q)) as u32));
                        path_weight.extend(pub_list.iter().map(|q| pw * w * ways(&left, q)));
                    }
                    take(&mut left, g, true);
                }
                if parent.len() > 200_000 {
                    return Err(format!("too many signals: round {}", j + 1));
                }
            }
            child.push(parent.len() as u32);
            if let Some(l) = levels.last_mut() {
                l.child = child;
            }
            let boards = boards.paths;
            let mut board_start = vec![0u32; boards.len() + 1];
            for &b in &board {
                board_start[b as usize + 1] += 1;
            }
            for b in 0..boards.len() {
                board_start[b + 1] += board_start[b];
            }
            let mut at = board_start.clone();
            let mut on_board = vec![0u32; board.len()];
            for (s, &b) in board.iter().enumerate() {
                on_board[at[b as usize] as usize] = s as u32;
                at[b as usize] += 1;
            }
            let own = levels.last().map_or(0, |l| l.own) + r.private as u32;
            let hands = hands.paths;
            levels.push(Level {
                parent,
                edge,
                path_weight,
                hand,
                board,
                child: vec![],
                hands,
                boards,
                board_start,
                on_board,
                own,
                rest: 1,
            });
        }
        // ways to complete: the same number for each pair, since all copies are alike to the count
        let mut rest = 1u64;
        let all: u64 = game.rounds.iter().map(|r| 2 * r.private as u64 + r.public as u64).sum();
        let mut left = deck.total() as u64 - all;
        for j in (0..game.rounds.len()).rev() {
            levels[j].rest = rest;
            let r = &game.rounds[j];
            for size in [r.private, r.private, r.public] {
                for i in 1..=size as u64 {
                    left += 1;
                    rest = rest * left / i;
                }
            }
        }
        let mut s = Signals { game, levels, strength: vec![], unit, deals: game.weight, by_strength: Default::default() };
        if !unit {
            s.deals = 0;
            let last = s.last();
            let mut deals = 0u64;
            for x in 0..s.levels[last].len() as u32 {
                s.each(last, x, |_, _| deals += 1);
                if deals > 8_000_000 {
                    break;
                }
            }
            s.deals = deals;
        }
        if s.deals > 8_000_000 {
            return Err("too many deals".into());
        }
        s.strength = s.strengths(deck);
        Ok(s)
    }

    fn strengths(&self, deck: &Deck) -> Vec<u32> {
        let l = &self.levels[self.last()];
        let cards = |p: &[Path]| p.iter().map(|p| p.cards().collect::<Vec<u8>>()).collect::<Vec<_>>();
        let (hands, boards) = (cards(&l.hands), cards(&l.boards));
        let pairs = l.hand.iter().zip(&l.board).map(|(&h, &b)| (h as usize, b as usize));
        let n = deck.ranks.len();
        if self.game.ranking != Ranking::Three || 2 * n * n * n > l.len() {
            return pairs.map(|(h, b)| deck.strength(self.game.ranking, &hands[h], &boards[b])).collect();
        }
        // a table by the three ranks, once without and once with a flush; a path's part of the place
        // in it, and its one suit (63: several, 62: no card)
        let mut table = Vec::with_capacity(2 * n * n * n);
        for flush in [false, true] {
            for i in 0..n * n * n {
                table.push(three([i / n / n, i / n % n, i % n].map(|r| r as u32), flush));
            }
        }
        let part = |c: &Vec<u8>| -> (usize, u8) {
            let place = c.iter().fold(0, |a, &c| a * n + deck.rank(c) as usize);
            let suit = c.iter().fold(62, |a, &c| if a == 62 || a as u32 == deck.suit(c) { deck.suit(c) as u8 } else { 63 });
            (place, suit)
        };
        let shift = n.pow(3 - l.own);
        let hands: Vec<(usize, u8)> = hands.iter().map(part).map(|(p, s)| (p * shift, s)).collect();
        let boards: Vec<(usize, u8)> = boards.iter().map(part).collect();
        pairs
            .map(|(h, b)| {
                let ((p, s), (q, t)) = (hands[h], boards[b]);
                let flush = s != 63 && (s == t || t == 62);
                table[p + q + if flush { n * n * n } else { 0 }]
            })
            .collect()
    }

    pub fn last(&self) -> usize {
        self.levels.len() - 1
    }

    /// Each signal of the opponent that goes with `s`, in order, with the ways of taking the opponent's
    /// groups from the copies left.
    #[inline]
    pub fn each(&self, j: usize, s: u32, mut f: impl FnMut(u32, u64)) {
        let l = &self.levels[j];
        let rivals = l.rivals(s);
        if self.unit && l.own == 1 {
            for &t in rivals {
                if t != s {
                    f(t, 1);
                }
            }
        } else if self.unit {
            let mask = l.hands[l.hand[s as usize] as usize].mask;
            for &t in rivals {
                if l.hands[l.hand[t as usize] as usize].mask & mask == 0 {
                    f(t, 1);
                }
            }
        } else {
            let a = &l.hands[l.hand[s as usize] as usize];
            let b = &l.boards[l.board[s as usize] as usize];
            for &t in rivals {
                let o = &l.hands[l.hand[t as usize] as usize];
                let mut w = 1u64;
                for &(k, n) in &o.taken {
                    let gone = |p: &Path| p.taken.iter().find(|x| x.0 == k).map_or(0, |x| x.1);
                    let left = (self.game.deck.copies[k as usize] - gone(b)).saturating_sub(gone(a)) as u64;
                    for i in 0..n as u64 {
                        w *= left.saturating_sub(i);
                    }
                }
                if w > 0 {
                    f(t, w / o.denom);
                }
            }
        }
    }

    /// The product of the edges down to `s`.
    #[inline]
    pub fn down(&self, j: usize, s: u32) -> u64 {
        if self.unit { 1 } else { self.levels[j].path_weight[s as usize] }
    }

    #[inline]
    pub fn outcome(&self, s: u32, t: u32) -> i32 {
        let (a, b) = (self.strength[s as usize], self.strength[t as usize]);
        let r = self.game.ranking;
        match a.cmp(&b) {
            std::cmp::Ordering::Greater => self.game.bonus[r.category(a)] as i32,
            std::cmp::Ordering::Equal => 0,
            std::cmp::Ordering::Less => -(self.game.bonus[r.category(b)] as i32),
        }
    }

    pub fn push_text(&self, j: usize, s: u32, out: &mut Vec<u8>) {
        let l = &self.levels[j];
        if j > 0 {
            self.push_text(j - 1, l.parent[s as usize], out);
            out.push(b'/');
        }
        for &c in l.hands[l.hand[s as usize] as usize].group.iter().take_while(|c| **c != NO_CARD) {
            self.game.deck.push_card(c, out);
        }
        let q = l.boards[l.board[s as usize] as usize].group;
        if q[0] != NO_CARD {
            out.push(b'+');
        }
        for &c in q.iter().take_while(|c| **c != NO_CARD) {
            self.game.deck.push_card(c, out);
        }
    }

    /// The texts of all signals of round `j`, end to end, with their bounds; `up` are those of the
    /// round before.
    pub fn texts(&self, j: usize, up: &(Vec<u8>, Vec<u32>)) -> (Vec<u8>, Vec<u32>) {
        let l = &self.levels[j];
        let part = |p: &Path, plus: bool| {
            let mut t = if plus && p.group[0] != NO_CARD { vec![b'+'] } else { vec![] };
            p.group.iter().take_while(|c| **c != NO_CARD).for_each(|&c| self.game.deck.push_card(c, &mut t));
            t
        };
        let hands: Vec<Vec<u8>> = l.hands.iter().map(|p| part(p, false)).collect();
        let boards: Vec<Vec<u8>> = l.boards.iter().map(|p| part(p, true)).collect();
        let (mut text, mut at) = (Vec::with_capacity(l.len() * 10), Vec::with_capacity(l.len() + 1));
        for s in 0..l.len() {
            at.push(text.len() as u32);
            if j > 0 {
                let p = l.parent[s] as usize;
                text.extend_from_slice(&up.0[up.1[p] as usize..up.1[p + 1] as usize]);
                text.push(b'/');
            }
            text.extend_from_slice(&hands[l.hand[s] as usize]);
            text.extend_from_slice(&boards[l.board[s] as usize]);
        }
        at.push(text.len() as u32);
        (text, at)
    }

    pub fn index_of(&self, j: usize, text: &str) -> Option<u32> {
        // the signals are few and this is asked once
        let mut buf = Vec::new();
        (0..self.levels[j].len() as u32).find(|&s| {
            buf.clear();
            self.push_text(j, s, &mut buf);
            buf == text.as_bytes()
        })
    }
}
