//! Decks, betting trees, the walk of points and ends, and the limits of a game.

#[derive(Clone, Copy, PartialEq, Eq, Debug)]
pub enum Ranking {
    High,
    Pair,
    Three,
}

impl Ranking {
    pub fn word(self) -> &'static str {
        match self {
            Ranking::High => "high",
            Ranking::Pair => "pair",
            Ranking::Three => "three",
        }
    }
    pub fn of(word: &str) -> Option<Ranking> {
        [Ranking::High, Ranking::Pair, Ranking::Three].into_iter().find(|r| r.word() == word)
    }
    pub fn categories(self) -> usize {
        match self {
            Ranking::High => 1,
            Ranking::Pair => 2,
            Ranking::Three => 6,
        }
    }
    pub fn category(self, strength: u32) -> usize {
        match self {
            Ranking::High => 0,
            Ranking::Pair => (strength >> 6) as usize,
            Ranking::Three => (strength >> 18) as usize,
        }
    }
}

#[derive(Clone, Debug, PartialEq)]
pub struct Deck {
    pub ranks: Vec<u8>,
    pub suits: Vec<u8>,
    pub copies: Vec<u8>,
}

impl Deck {
    pub fn new(ranks: &str, suits: &str, copies: &str) -> Result<Deck, &'static str> {
        let (ranks, suits) = (ranks.as_bytes(), suits.as_bytes());
        if ranks.is_empty() || suits.is_empty() {
            return Err("no cards");
        }
        if ranks.iter().chain(suits).any(|c| !c.is_ascii_alphanumeric()) {
            return Err("bad letter");
        }
        for t in [ranks, suits] {
            if (1..t.len()).any(|i| t[..i].contains(&t[i])) {
                return Err("repeated letter");
            }
        }
        let kinds = ranks.len() * suits.len();
        if kinds > 52 {
            return Err("too many kinds");
        }
        let c = copies.as_bytes();
        if !c.is_empty() && (c.len() != kinds || c.iter().any(|d| !d.is_ascii_digit())) {
            return Err("bad copies");
        }
        let copies_of = if c.is_empty() { vec![1; kinds] } else { c.iter().map(|d| d - b'0').collect() };
        Ok(Deck { ranks: ranks.to_vec(), suits: suits.to_vec(), copies: copies_of })
    }
    pub fn kinds(&self) -> usize {
        self.copies.len()
    }
    pub fn rank(&self, card: u8) -> u32 {
        card as u32 / self.suits.len() as u32
    }
    pub fn suit(&self, card: u8) -> u32 {
        card as u32 % self.suits.len() as u32
    }
    pub fn push_card(&self, card: u8, out: &mut Vec<u8>) {
        out.push(self.ranks[self.rank(card) as usize]);
        out.push(self.suits[self.suit(card) as usize]);
    }
    pub fn total(&self) -> u32 {
        self.copies.iter().map(|&c| c as u32).sum()
    }

    pub fn strength(&self, r: Ranking, own: &[u8], public: &[u8]) -> u32 {
        match r {
            Ranking::High => self.rank(own[0]),
            Ranking::Pair => {
                let k = self.rank(own[0]);
                k + if public.iter().any(|&c| self.rank(c) == k) { 64 } else { 0 }
            }
            Ranking::Three => {
                let mut k = [0u32; 3];
                let mut s = [0u32; 3];
                for (i, &c) in own.iter().chain(public).enumerate() {
                    k[i] = self.rank(c);
                    s[i] = self.suit(c);
                }
                three(k, s[0] == s[1] && s[1] == s[2])
            }
        }
    }
}

pub fn three(mut k: [u32; 3], flush: bool) -> u32 {
    if k[0] < k[1] {
        k.swap(0, 1);
    }
    if k[1] < k[2] {
        k.swap(1, 2);
    }
    if k[0] < k[1] {
        k.swap(0, 1);
    }
    let [a, b, c] = k;
    let straight = a == b + 1 && b == c + 1;
    let (cat, a, b, c) = if straight && flush {
        (5, a, 0, 0)
    } else if a == b && b == c {
        (4, a, 0, 0)
    } else if straight {
        (3, a, 0, 0)
    } else if flush {
        (2, a, b, c)
    } else if a == b {
        (1, a, c, 0)
    } else if b == c {
        (1, b, a, 0)
    } else {
        (0, a, b, c)
    };
    cat * 262144 + a * 4096 + b * 64 + c
}

#[derive(Clone, Debug, PartialEq)]
pub enum Tree {
    Act(u8, Vec<Move>),
    Fold,
    Even,
}

#[derive(Clone, Debug, PartialEq)]
pub struct Move {
    pub letter: u8,
    pub chips: u16,
    pub next: Tree,
}

/// A small recursive-descent reader; a fault says only where it stopped.
pub fn parse_tree(text: &str) -> Result<Tree, usize> {
    fn sub(t: &[u8], at: &mut usize, depth: usize, fold: bool) -> Result<Tree, usize> {
        match t.get(*at) {
            Some(b'=') => {
                *at += 1;
                Ok(Tree::Even)
            }
            Some(b'!') if fold => {
                *at += 1;
                Ok(Tree::Fold)
            }
            Some(&p @ (b'1' | b'2')) if depth < 16 => {
                *at += 1;
                let mut moves: Vec<Move> = Vec::new();
                let mut open = b'[';
                loop {
                    match t.get(*at) {
                        Some(&c) if c == open => *at += 1,
                        Some(b']') if open == b',' => {
                            *at += 1;
                            return Ok(Tree::Act(p - b'0', moves));
                        }
                        _ => return Err(*at),
                    }
                    open = b',';
                    let letter = match t.get(*at) {
                        Some(&c) if c.is_ascii_lowercase() && moves.iter().all(|m| m.letter != c) => c,
                        _ => return Err(*at),
                    };
                    *at += 1;
                    let mut chips = 0u16;
                    while let Some(&d) = t.get(*at).filter(|d| d.is_ascii_digit()) {
                        let n = chips * 10 + (d - b'0') as u16;
                        if n == 0 || n > 4096 {
                            return Err(*at);
                        }
                        chips = n;
                        *at += 1;
                    }
                    if t.get(*at) != Some(&b':') {
                        return Err(*at);
                    }
                    *at += 1;
                    let next = sub(t, at, depth + 1, true)?;
                    moves.push(Move { letter, chips, next });
                }
            }
            _ => Err(*at),
        }
    }
    let mut at = 0;
    let tree = sub(text.as_bytes(), &mut at, 0, false)?;
    if at == text.len() { Ok(tree) } else { Err(at) }
}

pub fn tree_text(tree: &Tree, out: &mut String) {
    match tree {
        Tree::Even => out.push('='),
        Tree::Fold => out.push('!'),
        Tree::Act(p, moves) => {
            out.push((b'0' + p) as char);
            for (i, m) in moves.iter().enumerate() {
                out.push(if i == 0 { '[' } else { ',' });
                out.push(m.letter as char);
                if m.chips > 0 {
                    out.push_str(&m.chips.to_string());
                }
                out.push(':');
                tree_text(&m.next, out);
            }
            out.push(']');
        }
    }
}

pub fn limit_tree(bet: u16, cap: u8) -> Tree {
    fn facing(p: u8, bet: u16, left: u8) -> Tree {
        let mut moves = vec![Move { letter: b'f', chips: 0, next: Tree::Fold }, Move { letter: b'c', chips: bet, next: Tree::Even }];
        if left > 0 {
            moves.push(Move { letter: b'r', chips: 2 * bet, next: facing(3 - p, bet, left - 1) });
        }
        Tree::Act(p, moves)
    }
    fn open(p: u8, bet: u16, cap: u8) -> Tree {
        let next = if p == 1 { open(2, bet, cap) } else { Tree::Even };
        let mut moves = vec![Move { letter: b'k', chips: 0, next }];
        if cap > 0 {
            moves.push(Move { letter: b'b', chips: bet, next: facing(3 - p, bet, cap - 1) });
        }
        Tree::Act(p, moves)
    }
    open(1, bet, cap)
}

#[derive(Clone, Debug, PartialEq)]
pub struct Round {
    pub private: u8,
    pub public: u8,
    pub tree: Tree,
}

#[derive(Clone, Copy, PartialEq, Eq, Debug)]
pub enum Target {
    Point(u32),
    End(u32),
}

pub type Step = (u32, u8);

#[derive(Clone, Debug, PartialEq)]
pub struct Point {
    /// 0 or 1
    pub player: u8,
    /// counted from 0
    pub round: u8,
    pub own: Option<Step>,
    pub moves: Vec<(u8, Target)>,
}

#[derive(Clone, Copy, PartialEq, Eq, Debug)]
pub enum EndKind {
    Folded(u8),
    Show,
}

#[derive(Clone, Debug, PartialEq)]
pub struct End {
    pub round: u8,
    pub kind: EndKind,
    pub put: u16,
    pub last: [Option<Step>; 2],
}

#[derive(Clone, Debug, PartialEq)]
pub struct Game {
    pub deck: Deck,
    pub ranking: Ranking,
    pub bonus: Vec<u8>,
    pub ante: u16,
    pub rounds: Vec<Round>,
    pub points: Vec<Point>,
    pub ends: Vec<End>,
    pub start: Target,
    pub weight: u64,
}

fn choose(n: u64, k: u64) -> u128 {
    let mut r = 1u128;
    for i in 0..k.min(n + 1) {
        r = r * (n - i) as u128 / (i + 1) as u128;
    }
    if k > n { 0 } else { r }
}

impl Game {
    /// The rules on cards, betting and weight; those on signals and deals come with the signals.
    pub fn check(deck: Deck, ranking: Ranking, bonus: Vec<u8>, ante: u16, rounds: Vec<Round>) -> Result<Game, String> {
        if rounds.is_empty() || rounds.len() > 4 {
            return Err(format!("rounds: {}", rounds.len()));
        }
        if rounds[0].private == 0 {
            return Err("no private card in round 1".into());
        }
        let own: u32 = rounds.iter().map(|r| r.private as u32).sum();
        let all = own + rounds.iter().map(|r| r.public as u32).sum::<u32>();
        if if ranking == Ranking::Three { all != 3 } else { own != 1 } {
            return Err(format!("cards for ranking: own {own} all {all}"));
        }
        let (need, have) = (all + own, deck.total());
        if need > have {
            return Err(format!("not enough cards: need {need} have {have}"));
        }
        for (j, r) in rounds.iter().enumerate() {
            fn evens(t: &Tree) -> bool {
                match t {
                    Tree::Even => true,
                    Tree::Fold => false,
                    Tree::Act(_, m) => m.iter().any(|m| evens(&m.next)),
                }
            }
            if j + 1 < rounds.len() && !evens(&r.tree) {
                return Err(format!("no even leaf: round {}", j + 1));
            }
        }
        // per round: folds and evens, the most put on any way, the chips put at an even leaf
        let mut ends = 0u128;
        let mut ways = 1u128;
        for (j, r) in rounds.iter().enumerate() {
            let (mut folds, mut evens) = (0u128, 0u128);
            let mut path = Vec::new();
            count(&r.tree, [0, 0], &mut path, &mut folds, &mut evens).map_err(|p| format!("uneven: round {} path {p}", j + 1))?;
            ends = ends.saturating_add(ways.saturating_mul(folds));
            ways = ways.saturating_mul(evens);
        }
        ends = ends.saturating_add(ways);
        fn count(t: &Tree, put: [u32; 2], path: &mut Vec<u8>, folds: &mut u128, evens: &mut u128) -> Result<(), String> {
            match t {
                Tree::Fold => *folds += 1,
                Tree::Even if put[0] != put[1] => return Err(String::from_utf8(path.clone()).unwrap()),
                Tree::Even => *evens += 1,
                Tree::Act(p, moves) => {
                    for m in moves {
                        let mut q = put;
                        q[*p as usize - 1] += m.chips as u32;
                        path.push(m.letter);
                        count(&m.next, q, path, folds, evens)?;
                        path.pop();
                    }
                }
            }
            Ok(())
        }
        fn most(rounds: &[Round], put: u32) -> u32 {
            fn go(t: &Tree, put: [u32; 2], top: &mut u32, even: &mut u32) {
                match t {
                    Tree::Fold => *top = (*top).max(put[0].max(put[1])),
                    Tree::Even => *even = (*even).max(put[0]),
                    Tree::Act(p, moves) => {
                        for m in moves {
                            let mut q = put;
                            q[*p as usize - 1] += m.chips as u32;
                            go(&m.next, q, top, even);
                        }
                    }
                }
            }
            let Some((first, rest)) = rounds.split_first() else { return put };
            let (mut top, mut even) = (0, 0);
            go(&first.tree, [put; 2], &mut top, &mut even);
            top.max(if even > 0 { most(rest, even) } else { 0 })
        }
        let chips = most(&rounds, ante as u32) * *bonus.iter().max().unwrap() as u32;
        if chips > 4096 {
            return Err(format!("put too large: {chips}"));
        }
        if ends > 8192 {
            return Err(format!("too many lines: {ends}"));
        }
        let mut left = have as u64;
        let mut weight = 1u128;
        for r in &rounds {
            for size in [r.public, r.private, r.private] {
                weight *= choose(left, size as u64);
                left -= size as u64;
            }
        }
        if weight > 67_108_864 {
            return Err(format!("too heavy: {weight}"));
        }
        let mut g = Game { deck, ranking, bonus, ante, rounds, points: vec![], ends: vec![], start: Target::End(0), weight: weight as u64 };
        let rounds = std::mem::take(&mut g.rounds);
        g.start = g.walk(&rounds, 0, &rounds[0].tree, [ante; 2], [None; 2], 0);
        g.rounds = rounds;
        Ok(g)
    }

    fn walk(&mut self, rounds: &[Round], j: usize, t: &Tree, put: [u16; 2], last: [Option<Step>; 2], actor: u8) -> Target {
        let end = |kind, put| End { round: j as u8, kind, put, last };
        match t {
            Tree::Fold => {
                self.ends.push(end(EndKind::Folded(actor), put[actor as usize]));
                Target::End(self.ends.len() as u32 - 1)
            }
            Tree::Even if j + 1 < rounds.len() => self.walk(rounds, j + 1, &rounds[j + 1].tree, put, last, 0),
            Tree::Even => {
                self.ends.push(end(EndKind::Show, put[0]));
                Target::End(self.ends.len() as u32 - 1)
            }
            Tree::Act(p, moves) => {
                let id = self.points.len() as u32;
                let player = p - 1;
                self.points.push(Point { player, round: j as u8, own: last[player as usize], moves: vec![] });
                for (i, m) in moves.iter().enumerate() {
                    let (mut put, mut last) = (put, last);
                    put[player as usize] += m.chips;
                    last[player as usize] = Some((id, i as u8));
                    let to = self.walk(rounds, j, &m.next, put, last, player);
                    self.points[id as usize].moves.push((m.letter, to));
                }
                Target::Point(id)
            }
        }
    }

    pub fn rounds(&self) -> usize {
        self.rounds.len()
    }

    pub fn round_of(&self, t: Target) -> usize {
        match t {
            Target::Point(p) => self.points[p as usize].round as usize,
            Target::End(z) => self.ends[z as usize].round as usize,
        }
    }

    /// The point or end of a line's text.
    pub fn line_of(&self, text: &str) -> Option<Target> {
        let t = text.as_bytes();
        let mut at = 0;
        let mut here = self.start;
        let mut entered = 0;
        loop {
            while entered <= self.round_of(here) {
                if t.get(at) != Some(&b'/') {
                    return None;
                }
                at += 1;
                entered += 1;
            }
            let Some(&c) = t.get(at) else { return Some(here) };
            let Target::Point(p) = here else { return None };
            here = self.points[p as usize].moves.iter().find(|m| m.0 == c)?.1;
            at += 1;
        }
    }

    /// What is paid to player 1 per unit of outcome (at a showdown) or flatly (at a fold).
    pub fn pay(&self, z: &End) -> i64 {
        match z.kind {
            EndKind::Folded(0) => -(z.put as i64),
            _ => z.put as i64,
        }
    }

    pub fn greatest_pay(&self) -> i64 {
        let bonus = *self.bonus.iter().max().unwrap() as i64;
        self.ends.iter().map(|z| z.put as i64).max().unwrap() * bonus
    }
}
