//! The part of TOML that game files need, JSON, and the texts of the files. Valid input is expected: what is not
//! understood is refused without naming the place.

use crate::classes::Classes;
use crate::game::{Deck, Game, Ranking, Round, limit_tree, parse_tree, tree_text};
use crate::seq::{Plan, Verdict};
use std::collections::BTreeMap;
use std::io::Write;

#[derive(Clone, Debug, PartialEq)]
pub enum Value {
    Int(i128),
    Text(String),
    List(Vec<Value>),
    Table(BTreeMap<String, Value>),
    Other,
}

impl Value {
    fn int(&self) -> Option<i128> {
        if let Value::Int(n) = self { Some(*n) } else { None }
    }
    fn text(&self) -> Option<&str> {
        if let Value::Text(t) = self { Some(t) } else { None }
    }
    fn list(&self) -> Option<&[Value]> {
        if let Value::List(l) = self { Some(l) } else { None }
    }
    fn table(&self) -> Option<&BTreeMap<String, Value>> {
        if let Value::Table(t) = self { Some(t) } else { None }
    }
}

/// Key-value lines, `[[name]]` headers, comments; strings without escapes, integers, lists and inline tables of them.
pub fn read_toml(text: &str) -> Option<BTreeMap<String, Value>> {
    fn value(t: &str) -> Option<(Value, &str)> {
        let t = t.trim_start();
        match t.as_bytes().first()? {
            q @ (b'"' | b'\'') => {
                let end = 1 + t[1..].find(*q as char)?;
                let s = &t[1..end];
                (!s.contains('\\')).then(|| (Value::Text(s.into()), &t[end + 1..]))
            }
            b'[' => {
                let mut rest = t[1..].trim_start();
                let mut l = Vec::new();
                while !rest.starts_with(']') {
                    let (v, r) = value(rest)?;
                    l.push(v);
                    rest = r.trim_start();
                    if let Some(r) = rest.strip_prefix(',') {
                        rest = r.trim_start();
                    } else if !rest.starts_with(']') {
                        return None;
                    }
                }
                Some((Value::List(l), &rest[1..]))
            }
            b'{' => {
                let mut rest = t[1..].trim_start();
                let mut table = BTreeMap::new();
                while !rest.starts_with('}') {
                    let (key, r) = rest.split_once('=')?;
                    let (v, r) = value(r)?;
                    table.insert(key.trim().trim_matches('"').into(), v);
                    rest = r.trim_start();
                    if let Some(r) = rest.strip_prefix(',') {
                        rest = r.trim_start();
                    } else if !rest.starts_with('}') {
                        return None;
                    }
                }
                Some((Value::Table(table), &rest[1..]))
            }
            _ => {
                let end = t.find(|c: char| !c.is_ascii_alphanumeric() && !"+-_.:".contains(c)).unwrap_or(t.len());
                let n = t[..end].parse::<i128>().map_or(Value::Other, Value::Int);
                (end > 0).then(|| (n, &t[end..]))
            }
        }
    }
    let mut top: BTreeMap<String, Value> = BTreeMap::new();
    let mut inside: Option<String> = None;
    for line in text.lines() {
        let line = line.trim();
        if line.is_empty() || line.starts_with('#') {
            continue;
        }
        if let Some(h) = line.strip_prefix("[[") {
            let name = h.split("]]").next()?.trim().to_string();
            if !h.contains("]]") {
                return None;
            }
            let Value::List(l) = top.entry(name.clone()).or_insert(Value::List(vec![])) else { return None };
            l.push(Value::Table(BTreeMap::new()));
            inside = Some(name);
            continue;
        }
        let (key, rest) = line.split_once('=')?;
        let (v, rest) = value(rest)?;
        if !(rest.trim().is_empty() || rest.trim().starts_with('#')) {
            return None;
        }
        let table = match &inside {
            None => &mut top,
            Some(n) => match top.get_mut(n)? {
                Value::List(l) => match l.last_mut()? {
                    Value::Table(t) => t,
                    _ => return None,
                },
                _ => return None,
            },
        };
        if table.insert(key.trim().trim_matches('"').into(), v).is_some() {
            return None;
        }
    }
    Some(top)
}

pub fn read_json(t: &[u8]) -> Option<Value> {
    fn space(t: &[u8], at: &mut usize) {
        while t.get(*at).is_some_and(|c| b" \t\r\n".contains(c)) {
            *at += 1;
        }
    }
    fn value(t: &[u8], at: &mut usize) -> Option<Value> {
        space(t, at);
        let v = match *t.get(*at)? {
            b'"' => {
                let from = *at + 1;
                *at = from + t[from..].iter().position(|c| *c == b'"')?;
                let s = std::str::from_utf8(&t[from..*at]).ok()?;
                *at += 1;
                (!s.contains('\\')).then(|| Value::Text(s.into()))?
            }
            b'[' => {
                let mut l = Vec::new();
                *at += 1;
                space(t, at);
                if t.get(*at) == Some(&b']') {
                    *at += 1;
                    return Some(Value::List(l));
                }
                loop {
                    l.push(value(t, at)?);
                    *at += 1;
                    match t[*at - 1] {
                        b',' => {}
                        b']' => break,
                        _ => return None,
                    }
                }
                Value::List(l)
            }
            b'{' => {
                let mut m = BTreeMap::new();
                *at += 1;
                space(t, at);
                if t.get(*at) == Some(&b'}') {
                    *at += 1;
                    return Some(Value::Table(m));
                }
                loop {
                    let Value::Text(k) = value(t, at)? else { return None };
                    (t.get(*at)? == &b':').then_some(())?;
                    *at += 1;
                    m.insert(k, value(t, at)?);
                    *at += 1;
                    match t[*at - 1] {
                        b',' => {}
                        b'}' => break,
                        _ => return None,
                    }
                }
                Value::Table(m)
            }
            _ => {
                let from = *at;
                let mut n = 0i128;
                while let Some(d) = t.get(*at).filter(|d| d.is_ascii_digit()) {
                    n = n.checked_mul(10)? + (d - b'0') as i128;
                    *at += 1;
                }
                (*at > from).then_some(Value::Int(n))?
            }
        };
        space(t, at);
        t.get(*at).map(|_| v)
    }
    // one byte more, so that every value is followed by something
    let mut s = t.to_vec();
    s.push(0);
    let mut at = 0;
    let v = value(&s, &mut at)?;
    (at == t.len()).then_some(v)
}

/// The game of a game file's table or, with `json`, of a strategy file.
pub fn game_of(t: &BTreeMap<String, Value>, json: bool) -> Result<Game, String> {
    let int = |t: &BTreeMap<String, Value>, k: &str, lo: i128, hi: i128| match t.get(k) {
        None => Err(format!("missing key {k}")),
        Some(v) => match v.int() {
            None => Err(format!("wrong type {k}")),
            Some(n) if n < lo || n > hi => Err(format!("out of range {k}")),
            Some(n) => Ok(n as u16),
        },
    };
    let text = |k: &str| match t.get(k) {
        None => Err(format!("missing key {k}")),
        Some(v) => v.text().ok_or(format!("wrong type {k}")),
    };
    let version = match t.get("version") {
        None => return Err("missing key version".into()),
        Some(v) => v.int().ok_or("wrong type version")?,
    };
    if version != 1 && version != 2 {
        return Err(format!("version {version}"));
    }
    let rounds_key = if json { "rounds" } else { "round" };
    let known = ["version", "ranks", "suits", "copies", "ranking", "ante", rounds_key];
    if t.keys().any(|k| !known.contains(&k.as_str()) && !(version == 2 && k == "bonus")) {
        return Err("unknown key".into());
    }
    let (ranks, suits, word) = (text("ranks")?, text("suits")?, text("ranking")?);
    let copies = if t.contains_key("copies") { text("copies")? } else { "" };
    let bonus = match t.get("bonus") {
        None if version == 2 => return Err("missing key bonus".into()),
        None => None,
        Some(b) => Some(b.list().ok_or("wrong type bonus")?),
    };
    if !t.contains_key("ante") {
        return Err("missing key ante".into());
    }
    let list = t.get(rounds_key).ok_or("missing key round")?.list().ok_or("wrong type round")?;
    if list.is_empty() || list.len() > 4 {
        return Err(format!("rounds: {}", list.len()));
    }
    let ranking = Ranking::of(word).ok_or("out of range ranking")?;
    let bonus = match bonus {
        None => vec![1; ranking.categories()],
        Some(l) => {
            let l: Vec<u8> = l.iter().filter_map(|v| v.int().filter(|n| (1..10).contains(n))).map(|n| n as u8).collect();
            if l.len() != ranking.categories() || l.len() != t["bonus"].list().unwrap().len() {
                return Err("out of range bonus".into());
            }
            l
        }
    };
    let ante = int(t, "ante", 1, 4096)?;
    let mut raw = Vec::new();
    for (j, r) in list.iter().enumerate() {
        let r = r.table().ok_or("wrong type round")?;
        let at = |e: String| format!("{e} in round {}", j + 1);
        let private = int(r, "private", 0, 2).map_err(at)? as u8;
        let public = int(r, "public", 0, 3).map_err(at)? as u8;
        let tree = match r.get("tree") {
            Some(v) => Err(v.text().ok_or(at("wrong type tree".into()))?),
            None => Ok((int(r, "bet", 1, 2048).map_err(at)?, int(r, "cap", 0, 8).map_err(at)? as u8)),
        };
        raw.push((private, public, tree));
    }
    let deck = Deck::new(ranks, suits, copies).map_err(|e| format!("deck: {e}"))?;
    let mut rounds = Vec::new();
    for (j, (private, public, tree)) in raw.into_iter().enumerate() {
        let tree = match tree {
            Ok((bet, cap)) => limit_tree(bet, cap),
            Err(t) => parse_tree(t).map_err(|at| format!("tree of round {}: fault near {at}", j + 1))?,
        };
        rounds.push(Round { private, public, tree });
    }
    Game::check(deck, ranking, bonus, ante, rounds)
}

pub fn read_game(bytes: &[u8]) -> Result<Game, String> {
    let text = std::str::from_utf8(bytes).map_err(|_| "not UTF-8")?;
    game_of(&read_toml(text).ok_or("not TOML")?, false)
}

pub fn made_game(kind: &str, ranks: usize, suits: usize, cap: u8) -> String {
    let (word, ante, rounds): (_, _, &[(u8, u8, u16)]) = match kind {
        "kuhn" => ("high", 1, &[(1, 0, 1)]),
        "leduc" => ("pair", 1, &[(1, 0, 2), (0, 1, 4)]),
        _ => ("three", 5, &[(1, 0, 10), (0, 1, 20), (0, 1, 20)]),
    };
    let mut o = format!(
        "version = 1\nranks = \"{}\"\nsuits = \"{}\"\nranking = \"{word}\"\nante = {ante}\n",
        &"23456789TJQKA"[13 - ranks..],
        &"shdc"[..suits]
    );
    for (p, q, b) in rounds {
        o.push_str(&format!("\n[[round]]\nprivate = {p}\npublic = {q}\nbet = {b}\ncap = {cap}\n"));
    }
    o
}

fn push_list(out: &mut Vec<u8>, it: impl Iterator<Item = u64>) {
    out.push(b'[');
    for (i, n) in it.enumerate() {
        if i > 0 {
            out.push(b',');
        }
        if n < 10 {
            out.push(b'0' + n as u8);
            continue;
        }
        let mut buf = [0u8; 20];
        let mut at = 20;
        let mut n = n;
        while n > 0 {
            at -= 1;
            buf[at] = b'0' + (n % 10) as u8;
            n /= 10;
        }
        out.extend_from_slice(&buf[at..]);
    }
    out.push(b']');
}

/// A strategy file in version 2.
pub fn strategy_text(g: &Game, c: &Classes, plans: &[Plan; 2], v: &Verdict) -> Vec<u8> {
    let mut o = Vec::with_capacity(1 << 16);
    o.extend_from_slice(b"{\"classes\":[");
    for (j, l) in c.lists.iter().enumerate() {
        if j > 0 {
            o.push(b',');
        }
        push_list(&mut o, l.iter().map(|&c| c as u64 + 1));
    }
    write!(o, "],\"game\":{{\"ante\":{},\"bonus\":", g.ante).unwrap();
    push_list(&mut o, g.bonus.iter().map(|&b| b as u64));
    o.push(b',');
    let s = |b: &[u8]| String::from_utf8(b.to_vec()).unwrap();
    let copies: String = g.deck.copies.iter().map(|c| (b'0' + c) as char).collect();
    write!(o, "\"copies\":\"{copies}\",\"ranking\":\"{}\",\"ranks\":\"{}\",\"rounds\":[", g.ranking.word(), s(&g.deck.ranks)).unwrap();
    for (j, r) in g.rounds.iter().enumerate() {
        let mut t = String::new();
        tree_text(&r.tree, &mut t);
        let comma = if j > 0 { "," } else { "" };
        write!(o, "{comma}{{\"private\":{},\"public\":{},\"tree\":\"{t}\"}}", r.private, r.public).unwrap();
    }
    write!(o, "],\"suits\":\"{}\",\"version\":2}},\"gap1\":\"{}\",\"gap2\":\"{}\"", s(&g.deck.suits), v.gap[0], v.gap[1]).unwrap();
    for (i, p) in plans.iter().enumerate() {
        write!(o, ",\"player{}\":{{\"total\":{},\"weights\":", i + 1, p.total).unwrap();
        push_list(&mut o, p.weights.iter().copied());
        o.push(b'}');
    }
    writeln!(o, ",\"value\":\"{}\",\"version\":2}}", v.value).unwrap();
    o
}

pub struct Strategy {
    pub game: Game,
    pub lists: Vec<Vec<u32>>,
    pub plans: [Plan; 2],
    /// value, gap1, gap2 as written
    pub stated: [String; 3],
}

pub fn read_strategy(bytes: &[u8]) -> Result<Strategy, String> {
    let v = read_json(bytes).ok_or("not JSON")?;
    let t = v.table().ok_or("shape of file")?;
    let get = |k: &str| t.get(k).ok_or(format!("shape of {k}"));
    let game = game_of(get("game")?.table().ok_or("game: wrong type version")?, true).map_err(|e| format!("game: {e}"))?;
    let ints = |v: &Value| v.list().and_then(|l| l.iter().map(|v| v.int().map(|n| n as u64)).collect::<Option<Vec<u64>>>());
    let mut lists = Vec::new();
    for l in get("classes")?.list().ok_or("shape of classes")? {
        let l = ints(l).ok_or("shape of classes")?;
        lists.push(l.iter().map(|&n| (n as u32).wrapping_sub(1)).collect());
    }
    let mut plans = Vec::new();
    for k in ["player1", "player2"] {
        let p = get(k)?.table().ok_or(format!("shape of {k}"))?;
        let total = p.get("total").and_then(|v| v.int()).ok_or(format!("shape of {k}"))? as u64;
        let weights = p.get("weights").and_then(ints).ok_or(format!("shape of {k}"))?;
        plans.push(Plan { total, weights });
    }
    let mut stated = [const { String::new() }; 3];
    for (i, k) in ["value", "gap1", "gap2"].into_iter().enumerate() {
        stated[i] = get(k)?.text().ok_or(format!("shape of {k}"))?.into();
    }
    Ok(Strategy { game, lists, plans: plans.try_into().unwrap(), stated })
}
