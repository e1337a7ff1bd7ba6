//! The commands of gameshrink that `benchmarks/run` measures, in plain Rust: one thread, the standard library alone, no contracts.
//!
//! It is a measure, not a product. On valid input it prints the same bytes as gameshrink, as `tests/compare` shows. Broken input may be refused with
//! another line. `PLAIN_TURN_BY_TURN=1` makes `play` look at each turn; otherwise turns in which no choice changes are taken together.

mod classes;
mod game;
mod seq;
mod signals;
mod simplex;
mod text;

use classes::Classes;
use game::Target;
use seq::{Abstract, Frac};
use signals::Signals;
use std::collections::HashMap;
use std::io::{Read, Write};
use text::Strategy;

/// A status and its line.
type Fail = (i32, String);

const MOST_CELLS: u64 = 4_194_304;
const MOST_RAW_CELLS: u64 = 16_777_216;
const MOST_TABLE: u64 = 1_048_576;
const MOST_PIVOTS: u64 = 8192;

fn usage<T>() -> Result<T, Fail> {
    Err((2, "usage: gameshrink-plain shrink, check, solve, play, evaluate, query, make, judge, duel or path".into()))
}

fn bad_game(e: impl ToString) -> Fail {
    (7, format!("bad game: {}", e.to_string()))
}

fn number(text: &str, lo: u64, hi: u64) -> Result<u64, Fail> {
    let plain = !text.is_empty() && text.bytes().all(|c| c.is_ascii_digit()) && (text == "0" || !text.starts_with('0'));
    match text.parse::<u64>() {
        Ok(n) if plain && (lo..=hi).contains(&n) => Ok(n),
        _ => usage(),
    }
}

fn input() -> Vec<u8> {
    let mut b = Vec::new();
    std::io::stdin().lock().read_to_end(&mut b).unwrap();
    b
}

fn unlike(s: &Signals, (j, a, b): (usize, u32, u32)) -> Fail {
    let text = |x| {
        let mut t = Vec::new();
        s.push_text(j, x, &mut t);
        String::from_utf8(t).unwrap()
    };
    (8, format!("unlike: round {} {} {}", j + 1, text(a), text(b)))
}

/// The classes that an option names, checked.
fn classes_of(s: &Signals, word: &str) -> Result<Classes, Fail> {
    match word {
        "raw" => Ok(Classes::identity(s)),
        "ogi" => {
            let c = classes::shrink(s);
            classes::check(s, &c).map_err(|u| unlike(s, u))?;
            Ok(c)
        }
        // split checks what it gives
        _ => Ok(classes::split(s, &classes::shrink(s))),
    }
}

fn read_strategy(bytes: &[u8], which: &str) -> Result<Strategy, Fail> {
    text::read_strategy(bytes).map_err(|e| (12, format!("bad strategy: {which}{e}")))
}

fn signals_of<'a>(st: &'a Strategy, which: &str) -> Result<Signals<'a>, Fail> {
    Signals::of(&st.game).map_err(|e| (12, format!("bad strategy: {which}game: {e}")))
}

fn stored_classes(s: &Signals, st: &Strategy, which: &str) -> Result<Classes, Fail> {
    let bad = |t: String| (12, format!("bad strategy: {which}classes: {t}"));
    for (j, l) in s.levels.iter().enumerate() {
        if st.lists.get(j).is_none_or(|x| x.len() != l.len()) {
            return Err(bad(format!("length in round {}", j + 1)));
        }
        let mut top = 0;
        for (i, &c) in st.lists[j].iter().enumerate() {
            if c > top {
                return Err(bad(format!("number in round {} at {i}", j + 1)));
            }
            top = top.max(c.saturating_add(1));
        }
    }
    Ok(Classes::new(s, st.lists.clone()))
}

/// Writes the text and leaves at once, without giving memory back piece by piece.
fn done(out: Vec<u8>) -> ! {
    let code = match std::io::stdout().lock().write_all(&out) {
        Ok(()) => 0,
        Err(_) => {
            eprintln!("write fault");
            4
        }
    };
    std::process::exit(code)
}

/// The command and its options; a flag has an empty value.
fn read_words(words: &[String]) -> Result<(&str, HashMap<&str, &str>), Fail> {
    let Some(command) = words.first() else { return usage() };
    let (known, needed): (&[&str], &[&str]) = match command.as_str() {
        "shrink" => (&["--summary"], &[]),
        "check" => (&["--classes", "--summary"], &[]),
        "solve" | "path" => (&["--classes"], &[]),
        "play" => (&["--classes", "--turns"], &["--turns"]),
        "evaluate" | "judge" | "duel" => (&[], &[]),
        "query" => (&["--player", "--line", "--signal"], &["--player", "--line", "--signal"]),
        "make" => (&["--kind", "--ranks", "--suits", "--cap", "--summary"], &["--kind", "--ranks", "--suits", "--cap"]),
        _ => return usage(),
    };
    let mut options: HashMap<&str, &str> = HashMap::new();
    let mut it = words[1..].iter();
    while let Some(w) = it.next() {
        if !known.contains(&w.as_str()) {
            return usage();
        }
        let v = if w == "--summary" { "" } else { it.next().map_or("-", |v| v) };
        if v.starts_with('-') || (v.is_empty() && w != "--summary") || options.insert(w, v).is_some() {
            return usage();
        }
    }
    let of_range = |k: &str, words: &[&str]| options.get(k).is_none_or(|w| words.contains(w));
    let ranges = of_range("--classes", &["ogi", "split", "raw"]) && of_range("--kind", &["kuhn", "leduc", "rhode"]);
    if !ranges || needed.iter().any(|n| !options.contains_key(n)) {
        return usage();
    }
    Ok((command, options))
}

fn run() -> Result<std::convert::Infallible, Fail> {
    let words: Vec<String> = std::env::args().skip(1).collect();
    let (command, options) = read_words(&words)?;
    match command {
        "make" => make(&options),
        "duel" => duel(&input()),
        "evaluate" | "query" | "judge" => on_strategy(command, &options),
        _ => on_game(command, &options),
    }
}

fn make(options: &HashMap<&str, &str>) -> Result<std::convert::Infallible, Fail> {
    let n = |k: &str, lo, hi| number(options[k], lo, hi);
    let t = text::made_game(options["--kind"], n("--ranks", 1, 13)? as usize, n("--suits", 1, 4)? as usize, n("--cap", 0, 8)? as u8);
    if !options.contains_key("--summary") {
        done(t.into_bytes());
    }
    let g = text::read_game(t.as_bytes()).map_err(bad_game)?;
    let s = Signals::of(&g).map_err(bad_game)?;
    done(classes::class_text(&s, &classes::shrink(&s), true))
}

fn on_strategy(command: &str, options: &HashMap<&str, &str>) -> Result<std::convert::Infallible, Fail> {
    let player = match options.get("--player") {
        Some(p) => number(p, 1, 2)?,
        None => 1,
    };
    let st = read_strategy(&input(), "")?;
    let s = signals_of(&st, "")?;
    let c = stored_classes(&s, &st, "")?;
    if command == "judge" {
        done(judge(&s, &c, &st)?);
    }
    classes::check(&s, &c).map_err(|u| unlike(&s, u))?;
    let a = Abstract::of(&s, &c, MOST_CELLS, 0).map_err(|e| (11, e))?;
    flows(&a, &st, "")?;
    let v = seq::verdict(&a, &st.plans[0], &st.plans[1]);
    for (name, (stated, found)) in ["value", "gap1", "gap2"].iter().zip(st.stated.iter().zip([v.value, v.gap[0], v.gap[1]])) {
        if *stated != found.to_string() {
            return Err((13, format!("wrong numbers: {name} {stated} found {found}")));
        }
    }
    if command == "evaluate" {
        done(verdict_text(&v));
    }
    done(query(&a, &s, &st, player as usize - 1, options["--line"], options["--signal"], &v)?)
}

fn on_game(command: &str, options: &HashMap<&str, &str>) -> Result<std::convert::Infallible, Fail> {
    let turns = match options.get("--turns") {
        Some(t) => number(t, 0, 1_000_000)?,
        None => 0,
    };
    let summary = options.contains_key("--summary");
    let class_word = options.get("--classes").copied().unwrap_or("split");
    let g = text::read_game(&input()).map_err(bad_game)?;
    let s = Signals::of(&g).map_err(bad_game)?;
    if command == "shrink" {
        done(classes::class_text(&s, &classes::shrink(&s), summary));
    }
    let c = classes_of(&s, class_word)?;
    if command == "check" {
        done(classes::class_text(&s, &c, summary));
    }
    // kept lists for the program, and for many turns where they are short
    let keep = match command {
        "play" if turns > 20 => 20_000,
        "play" => 0,
        _ => u64::MAX,
    };
    let a = Abstract::of(&s, &c, MOST_CELLS, keep).map_err(|e| (11, e))?;
    if command == "play" {
        let turn_by_turn = std::env::var("PLAIN_TURN_BY_TURN").is_ok_and(|v| v == "1");
        let p = seq::play(&a, turns, !turn_by_turn);
        done(text::strategy_text(&g, &c, &p.plans, &p.verdict));
    }
    let p = simplex::program(&a, MOST_TABLE).map_err(|s| s.line())?;
    let best = simplex::run(&p, MOST_PIVOTS).map_err(|s| s.line())?;
    if command == "path" {
        let mut o = Vec::new();
        writeln!(o, "opening {}", best.start).unwrap();
        for (k, (e, l)) in best.turns.iter().enumerate() {
            writeln!(o, "{} enters {e} leaves {l}", k + 1).unwrap();
        }
        writeln!(o, "aim {}", best.aim).unwrap();
        done(o);
    }
    let plans = simplex::plans(&p, &best).map_err(|s| s.line())?;
    let v = seq::verdict(&a, &plans[0], &plans[1]);
    done(text::strategy_text(&g, &c, &plans, &v))
}

fn flows(a: &Abstract, st: &Strategy, which: &str) -> Result<(), Fail> {
    for p in 0..2 {
        if let Some(f) = a.flow_fault(p as u8, &st.plans[p]) {
            return Err((12, format!("bad strategy: {which}player {} {f}", p + 1)));
        }
    }
    Ok(())
}

fn judge(s: &Signals, c: &Classes, st: &Strategy) -> Result<Vec<u8>, Fail> {
    let raw = Classes::identity(s);
    let r = Abstract::of(s, &raw, MOST_RAW_CELLS, 0).map_err(|e| (11, e))?;
    let a = Abstract::bare(s, c);
    flows(&a, st, "")?;
    let x = seq::lift(&a, &r, 0, &st.plans[0]);
    let y = seq::lift(&a, &r, 1, &st.plans[1]);
    Ok(verdict_text(&seq::verdict(&r, &x, &y)))
}

/// Player 1 of the first strategy against player 2 of the second, and the value of each hand of round 1.
fn duel(bytes: &[u8]) -> Result<std::convert::Infallible, Fail> {
    let end = bytes.iter().position(|&b| b == b'\n').map_or(bytes.len(), |at| at + 1);
    let one = read_strategy(&bytes[..end], "first: ")?;
    let s = signals_of(&one, "first: ")?;
    let c1 = stored_classes(&s, &one, "first: ")?;
    let a1 = Abstract::bare(&s, &c1);
    flows(&a1, &one, "first: ")?;
    let two = read_strategy(&bytes[end..], "second: ")?;
    if one.game != two.game {
        return Err((16, "other game".into()));
    }
    let c2 = stored_classes(&s, &two, "second: ")?;
    let a2 = Abstract::bare(&s, &c2);
    flows(&a2, &two, "second: ")?;
    let raw = Classes::identity(&s);
    let r = Abstract::of(&s, &raw, MOST_RAW_CELLS, 0).map_err(|e| (11, e))?;
    let x = seq::lift(&a1, &r, 0, &one.plans[0]);
    let y = seq::lift(&a2, &r, 1, &two.plans[1]);
    let (verdict, hands) = seq::duel(&s, &r, &x, &y);
    let mut out = verdict_text(&verdict);
    for (hand, value) in hands.iter().enumerate() {
        out.extend_from_slice(b"hand ");
        s.push_text(0, hand as u32, &mut out);
        writeln!(out, " {value}").unwrap();
    }
    done(out)
}

fn verdict_text(v: &seq::Verdict) -> Vec<u8> {
    format!("value {}\ngap1 {}\ngap2 {}\n", v.value, v.gap[0], v.gap[1]).into_bytes()
}

fn query(a: &Abstract, s: &Signals, st: &Strategy, player: usize, line: &str, signal: &str, v: &seq::Verdict) -> Result<Vec<u8>, Fail> {
    let bad = |w: &str| (14, format!("bad query: {w}"));
    let Some(Target::Point(i)) = a.game.line_of(line) else { return Err(bad("line")) };
    let p = &a.game.points[i as usize];
    if p.player as usize != player {
        return Err(bad("player"));
    }
    let rounds = a.game.rounds();
    let Some(j) = (0..rounds).find(|&j| s.index_of(j, signal).is_some()) else { return Err(bad("signal")) };
    if j != p.round as usize {
        return Err(bad("round"));
    }
    let x = s.index_of(j, signal).unwrap() as usize;
    let k = a.c.lists[j][x] as usize;
    let m = p.moves.len();
    let at = a.offset[i as usize] as usize + k * m;
    let w = &st.plans[player].weights[at..at + m];
    let sum: i128 = w.iter().map(|&x| x as i128).sum();
    let mut o = Vec::new();
    for (n, (&x, (letter, _))) in w.iter().zip(&p.moves).enumerate() {
        let f = if sum > 0 { Frac::new(x as i128, sum) } else { Frac((n == 0) as i128, 1) };
        writeln!(o, "{} {f}", *letter as char).unwrap();
    }
    writeln!(o, "gap {}", v.gap[player]).unwrap();
    Ok(o)
}

fn main() {
    let (code, line) = run().unwrap_err();
    eprintln!("{line}");
    std::process::exit(code)
}
