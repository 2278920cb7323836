//! The second program: hand-worked and random cases, and their answers from the words of documents 01 and 02 alone.
mod asks;
mod cases;
mod changes;
mod form;
mod grids;
mod make;
mod make_meshes;
mod make_roads;
mod mesh;
mod net;
mod plain;
mod random;
mod relaxing;
mod reports;
mod road_words;
mod roads;
mod trades;
mod worked;

use asks::{Ask, Op, Said};
use cases::Case;
use std::io::{stdin, stdout, BufReader, BufWriter, Result, Write};
use trades::Trade;

const USAGE: &str = "\
usage: oracle make SEED COUNT LIMIT [worked] [meshes] > CASES
                                                         COUNT random cases of at most LIMIT nodes (1 to 4096);
                                                         the hand-worked ones of oracle/worked.txt first; with
                                                         meshes each case is asked as a mesh too, as many random
                                                         meshes (of at most 256 nodes) follow, and the hand-worked
                                                         ones of oracle/meshes.txt stand behind those of worked.txt
       oracle answer [worked] [meshes] < CASES           a line for each ask; of the hand-worked ones the answer that
                                                         is written there
       oracle tables SEED COUNT LIMIT [first] > TABLES   COUNT random tables for the report; its own cases first
       oracle report < TABLES                            the report of each table, and with its change set
       oracle trades SEED COUNT LIMIT [worked] > TRADES  COUNT random trades with the road-graph tools, of nets of at
                                                         most LIMIT nodes; those of oracle/roads.txt first
       oracle traded [worked] < TRADES                   the lines of each; of the hand-worked ones the answer that is
                                                         written there";

fn usage() -> ! {
    eprintln!("{USAGE}");
    std::process::exit(2)
}

fn fail(why: &str) -> ! {
    eprintln!("oracle: {why}");
    std::process::exit(1)
}

/// Seed, count, limit.
fn numbers(args: &mut impl Iterator<Item = String>) -> (u64, usize, usize) {
    let mut number = || args.next().and_then(|a| a.parse().ok()).unwrap_or_else(|| usage());
    let (seed, count, limit) = (number(), number() as usize, number() as usize);
    if !(1..=4096).contains(&limit) {
        usage();
    }
    (seed, count, limit)
}

/// The same, and whether the word that may follow stands there.
fn asked(args: &mut impl Iterator<Item = String>, word: &str) -> (u64, usize, usize, bool) {
    let (seed, count, limit) = numbers(args);
    (seed, count, limit, is(args, word))
}

/// Whether the words `worked` and `meshes` stand there, one, both in this order, or none.
fn two_words(args: &mut impl Iterator<Item = String>) -> (bool, bool) {
    let words: Vec<String> = args.collect();
    match words.iter().map(String::as_str).collect::<Vec<_>>()[..] {
        [] => (false, false),
        ["worked"] => (true, false),
        ["meshes"] => (false, true),
        ["worked", "meshes"] => (true, true),
        _ => usage(),
    }
}

fn is(args: &mut impl Iterator<Item = String>, word: &str) -> bool {
    match args.next() {
        None => false,
        Some(w) if w == word => true,
        Some(_) => usage(),
    }
}

/// What was read from a file of hand-worked cases.
fn told<T>(read: std::result::Result<T, String>) -> T {
    read.unwrap_or_else(|why| fail(&why))
}

/// The answers of case `at`, between which what Req 08 says must hold.
fn checked(at: usize, case: &Case) -> Vec<Said> {
    let all = case.answers();
    if let Some(why) = relaxing::broken(case, &all) {
        fail(&format!("case {at}, from 0, breaks Req 08: {}{why}", case.text));
    }
    all
}

/// The hand-worked cases with their lines, those of meshes too where they are asked for.
fn worked(meshes: bool) -> Vec<(Case, Vec<String>)> {
    let all = told(worked::read(meshes)).into_iter().enumerate();
    all.map(|(at, w)| (told(w.lines(&checked(at, &w.case))), w)).map(|(lines, w)| (w.case, lines)).collect()
}

fn make(seed: u64, count: usize, limit: usize, with_worked: bool, with_meshes: bool) -> Vec<Case> {
    let known = if with_worked { worked(with_meshes) } else { vec![] };
    let mut random: Vec<Case> = make::random_cases(seed, count, limit).into_iter().map(|p| p.case()).collect();
    let mut meshes = if with_meshes { make_meshes::random_meshes(seed, count, limit) } else { vec![] };
    for case in random.iter_mut().filter(|_| with_meshes) {
        case.asks.push(Ask::new(Op::Mesh, "mesh:"));
    }
    let each = if with_meshes { "cases, fifty-one lines each" } else { "cases, fifty lines each" };
    for (lot, what) in [(&mut random, each), (&mut meshes, "meshes, two lines each")] {
        if let Some(first) = lot.first_mut().filter(|_| with_worked) {
            first.text = format!("\nRandom {what}.\n");
        }
    }
    known.into_iter().map(|(case, _)| case).chain(random).chain(meshes).collect()
}

fn answer(out: &mut impl Write, with_worked: bool, with_meshes: bool) -> Result<()> {
    let cases = cases::read(&mut BufReader::new(stdin().lock()))?;
    let known = if with_worked { worked(with_meshes) } else { vec![] };
    if known.len() > cases.len() || known.iter().zip(&cases).any(|((k, _), c)| k != c) {
        fail("the cases do not begin with those of oracle/worked.txt as it stands");
    }
    for (i, c) in cases.iter().enumerate() {
        write!(out, "{}", c.text)?;
        let lines = if i < known.len() { known[i].1.clone() } else { c.lines(&checked(i, c)) };
        for line in lines {
            writeln!(out, "{line}")?;
        }
    }
    Ok(())
}

/// The hand-worked trades with their lines.
fn worked_trades() -> Vec<(Trade, String)> {
    told(road_words::read()).into_iter().map(|w| (told(w.lines()), w)).map(|(lines, w)| (w.trade, lines)).collect()
}

fn trades(seed: u64, count: usize, limit: usize, with_worked: bool) -> Vec<Trade> {
    let mut random = make_roads::random_trades(seed, count, limit);
    if !with_worked {
        return random;
    }
    if let Some(first) = random.first_mut() {
        first.text = "\nRandom trades.\n".to_string();
    }
    let mut all: Vec<Trade> = worked_trades().into_iter().map(|(trade, _)| trade).collect();
    all.append(&mut random);
    all
}

fn traded(out: &mut impl Write, with_worked: bool) -> Result<()> {
    let trades = trades::read(&mut BufReader::new(stdin().lock()))?;
    let known = if with_worked { worked_trades() } else { vec![] };
    if known.len() > trades.len() || known.iter().zip(&trades).any(|((k, _), t)| k != t) {
        fail("the trades do not begin with those of oracle/roads.txt as it stands");
    }
    for (i, t) in trades.iter().enumerate() {
        let lines = if i < known.len() { known[i].1.clone() } else { t.lines() };
        write!(out, "{}{lines}", t.text)?;
    }
    Ok(())
}

fn main() -> Result<()> {
    let mut args = std::env::args().skip(1);
    let mut out = BufWriter::new(stdout().lock());
    match args.next().as_deref() {
        Some("make") => {
            let (seed, count, limit) = numbers(&mut args);
            let (with_worked, with_meshes) = two_words(&mut args);
            cases::write(&mut out, &make(seed, count, limit, with_worked, with_meshes))?;
        }
        Some("answer") => {
            let (with_worked, with_meshes) = two_words(&mut args);
            answer(&mut out, with_worked, with_meshes)?
        }
        Some("tables") => {
            let (seed, count, limit, own) = asked(&mut args, "first");
            let mut all = if own { reports::first() } else { vec![] };
            all.extend(make::random_cases(seed, count, limit));
            reports::write(&mut out, &all)?;
        }
        Some("report") => {
            for (table, set) in reports::read(&mut BufReader::new(stdin().lock()))? {
                reports::report(&mut out, &table)?;
                reports::report_with(&mut out, &table, &set)?;
            }
        }
        Some("trades") => {
            let (seed, count, limit, with_worked) = asked(&mut args, "worked");
            trades::write(&mut out, &trades(seed, count, limit, with_worked))?;
        }
        Some("traded") => traded(&mut out, is(&mut args, "worked"))?,
        _ => usage(),
    }
    out.flush()
}
