//! Reads worked.txt: the hand-worked cases in words, each ask with the answer that was worked out by hand. What is
//! written there is what the library must say; that this program computes the same is tested, and a difference is told
//! with its line. README.md has the form.
use crate::asks::{of_mark, of_verdict, Ask, Op, Said, LENT};
use crate::cases::Case;
use crate::changes::{entry, HEAD};
use crate::net::{self, Cells, Mark, Vetted, Window};
use crate::plain::{plain, table, version, Branch, Carried, MESH};
use std::collections::HashMap;
use std::str::FromStr;

const WORDS: [(&str, &str); 2] = [("worked.txt", include_str!("worked.txt")), ("meshes.txt", include_str!("meshes.txt"))];

/// How many elements of the lent memory the line of a hand-worked ask shows, where it has as many.
const SHOWN: u16 = 64;

/// A case, and its asks' answers where they are worked out by hand: for each the line of the file and the answer.
pub struct Worked {
    pub case: Case,
    answers: Vec<Option<(String, Said)>>,
}

pub type Read<T> = Result<T, String>;

/// A net's rows by its name.
pub type Nets = HashMap<String, Vec<Branch>>;

pub fn number<T: FromStr>(word: &str) -> Read<T> {
    word.parse().map_err(|_| format!("'{word}' is no number that fits here"))
}

fn numbers<T: FromStr>(words: &[&str]) -> Read<Vec<T>> {
    words.iter().map(|w| number(w)).collect()
}

/// Two nodes: `2-3`.
fn ends(word: &str) -> Read<(u16, u16)> {
    let (a, b) = word.split_once('-').ok_or(format!("'{word}' is no pair such as 2-3"))?;
    Ok((number(a)?, number(b)?))
}

pub fn words(text: &str) -> Vec<&str> {
    text.split_whitespace().collect()
}

fn parts(text: &str) -> Vec<Vec<&str>> {
    text.split(',').map(words).collect()
}

pub fn strange<T>(what: &str, words: &[&str]) -> Read<T> {
    Err(format!("{what} cannot be '{}'", words.join(" ")))
}

/// What a row carries, in words: `weight 5`, or `kind 0 count 5`. By `kinds from 0 count 5` each row has the kind after
/// that of the row before it, and row 0 has kind 0.
fn carried(words: &[&str], at: u16) -> Read<Carried> {
    match words {
        ["weight", w] => Ok(Carried::Weight(number(w)?)),
        ["kind", k, "count", c] => Ok(Carried::Cells(number(k)?, number(c)?)),
        ["kinds", "from", k, "count", c] => Ok(Carried::Cells(number::<u16>(k)? + at, number(c)?)),
        other => strange("what a row carries", other),
    }
}

/// A row: `0 1 4 5`, with its weight, or `0 1 4 0 5`, with kind and count.
fn row(words: &[&str]) -> Read<Branch> {
    match words {
        [a, b, l, w] => Ok((number(a)?, number(b)?, number(l)?, Carried::Weight(number(w)?))),
        [a, b, l, k, c] => Ok((number(a)?, number(b)?, number(l)?, Carried::Cells(number(k)?, number(c)?))),
        other => strange("a row", other),
    }
}

/// A net's rows: one, or many of one shape.
pub fn rows(line: &str) -> Read<Vec<Branch>> {
    Ok(match words(line)[..] {
        ["chain", "of", n, "nodes", "length", l, ref rest @ ..] => {
            (1..number(n)?).map(|x| Ok((x - 1, x, number(l)?, carried(rest, x - 1)?))).collect::<Read<_>>()?
        }
        ["star", "of", n, "nodes", "length", l, ref rest @ ..] => {
            (1..number(n)?).map(|x| Ok((0, x, number(l)?, carried(rest, x - 1)?))).collect::<Read<_>>()?
        }
        ["ring", "of", n, "nodes", "length", l, ref rest @ ..] => {
            let n = number(n)?;
            (0..n).map(|x| Ok((x, (x + 1) % n, number(l)?, carried(rest, x)?))).collect::<Read<_>>()?
        }
        ["string", "of", k, "triangles", "length", l, ref rest @ ..] => {
            let pairs = (0..number(k)?).flat_map(|t| [(2 * t, 2 * t + 1), (2 * t + 1, 2 * t + 2), (2 * t, 2 * t + 2)]);
            pairs.zip(0..).map(|((a, b), at)| Ok((a, b, number(l)?, carried(rest, at)?))).collect::<Read<_>>()?
        }
        [k, "times", ref rest @ ..] => vec![row(rest)?; number(k)?],
        ref other => vec![row(other)?],
    })
}

/// All rows of a net carry the same: weights, or kinds and counts.
pub fn alike(net: &[Branch]) -> Read<()> {
    if net.iter().any(|row| version(&[*row]) != version(net)) {
        return Err("rows with a weight and rows with kind and count make no table".to_string());
    }
    Ok(())
}

/// What may be said of bytes, a table's, a change set's or a list's: `byte P is V`, `cut to K bytes`, `then K more`
/// (zeros). Is it one of these?
fn change(bytes: &mut Vec<u8>, said: &[&str]) -> Read<bool> {
    match said {
        ["byte", p, "is", v] => *bytes.get_mut(number::<usize>(p)?).ok_or("no such byte")? = number(v)?,
        ["cut", "to", k, "bytes"] => bytes.truncate(number(k)?),
        ["then", k, "more"] => bytes.resize(bytes.len() + number::<usize>(k)?, 0),
        ["byte" | "cut" | "then", ..] => return strange("what is said of bytes", said),
        _ => return Ok(false),
    }
    Ok(true)
}

/// A table's bytes, and how many rows its net has: the net, then what is said of it and what of the bytes.
pub fn table_of(line: &str, nets: &Nets) -> Read<(Vec<u8>, usize)> {
    let all = parts(line);
    let mut net: Vec<Branch> = match all[0][..] {
        [name] => nets.get(name).ok_or(format!("no net is called {name}"))?.clone(),
        ["joins", ref pairs @ ..] => {
            pairs.iter().map(|p| ends(p).map(|(a, b)| (a, b, 0, Carried::Weight(0)))).collect::<Read<_>>()?
        }
        ref other => return strange("a net", other),
    };
    let (mut nodes, mut bound, mut mesh) = (net.len() as u16 + 1, 0, false);
    for part in &all[1..] {
        match part[..] {
            ["bound", b] => bound = number(b)?,
            ["nodes", n] => nodes = number(n)?,
            ["mesh", "of", n, "node" | "nodes"] => (nodes, mesh) = (number(n)?, true),
            ["length", l, ref rest @ ..] => {
                for (at, row) in net.iter_mut().enumerate() {
                    *row = (row.0, row.1, number(l)?, carried(rest, at as u16)?);
                }
            }
            ["row", r, "is", ref rest @ ..] => {
                *net.get_mut(number::<usize>(r)?).ok_or("no such row")? = row(rest)?;
            }
            ["byte", ..] | ["cut", ..] | ["then", ..] => {}
            ref other => return strange("what is said of a table", other),
        }
    }
    alike(&net)?;
    let mut t = table(nodes, bound, &net);
    if mesh {
        t[3] = MESH;
    }
    for part in &all[1..] {
        change(&mut t, part)?;
    }
    Ok((t, net.len()))
}

/// A row as its 12 bytes.
fn row_bytes(row: Branch) -> Vec<u8> {
    table(0, 0, &[row])[12..].to_vec()
}

/// A change set's bytes: `nothing`, or entries, `row 1 is 0 2 4 5`, in any order, or one for each row of a net, `all
/// rows of NET`; then what is said of its bytes.
pub fn set_of(line: &str, nets: &Nets) -> Read<Vec<u8>> {
    let mut set = HEAD.to_vec();
    for part in parts(line) {
        match part[..] {
            ["nothing"] => {}
            ["row", r, "is", ref rest @ ..] => set.extend(entry(number(r)?, &row_bytes(row(rest)?))),
            ["all", "rows", "of", name] => {
                let net = nets.get(name).ok_or(format!("no net is called {name}"))?;
                for (at, row) in net.iter().enumerate() {
                    set.extend(entry(at as u16, &row_bytes(*row)));
                }
            }
            ref said if change(&mut set, said)? => {}
            ref other => return strange("an entry of a change set", other),
        }
    }
    Ok(set)
}

/// Marks: `0 7 7 0`, or where many are alike `4094 times 0 7`.
fn marks(words: &[&str]) -> Read<Vec<u16>> {
    Ok(match words {
        [k, "times", m, rest @ ..] => [vec![number(m)?; number(k)?], marks(rest)?].concat(),
        [m, rest @ ..] => [vec![number(m)?], marks(rest)?].concat(),
        [] => vec![],
    })
}

/// A floor, or a sum of a window.
fn sum(word: &str) -> Read<i64> {
    match word {
        "least" => Ok(i64::MIN),
        "greatest" => Ok(i64::MAX),
        _ => number(word),
    }
}

/// A window, `counts 1 to 4 sums least to 9`.
fn window(counts: [&str; 2], sums: [&str; 2]) -> Read<Window> {
    let ([fewest, most], [least, greatest]) = (counts, sums);
    Ok(Window { counts: [number(fewest)?, number(most)?], sums: [sum(least)?, sum(greatest)?] })
}

/// The starting pair and the room of a page.
fn paged(words: &[&str]) -> Read<(u16, u16, u16)> {
    match words {
        ["room", k] => Ok((0, 0, number(k)?)),
        ["after", a, b, "room", k] => Ok((number(a)?, number(b)?, number(k)?)),
        other => strange("where a page begins and its room", other),
    }
}

/// A list to be vetted: rows, `1-3 6 7`, those of all pairs along a chain or in a star, or `nothing`; then `last
/// first`, and what is said of its bytes.
fn list(text: &str) -> Read<Vec<u8>> {
    let mut bytes = vec![];
    for part in parts(text) {
        match part[..] {
            ["nothing"] => {}
            ["all", "pairs", "of", "a", shape, "of", n, "nodes", "length", l, "weight", w] => {
                bytes.extend(pairs_of(shape, number(n)?, number(l)?, number(w)?)?)
            }
            ["last", "first"] => bytes = bytes.rchunks(16).collect::<Vec<_>>().concat(),
            ref said if change(&mut bytes, said)? => {}
            ref row => bytes.extend(listed(row)?),
        }
    }
    Ok(bytes)
}

/// The rows of all pairs along a chain (0-1, 1-2, ..) or in a star (0-1, 0-2, ..) whose branches are alike, in order.
fn pairs_of(shape: &str, nodes: u16, length: u32, weight: i64) -> Read<Vec<u8>> {
    let mut bytes = vec![];
    for a in 0..nodes {
        for b in a + 1..nodes {
            let branches = match shape {
                "chain" => b - a,
                "star" => if a == 0 { 1 } else { 2 },
                other => return strange("a shape", &[other]),
            };
            let figures = (branches as u32 * length, branches as i64 * weight);
            bytes.extend(row_of((a, b), figures));
        }
    }
    Ok(bytes)
}

/// What is asked: of the table, or with its change set.
fn ask(text: &str) -> Read<Ask> {
    let Some(rest) = text.strip_prefix("with changes ") else { return ask_of(text) };
    let ask = ask_of(rest)?;
    if ask.with || !ask.takes_set() {
        return strange("what is asked with changes", &[rest]);
    }
    Ok(ask.with_changes())
}

fn ask_of(text: &str) -> Read<Ask> {
    let of = |op| Ask { shown: SHOWN, ..Ask::new(op, &format!("{text}:")) };
    let page = |op, rest: &[&str]| {
        let ["floor", x, rest @ ..] = rest else { return strange("what a listing takes", rest) };
        let (a, b, lent) = paged(rest)?;
        Ok(Ask { x: sum(x)? as u64, a, b, lent, ..of(op) })
    };
    if let Some((asked, rows)) = text.split_once(" list ").filter(|_| text.starts_with("vet ")) {
        let ["vet", "floor", x] = words(asked)[..] else { return strange("what vetting takes", &words(asked)) };
        return Ok(of(Op::Vet).of_list(sum(x)?, list(rows)?));
    }
    Ok(match words(text)[..] {
        ["open"] => of(Op::Open),
        ["examine"] => of(Op::Examine),
        ["row", "part", r] => Ask { x: number(r)?, ..of(Op::RowPart) },
        ["row", "shown", r] => Ask { x: number(r)?, with: true, ..of(Op::RowPart) },
        ["next", "row", r] => Ask { x: number(r)?, ..of(Op::NextRow) },
        ["first", "row"] => of(Op::FirstRow),
        ["row", r] => Ask { x: number(r)?, ..of(Op::Row) },
        ["accept"] => of(Op::Accept),
        ["pair", a, b] => Ask { a: number(a)?, b: number(b)?, ..of(Op::Pair) },
        ["heaviest"] => of(Op::Heaviest),
        ["heaviest", "exact"] => of(Op::HeaviestExact),
        ["convert"] => of(Op::Convert),
        ["mark", "of", "row", r] => Ask { x: number(r)?, ..of(Op::Reading) },
        ["listing", "exact", ref rest @ ..] => page(Op::ListingExact, rest)?,
        ["listing", ref rest @ ..] => page(Op::Listing, rest)?,
        ["window", "counts", few, "to", many, "sums", low, "to", high] => {
            of(Op::Window).of_window(window([few, many], [low, high])?)
        }
        ["window", "list", "counts", few, "to", many, "sums", low, "to", high, ref rest @ ..] => {
            let (a, b, lent) = paged(rest)?;
            Ask { a, b, lent, ..of(Op::WindowList) }.of_window(window([few, many], [low, high])?)
        }
        ["mesh"] => of(Op::Mesh),
        ["write", "row", a, b, l, k, c, "room", lent] => {
            let row = Cells { ends: [number(a)?, number(b)?], length: number(l)?, kind: number(k)?, count: number(c)? };
            of(Op::WriteRow).of_cells(row, number(lent)?)
        }
        ["write", "rows"] => of(Op::WriteRows),
        ["heads", "of", k] => Ask { lent: number(k)?, ..of(Op::Heads) },
        ["run", r, "claims", a, b] => Ask { run: number(r)?, a: number(a)?, b: number(b)?, ..of(Op::Claim) },
        ["run", r, "commits"] => Ask { run: number(r)?, ..of(Op::Commit) },
        ["run", r, "aborts"] => Ask { run: number(r)?, ..of(Op::Abort) },
        ref other => return strange("an ask", other),
    })
}

/// A row of a listing as its 16 bytes, from `0-2 7 7`.
fn listed(row: &[&str]) -> Read<Vec<u8>> {
    let [pair, length, weight] = row else { return strange("a row of a listing", row) };
    Ok(row_of(ends(pair)?, (number(length)?, number(weight)?)))
}

/// The same from its nodes, and its length and weight.
fn row_of((a, b): (u16, u16), (length, weight): (u32, i64)) -> Vec<u8> {
    let mut bytes = [a.to_le_bytes(), b.to_le_bytes()].concat();
    bytes.extend(length.to_le_bytes());
    bytes.extend(weight.to_le_bytes());
    bytes
}

/// A row of a table as its 12 bytes, from `0-1 4 5` or `0-1 4 kind 0 count 5`.
fn part(row: &[&str]) -> Read<Vec<u8>> {
    let (pair, length, last) = match row {
        [pair, length, weight] => (pair, length, Carried::Weight(number(weight)?)),
        [pair, length, rest @ ..] => (pair, length, carried(rest, 0)?),
        other => return strange("a part", other),
    };
    let (a, b) = ends(pair)?;
    Ok(row_bytes((a, b, number(length)?, last)))
}

/// What a mark says: `free`, `held by 7`, `spent by 7`.
fn reading(words: &[&str]) -> Read<Mark> {
    match words {
        ["free"] => Ok(Mark::Free),
        ["held", "by", r] => Ok(Mark::Held(number(r)?)),
        ["spent", "by", r] => Ok(Mark::Spent(number(r)?)),
        other => strange("what a mark says", other),
    }
}

/// What vetting finds: `yes`, `row 3 at fault`, `0-2 missing`.
fn vetted(words: &[&str]) -> Read<Vetted> {
    match words {
        ["yes"] => Ok(Vetted::Yes),
        ["row", r, "at", "fault"] => Ok(Vetted::Fault(number(r)?)),
        [pair, "missing"] => ends(pair).map(|(a, b)| Vetted::Missing(a as usize, b as usize)),
        other => strange("what vetting finds", other),
    }
}

fn wide(bytes: Vec<u8>) -> Option<Vec<u16>> {
    Some(bytes.into_iter().map(u16::from).collect())
}

/// A refusal as it is written: number, row, ring.
pub fn refusal(words: &[&str]) -> Read<Option<[u64; 3]>> {
    Ok(match words {
        ["refused", n] => Some([number(n)?, 0, 0]),
        ["refused", n, "row", r] => Some([number(n)?, number(r)?, 0]),
        ["refused", n, "row", r, "ring", g] => Some([number(n)?, number(r)?, number(g)?]),
        _ => None,
    })
}

/// What acceptance gives: `nodes 5 bound 8`, and where rows are filler `nodes 5 bound 8 filler 2`.
fn acceptance(words: &[&str]) -> Read<Vec<i128>> {
    match words {
        ["nodes", n, "bound", b] => numbers(&[n, b, "0"]),
        ["nodes", n, "bound", b, "filler", k] => numbers(&[n, b, k]),
        other => strange("nodes, bound and filler", other),
    }
}

/// The bytes of a table, as lent memory holds them when so many rows of it are written anew: each of these is the
/// table's own, as are the first 12 bytes.
fn rewritten(table: &[u8], rows: usize) -> Option<Vec<u16>> {
    let written = (12 + 12 * rows).min(table.len());
    wide([&table[..written], &vec![LENT; table.len() - written]].concat())
}

/// What writing a table row by row gives: the writer's refusal, `refused 35 after 2 rows`; or all rows are written, and
/// acceptance of them follows.
fn said_of_rows(words: &[&str], table: &[u8]) -> Read<Said> {
    if let ["refused", n, "after", k, "rows"] = words {
        return Ok(Said { refusal: [number(n)?, 0, 0], fields: vec![0; 3], memory: rewritten(table, number(k)?) });
    }
    let memory = rewritten(table, table.len().saturating_sub(12) / 12);
    Ok(match refusal(words)? {
        Some(refusal) => Said { refusal, fields: vec![0; 3], memory },
        None => Said { refusal: [0; 3], fields: acceptance(words)?, memory },
    })
}

/// The answer as it is written, of the table and the marks as they stand. A refusal leaves the lent memory and the
/// marks as they were.
fn said(ask: &Ask, text: &str, table: &[u8], before: &[u16]) -> Read<Said> {
    let all = parts(text);
    if let (Op::WriteRows, [one]) = (ask.op, &all[..]) {
        return said_of_rows(one, table);
    }
    let lent = || match ask.op {
        Op::Listing | Op::ListingExact | Op::WindowList | Op::WriteRow | Op::Heads => {
            Some(vec![LENT as u16; ask.lent as usize])
        }
        Op::Claim | Op::Commit | Op::Abort => Some(before.to_vec()),
        _ => None,
    };
    if let Some(refusal) = refusal(&all[0])? {
        return Ok(Said { refusal, fields: vec![0; ask.many()], memory: lent() });
    }
    let fine = |fields: Read<Vec<i128>>, memory| Ok(Said { refusal: [0; 3], fields: fields?, memory });
    match (ask.op, &all[..]) {
        (Op::Open | Op::Examine, [one]) => match one[..] {
            ["nodes", n, "bound", b] => fine(numbers(&[n, b]), None),
            _ => strange("nodes and bound", one),
        },
        (Op::Accept, [one]) => fine(acceptance(one), None),
        (Op::Pair, [one]) => match one[..] {
            ["length", l, "weight", w, "hops", h] => fine(numbers(&[l, w, h]), None),
            _ => strange("length, weight and hops", one),
        },
        (Op::Row | Op::Heaviest | Op::HeaviestExact, [one]) => match one[..] {
            [pair, "length", l, "weight", w] => {
                let (a, b) = ends(pair)?;
                fine(numbers(&[&a.to_string(), &b.to_string(), l, w]), None)
            }
            _ => strange("two nodes, length and weight", one),
        },
        (Op::Window, [one]) => match one[..] {
            [pair, "count", k, "weight", w] => {
                let (a, b) = ends(pair)?;
                fine(numbers(&[&a.to_string(), &b.to_string(), k, w]), None)
            }
            _ => strange("two nodes, count and weight", one),
        },
        (Op::Mesh, [one]) => match one[..] {
            [pair, "branches", k] => {
                let (a, b) = ends(pair)?;
                fine(numbers(&[k, &a.to_string(), &b.to_string()]), None)
            }
            _ => strange("two nodes and branches", one),
        },
        (Op::Vet, [one]) => fine(Ok(of_verdict(vetted(one)?)), None),
        (Op::Convert, [one]) if one[..] == ["converted"] => fine(Ok(vec![]), None),
        (Op::Reading, [_]) if ask.x >= before.len() as u64 => Err("no such mark".to_string()),
        (Op::Reading, [one]) => fine(Ok(of_mark(reading(one)?)), None),
        (Op::Listing | Op::ListingExact | Op::WindowList, [found @ .., left]) => {
            let found: &[Vec<&str>] = if found == [["nothing"]] { &[] } else { found };
            let mut bytes = found.iter().map(|r| listed(r)).collect::<Read<Vec<_>>>()?.concat();
            bytes.resize(bytes.len().max(ask.lent as usize), LENT);
            match left[..] {
                [k, "left"] => fine(Ok(vec![found.len() as i128, number(k)?]), wide(bytes)),
                _ => strange("how many are left", left),
            }
        }
        (Op::WriteRow, [one]) => fine(Ok(vec![]), wide(numbers(one)?)),
        (Op::Heads, [one]) => fine(Ok(vec![]), Some(numbers(one)?)),
        (Op::Claim | Op::Commit | Op::Abort, [count, after]) => match (&count[..], &after[..]) {
            ([k, "branches"], ["marks", after @ ..]) => fine(numbers(&[k]), Some(marks(after)?)),
            _ => strange("branches and marks", count),
        },
        (Op::RowPart | Op::FirstRow, [one]) if one[..] == ["no", "part"] => fine(Ok(vec![]), Some(vec![])),
        (Op::RowPart | Op::FirstRow, [one]) => fine(Ok(vec![]), wide(part(one)?)),
        (Op::NextRow, [one]) => fine(numbers(one), None),
        _ => Err(format!("'{text}' is no answer to {}", ask.text)),
    }
}

/// `the usual asks, floor 10, room 16`: what a random case asks, answered by this program alone, on indented lines.
fn usual(text: &str, case: &Case) -> Read<Vec<Ask>> {
    let mut p = plain(case.table.clone(), &case.marks);
    p.changes.set = case.set.clone();
    for part in &parts(text)[1..] {
        match part[..] {
            ["run", r] => p.run = number(r)?,
            ["nodes", a, b] => (p.a, p.b) = (number(a)?, number(b)?),
            ["room", k] => p.room = number(k)?,
            ["floor", x] => p.floor = sum(x)?,
            ["window", "counts", few, "to", many, "sums", low, "to", high] => {
                p.windows[0] = window([few, many], [low, high])?
            }
            ref other => return strange("what the usual asks take", other),
        }
    }
    Ok(p.with_lists().usual().into_iter().map(|q| Ask { text: format!("    {}", q.text), ..q }).collect())
}

impl Worked {
    fn new(text: &str) -> Worked {
        let text = format!("\n{text}\n");
        let case = Case { text, table: vec![], set: HEAD.to_vec(), marks: vec![], asks: vec![] };
        Worked { case, answers: vec![] }
    }

    /// The marks after the asks so far, as they are written.
    fn marks(&self) -> Vec<u16> {
        let changed = |(q, a): (&Ask, &Option<(String, Said)>)| match (q.op, a) {
            (Op::Claim | Op::Commit | Op::Abort, Some((_, said))) => said.memory.clone(),
            _ => None,
        };
        self.case.asks.iter().zip(&self.answers).rev().find_map(changed).unwrap_or(self.case.marks.clone())
    }

    /// The table after the asks so far, of which some change its bound.
    fn table(&self) -> Vec<u8> {
        let mut table = self.case.table.clone();
        self.case.asks.iter().filter(|q| q.op == Op::Bound).for_each(|q| net::set_bound(&mut table, q.x as u32));
        table
    }

    fn take(&mut self, at: &str, line: &str, nets: &Nets) -> Read<()> {
        if let Some(rest) = line.strip_prefix("table ") {
            let (table, free) = table_of(rest, nets)?;
            (self.case.table, self.case.marks) = (table, vec![0; free]);
        } else if let Some(rest) = line.strip_prefix("changes ") {
            self.case.set = set_of(rest, nets)?;
        } else if let Some(rest) = line.strip_prefix("marks ") {
            self.case.marks = marks(&words(rest))?;
        } else if let Some(rest) = line.strip_prefix("now bound ") {
            let x = number::<u32>(rest)? as u64;
            self.case.asks.push(Ask { x, ..Ask::new(Op::Bound, &format!("{line}:")) });
            self.answers.push(None);
        } else if line.starts_with("the usual asks") {
            let asks = usual(line, &self.case)?;
            self.answers.extend(asks.iter().map(|_| None));
            self.case.asks.extend(asks);
        } else {
            let (asked, answer) = line.split_once(" = ").ok_or("an ask has its answer after ' = '")?;
            let ask = ask(asked)?;
            let said = said(&ask, answer, &self.table(), &self.marks())?;
            self.case.asks.push(ask);
            self.answers.push(Some((at.to_string(), said)));
        }
        Ok(())
    }

    /// Its lines: of an ask that is answered in the file what is written there. This program must compute the same.
    pub fn lines(&self, computed: &[Said]) -> Read<Vec<String>> {
        let asks = self.case.asks.iter().zip(&self.answers).zip(computed);
        asks.map(|((ask, written), computed)| match written {
            None => Ok(ask.line(computed)),
            Some((_, said)) if said == computed => Ok(ask.line(said)),
            Some((at, said)) => Err(format!(
                "{at}: the answer written there is not the one computed:\n    {}\n    {}",
                ask.line(said),
                ask.line(computed)
            )),
        })
        .collect()
    }
}

/// The lines of a file of hand-worked cases, with their numbers: no comments; one that ends with a comma goes on in the
/// next, and one that begins with '=' goes on from the one before.
pub fn lines(text: &str) -> Vec<(usize, String)> {
    let mut all: Vec<(usize, String)> = vec![];
    for (i, line) in text.lines().map(str::trim).enumerate() {
        if line.is_empty() || line.starts_with('#') {
            continue;
        }
        match all.last_mut() {
            Some((at, begun)) if begun.ends_with(',') || line.starts_with('=') => {
                *at = i + 1;
                *begun += &format!(" {line}");
            }
            _ => all.push((i + 1, line.to_string())),
        }
    }
    all
}

/// All of them, in order; those of meshes.txt where they are asked for.
pub fn read(meshes: bool) -> Read<Vec<Worked>> {
    let mut nets = Nets::new();
    let mut all: Vec<Worked> = Vec::new();
    let mut net = None;
    let files = &WORDS[..1 + usize::from(meshes)];
    for (at, line) in files.iter().flat_map(|(file, text)| lines(text).into_iter().map(move |(at, line)| (format!("oracle/{file}:{at}"), line))) {
        let told = |why: String| format!("{at}: {why}");
        if let Some(name) = line.strip_prefix("net ") {
            net = Some(name.to_string());
            nets.insert(name.to_string(), vec![]);
        } else if let Some(text) = line.strip_prefix("case ") {
            net = None;
            all.push(Worked::new(text));
        } else if let Some(name) = &net {
            let net = nets.get_mut(name).unwrap();
            net.extend(rows(&line).map_err(told)?);
            alike(net).map_err(told)?;
        } else {
            all.last_mut().ok_or(told("no case yet".to_string()))?.take(&at, &line, &nets).map_err(told)?;
        }
    }
    Ok(all)
}
