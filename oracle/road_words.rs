//! Reads roads.txt: hand-worked trades in words, each ask with the answer that was worked out by hand. As with
//! worked.txt, what is written there is what the library must say; that this program computes the same is tested, and a
//! difference is told with its line. README.md has the form.
use crate::asks::LENT;
use crate::changes::HEAD;
use crate::grids;
use crate::plain::{self, Branch, Carried};
use crate::trades::{Ask, Op, Said, Trade};
use crate::worked::{alike, lines, number, refusal, rows, set_of, strange, table_of, words, Nets, Read};
use std::collections::HashMap;

const WORDS: &str = include_str!("roads.txt");

/// How many bytes of a table the line of a hand-worked ask shows, and how long a text may be that is shown.
const SHOWN_TABLE: u16 = 64;
const SHOWN_TEXT: u16 = 512;

/// The texts of lengths and of weights.
type Texts = [Vec<u8>; 2];

/// What a text that is damaged is read with.
const DAMAGED: Op = Op::Read { bound: 8, room: 100 };

/// A trade, and its asks' answers with their lines in the file; a change has none.
pub struct Worked {
    pub trade: Trade,
    answers: Vec<Option<(usize, Said)>>,
    /// The inputs after the changes so far.
    now: Texts,
}

/// What has a name: nets, and road graphs by their two texts.
struct Named {
    nets: Nets,
    texts: HashMap<String, Texts>,
}

impl Named {
    fn rows(&self, name: &str) -> Read<&Vec<Branch>> {
        self.nets.get(name).ok_or(format!("no net is called {name}"))
    }

    fn texts(&self, name: &str) -> Read<&Texts> {
        self.texts.get(name).ok_or(format!("no graph is called {name}"))
    }
}

/// The bytes between quotes that the text begins with, and what follows: \n, \r, \t, \\, \" and \x00 as in C.
fn quoted(text: &str) -> Read<(Vec<u8>, &str)> {
    let no_end = || format!("no quoted text: {text}");
    let mut rest = text.strip_prefix('"').ok_or_else(no_end)?;
    let mut bytes = vec![];
    loop {
        let first = rest.chars().next().ok_or_else(no_end)?;
        rest = &rest[first.len_utf8()..];
        if first == '"' {
            return Ok((bytes, rest));
        }
        if first != '\\' {
            bytes.extend(first.to_string().as_bytes());
            continue;
        }
        let (byte, taken) = match rest.as_bytes() {
            [b'n', ..] => (b'\n', 1),
            [b'r', ..] => (b'\r', 1),
            [b't', ..] => (b'\t', 1),
            [b @ (b'\\' | b'"'), ..] => (*b, 1),
            [b'x', _, _, ..] => (u8::from_str_radix(&rest[1..3], 16).map_err(|_| no_end())?, 3),
            _ => return Err(no_end()),
        };
        bytes.push(byte);
        rest = &rest[taken..];
    }
}

/// A text with something else in place of what stands in it once: `"a 1 2 4\n" is "a 1 2 04\n"`.
fn replaced(text: &[u8], change: &str) -> Read<Vec<u8>> {
    let (old, rest) = quoted(change)?;
    let (new, rest) = quoted(rest.strip_prefix(" is ").ok_or("a change is '\"..\" is \"..\"'")?)?;
    let places: Vec<usize> = (0..text.len()).filter(|i| text[*i..].starts_with(&old)).collect();
    match (&places[..], rest) {
        ([at], "") => Ok([&text[..*at], &new[..], &text[at + old.len()..]].concat()),
        (_, "") => Err(format!("what is changed stands {} times in the text", places.len())),
        _ => Err(format!("what is '{rest}'?")),
    }
}

/// Which of the two texts a change is of, and the change.
fn side(part: &str) -> Read<(Vec<usize>, &str)> {
    match part.split_once(' ') {
        Some(("lengths", rest)) => Ok((vec![0], rest)),
        Some(("weights", rest)) => Ok((vec![1], rest)),
        Some(("both", rest)) => Ok((vec![0, 1], rest)),
        _ => Err(format!("a change is of lengths, weights or both, not '{part}'")),
    }
}

/// The parts of a line between commas, of which those between quotes are none.
fn parts(line: &str) -> Vec<&str> {
    let (mut within, mut all, mut from) = (false, vec![], 0);
    for (i, c) in line.char_indices() {
        match c {
            '"' => within = !within,
            ',' if !within => {
                all.push(line[from..i].trim());
                from = i + 1;
            }
            _ => {}
        }
    }
    all.push(line[from..].trim());
    all
}

/// Texts with what is said of them: `in lengths ".." is ".."`, `lengths is ".."`.
fn changed(texts: &Texts, parts: &[&str]) -> Read<Texts> {
    let mut texts = texts.clone();
    for part in parts {
        let (change, whole) = part.strip_prefix("in ").map_or((*part, true), |change| (change, false));
        let (sides, change) = side(change)?;
        for i in sides {
            texts[i] = match change.strip_prefix("is ") {
                Some(new) if whole => quoted(new)?.0,
                None if !whole => replaced(&texts[i], change)?,
                _ => return Err(format!("what is said of texts cannot be '{part}'")),
            };
        }
    }
    Ok(texts)
}

/// A graph's texts, with what is said of them.
fn texts_of(line: &str, named: &Named) -> Read<Texts> {
    let all = parts(line);
    changed(named.texts(all[0])?, &all[1..])
}

/// The texts that a net's rows give: the p line, then each row's arc and its opposite, or all the opposites last.
fn written(rows: &[Branch], nodes: usize, last: bool) -> Texts {
    let text = |number: fn(&Branch) -> i64| {
        let (mut text, mut rest) = (format!("p sp {nodes} {}\n", 2 * rows.len()), String::new());
        for row in rows {
            let (a, b, x) = (row.0 + 1, row.1 + 1, number(row));
            text += &format!("a {a} {b} {x}\n");
            *(if last { &mut rest } else { &mut text }) += &format!("a {b} {a} {x}\n");
        }
        (text + &rest).into_bytes()
    };
    let weight = |row: &Branch| match row.3 {
        Carried::Weight(weight) => weight as i64,
        Carried::Cells(..) => 0,
    };
    [text(|row| row.2 as i64), text(weight)]
}

/// `the texts of NET`; then `nodes N` where it has not one node more than rows, `opposites last`.
fn texts_of_net(rest: &str, named: &Named) -> Read<Texts> {
    let all = parts(rest);
    let rows = named.rows(all[0])?;
    let (mut nodes, mut last) = (rows.len() + 1, false);
    for part in &all[1..] {
        match words(part)[..] {
            ["nodes", n] => nodes = number(n)?,
            ["opposites", "last"] => last = true,
            ref other => return strange("what is said of a net's texts", other),
        }
    }
    Ok(written(rows, nodes, last))
}

/// Lines of texts: one of each, with a bar between them; the same line of both; or those of a net.
fn more_texts(texts: &mut Texts, line: &str, named: &Named) -> Read<()> {
    if let Some(rest) = line.strip_prefix("the texts of ") {
        let [l, w] = texts_of_net(rest, named)?;
        texts[0].extend(l);
        texts[1].extend(w);
        return Ok(());
    }
    let (l, w) = line.split_once('|').unwrap_or((line, line));
    for (text, line) in texts.iter_mut().zip([l.trim(), w.trim()]) {
        if !line.is_empty() {
            text.extend(line.as_bytes());
            text.push(b'\n');
        }
    }
    Ok(())
}

/// A net's rows: as in worked.txt; a grid of so many rows and columns of nodes, or a tree of it; the first of the pairs
/// that some nodes have.
fn net_rows(line: &str) -> Read<Vec<Branch>> {
    Ok(match words(line)[..] {
        ["grid", "of", high, "by", wide] => grids::grid(1, number(high)?, number(wide)?),
        ["tree", "of", "a", "grid", "of", high, "by", wide] => grids::tree(1, number(high)?, number(wide)?),
        ["first", k, "pairs", "of", n, "nodes", "length", l, "weight", w] => {
            let (l, w, n): (u32, i32, u16) = (number(l)?, number(w)?, number(n)?);
            let all = (0..n).flat_map(|a| (a + 1..n).map(move |b| (a, b, l, Carried::Weight(w))));
            all.take(number(k)?).collect()
        }
        _ => rows(line)?,
    })
}

/// What is asked. Where no bound is told to read back with, it is the table's own.
fn ask(text: &str, table: &[u8]) -> Read<Ask> {
    let (with, asked) = text.strip_prefix("with changes ").map_or((false, text), |asked| (true, asked));
    let (op, shown) = match words(asked)[..] {
        ["read", "bound", b, "room", k] if !with => (Op::Read { bound: number(b)?, room: number(k)? }, SHOWN_TABLE),
        ["write", "room", l, w, ref rest @ ..] => {
            let bound = match rest {
                [] if table.len() < 12 => 0,
                [] => u32::from_le_bytes(table[8..12].try_into().unwrap()),
                ["back", "bound", b] => number(b)?,
                other => return strange("what reading back takes", other),
            };
            (Op::Write { with, bound, lengths: number(l)?, weights: number(w)? }, SHOWN_TEXT)
        }
        ref other => return strange("an ask", other),
    };
    Ok(Ask { op, text: format!("{text}:"), shown })
}

/// What is asked, and its answer.
fn split(line: &str) -> Read<(&str, &str)> {
    line.rsplit_once(" = ").ok_or("what is asked has its answer after ' = '".to_string())
}

/// The bytes at the front of lent ones.
fn lent(bytes: &[u8], room: u32) -> Vec<u8> {
    let mut lent = bytes.to_vec();
    lent.resize(lent.len().max(room as usize), LENT);
    lent
}

/// The answer as it is written: a refusal, which leaves the lent bytes as they were; a table; or texts, and what is
/// read back from them is the table again, with the bound that was passed beside; with a change set the table of the
/// net by whose name the texts are told.
fn said(op: Op, text: &str, table: &[u8], named: &Named) -> Read<Said> {
    let refusal = refusal(&words(text))?;
    match (op, refusal) {
        (Op::Read { room, .. }, Some(refusal)) => Ok(Said::Read(refusal, 0, lent(&[], room))),
        (Op::Read { room, .. }, None) => {
            let (table, _) = table_of(text.strip_prefix("table ").ok_or("a table is 'table ..'")?, &named.nets)?;
            Ok(Said::Read([0; 3], table.len(), lent(&table, room)))
        }
        (Op::Write { lengths, weights, .. }, Some(refusal)) => {
            Ok(Said::Wrote(refusal, [0, 0], [lent(&[], lengths), lent(&[], weights)], None))
        }
        (Op::Write { with, bound, lengths, weights }, None) => {
            let net = text.strip_prefix("the texts of ");
            let [l, w] = match net {
                Some(rest) => texts_of_net(rest, named)?,
                None => texts_of(text.strip_prefix("texts ").ok_or("texts are 'texts ..'")?, named)?,
            };
            let back = if with {
                let rows = named.rows(net.or(text.strip_prefix("texts ")).unwrap_or_default())?;
                plain::table(rows.len() as u16 + 1, bound, rows)
            } else {
                [&table[..8], &bound.to_le_bytes()[..], &table[12..]].concat()
            };
            let back = Box::new(Said::Read([0; 3], back.len(), back));
            Ok(Said::Wrote([0; 3], [l.len(), w.len()], [lent(&l, lengths), lent(&w, weights)], Some(back)))
        }
        _ => Ok(Said::Nothing),
    }
}

impl Worked {
    fn new(text: String, inputs: Texts) -> Worked {
        let [first, second] = inputs.clone();
        Worked { trade: Trade { text, first, second, asks: vec![] }, answers: vec![], now: inputs }
    }

    /// The change set of a table, before anything is asked.
    fn changes(&mut self, set: Vec<u8>) -> Read<()> {
        if !self.trade.asks.is_empty() {
            return Err("a change set stands before what is asked".to_string());
        }
        self.trade.second = set.clone();
        self.now[1] = set;
        Ok(())
    }

    fn push(&mut self, ask: Ask, answer: Option<(usize, Said)>) {
        self.trade.asks.push(ask);
        self.answers.push(answer);
    }

    /// `now in lengths ".." is ".."`, as long as it was: byte after byte.
    fn change(&mut self, line: &str, change: &str) -> Read<()> {
        let (sides, change) = side(change)?;
        let mut text = format!("{line}\n");
        for i in sides {
            let new = replaced(&self.now[i], change)?;
            let old = std::mem::replace(&mut self.now[i], new.clone());
            if new.len() != old.len() {
                return Err("what is changed must stay as long as it was".to_string());
            }
            for at in (0..new.len()).filter(|at| new[*at] != old[*at]) {
                let (place, byte) = (at as u32, new[at]);
                let op = if i == 0 { Op::First { place, byte } } else { Op::Second { place, byte } };
                self.push(Ask { op, text: std::mem::take(&mut text), shown: 0 }, None);
            }
        }
        Ok(())
    }

    /// An ask with its answer, or a change.
    fn take(&mut self, at: usize, line: &str, named: &Named) -> Read<()> {
        if let Some(change) = line.strip_prefix("now in ") {
            return self.change(line, change);
        }
        let (asked, answer) = split(line)?;
        let ask = ask(asked, &self.now[0])?;
        let said = said(ask.op, answer, &self.now[0], named)?;
        self.push(ask, Some((at, said)));
        Ok(())
    }

    /// The texts with what is said of them, read.
    fn damaged(&self, at: usize, line: &str, named: &Named) -> Read<Worked> {
        let (changes, answer) = split(line)?;
        let [first, second] = [&self.trade.first, &self.trade.second].map(Vec::clone);
        let mut damaged = Worked::new(String::new(), changed(&[first, second], &parts(changes))?);
        let said = said(DAMAGED, answer, &[], named)?;
        damaged.push(Ask { op: DAMAGED, text: format!("{changes}:"), shown: 0 }, Some((at, said)));
        Ok(damaged)
    }

    /// Its lines, as the file has the answers. This program must compute the same.
    pub fn lines(&self) -> Read<String> {
        let asks = self.trade.asks.iter().zip(&self.answers).zip(self.trade.answers());
        asks.map(|((ask, written), computed)| match written {
            None => Ok(ask.lines(&Said::Nothing)),
            Some((_, said)) if *said == computed => Ok(ask.lines(said)),
            Some((at, said)) => Err(format!(
                "oracle/roads.txt:{at}: the answer written there is not the one computed:\n{}{}",
                ask.lines(said),
                ask.lines(&computed)
            )),
        })
        .collect()
    }
}

/// What the lines of the file belong to. A case has its text until the first of its trades takes it.
enum Within {
    Net(String),
    Graph(String),
    Case(String),
}

/// What has been read so far.
struct Reader {
    named: Named,
    within: Within,
    all: Vec<Worked>,
    /// Which of them began last with texts as they stand.
    begun: usize,
}

impl Reader {
    fn line(&mut self, at: usize, line: &str) -> Read<()> {
        if let Some(name) = line.strip_prefix("net ") {
            self.within = Within::Net(name.to_string());
            self.named.nets.insert(name.to_string(), vec![]);
        } else if let Some(name) = line.strip_prefix("graph ") {
            self.within = Within::Graph(name.to_string());
            self.named.texts.insert(name.to_string(), [vec![], vec![]]);
        } else if let Some(text) = line.strip_prefix("case ") {
            self.within = Within::Case(format!("\n{text}\n"));
        } else {
            self.more(at, line)?;
        }
        Ok(())
    }

    fn more(&mut self, at: usize, line: &str) -> Read<()> {
        match &mut self.within {
            Within::Net(name) => {
                let net = self.named.nets.get_mut(name).unwrap();
                net.extend(net_rows(line)?);
                alike(net)
            }
            Within::Graph(name) => {
                let mut texts = self.named.texts[name].clone();
                more_texts(&mut texts, line, &self.named)?;
                self.named.texts.insert(name.clone(), texts);
                Ok(())
            }
            Within::Case(text) => {
                let text = std::mem::take(text);
                self.in_case(text, at, line)
            }
        }
    }

    /// A line of a case: its texts or its table, which begin a trade; the change set of a table; what is said of these
    /// texts, so that they are damaged, which is a trade too; or what follows of the last one.
    fn in_case(&mut self, text: String, at: usize, line: &str) -> Read<()> {
        let inputs = match (line.strip_prefix("texts "), line.strip_prefix("table ")) {
            (Some(rest), _) => Some(texts_of(rest, &self.named)?),
            (_, Some(rest)) => Some([table_of(rest, &self.named.nets)?.0, HEAD.to_vec()]),
            _ => None,
        };
        if let Some(inputs) = inputs {
            self.begun = self.all.len();
            self.all.push(Worked::new(text, inputs));
        } else if let Some(rest) = line.strip_prefix("changes ") {
            let set = set_of(rest, &self.named.nets)?;
            self.all.last_mut().ok_or("no table yet")?.changes(set)?;
        } else if ["in ", "lengths ", "weights ", "both "].iter().any(|word| line.starts_with(word)) {
            let damaged = self.all.get(self.begun).ok_or("no texts yet")?.damaged(at, line, &self.named)?;
            self.all.push(damaged);
        } else {
            self.all.last_mut().ok_or("no texts yet")?.take(at, line, &self.named)?;
        }
        Ok(())
    }
}

/// All of them, in order.
pub fn read() -> Read<Vec<Worked>> {
    let named = Named { nets: Nets::new(), texts: HashMap::new() };
    let mut reader = Reader { named, within: Within::Case(String::new()), all: vec![], begun: 0 };
    for (at, line) in lines(WORDS) {
        reader.line(at, &line).map_err(|why| format!("oracle/roads.txt:{at}: {why}"))?;
    }
    Ok(reader.all)
}
