//! A trade: a pair of road-graph texts, or a table and its change set, and asks to read or to write; its bytes and its
//! lines (README.md has both).
use crate::asks::LENT;
use crate::form::{bytes, get_16, get_32, put_16, put_32, text};
use crate::net::Refused;
use crate::roads;
use std::io::{Read, Result, Write};

/// The most bytes that a trade's inputs have, that are lent for a table, and that are lent for a text.
const MOST_INPUT: usize = 400_000;
const MOST_TABLE: usize = 200_000;
const MOST_TEXT: usize = 400_000;

/// What is asked: to read, to write, also with the table's change set. A change is of one byte of an input, and stays
/// for the asks that follow.
#[derive(Clone, Copy, PartialEq, Debug)]
pub enum Op {
    Read { bound: u32, room: u32 },
    Write { with: bool, bound: u32, lengths: u32, weights: u32 },
    First { place: u32, byte: u8 },
    Second { place: u32, byte: u8 },
}

/// The text is what its line begins with; `shown` is how many bytes of a table its line shows, or how long a text may
/// be that is shown whole.
#[derive(Clone, PartialEq)]
pub struct Ask {
    pub op: Op,
    pub text: String,
    pub shown: u16,
}

/// The inputs are the texts of lengths and of weights, or a table and its change set.
#[derive(Clone, PartialEq)]
pub struct Trade {
    /// Written before the lines as it stands.
    pub text: String,
    pub first: Vec<u8>,
    pub second: Vec<u8>,
    pub asks: Vec<Ask>,
}

/// What an ask is answered: number, row and ring (0 where nothing is refused), the size written and the lent bytes
/// after the call; or both sizes and the lent bytes of both, and then, where nothing is refused, what is read back. A
/// change is answered nothing.
#[derive(PartialEq)]
pub enum Said {
    Read([u64; 3], usize, Vec<u8>),
    Wrote([u64; 3], [usize; 2], [Vec<u8>; 2], Option<Box<Said>>),
    Nothing,
}

fn of(why: Refused) -> [u64; 3] {
    [why.number as u64, why.row as u64, why.ring as u64]
}

fn read_said(lengths: &[u8], weights: &[u8], bound: u32, room: usize) -> Said {
    let mut lent = vec![LENT; room];
    match roads::read(lengths, weights, bound, &mut lent) {
        Ok(size) => Said::Read([0; 3], size, lent),
        Err(why) => Said::Read(of(why), 0, lent),
    }
}

/// What was written is read back into as many lent bytes as the table has.
fn write_said(table: &[u8], set: Option<&[u8]>, bound: u32, lengths: usize, weights: usize) -> Said {
    let (mut long, mut heavy) = (vec![LENT; lengths], vec![LENT; weights]);
    match roads::write(table, set, &mut long, &mut heavy) {
        Ok((l, w)) => {
            let back = read_said(&long[..l], &heavy[..w], bound, table.len());
            Said::Wrote([0; 3], [l, w], [long, heavy], Some(Box::new(back)))
        }
        Err(why) => Said::Wrote(of(why), [0, 0], [long, heavy], None),
    }
}

fn sum(lent: &[u8]) -> u64 {
    lent.iter().fold(1, |s, x| (s * 257 + *x as u64) % 4_294_967_291)
}

fn words(all: impl Iterator<Item = u64>) -> String {
    all.map(|x| format!(" {x}")).collect()
}

impl Ask {
    /// The lines that say an answer.
    pub fn lines(&self, said: &Said) -> String {
        match said {
            Said::Nothing => self.text.clone(),
            Said::Read(refusal, size, lent) => {
                let fields = words(refusal.iter().copied().chain([*size as u64]));
                let now = words(lent.iter().take(self.shown as usize).map(|x| *x as u64));
                format!("{}{fields} now{now} sum {}\n", self.text, sum(lent))
            }
            Said::Wrote(refusal, sizes, lent, back) => {
                let fields = words(refusal.iter().copied().chain(sizes.map(|x| x as u64)));
                let mut lines = format!("{}{fields} sum {} sum {}\n", self.text, sum(&lent[0]), sum(&lent[1]));
                if let Some(back) = back {
                    for (lent, size) in lent.iter().zip(sizes).filter(|(_, size)| **size <= self.shown as usize) {
                        lines += std::str::from_utf8(&lent[..*size]).expect("a text");
                    }
                    lines += &Ask { text: "back:".to_string(), ..self.clone() }.lines(back);
                }
                lines
            }
        }
    }
}

impl Trade {
    /// What each ask is answered, on inputs that the changes change.
    pub fn answers(&self) -> Vec<Said> {
        let (mut first, mut second) = (self.first.clone(), self.second.clone());
        let mut answer = |op| match op {
            Op::Read { bound, room } => read_said(&first, &second, bound, room as usize),
            Op::Write { with, bound, lengths, weights } => {
                let set = if with { Some(&second[..]) } else { None };
                write_said(&first, set, bound, lengths as usize, weights as usize)
            }
            Op::First { place, byte } => {
                first[place as usize] = byte;
                Said::Nothing
            }
            Op::Second { place, byte } => {
                second[place as usize] = byte;
                Said::Nothing
            }
        };
        self.asks.iter().map(|ask| answer(ask.op)).collect()
    }

    pub fn lines(&self) -> String {
        self.asks.iter().zip(self.answers()).map(|(ask, said)| ask.lines(&said)).collect()
    }
}

/// An operation's code and its three numbers.
fn coded(op: Op) -> (usize, [u32; 3]) {
    match op {
        Op::Read { bound, room } => {
            assert!(room as usize <= MOST_TABLE);
            (1, [bound, room, 0])
        }
        Op::Write { with, bound, lengths, weights } => {
            assert!(lengths as usize <= MOST_TEXT && weights as usize <= MOST_TEXT);
            (if with { 5 } else { 2 }, [bound, lengths, weights])
        }
        Op::First { place, byte } => (3, [place, byte as u32, 0]),
        Op::Second { place, byte } => (4, [place, byte as u32, 0]),
    }
}

pub fn write(out: &mut impl Write, trades: &[Trade]) -> Result<()> {
    put_32(out, &[trades.len() as u32])?;
    for t in trades {
        assert!(t.text.len() <= 512 && t.first.len() <= MOST_INPUT && t.second.len() <= MOST_INPUT);
        put_16(out, &[t.text.len(), t.asks.len()])?;
        put_32(out, &[t.first.len() as u32, t.second.len() as u32])?;
        out.write_all(t.text.as_bytes())?;
        out.write_all(&t.first)?;
        out.write_all(&t.second)?;
        for ask in &t.asks {
            assert!(ask.text.len() <= 512);
            let (code, numbers) = coded(ask.op);
            put_16(out, &[code, ask.text.len(), ask.shown as usize])?;
            put_32(out, &numbers)?;
            out.write_all(ask.text.as_bytes())?;
        }
    }
    Ok(())
}

fn ask(input: &mut impl Read) -> Result<Ask> {
    let [code, size, shown] = get_16(input)?;
    let [x, y, z] = get_32(input)?;
    let op = match code {
        1 => Op::Read { bound: x, room: y },
        2 | 5 => Op::Write { with: code == 5, bound: x, lengths: y, weights: z },
        3 => Op::First { place: x, byte: y as u8 },
        4 => Op::Second { place: x, byte: y as u8 },
        _ => panic!("an operation"),
    };
    Ok(Ask { op, text: text(input, size)?, shown })
}

pub fn read(input: &mut impl Read) -> Result<Vec<Trade>> {
    let [count] = get_32(input)?;
    let mut trades = Vec::new();
    for _ in 0..count {
        let [size, asks] = get_16(input)?;
        let [first, second] = get_32(input)?;
        let text = text(input, size)?;
        let (first, second) = (bytes(input, first as usize)?, bytes(input, second as usize)?);
        let asks = (0..asks).map(|_| ask(input)).collect::<Result<_>>()?;
        trades.push(Trade { text, first, second, asks });
    }
    Ok(trades)
}
