//! A case: a table, a change set, marks and asks; its bytes and its lines (README.md has both).
use crate::asks::{Ask, Op, Said, CODES, WITH};
use crate::form::{bytes, get_16, get_32, get_64, put_16, put_32, text};
use std::io::{Read, Result, Write};

#[derive(Clone, PartialEq)]
pub struct Case {
    /// Written before the lines as it stands.
    pub text: String,
    pub table: Vec<u8>,
    /// The change set that some asks are asked with.
    pub set: Vec<u8>,
    pub marks: Vec<u16>,
    pub asks: Vec<Ask>,
}

pub fn write(out: &mut impl Write, cases: &[Case]) -> Result<()> {
    out.write_all(&(cases.len() as u64).to_le_bytes())?;
    for c in cases {
        assert!(c.text.len() <= 512 && c.table.len() <= 49_200 && c.set.len() <= 57_400 && c.marks.len() <= 4_200);
        put_16(out, &[c.text.len(), c.table.len(), c.set.len(), c.marks.len(), c.asks.len()])?;
        out.write_all(c.text.as_bytes())?;
        out.write_all(&c.table)?;
        out.write_all(&c.set)?;
        for m in &c.marks {
            out.write_all(&m.to_le_bytes())?;
        }
        for q in &c.asks {
            let code = CODES.iter().find(|(op, _)| *op == q.op).unwrap().1 + if q.with { WITH } else { 0 };
            assert!(q.text.len() <= 512 && (q.op != Op::Heads || q.lent <= 4_200) && (!q.with || q.takes_set()));
            assert!(q.list.len() == if q.op == Op::Vet { q.lent as usize } else { 0 });
            put_16(out, &[code as usize, q.text.len()])?;
            put_16(out, &[q.lent, q.shown, q.run, q.a, q.b].map(usize::from))?;
            out.write_all(&q.x.to_le_bytes())?;
            out.write_all(&q.sum_high.to_le_bytes())?;
            put_32(out, &q.counts)?;
            out.write_all(q.text.as_bytes())?;
            out.write_all(&q.list)?;
        }
    }
    Ok(())
}

fn ask(input: &mut impl Read) -> Result<Ask> {
    let [code, size, lent, shown, run, a, b] = get_16(input)?;
    let with = code >= WITH;
    let op = CODES.iter().find(|(_, c)| *c == code % WITH).expect("an operation").0;
    let (x, sum_high) = (get_64(input)?, get_64(input)? as i64);
    let (counts, text) = (get_32(input)?, text(input, size)?);
    let list = bytes(input, if op == Op::Vet { lent as usize } else { 0 })?;
    Ok(Ask { op, with, text, lent, shown, run, a, b, x, sum_high, counts, list })
}

pub fn read(input: &mut impl Read) -> Result<Vec<Case>> {
    let mut cases = Vec::new();
    for _ in 0..get_64(input)? {
        let [size, table, set, marks, asks] = get_16(input)?;
        let text = text(input, size)?;
        let (table, set) = (bytes(input, table as usize)?, bytes(input, set as usize)?);
        let marks = (0..marks).map(|_| get_16(input).map(|[mark]| mark)).collect::<Result<_>>()?;
        let asks = (0..asks).map(|_| ask(input)).collect::<Result<_>>()?;
        cases.push(Case { text, table, set, marks, asks });
    }
    Ok(cases)
}

impl Case {
    /// What each ask is answered, on one table, one change set and one set of marks.
    pub fn answers(&self) -> Vec<Said> {
        let (mut table, mut marks) = (self.table.clone(), self.marks.clone());
        self.asks.iter().map(|q| q.answer(&mut table, &self.set, &mut marks)).collect()
    }

    /// The lines that say these answers.
    pub fn lines(&self, answers: &[Said]) -> Vec<String> {
        self.asks.iter().zip(answers).map(|(q, said)| q.line(said)).collect()
    }
}
