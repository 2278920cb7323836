//! An ask: an operation and its numbers; what it answers; its line (README.md has the form of both).
use crate::changes;
use crate::mesh;
use crate::net::{self, Cells, Lengths, Mark, Refused, Vetted, Window};

/// What every lent byte and every lent head holds before a call.
pub const LENT: u8 = 165;

#[derive(Clone, Copy, PartialEq, Debug)]
pub enum Op {
    Open,
    Examine,
    RowPart,
    NextRow,
    FirstRow,
    Row,
    Accept,
    Pair,
    Heaviest,
    HeaviestExact,
    Convert,
    Reading,
    Window,
    Mesh,
    Listing,
    ListingExact,
    WindowList,
    WriteRow,
    /// The table row by row, by the writer (README.md).
    WriteRows,
    Heads,
    Claim,
    Commit,
    Abort,
    Vet,
    /// No operation: another bound for the asks that follow (README.md).
    Bound,
}

/// Each operation's code in an ask.
pub const CODES: [(Op, u16); 25] = [
    (Op::Open, 1),
    (Op::Examine, 2),
    (Op::RowPart, 3),
    (Op::NextRow, 4),
    (Op::FirstRow, 5),
    (Op::Row, 6),
    (Op::Accept, 17),
    (Op::Pair, 18),
    (Op::Heaviest, 19),
    (Op::HeaviestExact, 20),
    (Op::Convert, 21),
    (Op::Reading, 22),
    (Op::Window, 23),
    (Op::Mesh, 24),
    (Op::Listing, 33),
    (Op::ListingExact, 34),
    (Op::WindowList, 35),
    (Op::WriteRow, 36),
    (Op::WriteRows, 37),
    (Op::Heads, 49),
    (Op::Claim, 65),
    (Op::Commit, 66),
    (Op::Abort, 67),
    (Op::Bound, 81),
    (Op::Vet, 97),
];

/// What is added to the code of an operation that is asked with the case's change set.
pub const WITH: u16 = 128;

/// The text is what its line begins with. `with` is whether it is asked with the case's change set. `lent` is how many
/// bytes or heads are lent, or bytes of a list, `shown` how many elements of the lent memory the line shows; a and b
/// are two nodes or a starting pair, x a row number, a bound, or the 64 bits of a floor or of a window's lower sum; its
/// upper sum, and its lower and upper count limit, stand by themselves, and so does the list that is vetted. Of a row
/// to be written a and b are the nodes, the run is its kind, and the two counts are its length and its count.
#[derive(Clone, PartialEq, Debug)]
pub struct Ask {
    pub op: Op,
    pub with: bool,
    pub text: String,
    pub lent: u16,
    pub shown: u16,
    pub run: u16,
    pub a: u16,
    pub b: u16,
    pub x: u64,
    pub sum_high: i64,
    pub counts: [u32; 2],
    pub list: Vec<u8>,
}

/// What an ask is answered: number, row and ring (0 where nothing is refused), the operation's fields (0 in a refusal),
/// and the lent memory after the call where some is lent (the part of the table where one is handed back).
#[derive(PartialEq, Debug)]
pub struct Said {
    pub refusal: [u64; 3],
    pub fields: Vec<i128>,
    pub memory: Option<Vec<u16>>,
}

/// What a mark says, as two fields: 1 where it is spent, and its run.
pub fn of_mark(mark: Mark) -> Vec<i128> {
    match mark {
        Mark::Free => vec![0, 0],
        Mark::Held(run) => vec![0, run as i128],
        Mark::Spent(run) => vec![1, run as i128],
    }
}

/// What vetting finds, as four fields: 1 yes, 2 a row at fault, 3 a pair missing; that row; that pair.
pub fn of_verdict(vetted: Vetted) -> Vec<i128> {
    match vetted {
        Vetted::Yes => vec![1, 0, 0, 0],
        Vetted::Fault(row) => vec![2, row as i128, 0, 0],
        Vetted::Missing(low, high) => vec![3, 0, low as i128, high as i128],
    }
}

impl Ask {
    pub fn new(op: Op, text: &str) -> Ask {
        let (with, text) = (false, text.to_string());
        Ask { op, with, text, lent: 0, shown: 0, run: 0, a: 0, b: 0, x: 0, sum_high: 0, counts: [0, 0], list: vec![] }
    }

    /// Asked with the case's change set.
    pub fn with_changes(self) -> Ask {
        Ask { with: true, text: format!("with changes {}", self.text), ..self }
    }

    /// Is its operation one that takes a change set? Of a row's part that is the row shown.
    pub fn takes_set(&self) -> bool {
        match self.op {
            Op::Open | Op::Examine | Op::NextRow | Op::FirstRow | Op::Row | Op::Reading | Op::Bound => false,
            Op::WriteRow | Op::WriteRows | Op::Mesh => false,
            Op::RowPart | Op::Accept | Op::Pair | Op::Heaviest | Op::HeaviestExact | Op::Convert | Op::Window => true,
            Op::Listing | Op::ListingExact | Op::WindowList | Op::Heads => true,
            Op::Claim | Op::Commit | Op::Abort | Op::Vet => true,
        }
    }

    /// With the numbers of a window.
    pub fn of_window(self, window: Window) -> Ask {
        let [low, high] = window.sums;
        Ask { x: low as u64, sum_high: high, counts: window.counts, ..self }
    }

    /// The window that it has the numbers of.
    pub fn window(&self) -> Window {
        Window { counts: self.counts, sums: [self.x as i64, self.sum_high] }
    }

    /// With the numbers of a row to be written, and how many bytes are lent for it.
    pub fn of_cells(self, row: Cells, lent: u16) -> Ask {
        let [a, b] = row.ends;
        Ask { a, b, run: row.kind, counts: [row.length, row.count as u32], lent, ..self }
    }

    /// The row to be written that it has the numbers of.
    fn cells(&self) -> Cells {
        let count = self.counts[1].try_into().expect("a count of 16 bits");
        Cells { ends: [self.a, self.b], length: self.counts[0], kind: self.run, count }
    }

    /// With a list to be vetted, and the floor.
    pub fn of_list(self, floor: i64, list: Vec<u8>) -> Ask {
        let lent = list.len().try_into().expect("a list of at most 65,535 bytes");
        Ask { x: floor as u64, lent, list, ..self }
    }

    /// How many fields the operation's answer has.
    pub fn many(&self) -> usize {
        match self.op {
            Op::RowPart | Op::FirstRow | Op::Convert | Op::Heads | Op::WriteRow | Op::Bound => 0,
            Op::NextRow | Op::Claim | Op::Commit | Op::Abort => 1,
            Op::Open | Op::Examine | Op::Reading | Op::Listing | Op::ListingExact | Op::WindowList => 2,
            Op::Accept | Op::Pair | Op::Mesh | Op::WriteRows => 3,
            Op::Row | Op::Heaviest | Op::HeaviestExact | Op::Window | Op::Vet => 4,
        }
    }

    /// The line that says an answer.
    pub fn line(&self, said: &Said) -> String {
        let mut line = self.text.clone();
        let mut add = |word: String| line += &format!(" {word}");
        said.refusal.iter().for_each(|x| add(x.to_string()));
        said.fields.iter().for_each(|x| add(x.to_string()));
        if let Some(memory) = &said.memory {
            add("now".to_string());
            memory.iter().take(self.shown as usize).for_each(|x| add(x.to_string()));
            add(format!("sum {}", memory.iter().fold(1, |s, x| (s * 257 + *x as u64) % 4_294_967_291)));
        }
        line
    }

    /// The operation's fields, of a table, and what it does to the lent memory and to the marks.
    fn fields(&self, t: &[u8], marks: &mut [u16], rows: &mut [u8], heads: &mut [u16]) -> Result<Vec<i128>, Refused> {
        let run = |(a, b, length, weight)| vec![a as i128, b as i128, length as i128, weight as i128];
        let listed = |(written, left)| vec![written as i128, left as i128];
        let accepted = |(n, bound, filler)| vec![n as i128, bound as i128, filler as i128];
        let mut page = |lengths| net::listing(t, marks, lengths, self.x as i64, (self.a, self.b), rows);
        match self.op {
            Op::Open => net::open(t).map(|(n, bound)| vec![n as i128, bound as i128]),
            Op::Examine => net::examine(t).map(|(n, bound, _)| vec![n as i128, bound as i128]),
            Op::RowPart | Op::FirstRow | Op::Bound => Ok(vec![]),
            Op::NextRow => Ok(vec![net::next(t, self.x) as i128]),
            Op::Row => {
                let row = net::decoded(t, self.x);
                Ok(run((row.ends[0], row.ends[1], row.length, row.weight)))
            }
            Op::Accept => net::acceptance(t).map(accepted),
            Op::Pair => net::pair(t, marks, self.a, self.b).map(|(l, w, h)| vec![l as i128, w as i128, h as i128]),
            Op::Heaviest => net::heaviest(t, marks).map(run),
            Op::HeaviestExact => net::heaviest_exact(t, marks).map(run),
            Op::Convert => net::convert(t, marks).map(|_| vec![]),
            Op::Reading => Ok(marks.get(self.x as usize).map_or(vec![0, 0], |mark| of_mark(net::reading(*mark)))),
            Op::Window => net::window(t, marks, self.window())
                .map(|(a, b, count, weight)| vec![a as i128, b as i128, count as i128, weight as i128]),
            Op::Mesh => mesh::mesh(t).map(|(most, low, high)| vec![most as i128, low as i128, high as i128]),
            Op::Listing => page(Lengths::AtMost).map(listed),
            Op::ListingExact => page(Lengths::Exactly).map(listed),
            Op::WindowList => net::window_list(t, marks, self.window(), (self.a, self.b), rows).map(listed),
            Op::WriteRow => net::write_row(self.cells(), rows).map(|_| vec![]),
            Op::WriteRows => net::write_rows(t, rows).map(accepted),
            Op::Heads => net::heads(t, heads).map(|_| vec![]),
            Op::Claim => net::claim(t, marks, self.run, self.a, self.b).map(|k| vec![k as i128]),
            Op::Commit => net::commit(t, marks, self.run).map(|k| vec![k as i128]),
            Op::Abort => net::abort(t, marks, self.run).map(|k| vec![k as i128]),
            Op::Vet => net::vet(t, marks, self.x as i64, &self.list).map(of_verdict),
        }
    }

    /// What the documents say to it: of the table, or of the table with the rows of the change set written in. Claim,
    /// commit and abort change the marks, a bound changes the table.
    pub fn answer(&self, t: &mut [u8], set: &[u8], marks: &mut [u16]) -> Said {
        let lent = if self.op == Op::WriteRows { t.len() } else { self.lent as usize };
        let (mut rows, mut heads) = (vec![LENT; lent], vec![LENT as u16; lent]);
        let wide = |bytes: &[u8]| Some(bytes.iter().map(|b| *b as u16).collect());
        if self.op == Op::Bound {
            net::set_bound(t, self.x as u32);
        }
        let fields = if self.with && self.op != Op::RowPart {
            changes::changed(t, set).and_then(|changed| self.fields(&changed, marks, &mut rows, &mut heads))
        } else {
            self.fields(t, marks, &mut rows, &mut heads)
        };
        let memory = match self.op {
            Op::RowPart if self.with => wide(changes::shown(t, set, self.x)),
            Op::RowPart => wide(net::part(t, self.x)),
            Op::FirstRow => wide(net::first(t)),
            Op::Listing | Op::ListingExact | Op::WindowList | Op::WriteRow | Op::WriteRows => wide(&rows),
            Op::Heads => Some(heads),
            Op::Claim | Op::Commit | Op::Abort => Some(marks.to_vec()),
            _ => None,
        };
        match fields {
            Ok(fields) => Said { refusal: [0; 3], fields, memory },
            Err(Refused { number, row, ring }) => {
                Said { refusal: [number as u64, row as u64, ring as u64], fields: vec![0; self.many()], memory }
            }
        }
    }
}
