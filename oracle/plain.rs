//! A table with a change set, marks and one number of each sort, about which every operation is asked: what a random
//! case is made of.
use crate::asks::{Ask, Op};
use crate::cases::Case;
use crate::changes::{self, HEAD};
use crate::net::{self, Cells, Lengths, Window};

/// What a row carries beside its nodes and length: its weight (version 1), or a kind and a count (version 2).
#[derive(Clone, Copy)]
pub enum Carried {
    Weight(i32),
    Cells(u16, u16),
}

/// Two nodes, length, and what it carries.
pub type Branch = (u16, u16, u32, Carried);

/// A row of a listing, or of a list that is vetted.
pub type Listed = [u8; 16];

/// A list that is vetted, and by what floor.
#[derive(Clone, Default)]
pub struct List {
    pub floor: i64,
    pub bytes: Vec<u8>,
}

/// A change set, and the numbers that are asked about with it, where they are not the case's own.
#[derive(Clone)]
pub struct Changes {
    pub set: Vec<u8>,
    pub bound: u32,
    pub floor: i64,
    pub window: Window,
    pub list: List,
    /// The rows that are to be shown.
    pub rows: [u64; 2],
}

impl Changes {
    /// A set that changes nothing; of n nodes, the first row and the last are to be shown.
    pub fn nothing(n: usize, bound: u32) -> Changes {
        let rows = [0, n.saturating_sub(2) as u64];
        Changes { set: HEAD.to_vec(), bound, floor: 0, window: ALL, list: List::default(), rows }
    }
}

/// A row to be written, and how many bytes are lent for it (Req 13).
#[derive(Clone, Copy, Default)]
pub struct New {
    pub row: Cells,
    pub lent: u16,
}

#[derive(Clone)]
pub struct Plain {
    pub table: Vec<u8>,
    pub marks: Vec<u16>,
    /// Claims and aborts.
    pub run: u16,
    /// Commits.
    pub other: u16,
    /// Two nodes, for pair and claim.
    pub a: u16,
    pub b: u16,
    /// The listings' starting pair.
    pub start: (u16, u16),
    /// Bytes lent for rows.
    pub room: u16,
    /// Heads lent.
    pub heads: u16,
    pub floor: i64,
    /// The first is asked for the most branches, before the claim and after it, and listed from the starting pair on;
    /// of the second all pairs with the most branches are listed.
    pub windows: [Window; 2],
    /// The first is vetted before the claim and after it, the second before it.
    pub lists: [List; 2],
    /// What is relaxed at the end (Req 08): the bound, twice, and the floor; bytes lent for the lists compared then.
    pub raised: [u32; 2],
    pub lower: i64,
    pub whole: u16,
    /// What is asked then, with a change set (Req 12).
    pub changes: Changes,
    /// Last of all these rows are written, and the table row by row.
    pub new: [New; 2],
}

/// The version of a table with these rows, which are all alike; 1 where there are none.
pub fn version(rows: &[Branch]) -> u16 {
    match rows.first() {
        Some((_, _, _, Carried::Cells(..))) => 2,
        _ => 1,
    }
}

/// The version of a table for a mesh (Req 14), the lower of its two bytes.
pub const MESH: u8 = 3;

pub fn table(n: u16, bound: u32, rows: &[Branch]) -> Vec<u8> {
    let mut t = b"RTN".to_vec();
    t.extend(version(rows).to_le_bytes());
    t.extend(n.to_le_bytes());
    t.push(0);
    t.extend(bound.to_le_bytes());
    for (a, b, length, carried) in rows {
        t.extend(a.to_le_bytes());
        t.extend(b.to_le_bytes());
        t.extend(length.to_le_bytes());
        match carried {
            Carried::Weight(weight) => t.extend(weight.to_le_bytes()),
            Carried::Cells(kind, count) => t.extend([kind.to_le_bytes(), count.to_le_bytes()].concat()),
        }
    }
    t
}

/// Bytes for all pairs of n nodes, or for as many as an ask may lend.
pub fn all_pairs(n: usize) -> u16 {
    (8 * n * n.saturating_sub(1)).clamp(16, 65_535) as u16
}

/// The first rows of our listing, as many as are asked for; none where it is refused.
pub fn our_rows(table: &[u8], marks: &[u16], floor: i64, many: usize) -> Vec<Listed> {
    let mut page = vec![0; 16 * many];
    let listed = net::listing(table, marks, Lengths::AtMost, floor, (0, 0), &mut page);
    let (written, _) = listed.unwrap_or_default();
    page.chunks(16).take(written).map(|row| row.try_into().expect("16 bytes")).collect()
}

/// A window with every pair in it.
const ALL: Window = Window { counts: [1, u32::MAX], sums: [i64::MIN, i64::MAX] };

/// With the numbers that the worked net is asked about: in the first window 0-2 and 2-3 have the most branches there.
/// The change set changes nothing. One row is written, and one is of a retired kind.
pub fn plain(table: Vec<u8>, marks: &[u16]) -> Plain {
    let nodes = u16::from_le_bytes([table[5], table[6]]);
    let bound = net::bound_in(&table).unwrap_or(0);
    Plain {
        table,
        marks: marks.to_vec(),
        run: 7,
        other: 8,
        a: 2,
        b: 3,
        start: (0, 0),
        room: 160,
        heads: nodes.min(4_200),
        floor: 7,
        windows: [Window { counts: [1, 2], sums: [5, 9] }, ALL],
        lists: [List::default(), List::default()],
        raised: [bound.saturating_add(1), u32::MAX],
        lower: i64::MIN,
        whole: all_pairs(nodes as usize),
        changes: Changes::nothing(nodes as usize, bound),
        new: [23, 24].map(|kind| New { row: Cells { ends: [2, 3], length: 6, kind, count: 7 }, lent: 12 }),
    }
}

impl Plain {
    /// With two lists of its own: the listing's rows, at most 64, the last first; the same without the first pair's.
    /// With the change set the floor and the window are the case's, and the list is the changed table's.
    pub fn with_lists(self) -> Plain {
        let mut rows = our_rows(&self.table, &self.marks, self.floor, 64);
        rows.reverse();
        let whole = List { floor: self.floor, bytes: rows.concat() };
        rows.pop();
        let lists = [whole, List { floor: self.floor, bytes: rows.concat() }];
        let changed = changes::changed(&self.table, &self.changes.set).unwrap_or_default();
        let mut rows = our_rows(&changed, &self.settled(), self.floor, 64);
        rows.reverse();
        let list = List { floor: self.floor, bytes: rows.concat() };
        let changes = Changes { floor: self.floor, window: self.windows[0], list, ..self.changes };
        Plain { lists, changes, ..self }
    }

    /// The marks that the usual asks' claim, commit and abort leave, of which any may be refused.
    pub fn settled(&self) -> Vec<u16> {
        let mut marks = self.marks.clone();
        let _ = net::claim(&self.table, &mut marks, self.run, self.a, self.b);
        let _ = net::commit(&self.table, &mut marks, self.other);
        let _ = net::abort(&self.table, &mut marks, self.run);
        marks
    }

    /// The usual asks: every operation on the table and its marks as they come, then the changes of the marks and what
    /// is said of them then; then the bound is raised and the floor lowered; then every operation is asked with the
    /// change set; at the end rows are written. Each change stands between two asks for the heaviest run, so that
    /// relaxing.rs can compare them.
    pub fn usual(&self) -> Vec<Ask> {
        let mut asks = self.of_table();
        asks.extend(self.of_changes());
        asks.extend(self.new.map(|new| Ask { shown: 12, ..of(Op::WriteRow, "write row").of_cells(new.row, new.lent) }));
        asks.push(of(Op::WriteRows, "write rows"));
        asks
    }

    fn of_table(&self) -> Vec<Ask> {
        let pair = |op, text| Ask { a: self.a, b: self.b, ..of(op, text) };
        let page = |op, text| self.page(op, text, self.floor);
        let most = || of(Op::Window, "window").of_window(self.windows[0]);
        let all_most = |(a, b), lent, window| {
            Ask { a, b, lent, ..of(Op::WindowList, "window list") }.of_window(window)
        };
        let list = |floor: i64| Ask { lent: self.whole, x: floor as u64, ..of(Op::Listing, "listing") };
        let mut asks = Vec::from(self.first());
        asks.extend([
            page(Op::Listing, "listing"),
            page(Op::ListingExact, "listing exact"),
            most(),
            all_most(self.start, self.room, self.windows[0]),
            all_most((0, 0), self.whole, self.windows[1]),
            vet(&self.lists[0]),
            vet(&self.lists[1]),
            Ask { run: self.run, ..pair(Op::Claim, "claim") },
            of(Op::Heaviest, "heaviest"),
            most(),
            vet(&self.lists[0]),
            Ask { run: self.other, ..of(Op::Commit, "commit") },
            of(Op::Heaviest, "heaviest"),
            Ask { run: self.run, ..of(Op::Abort, "abort") },
            pair(Op::Pair, "pair"),
            of(Op::Heaviest, "heaviest"),
            bound(self.raised[0]),
            of(Op::Heaviest, "heaviest"),
            bound(self.raised[1]),
            of(Op::Heaviest, "heaviest"),
            list(self.floor),
            list(self.lower),
        ]);
        asks
    }

    /// What is asked first, of the table and of the changed one alike.
    fn first(&self) -> [Ask; 6] {
        [
            of(Op::Accept, "accept"),
            of(Op::Convert, "convert"),
            Ask { a: self.a, b: self.b, ..of(Op::Pair, "pair") },
            of(Op::Heaviest, "heaviest"),
            of(Op::HeaviestExact, "heaviest exact"),
            Ask { lent: self.heads, ..of(Op::Heads, "heads") },
        ]
    }

    /// A listing's page after the starting pair.
    fn page(&self, op: Op, text: &str, floor: i64) -> Ask {
        let (a, b) = self.start;
        Ask { a, b, lent: self.room, x: floor as u64, ..of(op, text) }
    }

    /// After a change of the bound, with the change set: every operation, the changes of the marks between two asks for
    /// the heaviest run, and rows shown.
    fn of_changes(&self) -> Vec<Ask> {
        let Changes { bound: b, floor, window, ref list, rows, .. } = self.changes;
        let (a, last) = self.start;
        let all_most = Ask { a, b: last, lent: self.room, ..of(Op::WindowList, "window list") };
        let after = [
            self.page(Op::Listing, "listing", floor),
            self.page(Op::ListingExact, "listing exact", floor),
            of(Op::Window, "window").of_window(window),
            all_most.of_window(window),
            vet(list),
            Ask { run: self.run, a: self.a, b: self.b, ..of(Op::Claim, "claim") },
            of(Op::Heaviest, "heaviest"),
            Ask { run: self.other, ..of(Op::Commit, "commit") },
            Ask { run: self.run, ..of(Op::Abort, "abort") },
            of(Op::Heaviest, "heaviest"),
        ];
        let shown = rows.map(|row| Ask { x: row, with: true, shown: 12, ..of(Op::RowPart, "row shown") });
        let asks = self.first().into_iter().chain(after).map(Ask::with_changes);
        [bound(b)].into_iter().chain(asks).chain(shown).collect()
    }

    pub fn case(self) -> Case {
        let asks = self.usual();
        Case { text: String::new(), table: self.table, set: self.changes.set, marks: self.marks, asks }
    }
}

fn of(op: Op, text: &str) -> Ask {
    Ask::new(op, &format!("{text}:"))
}

fn vet(list: &List) -> Ask {
    of(Op::Vet, "vet").of_list(list.floor, list.bytes.clone())
}

fn bound(b: u32) -> Ask {
    Ask { x: b as u64, ..of(Op::Bound, "bound") }
}
