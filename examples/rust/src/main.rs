//! The heaviest run of a table, with all branches free; then run 7 takes it, and each spent branch is told with its
//! run: run TABLE
use std::process::ExitCode;

// As hourbench.h has it. `answer` is 8 numbers.
unsafe extern "C" {
    fn hb_heaviest(table: *const u8, table_len: usize, marks: *const u16, marks_len: usize, answer: *mut i64) -> u8;
    fn hb_claim(table: *const u8, table_len: usize, marks: *mut u16, marks_len: usize,
                run: u16, a: u16, b: u16, answer: *mut i64) -> u8;
    fn hb_commit(table: *const u8, table_len: usize, marks: *mut u16, marks_len: usize,
                 run: u16, answer: *mut i64) -> u8;
}

/// A refusal's number, row and, for 11, how many rows the ring has.
type Refusal = (u8, usize, usize);

/// The eight numbers of a call, where nothing is refused.
fn given(number: u8, answer: [i64; 8]) -> Result<[i64; 8], Refusal> {
    if number == 0 { Ok(answer) } else { Err((number, answer[1] as usize, answer[2] as usize)) }
}

/// The nodes, length and weight of the heaviest run.
fn heaviest(table: &[u8], marks: &[u16]) -> Result<(u16, u16, u32, i64), Refusal> {
    let mut answer = [0; 8];
    // A slice is never null, is aligned, and holds as many elements as it says, also where it is empty.
    let number = unsafe {
        hb_heaviest(table.as_ptr(), table.len(), marks.as_ptr(), marks.len(), answer.as_mut_ptr())
    };
    let answer = given(number, answer)?;
    Ok((answer[3] as u16, answer[4] as u16, answer[5] as u32, answer[6]))
}

/// A run claims the path between two nodes and commits: how many branches become spent by it.
fn take(table: &[u8], marks: &mut [u16], run: u16, a: u16, b: u16) -> Result<usize, Refusal> {
    let (t, n, k, mut answer) = (table.as_ptr(), table.len(), marks.len(), [0; 8]);
    let number = unsafe { hb_claim(t, n, marks.as_mut_ptr(), k, run, a, b, answer.as_mut_ptr()) };
    given(number, answer)?;
    let number = unsafe { hb_commit(t, n, marks.as_mut_ptr(), k, run, answer.as_mut_ptr()) };
    Ok(given(number, answer)?[3] as usize)
}

fn show(table: &[u8]) -> Result<(), Refusal> {
    let mut marks = vec![0; (table.len() / 12).saturating_sub(1)]; // one for each branch; all free
    let (low, high, length, weight) = heaviest(table, &marks)?;
    println!("best {low} {high} length {length} weight {weight}");
    println!("run 7 takes {}", take(table, &mut marks, 7, low, high)?);
    // A mark's top bit says spent, the other bits keep the run.
    for (row, mark) in marks.iter().enumerate().filter(|(_, mark)| **mark & 0x8000 != 0) {
        println!("row {row} spent by run {}", mark & 0x7fff);
    }
    Ok(())
}

fn main() -> ExitCode {
    let Some(path) = std::env::args_os().nth(1) else {
        eprintln!("usage: run TABLE");
        return ExitCode::from(2);
    };
    let table = match std::fs::read(&path) {
        Ok(table) => table,
        Err(why) => {
            eprintln!("run: cannot read {}: {why}", path.display());
            return ExitCode::from(2);
        }
    };
    match show(&table) {
        Ok(()) => (),
        Err((number, row, 0)) => println!("refused {number} row {row}"),
        Err((number, row, ring)) => println!("refused {number} row {row} ring {ring}"),
    }
    ExitCode::SUCCESS
}
