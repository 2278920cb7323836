//! What a file of cases is made of: numbers, the lowest byte first, bytes and texts.
use std::io::{Read, Result, Write};

pub fn put_16(out: &mut impl Write, all: &[usize]) -> Result<()> {
    for x in all {
        out.write_all(&u16::try_from(*x).expect("16 bits").to_le_bytes())?;
    }
    Ok(())
}

pub fn put_32(out: &mut impl Write, all: &[u32]) -> Result<()> {
    for x in all {
        out.write_all(&x.to_le_bytes())?;
    }
    Ok(())
}

/// The next K numbers of 16 bits.
pub fn get_16<const K: usize>(input: &mut impl Read) -> Result<[u16; K]> {
    let mut all = [0; K];
    for x in all.iter_mut() {
        let mut b = [0; 2];
        input.read_exact(&mut b)?;
        *x = u16::from_le_bytes(b);
    }
    Ok(all)
}

/// The next K numbers of 32 bits.
pub fn get_32<const K: usize>(input: &mut impl Read) -> Result<[u32; K]> {
    let mut all = [0; K];
    for x in all.iter_mut() {
        let mut b = [0; 4];
        input.read_exact(&mut b)?;
        *x = u32::from_le_bytes(b);
    }
    Ok(all)
}

pub fn get_64(input: &mut impl Read) -> Result<u64> {
    let mut b = [0; 8];
    input.read_exact(&mut b)?;
    Ok(u64::from_le_bytes(b))
}

pub fn bytes(input: &mut impl Read, size: usize) -> Result<Vec<u8>> {
    let mut b = vec![0; size];
    input.read_exact(&mut b)?;
    Ok(b)
}

pub fn text(input: &mut impl Read, size: u16) -> Result<String> {
    Ok(String::from_utf8(bytes(input, size as usize)?).expect("a text"))
}
