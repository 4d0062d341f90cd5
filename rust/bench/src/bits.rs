//! Marks and routes with each row of nodes as one number, node x as bit x, so that one sum or one difference goes through a whole row: the second
//! yardstick for `rust/measure`, as one would write it who knows this trick. It is safe Rust without intrinsics and makes the same checks as
//! `rust/plain`; `same.rs` holds it to the library.

mod marks;
mod routes;

pub use marks::marks;
pub use routes::{reached, route, verdict};

use plain::Refused;

#[derive(Clone, Copy)]
struct Sizes {
    w: usize,
    h: usize,
    d: usize,
}

impl Sizes {
    fn place(self, node: usize) -> [usize; 3] {
        let (node, w, h) = (node as u32, self.w as u32, self.h as u32); // shorter numbers are divided faster
        [node % w, node / w % h, node / w / h].map(|n| n as usize)
    }
}

fn refused<T>(number: u32) -> Result<T, Refused> {
    Err(Refused { number, bad: 0 })
}

fn check_map([w, h, d]: [u32; 3], cells: &[u8]) -> Result<Sizes, Refused> {
    if !((2..=16).contains(&w) && (2..=16).contains(&h) && (1..=16).contains(&d)) {
        return refused(1);
    }
    let sizes = Sizes { w: w as usize, h: h as usize, d: d as usize };
    if cells.len() != sizes.w * sizes.h * sizes.d {
        return refused(2);
    }
    // many cells at a time; which one is bad is asked only where one is
    if cells.iter().fold(0, |all, cell| all | cell) > 1 {
        let bad = cells.iter().take_while(|&&cell| cell <= 1).count();
        return Err(Refused { number: 4, bad: bad as u32 });
    }
    Ok(sizes)
}

/// Eight bytes as one number.
fn word(bytes: &[u8]) -> u64 {
    u64::from_le_bytes(bytes.try_into().unwrap())
}

/// The highest byte of a product with one of these has eight cells as bits, the first cell lowest or highest.
const FIRST_LOWEST: u64 = 0x0102_0408_1020_4080;
const FIRST_HIGHEST: u64 = 0x8040_2010_0804_0201;

fn eight(cells: u64, product: u64) -> u16 {
    (cells.wrapping_mul(product) >> 56) as u16
}

/// The faulty nodes of a row. In one that is turned, node x is bit 15 - x.
#[inline(always)]
fn pack(row: &[u8], turned: bool) -> u16 {
    let w = row.len();
    let (low, high) = if w < 8 {
        (row.iter().rev().fold(0, |cells, &cell| cells << 8 | u64::from(cell)), 0)
    } else {
        (word(&row[..8]), word(&row[w - 8..]))
    };
    if turned {
        eight(low, FIRST_HIGHEST) << 8 | eight(high, FIRST_HIGHEST) << (16 - w)
    } else {
        eight(low, FIRST_LOWEST) | eight(high, FIRST_LOWEST) << w.saturating_sub(8)
    }
}

/// Eight bits as the lowest bits of eight bytes.
const SPREAD: [u64; 256] = {
    let mut table = [0; 256];
    let mut bits = 0;
    while bits < 256 {
        let mut k = 0;
        while k < 8 {
            table[bits] |= (bits as u64 >> k & 1) << (8 * k);
            k += 1;
        }
        bits += 1;
    }
    table
};

/// Nodes k to k + 7 of a row as bytes.
fn spread(row: u16, turned: bool, k: usize) -> u64 {
    if turned {
        SPREAD[usize::from((row >> (8 - k)) as u8)].swap_bytes()
    } else {
        SPREAD[usize::from((row >> k) as u8)]
    }
}

/// Adds to a row of bytes: eight of them, from the k-th on, are told at a time.
#[inline(always)]
fn add(row: &mut [u8], eight: impl Fn(usize) -> u64) {
    let w = row.len();
    if w < 8 {
        for (byte, more) in row.iter_mut().zip(eight(0).to_le_bytes()) {
            *byte |= more;
        }
    } else {
        let (low, high) = (word(&row[..8]) | eight(0), word(&row[w - 8..]) | eight(w - 8));
        row[..8].copy_from_slice(&low.to_le_bytes());
        row[w - 8..].copy_from_slice(&high.to_le_bytes());
    }
}
