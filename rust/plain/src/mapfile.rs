use crate::{check_map, refused, Refused, Sizes};

const MARK: [u8; 4] = *b"FLD1";

pub fn read_map(file: &[u8], out: &mut [u8]) -> Result<[u32; 3], Refused> {
    if !(12..=65536).contains(&file.len()) {
        return refused(11);
    }
    let (before, trailer) = file.split_at(file.len() - 12);
    if trailer[8..] != MARK || trailer[3] != 0 {
        return refused(11);
    }
    let size = [trailer[0], trailer[1], trailer[2]].map(u32::from);
    let nodes = Sizes::checked(size)?.nodes();
    let distance = u32::from_le_bytes([trailer[4], trailer[5], trailer[6], trailer[7]]) as usize;
    if distance != nodes + 12 || distance > file.len() {
        return refused(11);
    }
    let out = match out.get_mut(..nodes) {
        Some(out) => out,
        None => return refused(3),
    };
    let cells = &before[before.len() - nodes..];
    check_map(size, cells)?;
    out.copy_from_slice(cells);
    Ok(size)
}

pub fn write_map(size: [u32; 3], cells: &[u8], out: &mut [u8]) -> Result<usize, Refused> {
    check_map(size, cells)?;
    let length = cells.len() + 12;
    let out = match out.get_mut(..length) {
        Some(out) => out,
        None => return refused(3),
    };
    let (to, trailer) = out.split_at_mut(cells.len());
    to.copy_from_slice(cells);
    let [w, h, d] = size.map(|n| n as u8);
    trailer[..4].copy_from_slice(&[w, h, d, 0]);
    trailer[4..8].copy_from_slice(&(length as u32).to_le_bytes());
    trailer[8..].copy_from_slice(&MARK);
    Ok(length)
}
