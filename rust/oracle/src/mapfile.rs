//! "Map file": notes, N cells, a trailer of 12 bytes.
use crate::map::{counted, refuse_if, Map, Refused};

/// "the four bytes 46 4C 44 31 hexadecimal"
const MARK: [u8; 4] = [0x46, 0x4C, 0x44, 0x31];

/// refusal, bad, W, H, D. "Reading a file: length, mark and zero byte (11), sizes (1), distance not N + 12 or beyond the file (11), room (3),
/// cells (4)."
pub fn read_map(file: &[u8], out: &mut [u8]) -> [u32; 5] {
    let answer: Result<[u32; 3], Refused> = (|| {
        refuse_if(file.len() < 12 || file.len() > 65_536, 11)?;
        let (before, trailer) = file.split_at(file.len() - 12);
        refuse_if(trailer[8..] != MARK || trailer[3] != 0, 11)?;
        let size = [trailer[0].into(), trailer[1].into(), trailer[2].into()];
        let nodes = Map::new(size)?.nodes();
        let distance = u32::from_le_bytes([trailer[4], trailer[5], trailer[6], trailer[7]]);
        refuse_if(distance as usize != nodes + 12 || nodes > before.len(), 11)?;
        refuse_if(out.len() < nodes, 3)?;
        let cells = &before[before.len() - nodes..];
        Map::checked(size, cells)?;
        out[..nodes].copy_from_slice(cells);
        Ok(size)
    })();
    match answer {
        Ok([w, h, d]) => [0, 0, w, h, d],
        Err(r) => [r.number, r.bad, 0, 0, 0],
    }
}

/// refusal, bad, count: the file's length. 1 2 4 3
pub fn write_map(size: [u32; 3], cells: &[u8], out: &mut [u8]) -> [u32; 3] {
    counted((|| {
        let nodes = Map::checked(size, cells)?.nodes();
        let mut file = cells.to_vec();
        file.extend(size.map(|n| n as u8));
        file.push(0);
        file.extend((nodes as u32 + 12).to_le_bytes());
        file.extend(MARK);
        refuse_if(out.len() < file.len(), 3)?;
        out[..file.len()].copy_from_slice(&file);
        Ok(file.len())
    })())
}
