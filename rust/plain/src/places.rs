use crate::{refused, Refused, Sizes};

fn checked(size: [u32; 3], at: [u32; 3]) -> Result<(Sizes, [usize; 3]), Refused> {
    let sizes = Sizes::checked(size)?;
    if at[0] >= size[0] || at[1] >= size[1] || at[2] >= size[2] {
        return refused(5);
    }
    Ok((sizes, at.map(|n| n as usize)))
}

pub fn number(size: [u32; 3], at: [u32; 3]) -> Result<u32, Refused> {
    let (sizes, [x, y, z]) = checked(size, at)?;
    Ok((x + sizes.w * (y + sizes.h * z)) as u32)
}

pub fn place(size: [u32; 3], node: u32) -> Result<[u32; 3], Refused> {
    let sizes = Sizes::checked(size)?;
    if node as usize >= sizes.nodes() {
        return refused(5);
    }
    Ok(sizes.place(node as usize).map(|n| n as u32))
}

const STEPS: [[i32; 3]; 6] = [[1, 0, 0], [-1, 0, 0], [0, 1, 0], [0, -1, 0], [0, 0, 1], [0, 0, -1]];

pub fn step(size: [u32; 3], at: [u32; 3], direction: u32) -> Result<Option<[u32; 3]>, Refused> {
    checked(size, at)?;
    let by = match STEPS.get(direction as usize) {
        Some(by) => by,
        None => return refused(5),
    };
    let [x, y, z] = [at[0] as i32 + by[0], at[1] as i32 + by[1], at[2] as i32 + by[2]].map(|n| n as u32);
    Ok((x < size[0] && y < size[1] && z < size[2]).then_some([x, y, z]))
}
