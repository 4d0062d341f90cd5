//! Maps as text that people write: `.` works, `#` is faulty, a row to a line, a blank line between layers. The first character of a row has x
//! = 0, the first row of a layer y = 0, the first layer z = 0.
use crate::{Map, Sizes};
use std::fmt;
use std::str::FromStr;

/// Where a text is not a drawing, counted from 1, and why.
///
/// ```
/// let bad = "...\n.x.\n...".parse::<dukthari::Map>().unwrap_err();
/// assert_eq!(bad.to_string(), "line 2, column 2: 'x' is neither '.' (works) nor '#' (faulty)");
/// ```
#[derive(Clone, Copy, Debug, PartialEq, Eq, Hash)]
pub struct BadDrawing {
    /// The line.
    pub line: usize,
    /// The character in it.
    pub column: usize,
    /// What is wrong there.
    pub flaw: Flaw,
}

/// What is wrong there.
#[derive(Clone, Copy, Debug, PartialEq, Eq, Hash)]
pub enum Flaw {
    /// A character that is neither `.` nor `#`.
    Character(char),
    /// A row that has not as many characters as the first.
    Row {
        /// Its characters.
        has: usize,
        /// Those of the first.
        first: usize,
    },
    /// A layer that has not as many rows as the first.
    Layer {
        /// Its rows.
        has: usize,
        /// Those of the first.
        first: usize,
    },
    /// A row of more than 16 characters, or fewer than 2.
    Width,
    /// A layer of more than 16 rows, or fewer than 2.
    Height,
    /// More than 16 layers, or none.
    Depth,
}

impl fmt::Display for Flaw {
    fn fmt(&self, f: &mut fmt::Formatter<'_>) -> fmt::Result {
        match self {
            Flaw::Character(found) => write!(f, "{found:?} is neither '.' (works) nor '#' (faulty)"),
            Flaw::Row { has, first } => write!(f, "this row's length is {has}, that of the first {first}"),
            Flaw::Layer { has, first } => write!(f, "this layer's height is {has}, that of the first {first}"),
            Flaw::Width => write!(f, "a row has 2 to 16 characters"),
            Flaw::Height => write!(f, "a layer has 2 to 16 rows"),
            Flaw::Depth => write!(f, "a drawing has 1 to 16 layers"),
        }
    }
}

impl fmt::Display for BadDrawing {
    fn fmt(&self, f: &mut fmt::Formatter<'_>) -> fmt::Result {
        write!(f, "line {}, column {}: {}", self.line, self.column, self.flaw)
    }
}

impl std::error::Error for BadDrawing {}

/// A row, and the number of its line.
type Row<'a> = (usize, &'a str);

/// The stretches of lines that are not blank.
fn layers(text: &str) -> Vec<Vec<Row<'_>>> {
    let lines: Vec<Row> = (1..).zip(text.lines()).collect();
    let stretches = lines.split(|(_, row)| row.is_empty());
    stretches.filter(|rows| !rows.is_empty()).map(<[Row]>::to_vec).collect()
}

/// A row's cells, if it has as many as the first. What is missing is looked for where it should stand.
fn row_cells((line, row): Row, first: usize) -> Result<Vec<u8>, BadDrawing> {
    let has = row.chars().count();
    let bad = |column, flaw| BadDrawing { line, column, flaw };
    let cell = |(column, found)| match found {
        _ if column > 16 => Err(bad(column, Flaw::Width)),
        _ if column > first => Err(bad(column, Flaw::Row { has, first })),
        '.' => Ok(0),
        '#' => Ok(1),
        _ => Err(bad(column, Flaw::Character(found))),
    };
    let cells = (1..).zip(row.chars()).map(cell).collect::<Result<Vec<u8>, BadDrawing>>()?;
    match has {
        _ if has < first => Err(bad(has + 1, Flaw::Row { has, first })),
        0 | 1 => Err(bad(has + 1, Flaw::Width)),
        _ => Ok(cells),
    }
}

/// A layer's cells, if it has as many rows as the first.
fn layer_cells(rows: &[Row], width: usize, first: usize) -> Result<Vec<u8>, BadDrawing> {
    let mut cells = Vec::new();
    for row in rows.iter().take(first.min(16)) {
        cells.extend(row_cells(*row, width)?);
    }
    let has = rows.len();
    let bad = |row: usize, flaw| Err(BadDrawing { line: rows[0].0 + row, column: 1, flaw });
    if has != first {
        return bad(has.min(first), Flaw::Layer { has, first });
    }
    if !(2..=16).contains(&has) {
        return bad(has.min(16), Flaw::Height);
    }
    Ok(cells)
}

impl FromStr for Map {
    type Err = BadDrawing;

    /// Reads a drawing. Blank lines before the first layer and after the last, and more than one between two, are as good.
    fn from_str(text: &str) -> Result<Map, BadDrawing> {
        let layers = layers(text);
        let width = layers.first().map_or(0, |rows| rows[0].1.chars().count());
        let height = layers.first().map_or(0, Vec::len);
        let mut cells = Vec::new();
        for rows in layers.iter().take(16) {
            cells.extend(layer_cells(rows, width, height)?);
        }
        let depth = layers.len();
        if !(1..=16).contains(&depth) {
            return Err(BadDrawing { line: layers.get(16).map_or(1, |rows| rows[0].0), column: 1, flaw: Flaw::Depth });
        }
        let sizes = Sizes { w: width as u32, h: height as u32, d: depth as u32 };
        Ok(Map::new(sizes, cells).expect("a drawing's sizes are in range, and its cells are 0 and 1"))
    }
}

impl fmt::Display for Map {
    /// Draws the map: each row ends its line, and a blank line stands between layers.
    fn fmt(&self, f: &mut fmt::Formatter<'_>) -> fmt::Result {
        let Sizes { w, h, .. } = self.sizes();
        for (i, row) in self.cells().chunks(w as usize).enumerate() {
            if i > 0 && i % h as usize == 0 {
                writeln!(f)?;
            }
            writeln!(f, "{}", row.iter().map(|cell| if *cell == 0 { '.' } else { '#' }).collect::<String>())?;
        }
        Ok(())
    }
}
