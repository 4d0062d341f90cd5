//! Drawings both ways, and every way in which a text is none.
mod common;

use common::Numbers;
use dukthari::{BadDrawing, Flaw, Map, Sizes};

fn flaw(text: &str) -> (usize, usize, Flaw) {
    let BadDrawing { line, column, flaw } = text.parse::<Map>().unwrap_err();
    (line, column, flaw)
}

/// w characters in each of h rows in each of d layers
fn dots(w: usize, h: usize, d: usize) -> String {
    let layer = (".".repeat(w) + "\n").repeat(h);
    vec![layer; d].join("\n")
}

#[test]
fn each_place_has_its_own_character() {
    let sizes = Sizes { w: 4, h: 3, d: 2 };
    for node in 0..24 {
        let mut cells = vec![0; 24];
        cells[node] = 1;
        let map = Map::new(sizes, cells).unwrap();
        let (x, y, z) = (node % 4, node / 4 % 3, node / 12);
        let mut text = dots(4, 3, 2).into_bytes();
        text[x + 5 * y + 16 * z] = b'#';
        let text = String::from_utf8(text).unwrap();
        assert_eq!(map.to_string(), text);
        assert_eq!(text.parse(), Ok(map));
    }
}

/// A drawing is read exactly if the library grants its sizes.
#[test]
fn sizes_are_those_that_the_library_grants() {
    for w in 1..=17 {
        for h in 1..=17 {
            for d in 0..=17 {
                let sizes = Sizes { w: w as u32, h: h as u32, d: d as u32 };
                let drawn = dots(w, h, d).parse::<Map>();
                assert_eq!(drawn.is_ok(), sizes.nodes().is_ok(), "{sizes:?}");
                if let Ok(map) = drawn {
                    assert_eq!((map.sizes(), map.to_string()), (sizes, dots(w, h, d)));
                }
            }
        }
    }
}

#[test]
fn blank_lines_and_line_ends() {
    let map: Map = "..\n.#\n\n#.\n..\n".parse().unwrap();
    assert_eq!("\n\n..\n.#\n\n\n\n#.\n..\n\n".parse(), Ok(map.clone()));
    assert_eq!("..\n.#\n\n#.\n..".parse(), Ok(map.clone()));
    assert_eq!("..\r\n.#\r\n\r\n#.\r\n..\r\n".parse(), Ok(map));
}

#[test]
fn a_character_that_is_neither() {
    assert_eq!(flaw("...\n.x.\n"), (2, 2, Flaw::Character('x')));
    assert_eq!(flaw("..\n..\n\n..\n. \n"), (5, 2, Flaw::Character(' ')));
    assert_eq!(flaw("#é.\n...\n"), (1, 2, Flaw::Character('é')));
    assert_eq!(flaw("..\n..\n \n"), (3, 1, Flaw::Character(' ')));
}

#[test]
fn rows_of_different_length() {
    assert_eq!(flaw("...\n..\n"), (2, 3, Flaw::Row { has: 2, first: 3 }));
    assert_eq!(flaw("...\n....\n"), (2, 4, Flaw::Row { has: 4, first: 3 }));
    assert_eq!(flaw("...\n...\n\n...\n.....\n"), (5, 4, Flaw::Row { has: 5, first: 3 }));
    assert_eq!(flaw("...\n.\n"), (2, 2, Flaw::Row { has: 1, first: 3 }));
}

#[test]
fn layers_of_different_height() {
    assert_eq!(flaw("..\n..\n\n..\n"), (5, 1, Flaw::Layer { has: 1, first: 2 }));
    assert_eq!(flaw("..\n..\n\n..\n..\n..\n"), (6, 1, Flaw::Layer { has: 3, first: 2 }));
}

#[test]
fn sizes_out_of_range() {
    assert_eq!(flaw(&dots(17, 2, 1)), (1, 17, Flaw::Width));
    assert_eq!(flaw(&dots(300, 2, 1)), (1, 17, Flaw::Width));
    assert_eq!(flaw(&dots(1, 2, 1)), (1, 2, Flaw::Width));
    assert_eq!(flaw(&dots(2, 17, 1)), (17, 1, Flaw::Height));
    assert_eq!(flaw(&dots(2, 1, 1)), (2, 1, Flaw::Height));
    assert_eq!(flaw(&dots(2, 2, 17)), (49, 1, Flaw::Depth));
    assert_eq!(flaw(""), (1, 1, Flaw::Depth));
    assert_eq!(flaw("\n\n"), (1, 1, Flaw::Depth));
}

#[test]
fn a_flaw_in_words() {
    let words = |text: &str| text.parse::<Map>().unwrap_err().to_string();
    assert_eq!(words("...\n..\n"), "line 2, column 3: this row's length is 2, that of the first 3");
    assert_eq!(words("..\n..\n\n..\n"), "line 5, column 1: this layer's height is 1, that of the first 2");
    assert_eq!(words(&dots(17, 2, 1)), "line 1, column 17: a row has 2 to 16 characters");
    assert_eq!(words(&dots(2, 17, 1)), "line 17, column 1: a layer has 2 to 16 rows");
    assert_eq!(words(&dots(2, 2, 17)), "line 49, column 1: a drawing has 1 to 16 layers");
}

/// Of any text at all: a map whose drawing gives it back, or a flaw that lies in the text or where its next line or character would stand.
#[test]
fn any_text_is_read_or_refused() {
    let mut numbers = Numbers::new();
    let mut below = |limit: usize| numbers.below(limit as u32) as usize;
    let (mut read, mut refused) = (0, 0);
    for _ in 0..20_000 {
        let (width, height, layers) = (1 + below(4), 1 + below(4), 1 + below(3));
        let mut text: Vec<char> = dots(width, height, layers).chars().collect();
        for _ in 0..below(4) {
            let at = below(text.len());
            text[at] = ['#', '.', '\n', '\r', 'x', 'é'][below(6)];
        }
        let text: String = text.into_iter().collect();
        match text.parse::<Map>() {
            Ok(map) => {
                read += 1;
                assert_eq!(map.to_string().parse(), Ok(map));
            }
            Err(BadDrawing { line, column, .. }) => {
                refused += 1;
                let row = text.lines().nth(line - 1).unwrap_or("");
                assert!(line <= text.lines().count() + 1 && column <= row.chars().count() + 1, "{text:?}: line {line}, column {column}");
            }
        }
    }
    assert!(read > 2000 && refused > 2000, "{read} read, {refused} refused");
}
