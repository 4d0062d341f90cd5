//! The scope paper's "Samples with numbers", by its own words, through the types that own their memory.
use dukthari::{Component, Field, Map, Place, Refusal, Sizes};

fn map(w: u32, h: u32, d: u32, faulty: &[[u32; 3]]) -> Map {
    let mut map = Map::working(Sizes { w, h, d }).unwrap();
    for [x, y, z] in faulty {
        map.fail(Place { x: *x, y: *y, z: *z }).unwrap();
    }
    map
}

/// Map P
fn p() -> Map {
    map(5, 5, 1, &[[2, 1, 0], [1, 2, 0]])
}

#[test]
fn marks_and_components_of_p() {
    let mut want = [0; 25];
    want[6] = 2;
    want[12] = 4;
    want[7] = 1;
    want[11] = 1;
    assert_eq!(p().marks(0).unwrap().bytes(), want);
    let components = p().components(0).unwrap();
    assert_eq!(components.records(), [Component { count: 4, least: [1, 1, 0], greatest: [2, 2, 0] }]);
    assert_eq!(components.table().iter().filter(|number| **number == 1).count(), 4);
    assert_eq!(p().marks(1).unwrap().bytes(), p().cells());
    assert_eq!(p().components(1).unwrap().records()[0].count, 2);
    assert_eq!(p().marks(8), Err(Refusal::BadNumber));
    assert_eq!(p().components(8), Err(Refusal::BadNumber));
}

#[test]
fn routes_of_p() {
    let hops_and_offered = |start, end| p().verdict(start, end).map(|v| (v.hops, v.offered));
    let nodes = |start, end| p().route(start, end).map(|route| route.nodes().to_vec());
    assert_eq!(hops_and_offered(0, 24), Ok((8, 5)));
    assert_eq!(nodes(0, 24), Ok(vec![0, 1, 2, 3, 4, 9, 14, 19, 24]));
    assert_eq!(hops_and_offered(1, 24).unwrap().1, 1);
    assert_eq!(hops_and_offered(6, 24), Err(Refusal::NoPath));
    assert_eq!(hops_and_offered(6, 6), Ok((0, 0)));
    assert_eq!(nodes(6, 6), Ok(vec![6]));
    assert_eq!(hops_and_offered(5, 6).unwrap().0, 1);
    assert_eq!(hops_and_offered(0, 12), Err(Refusal::NoPath));
    assert_eq!(hops_and_offered(12, 24).unwrap().0, 4);
    assert_eq!(nodes(2, 17), Err(Refusal::NoPath));
    assert_eq!(hops_and_offered(24, 0).unwrap().1, 10);
    assert_eq!(nodes(24, 0), Ok(vec![24, 23, 22, 21, 20, 15, 10, 5, 0]));
    assert_eq!(nodes(7, 24), Err(Refusal::FaultyEnd));
    assert_eq!(nodes(25, 7), Err(Refusal::BadNumber));
}

#[test]
fn a_node_with_both_marks() {
    let cross = map(3, 3, 1, &[[1, 0, 0], [0, 1, 0], [2, 1, 0], [1, 2, 0]]);
    let marks = cross.marks(0).unwrap();
    assert_eq!(marks.bytes(), [2, 1, 0, 1, 6, 1, 0, 1, 4]);
    let both = marks.of(4).unwrap();
    assert!(both.is_useless() && both.is_cannot_reach() && !both.is_faulty() && !both.is_safe());
    assert_eq!(marks.iter().filter(|(_, mark)| mark.is_faulty()).map(|(node, _)| node).collect::<Vec<_>>(), [1, 3, 5, 7]);
    assert_eq!(marks.of(9), None);
}

#[test]
fn the_talking_nodes() {
    let mut field = Field::fresh(&map(4, 4, 1, &[[2, 1, 0], [1, 2, 0], [0, 2, 0]]), 0).unwrap();
    assert_eq!(field.outstanding(), 4);
    assert_eq!(field.hear(4, 0, 4), Err(Refusal::NotHeld));
    assert_eq!(field.hear(4, 0, 2), Ok(()));
    assert_eq!(field.own(4).unwrap().byte(), 2);
    assert_eq!(field.heard(4, 0), Some(2));
    assert_eq!(field.outstanding(), 5);
    let news = field.news();
    assert_eq!(news.len(), 5);
    for word in news {
        assert_eq!(field.hear(word.listener, word.direction, word.word), Ok(()));
    }
    assert!(field.is_settled());
}

#[test]
fn the_sample_of_the_source_document() {
    let faulty = [[5, 5, 6], [6, 5, 5], [5, 6, 5], [6, 7, 5], [7, 6, 5], [5, 4, 7], [4, 5, 7], [7, 8, 4]];
    let ten = map(10, 10, 10, &faulty);
    let marks = ten.marks(0).unwrap();
    let at = |x, y, z| marks.of(ten.sizes().number(Place { x, y, z }).unwrap()).unwrap().byte();
    assert_eq!((at(5, 5, 5), at(5, 5, 7), at(6, 6, 5)), (2, 4, 0));
    let counts: Vec<u16> = ten.components(0).unwrap().records().iter().map(|record| record.count).collect();
    assert_eq!(counts.len(), 2);
    assert!(counts.contains(&9) && counts.contains(&1));
}

#[test]
fn the_file_of_p_has_37_bytes() {
    let file = p().to_file();
    assert_eq!(file.len(), 37);
    assert_eq!(Map::from_file(&file), Ok(p()));
    assert_eq!(Map::from_file(&[&b"notes"[..], &file].concat()), Ok(p()));
}
