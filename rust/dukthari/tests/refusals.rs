//! Each refusal by a call that gives it, with its number and its words; and that a refused call has changed nothing.
use dukthari::{Field, Map, Place, Refusal, Sizes};

const P: Sizes = Sizes { w: 5, h: 5, d: 1 };

fn p() -> Map {
    ".....\n..#..\n.#...\n.....\n.....".parse().unwrap()
}

#[test]
fn every_refusal_has_its_number_and_its_words() {
    let mut file = p().to_file();
    file[36] = b'2';
    let mut field = Field::fresh(&p(), 0).unwrap();
    let given = [
        Map::working(Sizes { w: 1, h: 2, d: 1 }).unwrap_err(),
        Map::new(P, vec![0; 24]).unwrap_err(),
        P.marks(0, p().cells(), &mut [0; 24]).unwrap_err(),
        Map::new(P, [&[0; 20][..], &[2; 5]].concat()).unwrap_err(),
        p().marks(8).unwrap_err(),
        Field::from_state(P, 0, vec![9; 175]).unwrap_err(),
        field.hear(7, 0, 0).unwrap_err(),
        field.hear(0, 0, 2).unwrap_err(),
        p().route(7, 0).unwrap_err(),
        p().route(0, 12).unwrap_err(),
        Map::from_file(&file).unwrap_err(),
    ];
    assert_eq!(given.map(Refusal::number), [1, 2, 3, 4, 5, 6, 7, 8, 9, 10, 11]);
    for refusal in given {
        let (text, begins) = (refusal.to_string(), format!("refused {}: {}", refusal.number(), refusal.reason()));
        assert!(text.starts_with(&begins) && refusal.reason().len() > 20, "{text}");
    }
    let header = include_str!("../../../include/dukthari.h");
    let reason = header.split("*dk_reason(").nth(1).unwrap().split("\n}").next().unwrap();
    let words: Vec<&str> = reason.split('"').skip(1).step_by(2).collect();
    assert_eq!(words[1..12], given.map(Refusal::reason));
    assert_eq!(given[3], Refusal::BadCell { node: 20 });
    assert!(given[3].to_string().ends_with("the first at node 20"));
}

#[test]
fn a_refused_call_changes_nothing() {
    let mut map = p();
    assert_eq!(map.fail(Place { x: 0, y: 0, z: 1 }), Err(Refusal::BadNumber));
    assert_eq!(map.repair(Place { x: 5, y: 0, z: 0 }), Err(Refusal::BadNumber));
    assert_eq!(map, p());
    let mut field = Field::fresh(&p(), 0).unwrap();
    let before = field.clone();
    for (listener, direction, word) in [(25, 0, 0), (0, 6, 0), (0, 0, 1), (0, 1, 0), (7, 0, 0), (0, 0, 6)] {
        assert!(field.hear(listener, direction, word).is_err());
    }
    assert_eq!(field, before);
    let mut out = [77; 46];
    assert_eq!(P.route(0, 24, p().cells(), &mut out[..8]), Err(Refusal::NoRoom));
    assert_eq!(out, [77; 46]);
}

#[test]
fn failing_and_repairing_undo_each_other() {
    let mut map = p();
    map.fail(Place { x: 4, y: 3, z: 0 }).unwrap();
    assert_eq!(map.faulty().collect::<Vec<_>>(), [7, 11, 19]);
    map.repair(Place { x: 4, y: 3, z: 0 }).unwrap();
    assert_eq!(map, p());
}

#[test]
fn sizes_too_large_to_multiply_are_refused() {
    for bad in [0, 17, 65_536, u32::MAX] {
        for sizes in [Sizes { w: bad, ..P }, Sizes { h: bad, ..P }, Sizes { d: bad, ..P }] {
            assert_eq!(sizes.nodes(), Err(Refusal::BadSizes));
            assert_eq!(Map::working(sizes), Err(Refusal::BadSizes));
            assert_eq!(Map::new(sizes, vec![0; 25]), Err(Refusal::BadSizes));
            assert_eq!(Field::from_state(sizes, 0, vec![0; 175]), Err(Refusal::BadSizes));
        }
    }
}
