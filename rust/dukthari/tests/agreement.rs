//! What the types say of each other, on maps of every size class drawn at random from a fixed seed.
mod common;

use common::Numbers;
use dukthari::{Field, Map, Refusal, Sizes};

fn drawn(numbers: &mut Numbers) -> Map {
    let largest = [3, 6, 16][numbers.below(3) as usize];
    let sizes = Sizes { w: 2 + numbers.below(largest - 1), h: 2 + numbers.below(largest - 1), d: 1 + numbers.below(largest) };
    let percent = numbers.below(60);
    let cells = (0..sizes.nodes().unwrap()).map(|_| u8::from(numbers.below(100) < percent)).collect();
    Map::new(sizes, cells).unwrap()
}

fn on_maps(count: usize, mut check: impl FnMut(&mut Numbers, &Map)) {
    let mut numbers = Numbers::new();
    for _ in 0..count {
        let map = drawn(&mut numbers);
        check(&mut numbers, &map);
    }
}

#[test]
fn files_and_drawings_give_the_map_back() {
    on_maps(300, |_, map| {
        assert_eq!(Map::from_file(&map.to_file()).as_ref(), Ok(map));
        assert_eq!(map.to_string().parse::<Map>().as_ref(), Ok(map));
        assert_eq!(map.faulty().count(), map.cells().iter().filter(|cell| **cell == 1).count());
    });
}

#[test]
fn a_route_is_a_path() {
    let mut granted = 0;
    on_maps(2000, |numbers, map| {
        let nodes = map.cells().len() as u32;
        let (start, end) = (numbers.below(nodes), numbers.below(nodes));
        let (verdict, route) = (map.verdict(start, end), map.route(start, end));
        let (verdict, route) = match (verdict, route) {
            (Ok(verdict), Ok(route)) => (verdict, route),
            (verdict, route) => return assert_eq!(verdict.unwrap_err(), route.unwrap_err()),
        };
        granted += 1;
        assert_eq!((route.iter().next(), route.iter().next_back()), (Some(start), Some(end)));
        assert_eq!((route.hops(), route.iter().len()), (verdict.hops as usize, verdict.hops as usize + 1));
        assert_eq!(route.directions().next(), verdict.directions().next());
        assert!(route.iter().all(|node| map.cells()[node as usize] == 0));
        for (place, node) in route.places().zip(&route) {
            assert_eq!(map.sizes().number(place), Ok(node));
        }
    });
    assert!(granted > 500, "{granted} routes");
}

#[test]
fn components_count_the_unsafe_nodes() {
    on_maps(300, |numbers, map| {
        let orientation = numbers.below(8);
        let (marks, components) = (map.marks(orientation).unwrap(), map.components(orientation).unwrap());
        for (node, mark) in marks.iter() {
            assert_eq!(components.of(node).is_none(), mark.is_safe());
            assert_eq!(mark.is_faulty(), map.cells()[node as usize] == 1);
        }
        for (number, record) in (1..).zip(components.records()) {
            let count = components.table().iter().filter(|other| **other == number).count();
            assert_eq!(usize::from(record.count), count);
        }
    });
}

#[test]
fn talking_nodes_settle_at_the_marks() {
    on_maps(60, |numbers, map| {
        let orientation = numbers.below(8);
        let mut field = Field::fresh(map, orientation).unwrap();
        loop {
            let news = field.news();
            assert_eq!(news.len(), field.outstanding());
            if news.is_empty() {
                break;
            }
            for word in news {
                field.hear(word.listener, word.direction, word.word).unwrap();
            }
        }
        assert_eq!(field.marks(), map.marks(orientation).unwrap());
        let kept = Field::from_state(map.sizes(), orientation, field.state().to_vec());
        assert_eq!(kept, Ok(field));
    });
}

#[test]
fn what_is_reached_shows_the_verdict() {
    on_maps(1000, |numbers, map| {
        let nodes = map.cells().len() as u32;
        let (start, end) = (numbers.below(nodes), numbers.below(nodes));
        if let Ok(reached) = map.reached(start, end) {
            assert!(reached.iter().count() == reached.count() && reached.iter().all(|node| reached.has(node)));
        }
        match (map.reached(start, end), map.verdict(start, end)) {
            (Ok(reached), Ok(_)) => assert!(reached.has(start) && reached.has(end)),
            (Ok(reached), Err(refusal)) => assert!(refusal == Refusal::NoPath && reached.has(start) && !reached.has(end)),
            (Err(refusal), verdict) => assert_eq!(verdict, Err(refusal)),
        }
    });
}

#[test]
fn a_map_is_refused_for_its_arguments_alone() {
    on_maps(100, |_, map| {
        let beyond = map.cells().len() as u32;
        assert_eq!(map.verdict(beyond, 0), Err(Refusal::BadNumber));
        assert_eq!(map.route(0, beyond), Err(Refusal::BadNumber));
        assert_eq!(Field::fresh(map, 8), Err(Refusal::BadNumber));
    });
}
