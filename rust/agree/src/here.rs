//! The three that are in this program: the search program, the plain one, and the library as the wrapper calls it.
use crate::call::Call;
use crate::library::Here;
use crate::request::Request;

pub const SEARCH: Here = Here { name: "search", call: search };
pub const PLAIN: Here = Here { name: "plain Rust", call: plain };
pub const LINKED: Here = Here { name: "from Rust", call: linked };

/// The buffers of a request, one, two or three, each to be written where it was lent.
macro_rules! buffers {
    ($request:expr, $($room:ident),*) => {
        let mut rooms = $request.buffers.iter_mut();
        $(let $room = rooms.next().unwrap();)*
    };
}

fn search(request: &mut Request) -> Vec<u32> {
    use oracle::{components, field, mapfile, marks, mesh, routes};
    let n = request.numbers.clone();
    let size = if n.len() >= 3 { request.size() } else { [0; 3] };
    match request.call {
        Call::Number => mesh::number(mesh::Mesh::new(size).as_ref(), [n[3], n[4], n[5]]).to_vec(),
        Call::Place => mesh::place(mesh::Mesh::new(size).as_ref(), n[3]).to_vec(),
        Call::Step => mesh::steps(mesh::Mesh::new(size).as_ref(), [n[3], n[4], n[5]], &[n[6]])[0].to_vec(),
        Call::Marks => {
            buffers!(request, cells, out);
            marks::marks(size, n[3], cells.bytes(), out.bytes_mut()).to_vec()
        }
        Call::Components => {
            buffers!(request, cells, table, row);
            components::components(size, n[3], cells.bytes(), table.halves_mut(), row.records_mut()).to_vec()
        }
        Call::Verdict => routes::verdict(size, n[3], n[4], request.buffers[0].bytes()).to_vec(),
        Call::Route => {
            buffers!(request, cells, out);
            routes::route(size, n[3], n[4], cells.bytes(), out.halves_mut()).to_vec()
        }
        Call::Reached => {
            buffers!(request, cells, out);
            routes::reached(size, n[3], n[4], cells.bytes(), out.bytes_mut()).to_vec()
        }
        Call::Fresh => {
            buffers!(request, cells, state);
            field::fresh(size, n[3], cells.bytes(), state.bytes_mut()).to_vec()
        }
        Call::Sound => field::sound(size, n[3], request.buffers[0].bytes()).to_vec(),
        Call::Outstanding => field::outstanding(size, n[3], request.buffers[0].bytes()).to_vec(),
        Call::Hear => field::hear(size, n[3], n[4], n[5], n[6], request.buffers[0].bytes_mut()).to_vec(),
        Call::ReadMap => {
            buffers!(request, file, cells);
            mapfile::read_map(file.bytes(), cells.bytes_mut()).to_vec()
        }
        Call::WriteMap => {
            buffers!(request, cells, out);
            mapfile::write_map(size, cells.bytes(), out.bytes_mut()).to_vec()
        }
    }
}

fn plain(request: &mut Request) -> Vec<u32> {
    let n = request.numbers.clone();
    let size = if n.len() >= 3 { request.size() } else { [0; 3] };
    let done = |answer: Result<(), plain::Refused>| match answer {
        Ok(()) => vec![0, 0],
        Err(r) => vec![r.number, r.bad],
    };
    let counted = |answer: Result<usize, plain::Refused>| match answer {
        Ok(count) => vec![0, 0, count as u32],
        Err(r) => vec![r.number, r.bad, 0],
    };
    match request.call {
        Call::Number => plain::number(size, [n[3], n[4], n[5]]).map_or_else(|r| vec![r.number, 0], |node| vec![0, node]),
        Call::Place => plain::place(size, n[3]).map_or_else(|r| vec![r.number, 0, 0, 0], |[x, y, z]| vec![0, x, y, z]),
        Call::Step => match plain::step(size, [n[3], n[4], n[5]], n[6]) {
            Ok(Some([x, y, z])) => vec![0, 1, x, y, z],
            Ok(None) => vec![0; 5],
            Err(r) => vec![r.number, 0, 0, 0, 0],
        },
        Call::Marks => {
            buffers!(request, cells, out);
            done(plain::marks(size, n[3], cells.bytes(), out.bytes_mut()))
        }
        Call::Components => {
            buffers!(request, cells, table, row);
            counted(plain::components(size, n[3], cells.bytes(), table.halves_mut(), row.records_mut()))
        }
        Call::Verdict => match plain::verdict(size, n[3], n[4], request.buffers[0].bytes()) {
            Ok(v) => vec![0, 0, v.hops, v.offered],
            Err(r) => vec![r.number, r.bad, 0, 0],
        },
        Call::Route => {
            buffers!(request, cells, out);
            counted(plain::route(size, n[3], n[4], cells.bytes(), out.halves_mut()))
        }
        Call::Reached => {
            buffers!(request, cells, out);
            counted(plain::reached(size, n[3], n[4], cells.bytes(), out.bytes_mut()))
        }
        Call::Fresh => {
            buffers!(request, cells, state);
            done(plain::fresh(size, n[3], cells.bytes(), state.bytes_mut()))
        }
        Call::Sound => done(plain::sound(size, n[3], request.buffers[0].bytes())),
        Call::Outstanding => counted(plain::outstanding(size, n[3], request.buffers[0].bytes())),
        Call::Hear => done(plain::hear(size, n[3], n[4], n[5], n[6], request.buffers[0].bytes_mut())),
        Call::ReadMap => {
            buffers!(request, file, cells);
            match plain::read_map(file.bytes(), cells.bytes_mut()) {
                Ok([w, h, d]) => vec![0, 0, w, h, d],
                Err(r) => vec![r.number, r.bad, 0, 0, 0],
            }
        }
        Call::WriteMap => {
            buffers!(request, cells, out);
            counted(plain::write_map(size, cells.bytes(), out.bytes_mut()))
        }
    }
}

fn linked(request: &mut Request) -> Vec<u32> {
    use dukthari::answers::{Counted, Done};
    use dukthari::{calls, Place, Sizes};
    let n = request.numbers.clone();
    let s = if n.len() >= 3 { Sizes { w: n[0], h: n[1], d: n[2] } } else { Sizes { w: 0, h: 0, d: 0 } };
    let done = |a: Done| vec![a.refusal, a.bad];
    let counted = |a: Counted| vec![a.refusal, a.bad, a.count];
    match request.call {
        Call::Number => {
            let a = calls::number(s, Place { x: n[3], y: n[4], z: n[5] });
            vec![a.refusal, a.node]
        }
        Call::Place => {
            let a = calls::place(s, n[3]);
            vec![a.refusal, a.x, a.y, a.z]
        }
        Call::Step => {
            let a = calls::step(s, Place { x: n[3], y: n[4], z: n[5] }, n[6]);
            vec![a.refusal, a.there, a.x, a.y, a.z]
        }
        Call::Marks => {
            buffers!(request, cells, out);
            done(calls::marks(s, n[3], cells.bytes(), out.bytes_mut()))
        }
        Call::Components => {
            buffers!(request, cells, table, row);
            counted(calls::components(s, n[3], cells.bytes(), table.halves_mut(), row.records_mut()))
        }
        Call::Verdict => {
            let a = calls::verdict(s, n[3], n[4], request.buffers[0].bytes());
            vec![a.refusal, a.bad, a.hops, a.offered]
        }
        Call::Route => {
            buffers!(request, cells, out);
            counted(calls::route(s, n[3], n[4], cells.bytes(), out.halves_mut()))
        }
        Call::Reached => {
            buffers!(request, cells, out);
            counted(calls::reached(s, n[3], n[4], cells.bytes(), out.bytes_mut()))
        }
        Call::Fresh => {
            buffers!(request, cells, state);
            done(calls::fresh(s, n[3], cells.bytes(), state.bytes_mut()))
        }
        Call::Sound => done(calls::sound(s, n[3], request.buffers[0].bytes())),
        Call::Outstanding => counted(calls::outstanding(s, n[3], request.buffers[0].bytes())),
        Call::Hear => done(calls::hear(s, n[3], n[4], n[5], n[6], request.buffers[0].bytes_mut())),
        Call::ReadMap => {
            buffers!(request, file, cells);
            let a = calls::read_map(file.bytes(), cells.bytes_mut());
            vec![a.refusal, a.bad, a.w, a.h, a.d]
        }
        Call::WriteMap => {
            buffers!(request, cells, out);
            counted(calls::write_map(s, cells.bytes(), out.bytes_mut()))
        }
    }
}
