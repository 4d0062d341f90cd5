//! Cases are gathered, asked together, and held to what the search program says.
use crate::call::{Call, Use};
use crate::here::SEARCH;
use crate::library::{stop, Library};
use crate::request::{push_request, Request};
use std::collections::BTreeMap;

/// How many words are asked at once: a single case more still fits into the room of the serving program.
const ENOUGH: usize = 1 << 15;

struct Case {
    call: Call,
    asked: usize,
    search: usize,
}

pub struct Comparison {
    libraries: Vec<Box<dyn Library>>,
    cases: Vec<Case>,
    asked: Vec<u32>,
    search: Vec<u32>,
    tallies: Vec<Tally>,
}

impl Comparison {
    pub fn new(libraries: Vec<Box<dyn Library>>) -> Comparison {
        Comparison { libraries, cases: Vec::new(), asked: Vec::new(), search: Vec::new(), tallies: Tally::none() }
    }

    /// One case: the call, its numbers and its buffers. Gives the search program's answer: the fields, and the bytes lent.
    pub fn case(&mut self, call: Call, numbers: &[u32], buffers: &[&[u8]]) -> Vec<u32> {
        let begin = self.begin(call);
        push_request(&mut self.asked, call, numbers, buffers);
        let search = Library::answer(&mut { SEARCH }, &self.asked[begin..]);
        self.end(&search);
        search
    }

    /// One case with no buffers, whose answer has been searched for already.
    pub fn known(&mut self, call: Call, numbers: &[u32], search: &[u32]) {
        self.begin(call);
        push_request(&mut self.asked, call, numbers, &[]);
        self.end(search);
    }

    fn begin(&mut self, call: Call) -> usize {
        self.cases.push(Case { call, asked: self.asked.len(), search: self.search.len() });
        self.asked.len()
    }

    fn end(&mut self, search: &[u32]) {
        self.search.extend(search);
        if self.asked.len() >= ENOUGH {
            self.ask();
        }
    }

    fn ask(&mut self) {
        let (cases, asked, search) = (&self.cases, &self.asked, &self.search);
        let part = |i: usize| {
            let (asked_end, search_end) = cases.get(i + 1).map_or((asked.len(), search.len()), |next| (next.asked, next.search));
            (&asked[cases[i].asked..asked_end], &search[cases[i].search..search_end])
        };
        for library in &mut self.libraries {
            let answers = library.answer(asked);
            let mut rest = &answers[..];
            for i in 0..cases.len() {
                let (request, search) = part(i);
                let answer = &rest[..search.len().min(rest.len())];
                rest = &rest[answer.len()..];
                if answer != search || wrapped(cases[i].call, answer) != search[..cases[i].call.form().fields] {
                    stop(&disagreement(library.name(), request, answer, search));
                }
            }
            if !rest.is_empty() {
                stop(&format!("DISAGREE: {}: answers more than it was asked", library.name()));
            }
        }
        for (i, case) in cases.iter().enumerate() {
            *self.tallies[case.call as usize].agreed.entry(part(i).1[0]).or_insert(0) += 1;
        }
        self.cases.clear();
        self.asked.clear();
        self.search.clear();
    }

    /// What agreed, once all is asked.
    pub fn tallies(mut self) -> Vec<Tally> {
        self.ask();
        std::mem::replace(&mut self.tallies, Tally::none())
    }
}

/// The case, the fields on both sides and what a Rust caller sees of them, and the first byte lent that differs.
fn disagreement(name: &str, request: &[u32], answer: &[u32], search: &[u32]) -> String {
    let (request, _) = Request::take(request);
    let form = request.call.form();
    let mut text = format!("DISAGREE: {name}: {}{:?}", form.name, request.numbers);
    for (room, used) in request.buffers.iter().zip(form.buffers) {
        let bytes = room.bytes();
        let kind = if *used == Use::Read { "read" } else { "lent" };
        text += &match bytes.len() {
            0..=448 => format!("\n  {kind} {bytes:?}"),
            count => format!("\n  {kind} {count} bytes, {:?}..", &bytes[..448]),
        };
    }
    let fields = |words: &[u32]| words[..form.fields.min(words.len())].to_vec();
    text += &format!("\n  answer {:?}, wrapped {:?}, searched {:?}", fields(answer), wrapped(request.call, answer), fields(search));
    if let Some(at) = (form.fields..search.len()).find(|i| answer.get(*i) != search.get(*i)) {
        let bytes = |words: &[u32]| words.get(at).map(|word| word.to_le_bytes());
        text += &format!("\n  lent bytes from {}: answer {:?}, searched {:?}", 4 * (at - form.fields), bytes(answer), bytes(search));
    }
    text
}

/// An answer's fields as they come out of the Rust wrapper's `Result`.
fn wrapped(call: Call, answer: &[u32]) -> Vec<u32> {
    use dukthari::answers::{Counted, Done, MapAnswer, NodeAnswer, PlaceAnswer, StepAnswer, VerdictAnswer};
    use dukthari::Refusal;
    let count = call.form().fields;
    if answer.len() < count {
        return Vec::new();
    }
    let refused = |refusal: Refusal| {
        let mut fields = vec![0; count];
        fields[0] = refusal.number();
        if let Refusal::BadCell { node } = refusal {
            fields[1] = node;
        }
        fields
    };
    let f = &answer[..count];
    let result = match call {
        Call::Number => NodeAnswer { refusal: f[0], node: f[1] }.result().map(|node| vec![0, node]),
        Call::Place => PlaceAnswer { refusal: f[0], x: f[1], y: f[2], z: f[3] }.result().map(|p| vec![0, p.x, p.y, p.z]),
        Call::Step => {
            let step = StepAnswer { refusal: f[0], there: f[1], x: f[2], y: f[3], z: f[4] };
            step.result().map(|next| next.map_or(vec![0; 5], |p| vec![0, 1, p.x, p.y, p.z]))
        }
        Call::Marks | Call::Fresh | Call::Sound | Call::Hear => Done { refusal: f[0], bad: f[1] }.result().map(|()| vec![0, 0]),
        Call::Components | Call::Route | Call::Reached | Call::Outstanding | Call::WriteMap => {
            Counted { refusal: f[0], bad: f[1], count: f[2] }.result().map(|count| vec![0, 0, count as u32])
        }
        Call::Verdict => {
            let verdict = VerdictAnswer { refusal: f[0], bad: f[1], hops: f[2], offered: f[3] };
            verdict.result().map(|v| vec![0, 0, v.hops, v.offered])
        }
        Call::ReadMap => {
            let read = MapAnswer { refusal: f[0], bad: f[1], w: f[2], h: f[3], d: f[4] };
            read.result().map(|s| vec![0, 0, s.w, s.h, s.d])
        }
    };
    result.unwrap_or_else(refused)
}

/// The cases of one call that agreed, by their refusal.
pub struct Tally {
    pub call: Call,
    agreed: BTreeMap<u32, u64>,
}

impl Tally {
    /// For each call, nothing yet.
    pub fn none() -> Vec<Tally> {
        Call::ALL.iter().map(|call| Tally { call: *call, agreed: BTreeMap::new() }).collect()
    }

    pub fn join(&mut self, other: &Tally) {
        for (refusal, cases) in &other.agreed {
            *self.agreed.entry(*refusal).or_insert(0) += cases;
        }
    }

    /// A comparison that asks too little fails too: at least so many cases are to be granted, and so many refused by each of these numbers,
    /// and none by another.
    pub fn expect(&self, granted: u64, refused: u64, refusals: &[u32]) {
        let count = |refusal: u32| self.agreed.get(&refusal).copied().unwrap_or(0);
        let others = self.agreed.keys().any(|refusal| *refusal != 0 && !refusals.contains(refusal));
        if count(0) < granted || refusals.iter().any(|refusal| count(*refusal) < refused) || others {
            stop(&format!("TOO LITTLE ASKED: {self}: expected {granted} granted, {refused} refused by each of {refusals:?}"));
        }
    }
}

impl std::fmt::Display for Tally {
    fn fmt(&self, f: &mut std::fmt::Formatter<'_>) -> std::fmt::Result {
        write!(f, "{}: {} cases agreed", self.call.name(), self.agreed.values().sum::<u64>())?;
        for (refusal, cases) in &self.agreed {
            match refusal {
                0 => write!(f, "; granted {cases}")?,
                _ => write!(f, "; refused {refusal}: {cases}")?,
            }
        }
        Ok(())
    }
}
