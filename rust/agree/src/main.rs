//! Compares the library with the independent search program. Prints how many cases of each call agreed, and stops with status 1 at the
//! first that does not.
//!
//!     agree [plain] PROGRAM [WORD..]    the calls as the C program rust/c/serve.c makes them, started by these words
//!     agree [plain]                     without them
//!     agree reports PROGRAM [WORD..]    the report's text, as a program prints it that is started by these words and names of files
//!     agree audits PROGRAM [WORD..]     likewise the auditor's page, for pairs of a map file and a log
//!
//! The calls as the Rust wrapper makes them are compared beside them. With `plain` the plain Rust program, the yardstick for speed, is compared too.

mod audits;
mod call;
mod comparison;
mod field;
mod files;
mod here;
mod library;
mod maps;
mod marks;
mod places;
mod programs;
mod random;
mod reports;
mod request;
mod routes;
mod samples;

use comparison::{Comparison, Tally};
use library::{Library, Served};
use std::sync::Mutex;
use std::thread;

type Job = Box<dyn FnOnce(&mut Comparison) + Send>;

/// The pieces of the comparison, the longest first.
fn jobs() -> Vec<Job> {
    let mut jobs: Vec<Job> = Vec::new();
    for i in 0..8 {
        jobs.push(Box::new(move |all| marks::maps(all, i, 8)));
        jobs.push(Box::new(move |all| routes::random(all, i, 8)));
        jobs.push(Box::new(move |all| places::shapes(all, i as u32, 8)));
        jobs.push(Box::new(move |all| field::gossips(all, i, 8)));
    }
    for i in 0..4 {
        jobs.push(Box::new(move |all| routes::small(all, i, 4)));
    }
    jobs.push(Box::new(samples::all));
    jobs.push(Box::new(places::bad_numbers));
    jobs.push(Box::new(marks::refusals));
    jobs.push(Box::new(routes::refusals));
    jobs.push(Box::new(field::damaged));
    jobs.push(Box::new(files::good));
    jobs.push(Box::new(files::bad));
    jobs.reverse();
    jobs
}

fn open(plain: bool, words: &[String]) -> Vec<Box<dyn Library>> {
    let mut libraries: Vec<Box<dyn Library>> = Vec::new();
    if !words.is_empty() {
        libraries.push(Box::new(Served::start(words)));
    }
    libraries.push(Box::new(here::LINKED));
    if plain {
        libraries.push(Box::new(here::PLAIN));
    }
    libraries
}

fn main() {
    let mut words: Vec<String> = std::env::args().skip(1).collect();
    if words.len() > 1 && words[0] == "reports" {
        return reports::compare(&words[1..]);
    }
    if words.len() > 1 && words[0] == "audits" {
        return audits::compare(&words[1..]);
    }
    let plain = words.first().map_or(false, |word| word == "plain");
    if plain {
        words.remove(0);
    }
    let libraries = open(plain, &words);
    let jobs = Mutex::new(jobs());
    let next = || jobs.lock().unwrap().pop();
    let work = || {
        let mut all = Comparison::new(open(plain, &words));
        while let Some(job) = next() {
            job(&mut all);
        }
        all.tallies()
    };
    let mut tallies = Tally::none();
    thread::scope(|scope| {
        let workers = thread::available_parallelism().map_or(1, |n| n.get());
        let started: Vec<_> = (0..workers).map(|_| scope.spawn(work)).collect();
        for worker in started {
            for (tally, other) in tallies.iter_mut().zip(&worker.join().unwrap()) {
                tally.join(other);
            }
        }
    });

    for expect in [places::expect, marks::expect, routes::expect, field::expect, files::expect] {
        expect(&tallies);
    }
    for library in &libraries {
        for tally in &tallies {
            println!("{}: {tally}", library.name());
        }
    }
}
