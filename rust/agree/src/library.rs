//! Who answers the calls: a program that serves the library over a pipe, or functions in this program.
use crate::request::Request;
use std::io::{Read, Write};
use std::process::{Child, Command, Stdio};

pub trait Library {
    fn name(&self) -> &'static str;

    /// The answers to some requests.
    fn answer(&mut self, asked: &[u32]) -> Vec<u32>;
}

/// The comparison cannot go on, and has failed.
pub fn stop(why: &str) -> ! {
    let mut out = std::io::stdout().lock(); // said once, though several threads may stop
    writeln!(out, "{why}").unwrap();
    std::process::exit(1);
}

/// A program that serves the calls over a pipe.
pub struct Served {
    program: Child,
}

impl Served {
    pub fn start(words: &[String]) -> Served {
        let program = Command::new(&words[0]).args(&words[1..]).stdin(Stdio::piped()).stdout(Stdio::piped()).spawn();
        Served { program: program.unwrap_or_else(|e| stop(&format!("{}: {e}", words[0]))) }
    }

    fn exchange(&mut self, asked: &[u32]) -> std::io::Result<Vec<u32>> {
        let mut bytes = (asked.len() as u32).to_le_bytes().to_vec();
        bytes.extend(asked.iter().flat_map(|word| word.to_le_bytes()));
        self.program.stdin.as_mut().unwrap().write_all(&bytes)?;
        let out = self.program.stdout.as_mut().unwrap();
        let mut count = [0; 4];
        out.read_exact(&mut count)?;
        let mut bytes = vec![0; 4 * u32::from_le_bytes(count) as usize];
        out.read_exact(&mut bytes)?;
        Ok(bytes.chunks_exact(4).map(|b| u32::from_le_bytes([b[0], b[1], b[2], b[3]])).collect())
    }
}

impl Library for Served {
    fn name(&self) -> &'static str {
        "from C"
    }

    fn answer(&mut self, asked: &[u32]) -> Vec<u32> {
        self.exchange(asked).unwrap_or_else(|e| stop(&format!("the program that serves the library stopped: {e}")))
    }
}

impl Drop for Served {
    fn drop(&mut self) {
        drop(self.program.stdin.take()); // the end of its input
        if !self.program.wait().map_or(false, |status| status.success()) {
            stop("the program that serves the library failed");
        }
    }
}

/// Functions in this program: each does the call on the request's buffers and gives the fields of the answer.
pub struct Here {
    pub name: &'static str,
    pub call: fn(&mut Request) -> Vec<u32>,
}

impl Library for Here {
    fn name(&self) -> &'static str {
        self.name
    }

    fn answer(&mut self, mut asked: &[u32]) -> Vec<u32> {
        let mut answers = Vec::new();
        while !asked.is_empty() {
            let (mut request, rest) = Request::take(asked);
            answers.extend((self.call)(&mut request));
            request.push_lent(&mut answers);
            asked = rest;
        }
        answers
    }
}
