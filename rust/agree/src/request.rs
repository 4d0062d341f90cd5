//! Requests and answers as runs of 32-bit words, one after another. A request is the number of a call, its numbers, and each of its buffers as
//! a count of bytes and the bytes, four to a word; an answer is its fields, and the bytes of each buffer that was lent.
use crate::call::{Call, Use};

pub fn words_of(bytes: usize) -> usize {
    (bytes + 3) / 4
}

pub fn push_bytes(words: &mut Vec<u32>, bytes: &[u8]) {
    for four in bytes.chunks(4) {
        let mut word = [0; 4];
        word[..four.len()].copy_from_slice(four);
        words.push(u32::from_le_bytes(word));
    }
}

pub fn push_request(words: &mut Vec<u32>, call: Call, numbers: &[u32], buffers: &[&[u8]]) {
    let form = call.form();
    assert_eq!((numbers.len(), buffers.len()), (form.numbers, form.buffers.len()), "{}", form.name);
    words.push(call as u32);
    words.extend(numbers);
    for bytes in buffers {
        words.push(bytes.len() as u32);
        push_bytes(words, bytes);
    }
}

/// The bytes of the first buffer that was lent, after an answer's fields.
pub fn lent(call: Call, answer: &[u32], count: usize) -> Vec<u8> {
    let words = &answer[call.form().fields..];
    words.iter().flat_map(|word| word.to_le_bytes()).take(count).collect()
}

/// A request taken apart: its numbers, and its buffers, each in a room of its own.
pub struct Request {
    pub call: Call,
    pub numbers: Vec<u32>,
    pub buffers: Vec<Room>,
}

impl Request {
    /// The first request, and the words after it.
    pub fn take(words: &[u32]) -> (Request, &[u32]) {
        let call = Call::ALL[words[0] as usize];
        let form = call.form();
        let (numbers, mut rest) = words[1..].split_at(form.numbers);
        let mut buffers = Vec::new();
        for _ in form.buffers {
            let count = rest[0] as usize;
            let (bytes, after) = rest[1..].split_at(words_of(count));
            buffers.push(Room::new(bytes, count));
            rest = after;
        }
        (Request { call, numbers: numbers.to_vec(), buffers }, rest)
    }

    pub fn size(&self) -> [u32; 3] {
        [self.numbers[0], self.numbers[1], self.numbers[2]]
    }

    /// The bytes that were lent, after the call. Nothing beside a buffer may have changed.
    pub fn push_lent(&self, answer: &mut Vec<u32>) {
        for (room, used) in self.buffers.iter().zip(self.call.form().buffers) {
            assert!(room.intact(), "{} wrote beside a buffer", self.call.name());
            if *used == Use::Lent {
                push_bytes(answer, room.bytes());
            }
        }
    }
}

/// A buffer between two walls of bytes that are no buffer's.
pub struct Room {
    words: Vec<u32>,
    count: usize,
}

const WALL: usize = 16; // words
const BRICK: u8 = 0xA5;

impl Room {
    fn new(words: &[u32], count: usize) -> Room {
        let brick = u32::from_le_bytes([BRICK; 4]);
        let mut all = vec![brick; WALL];
        all.extend(words);
        all.extend([brick; WALL]);
        let mut room = Room { words: all, count };
        for byte in count..4 * words.len() {
            room.everything_mut()[4 * WALL + byte] = BRICK;
        }
        room
    }

    fn everything(&self) -> &[u8] {
        unsafe { std::slice::from_raw_parts(self.words.as_ptr().cast(), 4 * self.words.len()) }
    }

    fn everything_mut(&mut self) -> &mut [u8] {
        unsafe { std::slice::from_raw_parts_mut(self.words.as_mut_ptr().cast(), 4 * self.words.len()) }
    }

    fn intact(&self) -> bool {
        let all = self.everything();
        all[..4 * WALL].iter().chain(&all[4 * WALL + self.count..]).all(|byte| *byte == BRICK)
    }

    pub fn bytes(&self) -> &[u8] {
        &self.everything()[4 * WALL..4 * WALL + self.count]
    }

    pub fn bytes_mut(&mut self) -> &mut [u8] {
        let count = self.count;
        &mut self.everything_mut()[4 * WALL..4 * WALL + count]
    }

    pub fn halves_mut(&mut self) -> &mut [u16] {
        let bytes = self.bytes_mut();
        unsafe { std::slice::from_raw_parts_mut(bytes.as_mut_ptr().cast(), bytes.len() / 2) }
    }

    /// Records as one of the three has them: each is a count of 16 bits and six coordinates of 8.
    pub fn records_mut<Component>(&mut self) -> &mut [Component] {
        assert_eq!(std::mem::size_of::<Component>(), 8);
        let bytes = self.bytes_mut();
        unsafe { std::slice::from_raw_parts_mut(bytes.as_mut_ptr().cast(), bytes.len() / 8) }
    }
}
