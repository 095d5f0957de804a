// Defines what bench/whole_runs counts: a reader reads the frame of a full block, given whole, so many times.
// Assumes that its caller counts the instructions.
//
// usage: whole_runs library|ordinary random|zeros TIMES

mod ordinary;
#[path = "../tests/differential/random.rs"]
#[allow(dead_code)]
mod random;
#[allow(dead_code)]
mod receiver;

use oatcastle::{write_frame, LineReader, ReadEnd, ReaderStorage, LONGEST_DATA, LONGEST_FRAME};
use ordinary::Ordinary;
use random::Random;
use receiver::{End, Reader};
use std::hint::black_box;

fn main() {
    let words: Vec<String> = std::env::args().skip(1).collect();
    let [reader, data, times] = words.as_slice() else { panic!("three words are wanted") };
    let mut block = [0; LONGEST_DATA];
    if data == "random" {
        Random(1).fill(&mut block);
    }
    let mut out = [0; LONGEST_FRAME];
    let frame = write_frame(1, 1, 0x55, &block, &[], &mut out).expect("the frame fits");
    let times: usize = times.parse().expect("a number");
    if reader == "library" {
        let mut storage = ReaderStorage::new();
        let mut reader = LineReader::start_in(&mut storage);
        for _ in 0..times {
            assert!(matches!(reader.read(black_box(frame)).end, ReadEnd::Message(_)));
        }
    } else {
        let mut reader = Reader::<Ordinary>::new();
        for _ in 0..times {
            assert!(matches!(reader.read(black_box(frame)), (_, End::Message { .. })));
        }
    }
}
