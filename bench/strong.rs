// Defines the yardstick `strong`: safe Rust made for speed on the standard library, with blocked sums, and runs searched, copied or filled.
// Assumes document 01.

use crate::receiver::{Frame, Yardstick};
use std::ffi::CStr;

/// As many bytes of ff after two sums of 254 keep the second sum below 2^32.
const BLOCK: usize = 5802;

/// The longest run of a group.
const RUN: usize = 254;

/// The offset of the first 00, by the library's search.
fn zero_in(bytes: &[u8]) -> Option<usize> {
    CStr::from_bytes_until_nul(bytes).ok().map(|before| before.count_bytes())
}

/// How many bytes at the beginning are this one.
fn alike(bytes: &[u8], byte: u8) -> usize {
    bytes.iter().take_while(|&&other| other == byte).count()
}

pub enum Strong {}

impl Yardstick for Strong {
    const NAME: &'static str = "strong";

    fn checksum(body: &[u8]) -> u16 {
        let (mut first, mut second) = (0u32, 0u32);
        for block in body.chunks(BLOCK) {
            for &byte in block {
                first += u32::from(byte);
                second += first;
            }
            first %= 255;
            second %= 255;
        }
        (second * 256 + first) as u16
    }

    fn encode(message: &[u8], out: &mut [u8]) -> Option<usize> {
        let mut rest = message;
        let mut to = 0;
        loop {
            let zeros = alike(rest, 0);
            out.get_mut(to..to + zeros)?.fill(1);
            to += zeros;
            rest = &rest[zeros..];
            let window = &rest[..rest.len().min(RUN)];
            let run = zero_in(window).unwrap_or(window.len());
            *out.get_mut(to)? = (run + 1) as u8;
            out.get_mut(to + 1..to + 1 + run)?.copy_from_slice(&rest[..run]);
            to += run + 1;
            if run == rest.len() {
                break;
            }
            rest = &rest[run + usize::from(run < RUN)..];
        }
        *out.get_mut(to)? = 0;
        Some(to + 1)
    }

    fn decode(form: &mut [u8]) -> Option<usize> {
        let (mut from, mut to) = (0, 0);
        while from < form.len() {
            let code = usize::from(form[from]);
            if code == 0 || from + code > form.len() {
                return None;
            }
            if code == 255 && form[from + code..] == [1] {
                return None;
            }
            form.copy_within(from + 1..from + code, to);
            from += code;
            to += code - 1;
            if code < 255 && from < form.len() {
                form[to] = 0;
                to += 1;
                let ones = alike(&form[from..form.len() - 1], 1);
                form[to..to + ones].fill(0);
                from += ones;
                to += ones;
            }
        }
        Some(to)
    }

    fn gather(frame: &mut Frame, piece: &[u8]) -> Option<usize> {
        let zero = zero_in(piece);
        let part = &piece[..zero.unwrap_or(piece.len())];
        let room = part.len().min(frame.bytes.len() - frame.count);
        frame.bytes[frame.count..][..room].copy_from_slice(&part[..room]);
        frame.count += room;
        frame.long |= room < part.len();
        zero
    }
}
