// Defines the yardstick `ordinary`: plain safe Rust, a remainder for each byte, bytes written and kept one by one.
// Assumes document 01.

use crate::receiver::{Frame, Yardstick};

pub enum Ordinary {}

impl Yardstick for Ordinary {
    const NAME: &'static str = "ordinary";

    fn checksum(body: &[u8]) -> u16 {
        let (mut first, mut second) = (0u16, 0u16);
        for &byte in body {
            first = (first + u16::from(byte)) % 255;
            second = (second + first) % 255;
        }
        second * 256 + first
    }

    fn encode(message: &[u8], out: &mut [u8]) -> Option<usize> {
        let mut code = 0;
        let mut next = 1;
        for (place, &byte) in message.iter().enumerate() {
            if byte != 0 {
                *out.get_mut(next)? = byte;
                next += 1;
            }
            if byte == 0 || next - code == 255 {
                *out.get_mut(code)? = (next - code) as u8;
                if byte != 0 && place + 1 == message.len() {
                    *out.get_mut(next)? = 0;
                    return Some(next + 1);
                }
                code = next;
                next += 1;
            }
        }
        *out.get_mut(code)? = (next - code) as u8;
        *out.get_mut(next)? = 0;
        Some(next + 1)
    }

    fn decode(form: &mut [u8]) -> Option<usize> {
        let (mut from, mut to) = (0, 0);
        while from < form.len() {
            let code = usize::from(form[from]);
            if code == 0 || from + code > form.len() {
                return None;
            }
            if code == 255 && form[from + code..] == [1] {
                return None;
            }
            form.copy_within(from + 1..from + code, to);
            from += code;
            to += code - 1;
            if code < 255 && from < form.len() {
                form[to] = 0;
                to += 1;
            }
        }
        Some(to)
    }

    fn gather(frame: &mut Frame, piece: &[u8]) -> Option<usize> {
        for (place, &byte) in piece.iter().enumerate() {
            if byte == 0 {
                return Some(place);
            }
            if frame.count == frame.bytes.len() {
                frame.long = true;
            } else {
                frame.bytes[frame.count] = byte;
                frame.count += 1;
            }
        }
        None
    }
}
