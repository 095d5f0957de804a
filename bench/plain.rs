// Defines a supervisor by the library's plain calls on five lent arrays, as a caller of the C interface has it.
// Assumes the static library; the declarations are the wrapper's.

#[path = "../bindings/rust/src/raw.rs"]
#[allow(dead_code)]
mod raw;

use oatcastle::StartData;

pub struct Plain {
    reader: [u8; 4142],
    outbox: [u8; 4147],
    factory: [u8; 6481],
    settings: [u8; 8539],
    registers: [u8; 3393],
}

impl Plain {
    pub fn start(data: &StartData) -> Plain {
        let mut plain = Plain { reader: [0; 4142], outbox: [0; 4147], factory: [0; 6481], settings: [0; 8539], registers: [0; 3393] };
        let Plain { reader, outbox, factory, settings, registers } = &mut plain;
        // SAFETY: the start data have their one length; each other pointer is valid for the length behind it, and no two runs overlap.
        let number = unsafe {
            raw::oatcastle_start(
                data.bytes().as_ptr(), reader.as_mut_ptr(), reader.len(), outbox.as_mut_ptr(), outbox.len(), factory.as_mut_ptr(),
                factory.len(), settings.as_mut_ptr(), settings.len(), registers.as_mut_ptr(), registers.len(),
            )
        };
        assert_eq!(number, 0);
        plain
    }

    pub fn receive(&mut self, image: &[u8], piece: &[u8]) {
        let Plain { reader, outbox, factory, settings, registers } = self;
        // SAFETY: each pointer is valid for the length behind it, and what is written overlaps nothing else.
        let number = unsafe {
            raw::oatcastle_receive(
                image.as_ptr(), image.len(), piece.as_ptr(), piece.len(), reader.as_mut_ptr(), reader.len(), outbox.as_mut_ptr(),
                outbox.len(), factory.as_ptr(), factory.len(), settings.as_mut_ptr(), settings.len(), registers.as_mut_ptr(),
                registers.len(),
            )
        };
        assert_eq!(number, 0);
    }

    pub fn take(&mut self, room: &mut [u8]) -> usize {
        let mut answer = raw::TakeAnswer::default();
        // SAFETY: each pointer is valid for the length behind it, and no two runs overlap.
        let number =
            unsafe { raw::oatcastle_take(self.outbox.as_mut_ptr(), self.outbox.len(), room.as_mut_ptr(), room.len(), &mut answer) };
        assert_eq!(number, 0);
        answer.moved as usize
    }

    pub fn post(&mut self, action: u8, text: &[u8]) {
        let registers = &mut self.registers;
        // SAFETY: each pointer is valid for the length behind it, and the two runs do not overlap.
        let number = unsafe { raw::oatcastle_post(registers.as_mut_ptr(), registers.len(), action, text.as_ptr(), text.len()) };
        assert_eq!(number, 0);
    }
}
