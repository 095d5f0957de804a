// Defines both ends in parts that are lent to the C functions of include/oatcastle.h, one method for each call that the simulation makes.
// Assumes the lengths of bindings/rust/src/limits.rs. A refusal that the header rules out ends the program.

use crate::library::{
    self, EditionAnswer, LookupAnswer, RequesterReceiveAnswer, RequesterRequestAnswer, RequesterSendAnswer, RequesterStateAnswer, RestoreAnswer, SaveAnswer,
    SignalAnswer, StepAnswer, TakeAnswer,
};
use crate::limits::{
    FACTORY_LENGTH, LONGEST_FRAME, LONGEST_IMAGE, OUTBOX_LENGTH, READER_LENGTH, REGISTERS_LENGTH, REQUESTER_LENGTH, SETTINGS_LENGTH, START_LENGTH,
};

fn done(call: &str, number: u32) {
    assert_eq!(number, 0, "{call} is refused");
}

pub struct Supervisor {
    reader: [u8; READER_LENGTH],
    outbox: [u8; OUTBOX_LENGTH],
    factory: [u8; FACTORY_LENGTH],
    settings: [u8; SETTINGS_LENGTH],
    registers: [u8; REGISTERS_LENGTH],
}

impl Supervisor {
    /// Parts of these contents, not started.
    pub fn new(byte: u8) -> Box<Supervisor> {
        Box::new(Supervisor {
            reader: [byte; READER_LENGTH],
            outbox: [byte; OUTBOX_LENGTH],
            factory: [byte; FACTORY_LENGTH],
            settings: [byte; SETTINGS_LENGTH],
            registers: [byte; REGISTERS_LENGTH],
        })
    }

    pub fn start(&mut self, data: &[u8; START_LENGTH]) {
        let Supervisor { reader, outbox, factory, settings, registers } = self;
        // Here and below, each pointer is to a run of the length behind it, and no two runs overlap.
        done("start", unsafe {
            library::oatcastle_start(
                data.as_ptr(), reader.as_mut_ptr(), READER_LENGTH, outbox.as_mut_ptr(), OUTBOX_LENGTH, factory.as_mut_ptr(), FACTORY_LENGTH,
                settings.as_mut_ptr(), SETTINGS_LENGTH, registers.as_mut_ptr(), REGISTERS_LENGTH,
            )
        });
    }

    pub fn receive(&mut self, image: &[u8], piece: &[u8]) {
        let Supervisor { reader, outbox, factory, settings, registers } = self;
        done("receive", unsafe {
            library::oatcastle_receive(
                image.as_ptr(), image.len(), piece.as_ptr(), piece.len(), reader.as_mut_ptr(), READER_LENGTH, outbox.as_mut_ptr(), OUTBOX_LENGTH,
                factory.as_ptr(), FACTORY_LENGTH, settings.as_mut_ptr(), SETTINGS_LENGTH, registers.as_mut_ptr(), REGISTERS_LENGTH,
            )
        });
    }

    pub fn step(&mut self, image: &[u8], piece: &[u8]) -> StepAnswer {
        let Supervisor { reader, outbox, factory, settings, registers } = self;
        let mut answer = StepAnswer::default();
        done("step", unsafe {
            library::oatcastle_step(
                image.as_ptr(), image.len(), piece.as_ptr(), piece.len(), reader.as_mut_ptr(), READER_LENGTH, outbox.as_mut_ptr(), OUTBOX_LENGTH,
                factory.as_ptr(), FACTORY_LENGTH, settings.as_mut_ptr(), SETTINGS_LENGTH, registers.as_mut_ptr(), REGISTERS_LENGTH,
                &mut answer,
            )
        });
        answer
    }

    /// The bytes that go out, at most so many.
    pub fn take(&mut self, most: usize) -> Vec<u8> {
        let mut room = vec![0; most];
        let mut answer = TakeAnswer::default();
        done("take", unsafe { library::oatcastle_take(self.outbox.as_mut_ptr(), OUTBOX_LENGTH, room.as_mut_ptr(), most, &mut answer) });
        room.truncate(answer.moved as usize);
        room
    }

    pub fn post(&mut self, action: u8, text: &[u8]) -> u32 {
        unsafe { library::oatcastle_post(self.registers.as_mut_ptr(), REGISTERS_LENGTH, action, text.as_ptr(), text.len()) }
    }

    /// A lookup's result and value, and the edition's result and number.
    pub fn lookup(&mut self, key: u8) -> ((u8, Vec<u8>), (u8, u32)) {
        let Supervisor { factory, settings, .. } = self;
        let mut room = vec![0; LONGEST_FRAME];
        let (mut found, mut edition) = (LookupAnswer::default(), EditionAnswer::default());
        done("lookup", unsafe {
            library::oatcastle_lookup(
                factory.as_ptr(), FACTORY_LENGTH, settings.as_ptr(), SETTINGS_LENGTH, key, u16::MAX, room.as_mut_ptr(), room.len(), &mut found,
            )
        });
        done("edition", unsafe { library::oatcastle_edition(factory.as_ptr(), FACTORY_LENGTH, settings.as_ptr(), SETTINGS_LENGTH, key, &mut edition) });
        room.truncate(found.length as usize);
        ((found.result as u8, room), (edition.result as u8, edition.edition as u32))
    }

    /// The image of the settings.
    pub fn save(&self) -> Vec<u8> {
        let mut room = vec![0; LONGEST_IMAGE];
        let mut answer = SaveAnswer::default();
        done("save", unsafe { library::oatcastle_save(self.settings.as_ptr(), SETTINGS_LENGTH, room.as_mut_ptr(), room.len(), &mut answer) });
        room.truncate(answer.length as usize);
        room
    }

    /// A refusal's number, and where the image has its first fault.
    pub fn restore(&mut self, image: &[u8]) -> Result<(), (u32, usize)> {
        let mut answer = RestoreAnswer::default();
        match unsafe { library::oatcastle_restore(self.settings.as_mut_ptr(), SETTINGS_LENGTH, image.as_ptr(), image.len(), &mut answer) } {
            0 => Ok(()),
            number => Err((number, answer.offset as usize)),
        }
    }

    pub fn set_options(&mut self, options: u64) -> u32 {
        unsafe { library::oatcastle_set_options(self.registers.as_mut_ptr(), REGISTERS_LENGTH, options) }
    }

    pub fn signal(&self) -> bool {
        let mut answer = SignalAnswer::default();
        done("signal", unsafe { library::oatcastle_signal(self.registers.as_ptr(), REGISTERS_LENGTH, &mut answer) });
        answer.asserted == 1
    }
}

pub struct Main {
    reader: [u8; READER_LENGTH],
    requester: [u8; REQUESTER_LENGTH],
}

impl Main {
    /// Parts of these contents, not started.
    pub fn new(byte: u8) -> Box<Main> {
        Box::new(Main { reader: [byte; READER_LENGTH], requester: [byte; REQUESTER_LENGTH] })
    }

    pub fn start(&mut self) {
        let Main { reader, requester } = self;
        done("requester_start", unsafe {
            library::oatcastle_requester_start(reader.as_mut_ptr(), READER_LENGTH, requester.as_mut_ptr(), REQUESTER_LENGTH)
        });
    }

    /// As after requests up to this number, each answered: docs/STATE.md has the newest number in the first 8 bytes. No run counts that far.
    pub fn count_on(&mut self, number: u64) {
        self.requester[..8].copy_from_slice(&number.to_le_bytes());
    }

    /// The frame that goes out, or the refusal's number.
    pub fn request(&mut self, command: u8, data: &[u8]) -> Result<Vec<u8>, u32> {
        let mut room = vec![0; LONGEST_FRAME];
        let mut answer = RequesterRequestAnswer::default();
        let number = unsafe {
            library::oatcastle_requester_request(
                self.requester.as_mut_ptr(), REQUESTER_LENGTH, command, data.as_ptr(), data.len(), room.as_mut_ptr(), room.len(), &mut answer,
            )
        };
        room.truncate(answer.length as usize);
        if number == 0 { Ok(room) } else { Err(number) }
    }

    pub fn interrupt(&mut self) -> u32 {
        unsafe { library::oatcastle_requester_interrupt(self.requester.as_mut_ptr(), REQUESTER_LENGTH) }
    }

    /// The frame that goes out; empty where none does.
    pub fn send(&mut self) -> Vec<u8> {
        let mut room = vec![0; LONGEST_FRAME];
        let mut answer = RequesterSendAnswer::default();
        done("requester_send", unsafe {
            library::oatcastle_requester_send(self.requester.as_mut_ptr(), REQUESTER_LENGTH, room.as_mut_ptr(), room.len(), &mut answer)
        });
        room.truncate(answer.length as usize);
        room
    }

    /// The answer, and the data of the reply that is handed out, if one is.
    pub fn receive(&mut self, piece: &[u8]) -> (RequesterReceiveAnswer, Vec<u8>) {
        let Main { reader, requester } = self;
        let mut answer = RequesterReceiveAnswer::default();
        done("requester_receive", unsafe {
            library::oatcastle_requester_receive(
                piece.as_ptr(), piece.len(), reader.as_mut_ptr(), READER_LENGTH, requester.as_mut_ptr(), REQUESTER_LENGTH, &mut answer,
            )
        });
        let mut data = vec![0; answer.length as usize];
        done("line_data", unsafe { library::oatcastle_line_data(reader.as_ptr(), READER_LENGTH, answer.length, data.as_mut_ptr(), data.len()) });
        (answer, data)
    }

    pub fn state(&self) -> RequesterStateAnswer {
        let mut answer = RequesterStateAnswer::default();
        done("requester_state", unsafe { library::oatcastle_requester_state(self.requester.as_ptr(), REQUESTER_LENGTH, &mut answer) });
        answer
    }
}
