//! Defines the supervisor: storage for its five parts, and a method for each of its calls.
//! Assumes the C functions of `raw`, and `docs/STATE.md` for where the values lie that are handed out.

use crate::limits::{
    setting_offset, ALL_OPTIONS, BOOT_FAILURE_OFFSET, EMPTY, FACTORY_LENGTH, FAILURE, MESSAGE, MORE, MOST_KEPT, OUTBOX_LENGTH,
    PANIC_OFFSET, PONG_OFFSET, READER_LENGTH, RECORD_CODE_OFFSET, RECORD_KEPT_OFFSET, RECORD_WHOLE_OFFSET, REGISTERS_LENGTH,
    SETTINGS_LENGTH, SETTING_EDITION_OFFSET, SETTING_LENGTH_OFFSET, SETTING_VALUE_OFFSET, START_IMAGE_ID, START_IMAGE_ID_LENGTH,
    START_ITEM_COUNT,
};
use crate::raw::Length;
use crate::wire::set_result;
use crate::{
    checked, done, first, lent, lent_mut, part, raw, ruled_out, Command, Counters, Fault, Key, NotFound, NotSet, OptionBit, Reason,
    Refusal, StartData,
};
use core::fmt;
use core::num::NonZeroU8;

/// Storage for one supervisor: its five parts, which may be a `static`.
///
/// Storage in which nothing has started is all zeros, so that a `static` takes no room in flash. `StaticCell` lends it out without `static mut`; so
/// does a mutex:
/// ```
/// use oatcastle::{Bsu, StartData, Supervisor, SupervisorStorage};
/// use std::sync::Mutex;
///
/// static STORAGE: Mutex<SupervisorStorage> = Mutex::new(SupervisorStorage::new());
///
/// let mut storage = STORAGE.lock().unwrap();
/// let supervisor = Supervisor::start_in(&mut storage, &StartData::new(Bsu::A));
/// assert!(supervisor.signal());
/// ```
/// What it holds cannot be made by hand:
/// ```compile_fail,E0451
/// let storage = oatcastle::SupervisorStorage { reader: [0; 4142], ..oatcastle::SupervisorStorage::new() };
/// ```
pub struct SupervisorStorage {
    reader: [u8; READER_LENGTH],
    outbox: [u8; OUTBOX_LENGTH],
    factory: [u8; FACTORY_LENGTH],
    settings: [u8; SETTINGS_LENGTH],
    registers: [u8; REGISTERS_LENGTH],
}

/// The parts as a call that receives takes them.
struct Parts {
    reader: (*mut u8, Length),
    outbox: (*mut u8, Length),
    factory: (*const u8, Length),
    settings: (*mut u8, Length),
    registers: (*mut u8, Length),
}

impl SupervisorStorage {
    /// Storage in which nothing has started.
    #[must_use]
    pub const fn new() -> SupervisorStorage {
        SupervisorStorage {
            reader: [0; READER_LENGTH],
            outbox: [0; OUTBOX_LENGTH],
            factory: [0; FACTORY_LENGTH],
            settings: [0; SETTINGS_LENGTH],
            registers: [0; REGISTERS_LENGTH],
        }
    }

    fn parts(&mut self) -> Parts {
        Parts {
            reader: lent_mut(&mut self.reader),
            outbox: lent_mut(&mut self.outbox),
            factory: lent(&self.factory),
            settings: lent_mut(&mut self.settings),
            registers: lent_mut(&mut self.registers),
        }
    }
}

impl Default for SupervisorStorage {
    fn default() -> SupervisorStorage {
        SupervisorStorage::new()
    }
}

impl fmt::Debug for SupervisorStorage {
    fn fmt(&self, out: &mut fmt::Formatter<'_>) -> fmt::Result {
        out.debug_struct("SupervisorStorage").finish_non_exhaustive()
    }
}

/// Startup options: bits 0 to 8.
///
/// ```
/// use oatcastle::{OptionBit, Options, Refusal};
///
/// const OPTIONS: Options = Options::NONE.with(OptionBit::Recovery).with(OptionBit::Verbose);
/// assert_eq!(OPTIONS.bits(), 0x101);
/// assert!(OPTIONS.has(OptionBit::Verbose) && !OPTIONS.has(OptionBit::Kmdb));
/// assert_eq!(Options::of(0x200), Err(Refusal::BadValue));
/// ```
#[derive(Clone, Copy, Debug, Default, PartialEq, Eq)]
pub struct Options(u64);

impl Options {
    /// No bit set.
    pub const NONE: Options = Options(0);

    /// With this bit set.
    #[must_use]
    pub const fn with(self, bit: OptionBit) -> Options {
        Options(self.0 | bit.number())
    }

    /// Whether this bit is set.
    #[must_use]
    pub const fn has(self, bit: OptionBit) -> bool {
        self.0 & bit.number() != 0
    }

    /// The options as a number.
    #[must_use]
    pub const fn bits(self) -> u64 {
        self.0
    }

    /// These bits.
    ///
    /// # Errors
    ///
    /// `BadValue` where a bit above 8 is set.
    pub const fn of(bits: u64) -> Result<Options, Refusal> {
        if bits & !ALL_OPTIONS == 0 {
            Ok(Options(bits))
        } else {
            Err(Refusal::BadValue)
        }
    }
}

/// How far a step came.
#[derive(Clone, Copy, Debug, PartialEq, Eq)]
#[non_exhaustive]
#[must_use = "bytes past `used` go in with the next call"]
pub struct Step {
    /// How many bytes of the piece were read; the rest goes in with the next step.
    pub used: usize,
    /// What the last of them ended.
    pub end: StepEnd,
}

/// What ended a step.
#[derive(Clone, Copy, Debug, PartialEq, Eq)]
#[non_exhaustive]
#[must_use]
pub enum StepEnd {
    /// The frame is not finished.
    More,
    /// An empty frame.
    Empty,
    /// A request was carried out.
    Request(Carried),
    /// A frame failed and was answered with this reason.
    Failure(Reason),
}

impl StepEnd {
    /// The key whose value this step has replaced.
    #[must_use]
    pub fn stored(&self) -> Option<Key> {
        match self {
            StepEnd::Request(Carried { set: Some(KeySet { key, result: Ok(()) }), .. }) => Key::from_number(*key),
            _ => None,
        }
    }
}

/// A request that was carried out.
#[derive(Clone, Copy, Debug, PartialEq, Eq)]
#[non_exhaustive]
#[must_use]
pub struct Carried {
    /// Its command.
    pub command: Command,
    /// Of a key set, its key and its result.
    pub set: Option<KeySet>,
}

/// A key set that was carried out.
#[derive(Clone, Copy, Debug, PartialEq, Eq)]
#[non_exhaustive]
#[must_use]
pub struct KeySet {
    /// The key as the request has it, which may be none of the supervisor's.
    pub key: u8,
    /// Whether the value is stored; the reply says the same.
    pub result: Result<(), NotSet>,
}

/// What a lookup found.
#[derive(Clone, Copy, Debug, PartialEq, Eq)]
#[non_exhaustive]
#[must_use]
pub struct Found<'s> {
    /// How often the key was set since the start, or the edition that was restored and the sets since then; 0 for keys 0 to 2.
    pub edition: u32,
    /// The value, a part of the storage.
    pub value: &'s [u8],
}

/// The first fault of an image of the settings.
#[derive(Clone, Copy, Debug, PartialEq, Eq)]
#[non_exhaustive]
pub struct ImageFault {
    /// What is wrong.
    pub fault: Fault,
    /// Where in the image the field at fault stands; the image's length where it is cut short.
    pub offset: usize,
}

impl fmt::Display for ImageFault {
    fn fmt(&self, out: &mut fmt::Formatter<'_>) -> fmt::Result {
        write!(out, "{}, at offset {}", self.fault, self.offset)
    }
}

impl core::error::Error for ImageFault {}

/// What the other processor has asked for since the start.
#[derive(Clone, Copy, Debug, Default, PartialEq, Eq)]
#[non_exhaustive]
#[must_use]
pub struct Flags {
    /// A reboot.
    pub reboot: bool,
    /// Power off.
    pub power_off: bool,
}

/// A recorded boot failure or panic.
#[derive(Clone, Copy, Debug, PartialEq, Eq)]
#[non_exhaustive]
#[must_use]
pub struct Record<'s> {
    /// The reason or the cause.
    pub code: u16,
    /// The whole length of what came with it.
    pub length: usize,
    /// The first bytes of that, at most `MOST_KEPT`: a part of the storage.
    pub kept: &'s [u8],
}

impl Counters {
    /// A block with every counter 0.
    #[must_use]
    pub const fn new() -> Counters {
        Counters { good: 0, empty: 0, reason1: 0, reason2: 0, reason3: 0, reason4: 0, reason5: 0, reason6: 0, reason7: 0 }
    }

    /// Makes every counter 0.
    pub fn clear(&mut self) {
        // SAFETY: the pointer is to one block.
        done(unsafe { raw::oatcastle_clear_counters(self) });
    }
}

/// A supervisor in storage that it is lent: it exists only started, and only its own calls write the storage.
///
/// ```
/// use oatcastle::{Bsu, Key, NotFound, Request, StartData, Supervisor, SupervisorStorage, LONGEST_FRAME, MOST_PENDING};
///
/// let mut storage = SupervisorStorage::new();
/// let mut supervisor = Supervisor::start_in(&mut storage, &StartData::new(Bsu::A));
/// assert_eq!(supervisor.lookup(Key::EtcSystem, 256), Err(NotFound::NoValue));
///
/// let mut room = [0; LONGEST_FRAME];
/// let frame = Request::key_set(Key::EtcSystem, b"value")?.write_frame(1, 1, &mut room)?;
/// let step = supervisor.step(&[], frame);
/// assert_eq!((step.used, step.end.stored()), (frame.len(), Some(Key::EtcSystem)));
/// assert_eq!(supervisor.lookup(Key::EtcSystem, 256)?.value, b"value");
/// assert_eq!(supervisor.edition(Key::EtcSystem), Ok(1));
/// assert_eq!(supervisor.lookup(Key::EtcSystem, 4), Err(NotFound::TooLong));
/// let mut room = [0; MOST_PENDING];
/// assert_eq!(supervisor.take(&mut room).last(), Some(&0));
/// # Ok::<(), Box<dyn std::error::Error>>(())
/// ```
/// A value is a part of the storage: to hold it while the supervisor receives does not compile, nor to let it live longer than the storage.
/// ```compile_fail,E0502
/// # fn two(supervisor: &mut oatcastle::Supervisor<'_>) {
/// let found = supervisor.lookup(oatcastle::Key::EtcSystem, 256);
/// supervisor.receive(&[], &[0]);
/// let _ = found.is_ok();
/// # }
/// ```
/// ```compile_fail,E0597
/// # use oatcastle::{Bsu, StartData, Supervisor, SupervisorStorage};
/// let supervisor: Supervisor<'static> = {
///     let mut storage = SupervisorStorage::new();
///     Supervisor::start_in(&mut storage, &StartData::new(Bsu::A))
/// };
/// ```
/// Nor does a use of the storage while its supervisor lives:
/// ```compile_fail,E0506
/// # use oatcastle::{Bsu, StartData, Supervisor, SupervisorStorage};
/// let mut storage = SupervisorStorage::new();
/// let supervisor = Supervisor::start_in(&mut storage, &StartData::new(Bsu::A));
/// storage = SupervisorStorage::new();
/// supervisor.signal();
/// ```
pub struct Supervisor<'s> {
    storage: &'s mut SupervisorStorage,
}

impl fmt::Debug for Supervisor<'_> {
    fn fmt(&self, out: &mut fmt::Formatter<'_>) -> fmt::Result {
        out.debug_struct("Supervisor").field("signal", &self.signal()).field("flags", &self.flags()).finish_non_exhaustive()
    }
}

impl<'s> Supervisor<'s> {
    /// Begins a supervisor in the storage; what the storage held before means nothing to it, though bytes of frames received before still stand there
    /// (`docs/STATE.md`). What is returned is one pointer; no part is laid out on the stack.
    #[must_use]
    pub fn start_in(storage: &'s mut SupervisorStorage, data: &StartData) -> Supervisor<'s> {
        let mut supervisor = Supervisor { storage };
        supervisor.restart(data);
        supervisor
    }

    /// Starts again, as `start_in` does, and forgets also that the last byte taken was non-zero. Send one 00 first where it may have been.
    pub fn restart(&mut self, data: &StartData) {
        let storage = &mut *self.storage;
        let factory = lent_mut(&mut storage.factory);
        let (reader, outbox) = (lent_mut(&mut storage.reader), lent_mut(&mut storage.outbox));
        let (settings, registers) = (lent_mut(&mut storage.settings), lent_mut(&mut storage.registers));
        // SAFETY: the start data have their one length; each other pointer is valid for the length behind it, and no two runs overlap.
        done(unsafe {
            raw::oatcastle_start(
                data.bytes().as_ptr(),
                reader.0,
                reader.1,
                outbox.0,
                outbox.1,
                factory.0,
                factory.1,
                settings.0,
                settings.1,
                registers.0,
                registers.1,
            )
        });
    }

    /// Takes a piece without a 00, and gives one with a 00 back as it is. Taking it so is receiving it (`collected-receives` of
    /// `crates/supervisor_claims`), so that nothing is to be received where nothing is left.
    pub(crate) fn collect<'p>(&mut self, piece: &'p [u8]) -> &'p [u8] {
        if piece.contains(&0) {
            return piece;
        }
        let mut answer = raw::CollectAnswer::default();
        let (reader, from) = (lent_mut(&mut self.storage.reader), lent(piece));
        // SAFETY: each pointer is valid for the length behind it, and what is written overlaps nothing else.
        done(unsafe { raw::oatcastle_collect(reader.0, reader.1, from.0, from.1, &mut answer) });
        piece.get(answer.taken as usize..).unwrap_or_else(|| ruled_out())
    }

    /// Receives the whole piece. A block that a frame asks for comes from the image lent with the call that brings the frame's 00.
    pub fn receive(&mut self, image: &[u8], piece: &[u8]) {
        let piece = self.collect(piece);
        if piece.is_empty() {
            return;
        }
        let (image, piece) = (lent(image), lent(piece));
        let Parts { reader, outbox, factory, settings, registers } = self.storage.parts();
        // SAFETY: each pointer is valid for the length behind it, and what is written overlaps nothing else.
        done(unsafe {
            raw::oatcastle_receive(
                image.0,
                image.1,
                piece.0,
                piece.1,
                reader.0,
                reader.1,
                outbox.0,
                outbox.1,
                factory.0,
                factory.1,
                settings.0,
                settings.1,
                registers.0,
                registers.1,
            )
        });
    }

    /// Receives the whole piece, and counts every frame whose 00 it brings in the block. Frames that calls without a block read are not counted.
    pub fn receive_counted(&mut self, counters: &mut Counters, image: &[u8], piece: &[u8]) {
        let piece = self.collect(piece);
        if piece.is_empty() {
            return;
        }
        let (image, piece) = (lent(image), lent(piece));
        let Parts { reader, outbox, factory, settings, registers } = self.storage.parts();
        // SAFETY: the block is one; each other pointer is valid for the length behind it, and what is written overlaps nothing else.
        done(unsafe {
            raw::oatcastle_receive_counted(
                counters,
                image.0,
                image.1,
                piece.0,
                piece.1,
                reader.0,
                reader.1,
                outbox.0,
                outbox.1,
                factory.0,
                factory.1,
                settings.0,
                settings.1,
                registers.0,
                registers.1,
            )
        });
    }

    /// Receives the piece up to its end or its first 00.
    pub fn step(&mut self, image: &[u8], piece: &[u8]) -> Step {
        let mut answer = raw::StepAnswer::default();
        let (image, piece) = (lent(image), lent(piece));
        let Parts { reader, outbox, factory, settings, registers } = self.storage.parts();
        // SAFETY: each pointer is valid for the length behind it, and what is written overlaps nothing else.
        done(unsafe {
            raw::oatcastle_step(
                image.0,
                image.1,
                piece.0,
                piece.1,
                reader.0,
                reader.1,
                outbox.0,
                outbox.1,
                factory.0,
                factory.1,
                settings.0,
                settings.1,
                registers.0,
                registers.1,
                &mut answer,
            )
        });
        stepped(&answer)
    }

    /// Receives the piece up to its end or its first 00, and counts in the block the frame that it ends. Frames that calls without a block read are not counted.
    pub fn step_counted(&mut self, counters: &mut Counters, image: &[u8], piece: &[u8]) -> Step {
        let mut answer = raw::StepAnswer::default();
        let (image, piece) = (lent(image), lent(piece));
        let Parts { reader, outbox, factory, settings, registers } = self.storage.parts();
        // SAFETY: the block is one; each other pointer is valid for the length behind it, and what is written overlaps nothing else.
        done(unsafe {
            raw::oatcastle_step_counted(
                counters,
                image.0,
                image.1,
                piece.0,
                piece.1,
                reader.0,
                reader.1,
                outbox.0,
                outbox.1,
                factory.0,
                factory.1,
                settings.0,
                settings.1,
                registers.0,
                registers.1,
                &mut answer,
            )
        });
        stepped(&answer)
    }

    /// Takes as many pending bytes as the room has; gives those taken, at the room's start. A room of `MOST_PENDING` takes all at once.
    #[must_use = "bytes that were taken are no longer pending"]
    pub fn take<'r>(&mut self, room: &'r mut [u8]) -> &'r [u8] {
        let mut answer = raw::TakeAnswer::default();
        let (outbox, to) = (lent_mut(&mut self.storage.outbox), lent_mut(room));
        // SAFETY: each pointer is valid for the length behind it, and no two runs overlap.
        done(unsafe { raw::oatcastle_take(outbox.0, outbox.1, to.0, to.1, &mut answer) });
        first(room, answer.moved)
    }

    /// Posts an alert.
    ///
    /// # Errors
    ///
    /// `TooLong` where the text has more than `LONGEST_ALERT` bytes, `AlertsFull` where `MOST_ALERTS` wait.
    /// ```
    /// # use oatcastle::{Bsu, Refusal, StartData, Supervisor, SupervisorStorage};
    /// # use core::num::NonZeroU8;
    /// # let mut storage = SupervisorStorage::new();
    /// # let mut supervisor = Supervisor::start_in(&mut storage, &StartData::new(Bsu::A));
    /// const ACTION: NonZeroU8 = NonZeroU8::new(7).unwrap();
    /// assert_eq!(supervisor.post(ACTION, b"fan 2 stands still"), Ok(()));
    /// assert_eq!(supervisor.post(ACTION, &[0; 257]), Err(Refusal::TooLong));
    /// ```
    pub fn post(&mut self, action: NonZeroU8, text: &[u8]) -> Result<(), Refusal> {
        let (registers, text) = (lent_mut(&mut self.storage.registers), lent(text));
        // SAFETY: each pointer is valid for the length behind it, and the two runs do not overlap.
        checked(unsafe { raw::oatcastle_post(registers.0, registers.1, action.get(), text.0, text.1) })
    }

    /// Sets the startup options.
    pub fn set_options(&mut self, options: Options) {
        let registers = lent_mut(&mut self.storage.registers);
        // SAFETY: the pointer is valid for the length behind it.
        done(unsafe { raw::oatcastle_set_options(registers.0, registers.1, options.bits()) });
    }

    /// Looks a key up; a value longer than `maxresponse` is not found, and the wireless passphrase is never handed out.
    ///
    /// # Errors
    ///
    /// The result of a lookup on the wire, where it is not 0: `NoValue`, `TooLong` or `SetOnly`.
    pub fn lookup(&self, key: Key, maxresponse: u16) -> Result<Found<'_>, NotFound> {
        let mut answer = raw::LookupAnswer::default();
        let (factory, settings, room) = (lent(&self.storage.factory), lent(&self.storage.settings), lent_mut(&mut []));
        // SAFETY: each pointer is valid for the length behind it, and what is written overlaps nothing else.
        let number = unsafe {
            raw::oatcastle_lookup(factory.0, factory.1, settings.0, settings.1, key.number(), maxresponse, room.0, room.1, &mut answer)
        };
        // No room is lent, so that nothing is copied: a value that has bytes is refused as 8, and the answer stays 0, which is found.
        if number != Refusal::NoRoom.number() {
            done(number);
        }
        found(answer.result).map(|()| self.held(key))
    }

    /// The edition and the value of a key that has one, as they lie in its store.
    fn held(&self, key: Key) -> Found<'_> {
        let SupervisorStorage { factory, settings, .. } = &*self.storage;
        let of_factory = |offset, length| Found { edition: 0, value: part(factory, offset, length) };
        match key {
            Key::Ping => of_factory(PONG_OFFSET, 4),
            Key::ImageId => of_factory(START_IMAGE_ID, factory[START_IMAGE_ID_LENGTH].into()),
            Key::Inventory => of_factory(START_ITEM_COUNT, 8),
            Key::EtcSystem | Key::DtraceConf | Key::WithdrawnKeys => {
                let setting = setting_offset(key as usize);
                let length = number_at(settings, setting + SETTING_LENGTH_OFFSET).into();
                let edition = u32::from_le_bytes(bytes_at(settings, setting + SETTING_EDITION_OFFSET));
                Found { edition, value: part(settings, setting + SETTING_VALUE_OFFSET, length) }
            }
            Key::Passphrase => ruled_out(),
        }
    }

    /// The edition of a key: how often it was set since the start, or the edition that was restored and the sets since then; 0 for keys 0 to 2.
    ///
    /// # Errors
    ///
    /// `NoValue` or `SetOnly`, as from a lookup.
    pub fn edition(&self, key: Key) -> Result<u32, NotFound> {
        let mut answer = raw::EditionAnswer::default();
        let (factory, settings) = (lent(&self.storage.factory), lent(&self.storage.settings));
        // SAFETY: each pointer is valid for the length behind it, and what is written overlaps nothing else.
        done(unsafe { raw::oatcastle_edition(factory.0, factory.1, settings.0, settings.1, key.number(), &mut answer) });
        match found(answer.result) {
            Err(NotFound::TooLong) => ruled_out(),
            result => result.map(|()| u32::try_from(answer.edition).unwrap_or_else(|_| ruled_out())),
        }
    }

    /// The settings store as it lies in the storage, for the radio's driver: the wireless passphrase is in it in the clear, at `PASSPHRASE_VALUE`. No
    /// other call hands out anything that depends on it. `docs/STATE.md` has every field.
    ///
    /// ```
    /// use oatcastle::{Supervisor, LONGEST_PASSPHRASE, PASSPHRASE_LENGTH, PASSPHRASE_RECORD, PASSPHRASE_VALUE};
    ///
    /// fn passphrase<'s>(supervisor: &'s Supervisor) -> Option<&'s [u8]> {
    ///     let store = supervisor.settings_store();
    ///     let length = u16::from_le_bytes([store[PASSPHRASE_LENGTH], store[PASSPHRASE_LENGTH + 1]]);
    ///     (store[PASSPHRASE_RECORD] == 1).then(|| &store[PASSPHRASE_VALUE..][..usize::from(length)])
    /// }
    /// # use oatcastle::{Bsu, Key, Request, StartData, SupervisorStorage, LONGEST_FRAME};
    /// # let mut storage = SupervisorStorage::new();
    /// # let mut supervisor = Supervisor::start_in(&mut storage, &StartData::new(Bsu::A));
    /// # assert_eq!(passphrase(&supervisor), None);
    /// # let mut room = [0; LONGEST_FRAME];
    /// # for length in [8, 20, LONGEST_PASSPHRASE, 9] {
    /// #     let value = &[b'p'; LONGEST_PASSPHRASE][..length];
    /// #     supervisor.receive(&[], Request::key_set(Key::Passphrase, value)?.write_frame(1, 1, &mut room)?);
    /// #     assert_eq!(passphrase(&supervisor), Some(value));
    /// # }
    /// # supervisor.restart(&StartData::new(Bsu::A));
    /// # assert_eq!(passphrase(&supervisor), None);
    /// # Ok::<(), Box<dyn std::error::Error>>(())
    /// ```
    #[must_use]
    pub fn settings_store(&self) -> &[u8; SETTINGS_LENGTH] {
        &self.storage.settings
    }

    /// Writes the settings of keys 3, 4 and 5 that have a value, with their editions, as an image to the room's start; gives the image. A room of `LONGEST_IMAGE` takes any.
    ///
    /// # Errors
    ///
    /// `NoRoom` where the room is shorter than the image.
    /// ```
    /// # use oatcastle::{Bsu, StartData, Supervisor, SupervisorStorage, LONGEST_IMAGE};
    /// # let mut storage = SupervisorStorage::new();
    /// # let mut supervisor = Supervisor::start_in(&mut storage, &StartData::new(Bsu::A));
    /// let mut room = [0; LONGEST_IMAGE];
    /// let image = supervisor.save(&mut room).expect("the room takes any image");
    /// assert_eq!(image, b"KE");
    /// ```
    pub fn save<'r>(&self, room: &'r mut [u8]) -> Result<&'r [u8], Refusal> {
        let mut answer = raw::SaveAnswer::default();
        let (settings, to) = (lent(&self.storage.settings), lent_mut(room));
        // SAFETY: each pointer is valid for the length behind it, and what is written overlaps nothing else.
        checked(unsafe { raw::oatcastle_save(settings.0, settings.1, to.0, to.1, &mut answer) })?;
        Ok(first(room, answer.length))
    }

    /// Replaces the settings of keys 3, 4 and 5, values and editions, by those of an image, behind a start, which forgets every setting; one that the image lacks has no value and edition 0. Nothing else changes.
    ///
    /// # Errors
    ///
    /// The image's first fault; then nothing was changed.
    /// ```
    /// # use oatcastle::{Bsu, Fault, StartData, Supervisor, SupervisorStorage};
    /// # let mut storage = SupervisorStorage::new();
    /// # let mut supervisor = Supervisor::start_in(&mut storage, &StartData::new(Bsu::A));
    /// assert_eq!(supervisor.restore(b"KE"), Ok(()));
    /// let fault = supervisor.restore(b"KV\x02KE").unwrap_err();
    /// assert_eq!((fault.fault, fault.offset), (Fault::BadKey, 2));
    /// assert_eq!(fault.to_string(), "image fault 31: the key is not in an image, or not above the one before, at offset 2");
    /// ```
    pub fn restore(&mut self, image: &[u8]) -> Result<(), ImageFault> {
        let mut answer = raw::RestoreAnswer::default();
        let (settings, from) = (lent_mut(&mut self.storage.settings), lent(image));
        // SAFETY: each pointer is valid for the length behind it, and what is written overlaps nothing else.
        let number = unsafe { raw::oatcastle_restore(settings.0, settings.1, from.0, from.1, &mut answer) };
        match (number, Fault::of(number.into())) {
            (0, _) => Ok(()),
            (_, Some(fault)) => Err(ImageFault { fault, offset: answer.offset as usize }),
            (_, None) => ruled_out(),
        }
    }

    /// Whether the line signal is asserted.
    #[must_use]
    pub fn signal(&self) -> bool {
        let mut answer = raw::SignalAnswer::default();
        let registers = lent(&self.storage.registers);
        // SAFETY: the pointer is valid for the length behind it, and the answer overlaps nothing else.
        done(unsafe { raw::oatcastle_signal(registers.0, registers.1, &mut answer) });
        answer.asserted == 1
    }

    /// What the other processor has asked for.
    pub fn flags(&self) -> Flags {
        let mut answer = raw::FlagsAnswer::default();
        let registers = lent(&self.storage.registers);
        // SAFETY: the pointer is valid for the length behind it, and the answer overlaps nothing else.
        done(unsafe { raw::oatcastle_flags(registers.0, registers.1, &mut answer) });
        Flags { reboot: answer.reboot == 1, power_off: answer.power_off == 1 }
    }

    /// The last boot failure.
    #[must_use]
    pub fn boot_failure_record(&self) -> Option<Record<'_>> {
        self.record(BOOT_FAILURE_OFFSET)
    }

    /// The last panic.
    #[must_use]
    pub fn panic_record(&self) -> Option<Record<'_>> {
        self.record(PANIC_OFFSET)
    }

    /// The record at an offset of the registers, as it lies there.
    fn record(&self, offset: usize) -> Option<Record<'_>> {
        let registers = &self.storage.registers;
        (registers[offset] == 1).then(|| {
            let length = number_at(registers, offset + RECORD_WHOLE_OFFSET).into();
            let kept = part(registers, offset + RECORD_KEPT_OFFSET, MOST_KEPT.min(length));
            Record { code: number_at(registers, offset + RECORD_CODE_OFFSET), length, kept }
        })
    }
}

/// How far a step came, by its answer.
fn stepped(answer: &raw::StepAnswer) -> Step {
    let end = match answer.kind {
        MORE => StepEnd::More,
        EMPTY => StepEnd::Empty,
        MESSAGE => StepEnd::Request(carried(answer)),
        FAILURE => StepEnd::Failure(Reason::of(answer.reason).unwrap_or_else(|| ruled_out())),
        _ => ruled_out(),
    };
    Step { used: answer.used as usize, end }
}

fn carried(answer: &raw::StepAnswer) -> Carried {
    let command = Command::of(answer.command).unwrap_or_else(|| ruled_out());
    let set = || KeySet {
        key: u8::try_from(answer.key).unwrap_or_else(|_| ruled_out()),
        result: set_result(answer.result).unwrap_or_else(|| ruled_out()),
    };
    Carried { command, set: (command == Command::KeySet).then(set) }
}

/// The result of a lookup of a key that the supervisor has, by its number.
fn found(result: u64) -> Result<(), NotFound> {
    match (result, NotFound::of(result)) {
        (0, _) => Ok(()),
        (_, None | Some(NotFound::BadKey)) => ruled_out(),
        (_, Some(result)) => Err(result),
    }
}

/// The number of two bytes at an offset.
fn number_at(run: &[u8], offset: usize) -> u16 {
    u16::from_le_bytes(bytes_at(run, offset))
}

/// So many bytes at an offset.
fn bytes_at<const N: usize>(run: &[u8], offset: usize) -> [u8; N] {
    part(run, offset, N).try_into().unwrap_or_else(|_| ruled_out())
}
