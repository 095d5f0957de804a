//! Defines the C functions as `include/oatcastle.h` declares them.
//! Assumes that every pointer is to as many bytes, numbers or records as the length behind it says.

/// A length or an index as the library takes it: 64 bits wide on every target, as `usize` is in the module that is proved.
#[cfg(target_pointer_width = "64")]
pub(crate) type Length = usize;
#[cfg(not(target_pointer_width = "64"))]
pub(crate) type Length = u64;

/// A part's address on the bus, and the result of its probe.
#[derive(Clone, Copy, Debug, PartialEq, Eq)]
#[repr(C)]
pub struct Probe {
    /// The part's address.
    pub address: u8,
    /// 0, 2 or 3 once `update_probes` has written it; any number before.
    pub result: u8,
}

/// A counter block: how many frames of each kind ended since it was cleared. A counter stays at 4,294,967,295.
#[derive(Clone, Copy, Debug, Default, PartialEq, Eq)]
#[repr(C)]
pub struct Counters {
    /// Requests that passed every test.
    pub good: u32,
    /// Empty frames.
    pub empty: u32,
    /// Failures of reason 1.
    pub reason1: u32,
    /// Failures of reason 2.
    pub reason2: u32,
    /// Failures of reason 3.
    pub reason3: u32,
    /// Failures of reason 4.
    pub reason4: u32,
    /// Failures of reason 5.
    pub reason5: u32,
    /// Failures of reason 6.
    pub reason6: u32,
    /// Failures of reason 7.
    pub reason7: u32,
}

// ---- Answers: what each call writes where it is carried out. The header says what each field means.

#[derive(Clone, Copy, Debug, Default, PartialEq, Eq)]
#[repr(C)]
pub struct LineReadAnswer {
    pub used: u64,
    pub kind: u64,
    pub reason: u64,
    pub version: u64,
    pub sequence: u64,
    pub command: u64,
    pub length: u64,
}
const _: () = assert!(size_of::<LineReadAnswer>() == 8 * 7);

#[derive(Clone, Copy, Debug, Default, PartialEq, Eq)]
#[repr(C)]
pub struct LineTailAnswer {
    pub longer: u64,
    pub length: u64,
}
const _: () = assert!(size_of::<LineTailAnswer>() == 8 * 2);

#[derive(Clone, Copy, Debug, Default, PartialEq, Eq)]
#[repr(C)]
pub struct LineWriteAnswer {
    pub length: u64,
}
const _: () = assert!(size_of::<LineWriteAnswer>() == 8);

#[derive(Clone, Copy, Debug, Default, PartialEq, Eq)]
#[repr(C)]
pub struct LineChecksumAnswer {
    pub checksum: u64,
}
const _: () = assert!(size_of::<LineChecksumAnswer>() == 8);

#[derive(Clone, Copy, Debug, Default, PartialEq, Eq)]
#[repr(C)]
pub struct CollectAnswer {
    pub taken: u64,
}
const _: () = assert!(size_of::<CollectAnswer>() == 8);

#[derive(Clone, Copy, Debug, Default, PartialEq, Eq)]
#[repr(C)]
pub struct StepAnswer {
    pub used: u64,
    pub kind: u64,
    pub reason: u64,
    pub command: u64,
    pub key: u64,
    pub result: u64,
}
const _: () = assert!(size_of::<StepAnswer>() == 8 * 6);

#[derive(Clone, Copy, Debug, Default, PartialEq, Eq)]
#[repr(C)]
pub struct TakeAnswer {
    pub moved: u64,
}
const _: () = assert!(size_of::<TakeAnswer>() == 8);

#[derive(Clone, Copy, Debug, Default, PartialEq, Eq)]
#[repr(C)]
pub struct LookupAnswer {
    pub result: u64,
    pub length: u64,
}
const _: () = assert!(size_of::<LookupAnswer>() == 8 * 2);

#[derive(Clone, Copy, Debug, Default, PartialEq, Eq)]
#[repr(C)]
pub struct EditionAnswer {
    pub result: u64,
    pub edition: u64,
}
const _: () = assert!(size_of::<EditionAnswer>() == 8 * 2);

#[derive(Clone, Copy, Debug, Default, PartialEq, Eq)]
#[repr(C)]
pub struct SaveAnswer {
    pub length: u64,
}
const _: () = assert!(size_of::<SaveAnswer>() == 8);

#[derive(Clone, Copy, Debug, Default, PartialEq, Eq)]
#[repr(C)]
pub struct RestoreAnswer {
    pub offset: u64,
}
const _: () = assert!(size_of::<RestoreAnswer>() == 8);

#[derive(Clone, Copy, Debug, Default, PartialEq, Eq)]
#[repr(C)]
pub struct SignalAnswer {
    pub asserted: u64,
}
const _: () = assert!(size_of::<SignalAnswer>() == 8);

#[derive(Clone, Copy, Debug, Default, PartialEq, Eq)]
#[repr(C)]
pub struct FlagsAnswer {
    pub reboot: u64,
    pub power_off: u64,
}
const _: () = assert!(size_of::<FlagsAnswer>() == 8 * 2);

#[derive(Clone, Copy, Debug, Default, PartialEq, Eq)]
#[repr(C)]
pub struct RecordAnswer {
    pub present: u64,
    pub code: u64,
    pub length: u64,
    pub kept: u64,
}
const _: () = assert!(size_of::<RecordAnswer>() == 8 * 4);

#[derive(Clone, Copy, Debug, Default, PartialEq, Eq)]
#[repr(C)]
pub struct RequesterRequestAnswer {
    pub length: u64,
}
const _: () = assert!(size_of::<RequesterRequestAnswer>() == 8);

#[derive(Clone, Copy, Debug, Default, PartialEq, Eq)]
#[repr(C)]
pub struct RequesterSendAnswer {
    pub length: u64,
}
const _: () = assert!(size_of::<RequesterSendAnswer>() == 8);

#[derive(Clone, Copy, Debug, Default, PartialEq, Eq)]
#[repr(C)]
pub struct RequesterReceiveAnswer {
    pub used: u64,
    pub kind: u64,
    pub ended: u64,
    pub unsent: u64,
    pub sequence: u64,
    pub command: u64,
    pub length: u64,
    pub status: u64,
    pub options: u64,
    pub set_bits: u64,
}
const _: () = assert!(size_of::<RequesterReceiveAnswer>() == 8 * 10);

#[derive(Clone, Copy, Debug, Default, PartialEq, Eq)]
#[repr(C)]
pub struct RequesterStateAnswer {
    pub state: u64,
    pub command: u64,
    pub number: u64,
    pub unsent: u64,
    pub original: u64,
}
const _: () = assert!(size_of::<RequesterStateAnswer>() == 8 * 5);

#[derive(Clone, Copy, Debug, Default, PartialEq, Eq)]
#[repr(C)]
pub struct RotReadAnswer {
    pub kind: u64,
    pub r#type: u64,
    pub length: u64,
}
const _: () = assert!(size_of::<RotReadAnswer>() == 8 * 3);

#[derive(Clone, Copy, Debug, Default, PartialEq, Eq)]
#[repr(C)]
pub struct RotWriteAnswer {
    pub length: u64,
}
const _: () = assert!(size_of::<RotWriteAnswer>() == 8);

#[derive(Clone, Copy, Debug, Default, PartialEq, Eq)]
#[repr(C)]
pub struct RotCrcAnswer {
    pub crc: u64,
}
const _: () = assert!(size_of::<RotCrcAnswer>() == 8);

extern "C" {
    pub(crate) fn oatcastle_line_start(state: *mut u8, state_length: Length) -> u32;
    pub(crate) fn oatcastle_line_read(
        state: *mut u8, state_length: Length, piece: *const u8, piece_length: Length, answer: *mut LineReadAnswer,
    ) -> u32;
    pub(crate) fn oatcastle_line_data(state: *const u8, state_length: Length, length: u64, room: *mut u8, room_length: Length) -> u32;
    pub(crate) fn oatcastle_line_tail(state: *const u8, state_length: Length, answer: *mut LineTailAnswer) -> u32;
    pub(crate) fn oatcastle_line_write(
        version: u32, sequence: u64, command: u8, head: *const u8, head_length: Length, rest: *const u8, rest_length: Length, out: *mut u8,
        out_length: Length, answer: *mut LineWriteAnswer,
    ) -> u32;
    pub(crate) fn oatcastle_line_checksum(body: *const u8, body_length: Length, answer: *mut LineChecksumAnswer) -> u32;
    pub(crate) fn oatcastle_start(
        data: *const u8, reader: *mut u8, reader_length: Length, outbox: *mut u8, outbox_length: Length, factory: *mut u8,
        factory_length: Length, settings: *mut u8, settings_length: Length, registers: *mut u8, registers_length: Length,
    ) -> u32;
    pub(crate) fn oatcastle_receive(
        image: *const u8, image_length: Length, piece: *const u8, piece_length: Length, reader: *mut u8, reader_length: Length,
        outbox: *mut u8, outbox_length: Length, factory: *const u8, factory_length: Length, settings: *mut u8, settings_length: Length,
        registers: *mut u8, registers_length: Length,
    ) -> u32;
    pub(crate) fn oatcastle_collect(
        reader: *mut u8, reader_length: Length, piece: *const u8, piece_length: Length, answer: *mut CollectAnswer,
    ) -> u32;
    pub(crate) fn oatcastle_step(
        image: *const u8, image_length: Length, piece: *const u8, piece_length: Length, reader: *mut u8, reader_length: Length,
        outbox: *mut u8, outbox_length: Length, factory: *const u8, factory_length: Length, settings: *mut u8, settings_length: Length,
        registers: *mut u8, registers_length: Length, answer: *mut StepAnswer,
    ) -> u32;
    pub(crate) fn oatcastle_clear_counters(counters: *mut Counters) -> u32;
    pub(crate) fn oatcastle_receive_counted(
        counters: *mut Counters, image: *const u8, image_length: Length, piece: *const u8, piece_length: Length, reader: *mut u8,
        reader_length: Length, outbox: *mut u8, outbox_length: Length, factory: *const u8, factory_length: Length, settings: *mut u8,
        settings_length: Length, registers: *mut u8, registers_length: Length,
    ) -> u32;
    pub(crate) fn oatcastle_step_counted(
        counters: *mut Counters, image: *const u8, image_length: Length, piece: *const u8, piece_length: Length, reader: *mut u8,
        reader_length: Length, outbox: *mut u8, outbox_length: Length, factory: *const u8, factory_length: Length, settings: *mut u8,
        settings_length: Length, registers: *mut u8, registers_length: Length, answer: *mut StepAnswer,
    ) -> u32;
    pub(crate) fn oatcastle_take(
        outbox: *mut u8, outbox_length: Length, room: *mut u8, room_length: Length, answer: *mut TakeAnswer,
    ) -> u32;
    pub(crate) fn oatcastle_post(registers: *mut u8, registers_length: Length, action: u8, text: *const u8, text_length: Length) -> u32;
    pub(crate) fn oatcastle_set_options(registers: *mut u8, registers_length: Length, options: u64) -> u32;
    pub(crate) fn oatcastle_lookup(
        factory: *const u8, factory_length: Length, settings: *const u8, settings_length: Length, key: u8, maxresponse: u16, room: *mut u8,
        room_length: Length, answer: *mut LookupAnswer,
    ) -> u32;
    pub(crate) fn oatcastle_edition(
        factory: *const u8, factory_length: Length, settings: *const u8, settings_length: Length, key: u8, answer: *mut EditionAnswer,
    ) -> u32;
    pub(crate) fn oatcastle_save(
        settings: *const u8, settings_length: Length, out: *mut u8, out_length: Length, answer: *mut SaveAnswer,
    ) -> u32;
    pub(crate) fn oatcastle_restore(
        settings: *mut u8, settings_length: Length, image: *const u8, image_length: Length, answer: *mut RestoreAnswer,
    ) -> u32;
    pub(crate) fn oatcastle_signal(registers: *const u8, registers_length: Length, answer: *mut SignalAnswer) -> u32;
    pub(crate) fn oatcastle_flags(registers: *const u8, registers_length: Length, answer: *mut FlagsAnswer) -> u32;
    pub(crate) fn oatcastle_boot_failure_record(
        registers: *const u8, registers_length: Length, room: *mut u8, room_length: Length, answer: *mut RecordAnswer,
    ) -> u32;
    pub(crate) fn oatcastle_panic_record(
        registers: *const u8, registers_length: Length, room: *mut u8, room_length: Length, answer: *mut RecordAnswer,
    ) -> u32;
    pub(crate) fn oatcastle_requester_start(reader: *mut u8, reader_length: Length, requester: *mut u8, requester_length: Length) -> u32;
    pub(crate) fn oatcastle_requester_request(
        requester: *mut u8, requester_length: Length, command: u8, data: *const u8, data_length: Length, out: *mut u8, out_length: Length,
        answer: *mut RequesterRequestAnswer,
    ) -> u32;
    pub(crate) fn oatcastle_requester_interrupt(requester: *mut u8, requester_length: Length) -> u32;
    pub(crate) fn oatcastle_requester_send(
        requester: *mut u8, requester_length: Length, out: *mut u8, out_length: Length, answer: *mut RequesterSendAnswer,
    ) -> u32;
    pub(crate) fn oatcastle_requester_receive(
        piece: *const u8, piece_length: Length, reader: *mut u8, reader_length: Length, requester: *mut u8, requester_length: Length,
        answer: *mut RequesterReceiveAnswer,
    ) -> u32;
    pub(crate) fn oatcastle_requester_state(requester: *const u8, requester_length: Length, answer: *mut RequesterStateAnswer) -> u32;
    pub(crate) fn oatcastle_addresses(base: *const u8, count: u16, stride: u8, room: *mut u8, room_length: Length) -> u32;
    pub(crate) fn oatcastle_plan(base: *const u8, count: u16, stride: u8) -> u32;
    pub(crate) fn oatcastle_probe_update(
        list: *mut Probe, list_count: Length, indices: *const Length, indices_count: Length, results: *const u8, results_length: Length,
    ) -> u32;
    pub(crate) fn oatcastle_rot_read(
        input: *const u8, input_length: Length, out: *mut u8, out_length: Length, answer: *mut RotReadAnswer,
    ) -> u32;
    pub(crate) fn oatcastle_rot_payload(input: *const u8, input_length: Length, room: *mut u8, room_length: Length) -> u32;
    pub(crate) fn oatcastle_rot_write(
        kind: u8, payload: *const u8, payload_length: Length, out: *mut u8, out_length: Length, answer: *mut RotWriteAnswer,
    ) -> u32;
    pub(crate) fn oatcastle_rot_crc(bytes: *const u8, bytes_length: Length, answer: *mut RotCrcAnswer) -> u32;
}
