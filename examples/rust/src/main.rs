// Defines an example: a wire that exists only in memory brings a status request byte by byte, and the reply is printed in hex.
// Assumes the static library; the unit has zero options, BSU A, every other start number zero, no items and no image.

use oatcastle::{Bsu, StartData, StaticCell, Supervisor, SupervisorStorage, Uart};
use std::convert::Infallible;

/// The supervisor's parts, laid out when the program is linked.
static STORAGE: StaticCell<SupervisorStorage> = StaticCell::new(SupervisorStorage::new());

/// The factory's values, made by the compiler.
static DATA: StartData = StartData::new(Bsu::A);

/// The status request with sequence 1.
const STATUS: [u8; 21] =
    [0x06, 0xcc, 0x19, 0xde, 0x01, 0x01, 0x01, 0x01, 0x02, 0x01, 0x01, 0x01, 0x01, 0x01, 0x01, 0x01, 0x04, 0x08, 0xcf, 0x66, 0x00];

/// Both directions of a serial wire.
struct Wire {
    incoming: std::vec::IntoIter<u8>,
    outgoing: Vec<u8>,
}

impl Uart for Wire {
    type Error = Infallible;

    fn read(&mut self, room: &mut [u8]) -> Result<usize, Infallible> {
        Ok(self.incoming.next().map_or(0, |byte| {
            room[0] = byte;
            1
        }))
    }

    fn write(&mut self, bytes: &[u8]) -> Result<(), Infallible> {
        self.outgoing.extend_from_slice(bytes);
        Ok(())
    }
}

fn main() -> Result<(), Infallible> {
    let mut wire = Wire { incoming: STATUS.to_vec().into_iter(), outgoing: Vec::new() };
    let storage = STORAGE.take().expect("taken once");
    let mut supervisor = Supervisor::start_in(storage, &DATA);
    supervisor.serve(&[], &mut wire, |_, _| ())?; // no image to hand out
    let hex: Vec<String> = wire.outgoing.iter().map(|byte| format!("{byte:02x}")).collect();
    println!("{}", hex.join(" "));
    Ok(())
}
