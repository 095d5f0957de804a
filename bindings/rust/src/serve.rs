//! Defines both ends over a serial wire: the supervisor serves what comes, and the main processor asks and waits.
//! Assumes nothing of the wire but what `Uart` says.

use crate::requester::{Handed, Requester, State};
use crate::{Counters, Message, Refusal, Request, Step, StepEnd, Supervisor};
use core::fmt;

/// How many bytes the supervisor reads and writes at once.
const PIECE: usize = 64;

/// A serial wire: what is written goes to the other side, and what is read came from it.
pub trait Uart {
    /// What can go wrong with the wire.
    type Error;

    /// Reads bytes that came to the start of the room and gives how many. It may wait for the first; 0 says that none came in its time.
    ///
    /// # Errors
    ///
    /// The wire's own.
    fn read(&mut self, room: &mut [u8]) -> Result<usize, Self::Error>;

    /// Writes all the bytes.
    ///
    /// # Errors
    ///
    /// The wire's own.
    fn write(&mut self, bytes: &[u8]) -> Result<(), Self::Error>;
}

impl Supervisor<'_> {
    /// Serves the wire until a read gives 0 bytes: carries out each request, and writes its reply before the next. What is pending goes out first.
    ///
    /// `each` is told behind each frame what it was, once its reply is written, so that firmware can act on a flag or a changed setting. `image` is as in
    /// `step`. Bytes of any number and any value are served.
    ///
    /// # Errors
    ///
    /// The wire's. What was read and not yet served, or taken and not written, is lost then, as on a wire that loses bytes. A further call goes on; one 00
    /// written ahead of it ends a reply that went out in part.
    ///
    /// # Panics
    ///
    /// Where a read gives more bytes than its room has.
    /// ```
    /// use oatcastle::{Bsu, Key, Request, StartData, Supervisor, SupervisorStorage, Uart, LONGEST_FRAME};
    ///
    /// /// Bytes that came, and bytes that went out.
    /// struct Wire<'b>(&'b [u8], Vec<u8>);
    ///
    /// impl Uart for Wire<'_> {
    ///     type Error = std::io::Error;
    ///     fn read(&mut self, room: &mut [u8]) -> Result<usize, Self::Error> {
    ///         std::io::Read::read(&mut self.0, room)
    ///     }
    ///     fn write(&mut self, bytes: &[u8]) -> Result<(), Self::Error> {
    ///         self.1.extend_from_slice(bytes);
    ///         Ok(())
    ///     }
    /// }
    ///
    /// let mut room = [0; LONGEST_FRAME];
    /// let set = Request::key_set(Key::EtcSystem, b"value")?.write_frame(1, 1, &mut room)?.to_vec();
    /// let lookup = Request::lookup(Key::EtcSystem, 256).write_frame(1, 2, &mut room)?.to_vec();
    /// let damaged = [&set[..7], &set[8..]].concat();
    /// let came = [&[0, 0][..], &damaged, &set, &[0], &lookup, &lookup[..9]].concat();
    ///
    /// let mut storage = SupervisorStorage::new();
    /// let mut supervisor = Supervisor::start_in(&mut storage, &StartData::new(Bsu::A));
    /// let (mut wire, mut changed) = (Wire(&came, Vec::new()), Vec::new());
    /// supervisor.serve(&[], &mut wire, |_, end| changed.extend(end.stored()))?;
    /// assert_eq!(changed, [Key::EtcSystem]);
    /// let replies: Vec<&[u8]> = wire.1.split_inclusive(|&byte| byte == 0).collect();
    /// assert_eq!(replies.len(), 3);                   // a decode failure, the set's result, the value
    /// # Ok::<(), Box<dyn std::error::Error>>(())
    /// ```
    pub fn serve<U: Uart>(&mut self, image: &[u8], uart: &mut U, each: impl FnMut(&mut Self, StepEnd)) -> Result<(), U::Error> {
        self.serve_by(uart, |supervisor, piece| supervisor.step(image, piece), each)
    }

    /// Serves the wire as `serve` does, and counts every frame in the block.
    ///
    /// # Errors
    ///
    /// As `serve`.
    ///
    /// # Panics
    ///
    /// As `serve`.
    pub fn serve_counted<U: Uart>(
        &mut self, counters: &mut Counters, image: &[u8], uart: &mut U, each: impl FnMut(&mut Self, StepEnd),
    ) -> Result<(), U::Error> {
        self.serve_by(uart, |supervisor, piece| supervisor.step_counted(counters, image, piece), each)
    }

    fn serve_by<U: Uart>(
        &mut self, uart: &mut U, mut step: impl FnMut(&mut Self, &[u8]) -> Step, mut each: impl FnMut(&mut Self, StepEnd),
    ) -> Result<(), U::Error> {
        self.write_pending(uart)?;
        let mut room = [0; PIECE];
        loop {
            let mut piece = match uart.read(&mut room)? {
                0 => return Ok(()),
                length => &room[..length],
            };
            while !piece.is_empty() {
                piece = self.collect(piece);
                let mut end = StepEnd::More;
                if !piece.is_empty() {
                    let step = step(self, piece);
                    (piece, end) = (&piece[step.used..], step.end);
                }
                self.write_pending(uart)?;
                if end != StepEnd::More {
                    each(self, end);
                }
            }
        }
    }

    fn write_pending<U: Uart>(&mut self, uart: &mut U) -> Result<(), U::Error> {
        let mut room = [0; PIECE];
        loop {
            match self.take(&mut room) {
                [] => return Ok(()),
                taken => uart.write(taken)?,
            }
        }
    }
}

/// What waiting for an answer came to.
#[derive(Clone, Copy, Debug, PartialEq, Eq)]
#[non_exhaustive]
#[must_use]
pub enum Waited<'r> {
    /// The answer to the request, which is settled.
    Answer(Message<'r>),
    /// Nothing is outstanding: the request gets no answer, or a recovery is over that cut none off.
    Idle,
    /// A read gave 0 bytes. What is outstanding stays so: `Requester::wait` waits on, and `Requester::interrupt` ahead of it asks again.
    TimedOut,
}

/// Why nothing was asked, or no answer waited for.
#[derive(Clone, Copy, Debug, PartialEq, Eq)]
#[non_exhaustive]
pub enum AskError<E> {
    /// The main processor's end refused.
    Refused(Refusal),
    /// The wire's own.
    Uart(E),
}

impl<E> From<Refusal> for AskError<E> {
    fn from(refusal: Refusal) -> AskError<E> {
        AskError::Refused(refusal)
    }
}

impl<E: fmt::Display> fmt::Display for AskError<E> {
    fn fmt(&self, out: &mut fmt::Formatter<'_>) -> fmt::Result {
        match self {
            AskError::Refused(refusal) => refusal.fmt(out),
            AskError::Uart(error) => error.fmt(out),
        }
    }
}

impl<E: fmt::Debug + fmt::Display> core::error::Error for AskError<E> {}

impl Requester<'_> {
    /// Makes a request, writes its frame to the wire and waits for its answer, as `wait` does. `room` is for frames; `LONGEST_FRAME` bytes are always enough.
    ///
    /// # Errors
    ///
    /// As `request`, then as `wait`.
    /// ```
    /// use oatcastle::requester::{Requester, RequesterStorage};
    /// use oatcastle::{Bsu, Key, Reply, Request, StartData, Supervisor, SupervisorStorage, Uart, Waited, LONGEST_FRAME};
    /// use std::convert::Infallible;
    ///
    /// /// A wire without a length: a supervisor is at its end. It damages the first byte that comes back.
    /// struct Far<'s>(Supervisor<'s>, bool);
    ///
    /// impl Uart for Far<'_> {
    ///     type Error = Infallible;
    ///     fn read(&mut self, room: &mut [u8]) -> Result<usize, Infallible> {
    ///         let length = self.0.take(room).len();
    ///         if !std::mem::replace(&mut self.1, true) {
    ///             room[0] ^= 1;
    ///         }
    ///         Ok(length)
    ///     }
    ///     fn write(&mut self, bytes: &[u8]) -> Result<(), Infallible> {
    ///         self.0.receive(&[], bytes);
    ///         Ok(())
    ///     }
    /// }
    ///
    /// let (mut near, mut far) = (RequesterStorage::new(), SupervisorStorage::new());
    /// let mut main = Requester::start_in(&mut near);
    /// let mut uart = Far(Supervisor::start_in(&mut far, &StartData::new(Bsu::A)), false);
    /// let mut room = [0; LONGEST_FRAME];
    /// let waited = main.ask(&Request::lookup(Key::Ping, 4), &mut uart, &mut room, |_| ())?;
    /// let Waited::Answer(message) = waited else { panic!("no answer in time") };
    /// let Reply::KeyLookup(Ok(found)) = message.reply()? else { panic!("not found") };
    /// assert_eq!(found.value, b"pong");
    ///
    /// assert_eq!(main.ask(&Request::reboot(), &mut uart, &mut room, |_| ())?, Waited::Idle);
    /// # Ok::<(), Box<dyn std::error::Error>>(())
    /// ```
    pub fn ask<U: Uart>(
        &mut self, request: &Request<'_>, uart: &mut U, room: &mut [u8], each: impl FnMut(Handed<'_>),
    ) -> Result<Waited<'_>, AskError<U::Error>> {
        uart.write(self.request(request, room)?).map_err(AskError::Uart)?;
        self.wait(uart, room, each)
    }

    /// Waits for the answer to the outstanding request, through a recovery too, until a read gives 0 bytes; writes every frame that is to go out. `each` is
    /// handed the statuses and the alerts of a recovery. Reads byte by byte, so that none behind the answer is lost.
    ///
    /// # Errors
    ///
    /// The wire's; `NoRoom` where the room is shorter than a frame that is to go out; `NoNumber` where no number was left for a recovery's next step, so that
    /// the request is forgotten.
    pub fn wait<U: Uart>(
        &mut self, uart: &mut U, room: &mut [u8], mut each: impl FnMut(Handed<'_>),
    ) -> Result<Waited<'_>, AskError<U::Error>> {
        let (sequence, command, length) = loop {
            self.write_unsent(uart, room)?;
            if self.state() == State::Idle {
                return Ok(Waited::Idle);
            }
            let mut byte = [0];
            if uart.read(&mut byte).map_err(AskError::Uart)? == 0 {
                return Ok(Waited::TimedOut);
            }
            let received = self.receive(&byte);
            if received.ended {
                return Err(Refusal::NoNumber.into());
            }
            match received.handed {
                Handed::Nothing => {}
                Handed::Answer(message) => break (message.sequence, message.command, message.data.len()),
                handed => each(handed),
            }
        };
        Ok(Waited::Answer(Message { version: 1, sequence, command, data: self.storage.reader.message_data(length as u64) }))
    }

    fn write_unsent<U: Uart>(&mut self, uart: &mut U, room: &mut [u8]) -> Result<(), AskError<U::Error>> {
        match self.send(room)? {
            [] => Ok(()),
            frame => uart.write(frame).map_err(AskError::Uart),
        }
    }
}
