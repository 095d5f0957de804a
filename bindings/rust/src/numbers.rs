//! Defines the papers' numbers for refusals, reasons and results as enums, each number and its text once.
//! Assumes nothing: `tests/interface.py` compares the numbers with the crates.

/// An enum whose variants have numbers: `number`, the variant of a number, and the text as its documentation and its `Display`.
macro_rules! numbered {
    ($(#[$about:meta])* $name:ident as $width:ident, $label:literal: $($(#[$row:meta])* $variant:ident = $number:literal, $text:literal;)*) => {
        $(#[$about])*
        #[derive(Clone, Copy, Debug, PartialEq, Eq, Hash)]
        #[non_exhaustive]
        #[repr($width)]
        pub enum $name {
            $(
                #[doc = concat!(stringify!($number), ": ", $text, ".")]
                $(#[$row])*
                $variant = $number,
            )*
        }

        impl $name {
            /// Its number in the papers.
            #[must_use]
            pub const fn number(self) -> $width {
                self as $width
            }

            /// The one that has this number.
            #[must_use]
            pub const fn from_number(number: $width) -> Option<$name> {
                match number {
                    $($number => Some($name::$variant),)*
                    _ => None,
                }
            }

            /// The one that has this number of an answer; a number that is too wide has none. The numbers of some come over the wire alone.
            #[allow(dead_code)]
            pub(crate) fn of(number: u64) -> Option<$name> {
                $name::from_number($width::try_from(number).ok()?)
            }
        }

        impl core::fmt::Display for $name {
            fn fmt(&self, out: &mut core::fmt::Formatter<'_>) -> core::fmt::Result {
                out.write_str(match self {
                    $($name::$variant => concat!($label, " ", stringify!($number), ": ", $text),)*
                })
            }
        }
    };
}
pub(crate) use numbered;

numbered! {
    /// The numbers with which a call says no. A refused call has changed nothing that it was lent.
    ///
    /// 12, a state that is too short or not allowed, is not among them: the state lies in storage that the wrapper alone writes.
    /// ```
    /// let refusal = oatcastle::Options::of(1 << 9).unwrap_err();
    /// assert_eq!(refusal, oatcastle::Refusal::BadValue);
    /// assert_eq!(refusal.number(), 13);
    /// assert_eq!(refusal.to_string(), "refused as 13: an option bit above the highest");
    /// ```
    Refusal as u32, "refused as":
    NoRoom = 8, "the room is too short for the whole output";
    TooLong = 9, "a message's data or an alert's text are too long";
    AlertsFull = 10, "as many alerts wait as can";
    BadStart = 11, "start data with too many items, or with an item's data or an image ID that are too long";
    BadValue = 13, "an option bit above the highest";
    NoNumber = 14, "no request number is left";
    BadProbe = 15, "an index past the probe list, a result that is not 0, 2 or 3, or lists of different lengths";
    PlanPasses = 16, "the last counted address of the plan passes ff:ff:ff:ff:ff:ff";
    Outstanding = 17, "a request is outstanding, or a recovery is under way";
    NoInput = 20, "there is no byte";
    BadProtocol = 21, "the protocol is neither zero nor one";
    ShortHeader = 22, "the bytes are fewer than a header has";
    PayloadTooLong = 23, "the length is above the longest payload";
    CutShort = 24, "the payload is cut short";
    BadCrc = 25, "the CRC differs";
    BadType = 26, "the type is not listed";
}

impl core::error::Error for Refusal {}

numbered! {
    /// Why a frame fails; the number goes into the reply.
    Reason as u8, "reason":
    Form = 1, "the COBS form is longer than the longest; a code byte runs past the end of the form; a last code byte without bytes stands behind a full group";
    Checksum = 2, "the checksum is another number";
    Length = 3, "the message is shorter than the shortest or longer than the longest; the command is not listed";
    Magic = 4, "the magic differs";
    Version = 5, "the version is neither one nor two";
    Sequence = 6, "the top bit of the sequence is set";
    Data = 7, "the data have a wrong length for the command";
}

numbered! {
    /// The result of a lookup that finds no value; the number is the one on the wire, where 0 is a value.
    NotFound as u8, "lookup result":
    BadKey = 1, "no such key";
    NoValue = 2, "the key has no value";
    TooLong = 3, "the value is longer than maxresponse";
    SetOnly = 4, "nobody may read the key, whether or not it has a value";
}

impl core::error::Error for NotFound {}

numbered! {
    /// What is wrong with an image of the settings.
    Fault as u32, "image fault":
    BadMark = 30, "a mark is neither of the two";
    BadKey = 31, "the key is not in an image, or not above the one before";
    TooLong = 32, "the length is above the key's longest";
    BadChecksum = 33, "the checksum is another number";
    CutShort = 34, "the image ends inside a field, whatever that holds, or ahead of the end mark";
    BytesAfter = 35, "bytes follow the end mark";
}
