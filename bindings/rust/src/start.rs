//! Defines the start data: the factory's values for one unit, in the layout of `docs/STATE.md`.
//! Assumes that layout.

use crate::limits::{
    ITEM_DATA, ITEM_DATA_LENGTH, ITEM_LENGTH, ITEM_NAME, ITEM_RESULT, ITEM_TYPE, LONGEST_IMAGE_ID, LONGEST_ITEM_DATA, MOST_ITEMS,
    START_BSU, START_IMAGE_HASH, START_IMAGE_ID, START_IMAGE_ID_LENGTH, START_ITEMS, START_ITEM_COUNT, START_LENGTH, START_MAC_BASE,
    START_MAC_COUNT, START_MAC_STRIDE, START_MODEL, START_REVISION, START_SERIAL,
};
use crate::numbers::numbered;
use crate::{AddressPlan, Refusal};
use core::fmt;

numbered! {
    /// The boot storage unit.
    Bsu as u8, "boot storage unit":
    A = 0x41, "the first boot storage unit";
    B = 0x42, "the second";
}

numbered! {
    /// What asking for an inventory item gives, where there is one; the number is the one on the wire, where 1 is no such item.
    ItemResult as u8, "inventory result":
    Found = 0, "name, type and data follow";
    Absent = 2, "the part seems absent";
    Failed = 3, "the part failed otherwise";
}

/// An inventory item.
#[derive(Clone, Copy, Debug, PartialEq, Eq)]
pub struct Item<'d> {
    /// The result of its inventory reply.
    pub result: ItemResult,
    /// Its name.
    pub name: [u8; 32],
    /// Its type.
    pub kind: u8,
    /// At most `LONGEST_ITEM_DATA` bytes; a reply has them where the result is `Found` alone.
    pub data: &'d [u8],
}

/// Start data that `Supervisor::start_in` never refuses; they may be a `static`.
///
/// The methods named `with_` are for constants; data that are not allowed end the compilation there. The others change start data in place and refuse.
/// ```
/// use oatcastle::{AddressPlan, Bsu, Item, ItemResult, StartData};
///
/// static DATA: StartData = StartData::new(Bsu::B)
///     .with_identity(*b"model-12345", 7, *b"serial-0001")
///     .with_mac(AddressPlan { base: [2, 0, 0, 0, 0, 0], count: 8, stride: 1 })
///     .with_hash([5; 32])
///     .with_image_id(b"1.2.3")
///     .with_item(Item { result: ItemResult::Found, name: [b'n'; 32], kind: 4, data: b"data" });
///
/// let mut data = StartData::new(Bsu::B);
/// data.set_identity(*b"model-12345", 7, *b"serial-0001");
/// data.set_mac(AddressPlan { base: [2, 0, 0, 0, 0, 0], count: 8, stride: 1 });
/// data.set_hash([5; 32]);
/// data.set_image_id(b"1.2.3")?;
/// data.add_item(Item { result: ItemResult::Found, name: [b'n'; 32], kind: 4, data: b"data" })?;
/// assert_eq!(data, DATA);
/// # Ok::<(), oatcastle::Refusal>(())
/// ```
/// A boot storage unit that is neither A nor B does not compile:
/// ```compile_fail,E0308
/// oatcastle::StartData::new(0x43);
/// ```
/// Nor do constants with an image ID of 65 bytes, with 65 bytes of an item's data, or with 65 items:
/// ```compile_fail,E0080
/// # use oatcastle::{Bsu, StartData};
/// static DATA: StartData = StartData::new(Bsu::A).with_image_id(&[0; 65]);
/// ```
/// ```compile_fail,E0080
/// # use oatcastle::{Bsu, Item, ItemResult, StartData};
/// static DATA: StartData = StartData::new(Bsu::A).with_item(Item { result: ItemResult::Found, name: [0; 32], kind: 0, data: &[0; 65] });
/// ```
/// ```compile_fail,E0080
/// # use oatcastle::{Bsu, Item, ItemResult, StartData};
/// static DATA: StartData = {
///     let (mut data, mut count) = (StartData::new(Bsu::A), 0);
///     while count < 65 {
///         data = data.with_item(Item { result: ItemResult::Found, name: [0; 32], kind: 0, data: &[] });
///         count += 1;
///     }
///     data
/// };
/// ```
#[derive(Clone, PartialEq, Eq)]
pub struct StartData {
    bytes: [u8; START_LENGTH],
}

impl fmt::Debug for StartData {
    fn fmt(&self, out: &mut fmt::Formatter<'_>) -> fmt::Result {
        let bsu = if self.bytes[START_BSU] == Bsu::A as u8 { Bsu::A } else { Bsu::B };
        out.debug_struct("StartData").field("bsu", &bsu).field("items", &self.items()).finish_non_exhaustive()
    }
}

impl StartData {
    /// Every number zero, no items, an empty image ID.
    #[must_use]
    pub const fn new(bsu: Bsu) -> StartData {
        let mut bytes = [0; START_LENGTH];
        bytes[START_BSU] = bsu as u8;
        StartData { bytes }
    }

    const fn put(&mut self, offset: usize, bytes: &[u8]) {
        let mut index = 0;
        while index < bytes.len() {
            self.bytes[offset + index] = bytes[index];
            index += 1;
        }
    }

    /// How many items there are; the count is below 256, and so its lowest byte.
    const fn items(&self) -> usize {
        self.bytes[START_ITEM_COUNT] as usize
    }

    /// Model, revision and serial.
    pub const fn set_identity(&mut self, model: [u8; 11], revision: u32, serial: [u8; 11]) {
        self.put(START_MODEL, &model);
        self.put(START_REVISION, &revision.to_le_bytes());
        self.put(START_SERIAL, &serial);
    }

    /// What the reply to 0x05 gives: base, count and stride.
    pub const fn set_mac(&mut self, plan: AddressPlan) {
        self.put(START_MAC_BASE, &plan.base);
        self.put(START_MAC_COUNT, &plan.count.to_le_bytes());
        self.put(START_MAC_STRIDE, &[plan.stride]);
    }

    /// The hash of the image that is lent with `Supervisor::receive`.
    pub const fn set_hash(&mut self, hash: [u8; 32]) {
        self.put(START_IMAGE_HASH, &hash);
    }

    /// The image ID, key 1's value.
    ///
    /// # Errors
    ///
    /// `BadStart`, and nothing is changed, where it has more than `LONGEST_IMAGE_ID` bytes.
    pub const fn set_image_id(&mut self, id: &[u8]) -> Result<(), Refusal> {
        if id.len() > LONGEST_IMAGE_ID {
            return Err(Refusal::BadStart);
        }
        self.put(START_IMAGE_ID_LENGTH, &[id.len() as u8]);
        self.put(START_IMAGE_ID, &[0; LONGEST_IMAGE_ID]);
        self.put(START_IMAGE_ID, id);
        Ok(())
    }

    /// One item more.
    ///
    /// # Errors
    ///
    /// `BadStart`, and nothing is changed, where there are `MOST_ITEMS` already, or its data have more than `LONGEST_ITEM_DATA` bytes.
    pub const fn add_item(&mut self, item: Item<'_>) -> Result<(), Refusal> {
        let items = self.items();
        if items == MOST_ITEMS || item.data.len() > LONGEST_ITEM_DATA {
            return Err(Refusal::BadStart);
        }
        let offset = START_ITEMS + ITEM_LENGTH * items;
        self.put(offset + ITEM_RESULT, &[item.result as u8]);
        self.put(offset + ITEM_NAME, &item.name);
        self.put(offset + ITEM_TYPE, &[item.kind]);
        self.put(offset + ITEM_DATA_LENGTH, &[item.data.len() as u8]);
        self.put(offset + ITEM_DATA, item.data);
        self.put(START_ITEM_COUNT, &[items as u8 + 1]);
        Ok(())
    }

    /// With this identity.
    #[must_use]
    pub const fn with_identity(mut self, model: [u8; 11], revision: u32, serial: [u8; 11]) -> StartData {
        self.set_identity(model, revision, serial);
        self
    }

    /// With this base, count and stride.
    #[must_use]
    pub const fn with_mac(mut self, plan: AddressPlan) -> StartData {
        self.set_mac(plan);
        self
    }

    /// With this hash.
    #[must_use]
    pub const fn with_hash(mut self, hash: [u8; 32]) -> StartData {
        self.set_hash(hash);
        self
    }

    /// With this image ID.
    ///
    /// # Panics
    ///
    /// Where `set_image_id` refuses; in a constant the compilation ends there.
    #[must_use]
    pub const fn with_image_id(mut self, id: &[u8]) -> StartData {
        assert!(self.set_image_id(id).is_ok(), "an image ID that is too long");
        self
    }

    /// With this item behind the others.
    ///
    /// # Panics
    ///
    /// Where `add_item` refuses; in a constant the compilation ends there.
    #[must_use]
    pub const fn with_item(mut self, item: Item<'_>) -> StartData {
        assert!(self.add_item(item).is_ok(), "too many items, or an item's data that are too long");
        self
    }

    /// The start data as `oatcastle_start` takes them.
    #[must_use]
    pub const fn bytes(&self) -> &[u8; START_LENGTH] {
        &self.bytes
    }
}

const _: () = assert!(MOST_ITEMS < 256, "the lowest byte of the item count is the count");
