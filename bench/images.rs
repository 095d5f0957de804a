// Defines the yardsticks' images of the settings: saving, and restoring from one.
// Assumes document 02's item 11; settings as board.rs has them.

use crate::board::{Setting, FIRST_SETTING, LENGTHS};
use crate::receiver::Yardstick;

const END_MARK: [u8; 2] = *b"KE";
const RECORD_MARK: [u8; 2] = *b"KV";
/// What stands ahead of a value: mark, key, edition, length.
const VALUE_OFFSET: usize = 9;
const RECORD_LENGTH: usize = VALUE_OFFSET + 2;
/// The keys that an image has.
const SAVED: usize = 3;

/// The first fault of an image: its number and its offset.
pub type Fault = (u32, usize);

/// Writes the settings that have a value as an image; gives its length or a refusal.
pub fn save<Y: Yardstick>(settings: &[Setting], out: &mut [u8]) -> Result<usize, u32> {
    let saved = settings.iter().zip(FIRST_SETTING..=Y::rules().last_saved).filter(|(setting, _)| setting.held);
    let length = saved.clone().map(|(setting, _)| RECORD_LENGTH + setting.value.get().len()).sum::<usize>() + END_MARK.len();
    let mut rest = out.get_mut(..length).ok_or(8u32)?;
    for (setting, key) in saved {
        let value = setting.value.get();
        let (record, behind) = rest.split_at_mut(RECORD_LENGTH + value.len());
        let (body, sums) = record.split_at_mut(VALUE_OFFSET + value.len());
        body[..2].copy_from_slice(&RECORD_MARK);
        body[2] = key;
        body[3..7].copy_from_slice(&setting.edition.to_le_bytes());
        body[7..9].copy_from_slice(&(value.len() as u16).to_le_bytes());
        body[9..].copy_from_slice(value);
        sums.copy_from_slice(&Y::checksum(body).to_le_bytes());
        rest = behind;
    }
    rest.copy_from_slice(&END_MARK);
    Ok(length)
}

/// Replaces the saved settings by those of an image, if it has no fault.
pub fn restore<Y: Yardstick>(settings: &mut [Setting], image: &[u8]) -> Result<(), Fault> {
    let mut found: [Option<(u32, &[u8])>; SAVED] = [None; SAVED];
    let (mut at, mut lowest) = (0, FIRST_SETTING);
    while let Some((key, edition, value)) = record::<Y>(image, at, lowest)? {
        found[usize::from(key - FIRST_SETTING)] = Some((edition, value));
        lowest = key + Y::rules().key_step;
        at += RECORD_LENGTH + value.len();
    }
    for (setting, found) in settings.iter_mut().zip(found) {
        let (edition, value) = found.unwrap_or((0, &[]));
        setting.edition = edition;
        setting.held = found.is_some();
        setting.value.set(value);
    }
    Ok(())
}

/// The record at an offset, whose key is at least `lowest`: key, edition and value; nothing at the image's end.
fn record<Y: Yardstick>(image: &[u8], at: usize, lowest: u8) -> Result<Option<(u8, u32, &[u8])>, Fault> {
    let rest = &image[at..];
    let cut_short = (34, image.len());
    match rest.first_chunk().ok_or(cut_short)? {
        &END_MARK if rest.len() > END_MARK.len() => return Err((35, at + END_MARK.len())),
        &END_MARK => return Ok(None),
        &RECORD_MARK => {}
        _ => return Err((30, at)),
    }
    let key = *rest.get(2).ok_or(cut_short)?;
    if !(lowest..=Y::rules().last_saved).contains(&key) {
        return Err((31, at + 2));
    }
    let &[_, _, _, a, b, c, d, low, high] = rest.first_chunk().ok_or(cut_short)?;
    let length = usize::from(u16::from_le_bytes([low, high]));
    if !LENGTHS[usize::from(key - FIRST_SETTING)].contains(&length) {
        return Err((32, at + 7));
    }
    let (body, behind) = rest.split_at_checked(VALUE_OFFSET + length).ok_or(cut_short)?;
    if u16::from_le_bytes(*behind.first_chunk().ok_or(cut_short)?) != Y::checksum(body) {
        return Err((33, at + body.len()));
    }
    Ok(Some((key, u32::from_le_bytes([a, b, c, d]), &body[VALUE_OFFSET..])))
}
