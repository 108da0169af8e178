//! The desk's buffer (RULES 9): its calls, by the original's own `serialize` and
//! `deserialize`. The original writes an entry at no place and refuses none, so the place and the two
//! refusals are computed here, from the rules.

use crate::forms;
use crate::head::Answer;
use crate::script::EntryWrite;
use powerlink_rs::common::NetTime;
use powerlink_rs::frame::error::{EntryType, ErrorEntry, ErrorEntryMode};

const ENTRY: usize = 20;
const LARGEST_PROFILE: u16 = 4095;

/// "11, fewer than 20 bytes from that place on, or the place is past the end; 12, a profile above
/// 4095, tried after 11."
pub fn entry_write(desk: &mut [u8], write: &EntryWrite) -> Answer {
    let place = usize::try_from(write.place).map_err(|_| 11)?;
    let from_there_on = desk.get_mut(place..).ok_or(11)?;
    let twenty = from_there_on.get_mut(..ENTRY).ok_or(11)?;
    if write.profile > LARGEST_PROFILE {
        return Err(12);
    }
    twenty.copy_from_slice(&entry(write).serialize());
    Ok(forms::taken(&[]))
}

fn entry(write: &EntryWrite) -> ErrorEntry {
    ErrorEntry {
        entry_type: EntryType {
            is_status_entry: write.status,
            send_to_queue: write.queue,
            mode: ErrorEntryMode::try_from(write.mode).expect("a mode is 0 to 3"),
            profile: write.profile,
        },
        error_code: write.code,
        timestamp: NetTime {
            seconds: write.seconds,
            nanoseconds: write.nanoseconds,
        },
        additional_information: write.additional,
    }
}

pub fn entry_read(bytes: &[u8; ENTRY]) -> Answer {
    let entry = ErrorEntry::deserialize(bytes).expect("any 20 bytes are an entry");
    assert_eq!(
        entry.serialize(),
        bytes,
        "the original writes again what it read"
    );
    Ok(forms::taken(&[forms::entry_fields(&entry)]))
}
