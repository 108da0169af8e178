//! Entries of an emergency queue and of an error history.

use core::iter::FusedIterator;

use crate::raw;
use crate::refusal::{never_refused, taken};
use crate::{ENTRY_BYTES, Refusal};

numbered! {
    /// The mode of an entry (DS 301, Table 96), with the standard's number.
    pub enum EntryMode {
        /// The list of entries ends here.
        Terminator = 0 => "Terminator",
        /// An error is active.
        ErrorActive = 1 => "ErrorActive",
        /// An error was cleared.
        ErrorCleared = 2 => "ErrorCleared",
        /// An event occurred: the mode of each entry that a node makes.
        EventOccurred = 3 => "EventOccurred",
    }
}

/// An entry of an emergency queue or an error history (DS 301, Tables 94 and 96; rule 9.1).
///
/// ```
/// use powerlink_cn::{Entry, EntryMode, Refusal};
///
/// # fn main() -> Result<(), Refusal> {
/// let entry = Entry {
///     is_status: false,
///     send_to_queue: true,
///     mode: EntryMode::EventOccurred,
///     profile: 2,
///     code: 0x8245,
///     seconds: 0,
///     nanoseconds: 12_100_000,
///     additional: 0,
/// };
/// let bytes = entry.to_bytes()?;
/// assert_eq!(bytes[..4], [0x02, 0x70, 0x45, 0x82]);
/// assert_eq!(Entry::from_bytes(&bytes), entry);
/// # Ok(())
/// # }
/// ```
#[derive(Debug, Clone, Copy, PartialEq, Eq, Hash)]
pub struct Entry {
    /// The status mark, bit 15 of the type.
    pub is_status: bool,
    /// The queue mark, bit 14 of the type.
    pub send_to_queue: bool,
    /// The mode, bits 13 and 12 of the type.
    pub mode: EntryMode,
    /// The profile, 0 to 4095; 2 is POWERLINK.
    pub profile: u16,
    /// The error code. [`DllErrorKind::from_code`](crate::DllErrorKind::from_code) tells its kind.
    pub code: u16,
    /// The seconds of its time.
    pub seconds: u32,
    /// The nanoseconds of its time.
    pub nanoseconds: u32,
    /// Additional information.
    pub additional: u64,
}

impl Entry {
    /// Writes its 20 bytes (rule 9.3) at a place of a buffer; all other bytes stay.
    ///
    /// # Errors
    ///
    /// Refused, in this order:
    /// - [`Refusal::BufferTooShort`]: fewer than 20 bytes are left from the place on, or the place
    ///   is past the end
    /// - [`Refusal::ProfileLimit`]: the profile is above 4095
    pub fn write(&self, buffer: &mut [u8], place: usize) -> Result<(), Refusal> {
        let (length, place) = (buffer.len() as u64, place as u64);
        // SAFETY: the pointer and the length are those of one slice that may be written.
        taken(unsafe { raw::plcn_entry_write(buffer.as_mut_ptr(), length, place, &self.into()) })
    }

    /// Reads the entry in the 20 bytes from a place of a buffer on (rule 9.6). Any 20 bytes are
    /// one.
    ///
    /// # Errors
    ///
    /// Refused, in this order:
    /// - [`Refusal::BufferTooShort`]: fewer than 20 bytes are left from the place on, or the place
    ///   is past the end
    pub fn read(buffer: &[u8], place: usize) -> Result<Self, Refusal> {
        let (length, place) = (buffer.len() as u64, place as u64);
        let mut entry = raw::Entry::default();
        // SAFETY: the pointer and the length are those of one slice.
        taken(unsafe { raw::plcn_entry_read(buffer.as_ptr(), length, place, &mut entry) })?;
        Ok(entry.into())
    }

    /// Its 20 bytes (rule 9.3).
    ///
    /// # Errors
    ///
    /// Refused, in this order:
    /// - [`Refusal::ProfileLimit`]: the profile is above 4095
    pub fn to_bytes(&self) -> Result<[u8; ENTRY_BYTES], Refusal> {
        let mut bytes = [0; ENTRY_BYTES];
        self.write(&mut bytes, 0)?;
        Ok(bytes)
    }

    /// The entry of 20 bytes (rule 9.3).
    pub fn from_bytes(bytes: &[u8; ENTRY_BYTES]) -> Self {
        let mut entry = raw::Entry::default();
        // SAFETY: the pointer and the length are those of one array.
        let number =
            unsafe { raw::plcn_entry_read(bytes.as_ptr(), ENTRY_BYTES as u64, 0, &mut entry) };
        never_refused(number);
        entry.into()
    }
}

impl From<&Entry> for raw::Entry {
    fn from(entry: &Entry) -> Self {
        Self {
            is_status: entry.is_status.into(),
            send_to_queue: entry.send_to_queue.into(),
            mode: entry.mode.number(),
            profile: entry.profile,
            code: entry.code,
            seconds: entry.seconds,
            nanoseconds: entry.nanoseconds,
            additional: entry.additional,
        }
    }
}

impl From<raw::Entry> for Entry {
    /// The library answers no mode above 3, which would be read as Terminator.
    fn from(entry: raw::Entry) -> Self {
        Self {
            is_status: entry.is_status != 0,
            send_to_queue: entry.send_to_queue != 0,
            mode: EntryMode::from_number(entry.mode.into()).unwrap_or(EntryMode::Terminator),
            profile: entry.profile,
            code: entry.code,
            seconds: entry.seconds,
            nanoseconds: entry.nanoseconds,
            additional: entry.additional,
        }
    }
}

impl From<raw::HandedOut> for Option<Entry> {
    fn from(answer: raw::HandedOut) -> Self {
        (answer.there != 0).then(|| answer.entry.into())
    }
}

/// The entries of a queue, oldest first, or of a history, newest first.
#[derive(Debug, Clone)]
pub struct Entries<'a> {
    head: raw::Head,
    memory: Memory<'a>,
    next: u64,
}

#[derive(Debug, Clone, Copy)]
enum Memory<'a> {
    Queue(&'a raw::Queue),
    History(&'a raw::History),
}

impl<'a> Entries<'a> {
    pub(crate) fn of_queue(head: raw::Head, queue: &'a raw::Queue) -> Self {
        Self {
            head,
            memory: Memory::Queue(queue),
            next: 0,
        }
    }

    pub(crate) fn of_history(head: raw::Head, history: &'a raw::History) -> Self {
        Self {
            head,
            memory: Memory::History(history),
            next: 0,
        }
    }
}

impl Iterator for Entries<'_> {
    type Item = Entry;

    fn next(&mut self) -> Option<Entry> {
        let mut answer = raw::HandedOut::default();
        never_refused(match self.memory {
            Memory::Queue(queue) => {
                raw::plcn_queue_entry(&self.head, queue, self.next, &mut answer)
            }
            Memory::History(history) => {
                raw::plcn_history_entry(&self.head, history, self.next, &mut answer)
            }
        });
        let entry: Option<Entry> = answer.into();
        self.next += u64::from(entry.is_some());
        entry
    }
}

impl FusedIterator for Entries<'_> {}
