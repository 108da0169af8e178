//! Prints what the original Rust reads in patterns of 20 bytes and writes of that, what it reads at
//! places of a longer one, and the error history while entries join it, one form a line. Every answer
//! is computed by calling the original code; what stands from a place on, and that nothing does past
//! the end, is taken from docs/RULES.md.

mod generator;

use generator::Generator;
use powerlink_rs::PowerlinkError;
use powerlink_rs::common::NetTime;
use powerlink_rs::frame::error::{EntryType, ErrorEntry, ErrorEntryMode};
use powerlink_rs::od::error_history::write_error_to_history;
use powerlink_rs::od::{Category, Object, ObjectDictionary, ObjectEntry, ObjectValue};

const IDX_ERR_HISTORY: u16 = 0x1003;

fn main() {
    print_entry(&[0x00; 20]);
    print_entry(&[0xFF; 20]);
    let mut generator = Generator::new();
    for _ in 2..40 {
        let pattern: [u8; 20] = std::array::from_fn(|_| generator.below(256) as u8);
        print_entry(&pattern);
    }
    print_entry(&[0x00; 19]);
    let buffer: [u8; 60] = std::array::from_fn(|i| (4 * i + 3) as u8);
    for place in [0, 1, 40, 41, 60, 61, u64::MAX] {
        print_read(&buffer, place);
    }
    print_histories();
}

fn print_entry(pattern: &[u8]) {
    match read(pattern) {
        Some(entry) => println!(
            "(entry {} {} (bytes {}))",
            digits(pattern),
            fields(&entry),
            digits(&entry.serialize()),
        ),
        None => println!("(entry short)"),
    }
}

fn print_read(buffer: &[u8], place: u64) {
    let part = usize::try_from(place).ok().and_then(|place| buffer.get(place..));
    match read(part.unwrap_or(&[])) {
        Some(entry) => println!("(read {place} {})", fields(&entry)),
        None => println!("(read {place} short)"),
    }
}

fn read(bytes: &[u8]) -> Option<ErrorEntry> {
    match ErrorEntry::deserialize(bytes) {
        Ok(entry) => Some(entry),
        Err(PowerlinkError::BufferTooShort) => None,
        Err(other) => panic!("every pattern of 20 bytes is an entry: {other:?}"),
    }
}

fn fields(entry: &ErrorEntry) -> String {
    let entry_type = entry.entry_type;
    format!(
        "(status {}) (queue {}) (mode {}) (profile {}) (code 0x{:04X}) (seconds {}) \
         (nanoseconds {}) (information {})",
        entry_type.is_status_entry as u8,
        entry_type.send_to_queue as u8,
        entry_type.mode as u8,
        entry_type.profile,
        entry.error_code,
        entry.timestamp.seconds,
        entry.timestamp.nanoseconds,
        entry.additional_information,
    )
}

/// Two hexadecimal digits for each byte.
fn digits(bytes: &[u8]) -> String {
    bytes.iter().map(|byte| format!("{byte:02X}")).collect()
}

/// The history after the first of 260 entries that join it, around its limit of 254, and after the
/// last.
fn print_histories() {
    let mut od = ObjectDictionary::new(None);
    od.insert(IDX_ERR_HISTORY, empty_history());
    for number in 1..=260 {
        write_error_to_history(&mut od, &numbered_entry(number));
        if [1, 2, 253, 254, 255, 260].contains(&number) {
            print_history(&od);
        }
    }
}

fn empty_history() -> ObjectEntry {
    ObjectEntry {
        object: Object::Array(Vec::new()),
        name: "",
        category: Category::Optional,
        access: None,
        default_value: None,
        value_range: None,
        pdo_mapping: None,
    }
}

/// An entry like that of a crossing, with a number in its code and its seconds.
fn numbered_entry(number: u16) -> ErrorEntry {
    ErrorEntry {
        entry_type: EntryType {
            is_status_entry: false,
            send_to_queue: true,
            mode: ErrorEntryMode::EventOccurred,
            profile: 2,
        },
        error_code: number,
        timestamp: NetTime::new(u32::from(number), 0),
        additional_information: 0,
    }
}

fn print_history(od: &ObjectDictionary) {
    let Some(Object::Array(values)) = od.read_object(IDX_ERR_HISTORY) else {
        panic!("the history stays an array");
    };
    let codes: Vec<u16> = values.iter().map(code).collect();
    println!(
        "(history {} {} {})",
        codes.len(),
        codes[0],
        codes[codes.len() - 1],
    );
}

fn code(value: &ObjectValue) -> u16 {
    let ObjectValue::Domain(bytes) = value else {
        panic!("an entry is a domain");
    };
    let entry = ErrorEntry::deserialize(bytes).expect("an entry has 20 bytes");
    assert_eq!(
        entry,
        numbered_entry(entry.error_code),
        "an entry is read as it joined"
    );
    entry.error_code
}
