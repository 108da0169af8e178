//! Prints what the original Rust reads each 8-bit number as, its named node numbers, the events of each kind of frame, the
//! code of each kind of error and the kind behind each code, its feature flags and its times at their limits, one form a
//! line. Every answer is computed by calling the original code; the kind behind a code by its code of every kind.

mod forms;
mod frames;

use forms::{ERRORS, hex};
use powerlink_rs::NodeId;
use powerlink_rs::common::NetTime;
use powerlink_rs::nmt::events::{NmtManagingCommand, NmtStateCommand};
use powerlink_rs::nmt::flags::FeatureFlags;
use powerlink_rs::nmt::states::NmtState;
use powerlink_rs::types::{
    C_ADR_BROADCAST_NODE_ID, C_ADR_DIAG_DEF_NODE_ID, C_ADR_MN_DEF_NODE_ID, C_ADR_RT1_DEF_NODE_ID,
    MessageType,
};

fn main() {
    forms::check_order();
    print_nodes();
    print_addresses();
    print_readings("state", |number| {
        NmtState::try_from(number).ok().map(|state| state as u8)
    });
    print_readings("command", |number| {
        NmtStateCommand::try_from(number)
            .ok()
            .map(|command| command as u8)
    });
    print_readings("managing", |number| {
        NmtManagingCommand::try_from(number)
            .ok()
            .map(|command| command as u8)
    });
    print_readings("message", |number| {
        MessageType::try_from(number).ok().map(|kind| kind as u8)
    });
    frames::print_frames();
    print_codes();
    print_kinds();
    print_flags();
    print_times();
    print_additions();
    print_differences();
}

fn print_nodes() {
    for number in 0..=u8::MAX {
        let answer = if NodeId::try_from(number).is_ok() {
            "taken"
        } else {
            "refused"
        };
        println!("(node {number} {answer})");
    }
}

/// The node numbers that have a name and that our code has, in the order of their declaration.
const ADDRESSES: [u8; 4] = [
    C_ADR_MN_DEF_NODE_ID,
    C_ADR_DIAG_DEF_NODE_ID,
    C_ADR_RT1_DEF_NODE_ID,
    C_ADR_BROADCAST_NODE_ID,
];

fn print_addresses() {
    for (place, number) in ADDRESSES.iter().enumerate() {
        println!("(address {place} {number})");
    }
}

/// Prints, for each 8-bit number, the number of what was read from it.
fn print_readings(name: &str, read: impl Fn(u8) -> Option<u8>) {
    for number in 0..=u8::MAX {
        let answer = read(number).map_or("refused".to_string(), hex);
        println!("({name} {number} {answer})");
    }
}

fn print_codes() {
    for error in &ERRORS {
        println!(
            "(code {} 0x{:04X})",
            forms::kind(error),
            error.to_error_code()
        );
    }
}

/// The kind behind each 16-bit code, and how many codes name no single kind.
fn print_kinds() {
    let mut refused = 0;
    for code in 0..=u16::MAX {
        match forms::kind_behind(u64::from(code)) {
            Some(kind) => println!("(kind 0x{code:04X} {kind})"),
            None => refused += 1,
        }
    }
    println!("(kind refused {refused})");
}

/// The flags in the order of their declaration.
const FLAGS: [FeatureFlags; 16] = [
    FeatureFlags::ISOCHRONOUS,
    FeatureFlags::SDO_UDP,
    FeatureFlags::SDO_ASND,
    FeatureFlags::SDO_PDO,
    FeatureFlags::NMT_INFO_SERVICES,
    FeatureFlags::EXTENDED_NMT_CMDS,
    FeatureFlags::DYNAMIC_PDO_MAPPING,
    FeatureFlags::NMT_SERVICE_UDP,
    FeatureFlags::CONFIG_MANAGER,
    FeatureFlags::MULTIPLEXED_ACCESS,
    FeatureFlags::NODE_ID_BY_SW,
    FeatureFlags::MN_BASIC_ETHERNET,
    FeatureFlags::ROUTING_TYPE_1,
    FeatureFlags::ROUTING_TYPE_2,
    FeatureFlags::SDO_RW_ALL_BY_INDEX,
    FeatureFlags::SDO_RW_MULTIPLE_BY_INDEX,
];

fn print_flags() {
    for (place, flag) in FLAGS.iter().enumerate() {
        println!("(flag {place} {})", flag.0);
    }
}

const MICROS: [u64; 10] = [
    0,
    1,
    999_999,
    1_000_000,
    12_100,
    1_234_567_890_123,
    4_294_967_295_999_999,
    4_294_967_296_000_000,
    4_611_686_018_427_387_903,
    u64::MAX,
];

/// Times as seconds and nanoseconds.
const TIMES: [(u32, u32); 4] = [
    (0, 0),
    (0, 999_999_999),
    (1, 500_000_000),
    (u32::MAX, 999_999_999),
];

const NANOS: [u64; 5] = [0, 1, 1_000_000_000, 1_999_999_999, u64::MAX];

fn print_times() {
    for micros in MICROS {
        let time = NetTime::from_micros(micros);
        let (seconds, nanoseconds) = (time.seconds, time.nanoseconds);
        let nanos = time.as_nanos();
        println!("(time {micros} (seconds {seconds}) (nanoseconds {nanoseconds}) (nanos {nanos}))");
    }
}

fn print_additions() {
    for (s, n) in TIMES {
        for nanos in NANOS {
            let mut time = NetTime::new(s, n);
            time.add_nanos(nanos);
            println!(
                "(add {s} {n} {nanos} (seconds {}) (nanoseconds {}))",
                time.seconds, time.nanoseconds
            );
        }
    }
}

fn print_differences() {
    for (s1, n1) in TIMES {
        for (s2, n2) in TIMES {
            let difference = NetTime::new(s1, n1).sub_net_time(NetTime::new(s2, n2));
            println!("(difference {s1} {n1} {s2} {n2} {difference})");
        }
    }
}
