//! The crate's own tables of numbers, names and texts, held to those of the library.

use powerlink_cn::{
    Command, DllErrorKind, DllEvent, NmtEvent, NmtState, Refusal, Reset, VERSION, raw, text,
    version,
};

/// Numbers around all that have a name, and some that are one of them when cut to 8 bits.
fn numbers() -> impl Iterator<Item = u32> {
    (0..1024).chain([0x1_0000, 0x1_005D, u32::MAX])
}

#[test]
fn the_archive_is_of_this_version() {
    assert_eq!(version(), VERSION);
}

#[test]
fn refusals_have_their_numbers_and_texts() {
    for (place, refusal) in Refusal::ALL.iter().enumerate() {
        assert_eq!(refusal.number() as usize, place + 1);
    }
    for number in numbers() {
        let own = Refusal::ALL
            .iter()
            .find(|refusal| refusal.number() == number);
        assert_eq!(
            text::of_refusal(number).as_str(),
            own.map_or("", |refusal| refusal.text())
        );
    }
    assert_eq!(
        Refusal::BeforeHeard.to_string(),
        Refusal::BeforeHeard.text()
    );
}

#[test]
fn names_are_those_of_the_library() {
    for number in numbers() {
        let wide = u64::from(number);
        let state = NmtState::from_number(wide).map_or("", NmtState::name);
        assert_eq!(text::of_state(number).as_str(), state);
        let event = NmtEvent::from_number(wide).map_or("", NmtEvent::name);
        assert_eq!(text::of_event(number).as_str(), event);
        let command = Command::from_number(wide).map_or("", Command::name);
        assert_eq!(text::of_command(number).as_str(), command);
        let event = DllEvent::from_number(wide).map_or("", DllEvent::name);
        assert_eq!(text::of_dll_event(number).as_str(), event);
        let kind = DllErrorKind::from_number(wide).map_or("", DllErrorKind::name);
        assert_eq!(text::of_kind(number).as_str(), kind);
    }
}

#[test]
fn numbers_are_read_as_the_library_reads_them() {
    for number in numbers()
        .map(u64::from)
        .chain([u64::MAX, 1 << 32, (1 << 32) + 0x5D])
    {
        let own = NmtState::from_number(number).ok_or(Refusal::UnknownNumber);
        assert_eq!(NmtState::try_from(number), own);
        let own = Command::from_number(number).ok_or(Refusal::UnknownNumber);
        assert_eq!(Command::try_from(number), own);
    }
}

#[test]
fn names_are_those_that_are_printed() {
    assert_eq!(
        format!("{:>8}|{:?}", DllEvent::Soc, NmtState::CsStopped),
        "     Soc|CsStopped"
    );
    for state in NmtState::ALL {
        assert_eq!(format!("{state}"), format!("{state:?}"));
    }
    for event in NmtEvent::ALL {
        assert_eq!(format!("{event}"), format!("{event:?}"));
    }
    for kind in DllErrorKind::ALL {
        assert_eq!(format!("{kind}"), format!("{kind:?}"));
    }
}

#[test]
fn a_code_leads_to_its_kind() {
    let named = (0..=0xFFFF)
        .filter(|code| DllErrorKind::from_code(*code).is_ok())
        .count();
    assert_eq!(named, 17);
    for kind in DllErrorKind::ALL {
        let single = if kind.code() == 0x8000 {
            Err(Refusal::NoSingleKind)
        } else {
            Ok(*kind)
        };
        assert_eq!(DllErrorKind::from_code(kind.code().into()), single);
    }
    assert_eq!(
        DllErrorKind::from_code(0x1_8245),
        Err(Refusal::NoSingleKind)
    );
}

#[test]
fn resets_pass_what_the_rule_says() {
    let passed = |reset: Reset| {
        reset
            .steps()
            .states()
            .map(NmtState::number)
            .collect::<Vec<_>>()
    };
    assert_eq!(passed(Reset::Whole), [0x19, 0x29, 0x39, 0x79, 0x1C]);
    assert_eq!(passed(Reset::Node), [0x29, 0x39, 0x79, 0x1C]);
    assert_eq!(passed(Reset::Communication), [0x39, 0x79, 0x1C]);
    assert_eq!(passed(Reset::Configuration), [0x79, 0x1C]);
    let restored = |reset: Reset| {
        reset
            .steps()
            .ranges()
            .map(|range| (range.first, range.last))
            .collect::<Vec<_>>()
    };
    let application = [(0x2000, 0x5FFF), (0x6000, 0x9FFF), (0x1000, 0x1FFF)];
    assert_eq!(restored(Reset::Whole), application);
    assert_eq!(restored(Reset::Node), application);
    assert_eq!(restored(Reset::Communication), [(0x1000, 0x1FFF)]);
    assert_eq!(restored(Reset::Configuration), []);
    let mut nothing = raw::ResetSteps::default();
    assert_eq!(raw::plcn_reset_steps(5, &mut nothing), 0);
    assert_eq!(nothing, raw::ResetSteps::default());
}
