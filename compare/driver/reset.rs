//! What a reset does: the states that it enters and the index ranges that it restores; and what
//! RULES 4.5 lets it forget, which the original does not.
//!
//! States: the original default method `reset` runs on a machine of ours that keeps each state that
//! `set_state` gets.
//!
//! Ranges: for each range, `restore_power_on_values` loads the stored parameters once and writes
//! them over the entries in the range. The storage here counts the loads and gives each marker
//! index the number of the load. So after a reset the value of a marker is the number of the load
//! that restored it, and these numbers have the order of the ranges. Markers stand at the first and
//! the last index of each block of 0x1000, since the areas of the dictionary begin and end there; a
//! range is printed as the first and the last marker that it restored.

// Each driver uses a part of it.
#![allow(dead_code)]

use powerlink_rs::frame::DllError;
use powerlink_rs::hal::ObjectDictionaryStorage;
use powerlink_rs::nmt::NmtStateMachine;
use powerlink_rs::nmt::cn_state_machine::CnNmtStateMachine;
use powerlink_rs::nmt::events::NmtEvent;
use powerlink_rs::nmt::states::NmtState;
use powerlink_rs::od::constants::IDX_NMT_CURR_NMT_STATE_U8;
use powerlink_rs::od::{Category, Object, ObjectDictionary, ObjectEntry, ObjectValue};
use powerlink_rs::{NodeId, PowerlinkError};
use std::collections::BTreeMap;

pub type Range = (u16, u16);

/// The first and the last index of each block of 0x1000, ascending.
fn markers() -> impl Iterator<Item = u16> {
    (0..=0xF).flat_map(|block| [block * 0x1000, block * 0x1000 + 0xFFF])
}

/// A storage that counts the loads and gives the count as each marker's stored value.
struct CountingStorage {
    loads: u32,
}

impl ObjectDictionaryStorage for CountingStorage {
    fn load(&mut self) -> Result<BTreeMap<(u16, u8), ObjectValue>, PowerlinkError> {
        self.loads += 1;
        let value = ObjectValue::Unsigned32(self.loads);
        Ok(markers().map(|index| ((index, 0), value.clone())).collect())
    }

    fn save(&mut self, _: &BTreeMap<(u16, u8), ObjectValue>) -> Result<(), PowerlinkError> {
        unreachable!("an NMT event saves nothing")
    }

    fn clear(&mut self) -> Result<(), PowerlinkError> {
        unreachable!("an NMT event clears nothing")
    }

    fn restore_defaults_requested(&self) -> bool {
        unreachable!("an NMT event asks for no defaults")
    }

    fn request_restore_defaults(&mut self) -> Result<(), PowerlinkError> {
        unreachable!("an NMT event requests no defaults")
    }

    fn clear_restore_defaults_flag(&mut self) -> Result<(), PowerlinkError> {
        unreachable!("an NMT event clears no request")
    }
}

/// A variable without a default value, so that only a stored value is restored to it.
fn variable(value: ObjectValue) -> ObjectEntry {
    ObjectEntry {
        object: Object::Variable(value),
        name: "",
        category: Category::Optional,
        access: None,
        default_value: None,
        value_range: None,
        pdo_mapping: None,
    }
}

/// Runs `act` on a dictionary with markers; its answer, and the ranges that it restored, in order.
pub fn with_ranges<A>(act: impl FnOnce(&mut ObjectDictionary) -> A) -> (A, Vec<Range>) {
    let mut storage = CountingStorage { loads: 0 };
    let mut od = ObjectDictionary::new(Some(&mut storage));
    // The machine writes its state here at each change.
    od.insert(
        IDX_NMT_CURR_NMT_STATE_U8,
        variable(ObjectValue::Unsigned8(0)),
    );
    for index in markers() {
        od.insert(index, variable(ObjectValue::Unsigned32(0)));
    }
    let answer = act(&mut od);
    let restored: Vec<(u16, u32)> = markers()
        .map(|index| (index, od.read_u32(index, 0).expect("markers stay")))
        .collect();
    let ranges = (1..=storage.loads)
        .map(|load| range_of(load, &restored))
        .collect();
    (answer, ranges)
}

/// The range of one load. Stops where another load restored a marker inside it: the values of
/// markers do not show ranges that overlap.
fn range_of(load: u32, restored: &[(u16, u32)]) -> Range {
    let is_this = |marker: &(u16, u32)| marker.1 == load;
    let first = restored
        .iter()
        .position(is_this)
        .expect("a range has a marker");
    let last = restored
        .iter()
        .rposition(is_this)
        .expect("a range has a marker");
    assert!(
        restored[first..=last].iter().all(is_this),
        "the ranges overlap"
    );
    (restored[first].0, restored[last].0)
}

/// A machine that keeps the states that it is set to.
struct Recorder {
    state: NmtState,
    entered: Vec<NmtState>,
}

impl NmtStateMachine for Recorder {
    fn node_id(&self) -> NodeId {
        NodeId(7)
    }

    fn is_cn(&self) -> bool {
        true
    }

    fn current_state(&self) -> NmtState {
        self.state
    }

    fn set_state(&mut self, new_state: NmtState) {
        self.state = new_state;
        self.entered.push(new_state);
    }

    fn process_event(&mut self, _: NmtEvent, _: &mut ObjectDictionary) -> Option<Vec<DllError>> {
        unreachable!("only reset is called")
    }
}

/// The states that a reset event enters from `state`, and the ranges that it restores. An event
/// that is no reset has none of either.
pub fn recorded(state: NmtState, event: NmtEvent) -> (Vec<NmtState>, Vec<Range>) {
    let mut recorder = Recorder {
        state,
        entered: Vec::new(),
    };
    let ((), ranges) = with_ranges(|od| recorder.reset(event, od));
    (recorder.entered, ranges)
}

/// The five events that reset a node.
pub fn is_reset(event: NmtEvent) -> bool {
    matches!(
        event,
        NmtEvent::Reset
            | NmtEvent::SwReset
            | NmtEvent::ResetNode
            | NmtEvent::ResetCommunication
            | NmtEvent::ResetConfiguration
    )
}

/// RULES 4.5, of the NMT machine: a reset event clears the readiness, which the original
/// leaves. Set by hand behind the event.
pub fn forget_readiness(machine: &mut CnNmtStateMachine, event: NmtEvent) {
    if is_reset(event) {
        machine.app_ready = false;
    }
}
