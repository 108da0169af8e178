//! The calls that the original does not have, made on its public fields and by its machines: the
//! same tests in the same order as ours (docs/RULES.md), each refusal by its number, and the same
//! work.

use crate::dictionary;
use crate::node::{Node, PLACES};
use powerlink_rs::NodeId;
use powerlink_rs::frame::{DllCsEvent, DllError};
use powerlink_rs::nmt::NmtStateMachine;
use powerlink_rs::nmt::events::{NmtEvent, NmtStateCommand};
use powerlink_rs::nmt::states::NmtState;
use powerlink_rs::node::cn::handle_error;
use powerlink_rs::node::cn::state::CnContext;
use rows::Component;

const LAST_TIME: u64 = (1 << 62) - 1;
const MOST_NODES: usize = 32;
const ALL_NODES: u8 = 255;
const NMT_COMMAND: u8 = 4;

/// A refusal by its number, or that the call was taken.
pub type Taken = Result<(), u32>;

#[inline]
fn is_node(number: u8) -> bool {
    matches!(number, 1..=240 | 253..=255)
}

#[inline]
fn try_time(time: u64) -> Taken {
    if time > LAST_TIME { Err(5) } else { Ok(()) }
}

/// Number 3. The map is sorted by itself.
#[inline]
fn try_run(context: &CnContext) -> Taken {
    let nodes = &context.heartbeat_consumers;
    let sound = nodes.len() <= MOST_NODES
        && nodes.iter().all(|(node, (timeout, heard))| {
            is_node(node.0) && *timeout <= LAST_TIME && *heard <= LAST_TIME
        });
    if sound { Ok(()) } else { Err(3) }
}

/// The smallest of last heard + timeout + 1 where both are above 0.
#[inline]
fn earliest(context: &CnContext) -> Option<u64> {
    let counts = |(timeout, heard): &&(u64, u64)| *timeout > 0 && *heard > 0;
    let moment = |(timeout, heard): &(u64, u64)| heard + timeout + 1;
    let nodes = context.heartbeat_consumers.values();
    nodes.filter(counts).map(moment).min()
}

#[inline(always)]
pub fn withdraw(context: &mut CnContext) -> Taken {
    if context.nmt_state_machine.current_state == NmtState::NmtReadyToOperate {
        return Err(8);
    }
    context.nmt_state_machine.app_ready = false;
    Ok(())
}

#[inline(always)]
pub fn heard(node: &mut Node, number: u8, time: u64) -> Taken {
    try_run(&node.context)?;
    try_time(time)?;
    let watched = node.context.heartbeat_consumers.get_mut(&NodeId(number));
    watched.ok_or(7u32)?.1 = time;
    node.earliest = earliest(&node.context);
    Ok(())
}

#[inline(always)]
pub fn add(node: &mut Node, number: u8, timeout: u64) -> Taken {
    if !is_node(number) {
        return Err(1);
    }
    try_run(&node.context)?;
    if timeout > LAST_TIME {
        return Err(3);
    }
    let nodes = &mut node.context.heartbeat_consumers;
    if nodes.contains_key(&NodeId(number)) {
        return Err(10);
    }
    if nodes.len() == MOST_NODES {
        return Err(9);
    }
    nodes.insert(NodeId(number), (timeout, 0));
    node.earliest = earliest(&node.context);
    Ok(())
}

#[inline(always)]
pub fn remove(node: &mut Node, number: u8) -> Taken {
    try_run(&node.context)?;
    let removed = node.context.heartbeat_consumers.remove(&NodeId(number));
    removed.ok_or(7u32)?;
    node.earliest = earliest(&node.context);
    Ok(())
}

/// The moment of the next tick that can change something, 0 for at once.
#[inline(always)]
pub fn next_due(context: &CnContext) -> Result<Option<u64>, u32> {
    try_run(context)?;
    let machine = &context.nmt_state_machine;
    let state = machine.current_state;
    let deadline = context.next_tick_us;
    if state == NmtState::NmtNotActive && deadline.is_none() && machine.basic_ethernet_timeout > 0 {
        return Ok(Some(0));
    }
    if state < NmtState::NmtPreOperational2 {
        return Ok(deadline);
    }
    if context
        .heartbeat_consumers
        .values()
        .any(|(_, heard)| *heard == 0)
    {
        return Ok(Some(0));
    }
    Ok(deadline.into_iter().chain(earliest(context)).min())
}

#[inline(always)]
pub fn arm(context: &mut CnContext, time: u64) -> Taken {
    try_time(time)?;
    let od = &context.core.od;
    let cycle = u64::from(dictionary::cycle(od));
    let limit = cycle + u64::from(dictionary::tolerance(od)) / 1000;
    context.last_soc_reception_time_us = time;
    context.soc_timeout_check_active = cycle > 0;
    context.next_tick_us = (cycle > 0).then_some(time + limit);
    Ok(())
}

/// An event of the original's NMT machine, and what a reset forgets (docs/RULES.md 4.5).
#[inline(always)]
pub fn nmt_event(node: &mut Node, event: NmtEvent) -> Option<Vec<DllError>> {
    let context = &mut node.context;
    let machine = &mut context.nmt_state_machine;
    let errors = machine.process_event(event, &mut context.core.od);
    if is_reset(event) {
        machine.app_ready = false;
        context.next_tick_us = None;
        context.soc_timeout_check_active = false;
        context.dll_state_machine = Default::default();
        node.recipe = [Component::default(); PLACES];
    }
    errors
}

#[inline(always)]
fn is_reset(event: NmtEvent) -> bool {
    matches!(
        event,
        NmtEvent::Reset
            | NmtEvent::SwReset
            | NmtEvent::ResetNode
            | NmtEvent::ResetCommunication
            | NmtEvent::ResetConfiguration
    )
}

/// What is read of a frame.
struct Frame {
    destination: u8,
    dll: DllCsEvent,
    nmt: Option<NmtEvent>,
}

/// Numbers 18, 19, 20, of an ASnd 18 again, and 4.
#[inline(always)]
fn read(bytes: &[u8]) -> Result<Frame, u32> {
    if bytes.len() < 17 {
        return Err(18);
    }
    if bytes[12..14] != [0x88, 0xAB] {
        return Err(19);
    }
    let (dll, nmt) = match bytes[14] {
        1 => (DllCsEvent::Soc, Some(NmtEvent::SocReceived)),
        3 => (DllCsEvent::Preq, None),
        4 => (DllCsEvent::Pres, None),
        5 => (DllCsEvent::Soa, Some(NmtEvent::SoAReceived)),
        6 => (DllCsEvent::Asnd, command(&bytes[17..])?),
        _ => return Err(20),
    };
    Ok(Frame {
        destination: bytes[15],
        dll,
        nmt,
    })
}

/// The event of the command in an ASnd, from its service on.
#[inline(always)]
fn command(payload: &[u8]) -> Result<Option<NmtEvent>, u32> {
    if *payload.first().ok_or(18u32)? != NMT_COMMAND {
        return Ok(None);
    }
    let number = *payload.get(1).ok_or(18u32)?;
    let command = NmtStateCommand::try_from(number).map_err(|_| 4u32)?;
    Ok(Some(match command {
        NmtStateCommand::StartNode => NmtEvent::StartNode,
        NmtStateCommand::StopNode => NmtEvent::StopNode,
        NmtStateCommand::EnterPreOperational2 => NmtEvent::EnterPreOperational2,
        NmtStateCommand::EnableReadyToOperate => NmtEvent::EnableReadyToOperate,
        NmtStateCommand::ResetNode => NmtEvent::ResetNode,
        NmtStateCommand::ResetCommunication => NmtEvent::ResetCommunication,
        NmtStateCommand::ResetConfiguration => NmtEvent::ResetConfiguration,
        NmtStateCommand::SwReset => NmtEvent::SwReset,
    }))
}

/// A frame's way through the machines (docs/RULES.md 13); the errors of the NMT event.
#[inline(always)]
pub fn frame(node: &mut Node, time: u64, bytes: &[u8]) -> Result<Option<Vec<DllError>>, u32> {
    let frame = read(bytes)?;
    try_time(time)?;
    let context = &mut node.context;
    let machine = &context.nmt_state_machine;
    let (state, number) = (machine.current_state, machine.node_id);
    if frame.destination != number.0 && frame.destination != ALL_NODES {
        return Ok(None);
    }
    let dll = &mut context.dll_state_machine;
    let errors = dll.process_event(frame.dll, state, number, true);
    let mut errors = errors.into_iter().flatten();
    if errors.any(|error| handle_error(context, error, time)) {
        return Ok(None);
    }
    let errors = frame.nmt.and_then(|event| nmt_event(node, event));
    if frame.dll == DllCsEvent::Soc {
        arm(&mut node.context, time)?;
    }
    Ok(errors)
}

/// Numbers 15 and 16; then the places are filled and the machine gets the ready word.
#[inline(always)]
pub fn load_recipe(node: &mut Node, components: &[Component]) -> Taken {
    let mut bins = 0u64;
    let sound = (1..=PLACES).contains(&components.len())
        && components.iter().all(|Component { bin, grams }| {
            let within = (1..=64).contains(bin) && (1..=30_000).contains(grams);
            let mark = 1u64 << (bin.wrapping_sub(1) & 63);
            let again = bins & mark != 0;
            bins |= mark;
            within && !again
        });
    if !sound {
        return Err(15);
    }
    if node.context.nmt_state_machine.current_state != NmtState::NmtPreOperational2 {
        return Err(16);
    }
    node.recipe[..components.len()].copy_from_slice(components);
    node.recipe[components.len()..].fill(Component::default());
    let context = &mut node.context;
    let machine = &mut context.nmt_state_machine;
    machine.process_event(NmtEvent::CnConfigurationComplete, &mut context.core.od);
    Ok(())
}

/// Number 17.
#[inline(always)]
pub fn weight(node: &Node, place: u64) -> Result<u16, u32> {
    let operational = node.context.nmt_state_machine.current_state == NmtState::NmtOperational;
    let place = usize::try_from(place).map_err(|_| 17u32)?;
    match node.recipe.get(place) {
        Some(component) if operational && component.bin > 0 => Ok(component.grams),
        _ => Err(17),
    }
}
