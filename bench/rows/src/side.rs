//! What a side of the benchmark can do.

use crate::View;

/// The cycle of every node, in µs.
pub const CYCLE: u32 = 1000;
/// Its tolerance of a late SoC, in ns.
pub const TOLERANCE: u32 = 100_000;

/// What differs between the nodes that rows start.
#[derive(Debug, Clone, Copy)]
pub struct Setup {
    /// Of each of the seven kinds of error.
    pub threshold: u32,
    /// How many entries the emergency queue holds.
    pub queue: usize,
}

/// A component of a recipe, as the C interface has it.
#[derive(Debug, Clone, Copy, Default, PartialEq, Eq)]
#[repr(C)]
pub struct Component {
    pub bin: u8,
    pub grams: u16,
}

/// A node. The methods of the first part are measured: each makes one call and keeps its answer, so
/// that the compiler drops none of it. Those of the second part prepare a call.
pub trait Side: Sized + 'static {
    /// An NMT event, as the side's call takes it.
    type Event: Copy + 'static;
    /// A DLL event.
    type DllEvent: Copy + 'static;
    /// A kind of error.
    type Kind: Copy + 'static;

    fn event(number: u8) -> Self::Event;
    fn dll_event(number: u8) -> Self::DllEvent;
    fn kind(number: u8) -> Self::Kind;

    /// A fresh node with the number 7.
    fn start(setup: Setup) -> Self;

    fn nmt_event(&mut self, event: Self::Event);
    fn dll_event_of(&mut self, event: Self::DllEvent);
    fn handle_error(&mut self, kind: Self::Kind);
    fn cycle_complete(&mut self);
    fn withdraw(&mut self);
    fn heard(&mut self, node: u8, time: u64);
    fn hand_out(&mut self);
    fn load_register(&mut self, register: u8);
    /// The register, cycle and tolerance, and each of the four counters.
    fn load_values(&mut self, register: u8, cycle: u32, tolerance: u32, counter: u32);
    fn load_history(&mut self, entries: &[[u8; 20]]);
    fn arm(&mut self, time: u64);
    fn tick(&mut self, time: u64);
    fn frame(&mut self, time: u64, bytes: &[u8]);
    fn add(&mut self, node: u8, timeout: u64);
    fn remove(&mut self, node: u8);
    fn next_due(&mut self);
    fn load_recipe(&mut self, components: &[Component]);
    fn weight(&mut self, place: u64);

    /// The assignment that `withdraw` makes, with none of its tests; so for the two below. Ours has
    /// only the calls.
    fn bare_withdraw(&mut self);
    fn bare_heard(&mut self, node: u8, time: u64);
    fn bare_arm(&mut self, time: u64, deadline: u64);

    /// An NMT event of the node as a weigh head.
    fn weigh_event(&mut self, event: Self::Event);
    /// What the node as a weigh head keeps.
    fn weigh_view(&self) -> View;
    fn view(&self) -> View;

    /// Watches these nodes, each with its timeout and when it was last heard.
    fn watch(&mut self, nodes: &[(u8, u64, u64)]);
    /// Sets when each watched node was last heard.
    fn set_heard(&mut self, time: u64);
    fn set_state(&mut self, state: u8);
    /// Sets the state of the DLL machine to that of the last `keep_dll`.
    fn restore_dll(&mut self);
    fn keep_dll(&mut self);
    /// Puts the SoC check on, with this deadline.
    fn set_deadline(&mut self, deadline: u64);
    /// Makes each of the first `kinds` counters, in the order of the fields, one that got an error.
    fn set_levels(&mut self, kinds: usize);
    fn empty_queue(&mut self);
    /// Makes the queue one of a single entry.
    fn set_one_queued(&mut self);
    fn clear_history(&mut self);
}
