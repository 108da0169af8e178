//! The functions of the header, in its order.

use super::{
    Bitmap, Component, CycleAnswer, DueAnswer, Entry, ErrorAnswer, Errors, Frame, FrameAnswer,
    HandedOut, Head, History, MarginAnswer, Memory, NmtAnswer, Queue, RECIPE_PLACES, RangeAnswer,
    ResetSteps, Run, Setup, Text, Update, Watched, Weigh,
};

// SAFETY: these are the prototypes of include/powerlink_cn.h. The functions that are `safe` read
// and write what their references lend and nothing else, whatever stands there and whatever numbers
// they are given: that is what the library is proved to do.
unsafe extern "C" {
    /// Starts a head: it is fresh whatever its memory held. Refusals: 1, 2, 3, 14.
    pub safe fn plcn_start(head: &mut Head, run: &mut Run, setup: &Setup) -> u32;

    /// Makes an NMT event. Refusal: 4.
    pub safe fn plcn_nmt_event(head: &mut Head, event: u64, answer: &mut NmtAnswer) -> u32;

    /// Makes a DLL event; any number but 0 expects a PReq. Refusal: 4.
    pub safe fn plcn_dll_event(
        head: &mut Head,
        event: u64,
        expect_preq: u32,
        errors: &mut Errors,
    ) -> u32;

    /// Gives an error to the counters. Refusals: 4, 1.
    pub safe fn plcn_handle_error(
        head: &mut Head,
        kind: u64,
        a: u8,
        b: u8,
        answer: &mut ErrorAnswer,
    ) -> u32;

    /// A cycle is complete: each level above 0 falls by 1. Never refused.
    pub safe fn plcn_cycle_complete(head: &mut Head, answer: &mut CycleAnswer) -> u32;

    /// The ready word is withdrawn. Refusal: 8.
    pub safe fn plcn_withdraw(head: &mut Head) -> u32;

    /// A watched node was heard at a time, in µs. Refusals: 3, 5, 7.
    pub safe fn plcn_heard(head: &mut Head, run: &mut Run, node: u8, time_us: u64) -> u32;

    /// The oldest entry leaves the queue. Never refused.
    pub safe fn plcn_hand_out(head: &mut Head, queue: &Queue, answer: &mut HandedOut) -> u32;

    /// Loads the values that are named, and the history. Never refused.
    ///
    /// # Safety
    /// `entries` points to `length` bytes that may be read; with length 0 it may be null.
    pub unsafe fn plcn_load(
        head: &mut Head,
        history: &mut History,
        update: &Update,
        entries: *const u8,
        length: u64,
    ) -> u32;

    /// An SoC was received at a time, in µs. Refusal: 5.
    pub safe fn plcn_arm(head: &mut Head, time_us: u64) -> u32;

    /// A tick at a time, in µs. Refusals: 3, 5, 6.
    pub safe fn plcn_tick(
        head: &mut Head,
        queue: &mut Queue,
        history: &mut History,
        run: &mut Run,
        time_us: u64,
        logged: &mut Errors,
    ) -> u32;

    /// Whether the SoC is lost between two readings of a clock, in µs. Refusals: 5, 21.
    pub safe fn plcn_range(
        head: &Head,
        earliest_us: u64,
        latest_us: u64,
        answer: &mut RangeAnswer,
    ) -> u32;

    /// What is left of the limit at a reading of a clock, in µs. Refusal: 5.
    pub safe fn plcn_margin(head: &Head, time_us: u64, answer: &mut MarginAnswer) -> u32;

    /// Watches a node, with its timeout in µs. Refusals: 1, 3, 10, 9.
    pub safe fn plcn_add(head: &mut Head, run: &mut Run, node: u8, timeout_us: u64) -> u32;

    /// Watches a node no more. Refusals: 3, 7.
    pub safe fn plcn_remove(head: &mut Head, run: &mut Run, node: u8) -> u32;

    /// When the next tick is due. Refusal: 3.
    pub safe fn plcn_next_due(head: &Head, run: &Run, answer: &mut DueAnswer) -> u32;

    /// A frame arrived at a time, in µs. Refusals: 18, 19, 20, 18, 4, 5.
    ///
    /// # Safety
    /// `bytes` points to `length` bytes that may be read; with length 0 it may be null.
    pub unsafe fn plcn_frame(
        head: &mut Head,
        queue: &mut Queue,
        history: &mut History,
        time_us: u64,
        bytes: *const u8,
        length: u64,
        answer: &mut FrameAnswer,
    ) -> u32;

    /// [`plcn_start`] over places of the caller, of which the first `number` are watched.
    ///
    /// # Safety
    /// `places` points to `length` watched nodes that may be written; with length 0 it may be null.
    pub unsafe fn plcn_start_over(
        head: &mut Head,
        places: *mut Watched,
        length: u64,
        number: u64,
        setup: &Setup,
    ) -> u32;

    /// [`plcn_heard`] over places of the caller, of which the first `number` are watched.
    ///
    /// # Safety
    /// `places` points to `length` watched nodes that may be written; with length 0 it may be null.
    pub unsafe fn plcn_heard_over(
        head: &mut Head,
        places: *mut Watched,
        length: u64,
        number: u64,
        node: u8,
        time_us: u64,
    ) -> u32;

    /// [`plcn_tick`] over places of the caller, of which the first `number` are watched.
    ///
    /// # Safety
    /// `places` points to `length` watched nodes that may be written; with length 0 it may be null.
    pub unsafe fn plcn_tick_over(
        head: &mut Head,
        queue: &mut Queue,
        history: &mut History,
        places: *mut Watched,
        length: u64,
        number: u64,
        time_us: u64,
        logged: &mut Errors,
    ) -> u32;

    /// [`plcn_add`] over places of the caller, of which the first `number` are watched.
    ///
    /// # Safety
    /// `places` points to `length` watched nodes that may be written; with length 0 it may be null.
    pub unsafe fn plcn_add_over(
        head: &mut Head,
        places: *mut Watched,
        length: u64,
        number: &mut u64,
        node: u8,
        timeout_us: u64,
    ) -> u32;

    /// [`plcn_remove`] over places of the caller, of which the first `number` are watched.
    ///
    /// # Safety
    /// `places` points to `length` watched nodes that may be written; with length 0 it may be null.
    pub unsafe fn plcn_remove_over(
        head: &mut Head,
        places: *mut Watched,
        length: u64,
        number: &mut u64,
        node: u8,
    ) -> u32;

    /// [`plcn_next_due`] over places of the caller, of which the first `number` are watched.
    ///
    /// # Safety
    /// `places` points to `length` watched nodes that may be read; with length 0 it may be null.
    pub unsafe fn plcn_next_due_over(
        head: &Head,
        places: *const Watched,
        length: u64,
        number: u64,
        answer: &mut DueAnswer,
    ) -> u32;

    /// [`plcn_bitmap`] over places of the caller, of which the first `number` are watched.
    ///
    /// # Safety
    /// `places` points to `length` watched nodes that may be read; with length 0 it may be null.
    pub unsafe fn plcn_bitmap_over(
        places: *const Watched,
        length: u64,
        number: u64,
        answer: &mut Bitmap,
    ) -> u32;

    /// Starts a weigh head: a fresh node, and no recipe. Refusals: 1, 2, 3, 14.
    pub safe fn plcn_weigh_start(weigh: &mut Weigh, memory: &mut Memory, setup: &Setup) -> u32;

    /// [`plcn_nmt_event`] on the node of a weigh head; a reset empties its places.
    pub safe fn plcn_weigh_nmt_event(
        weigh: &mut Weigh,
        memory: &mut Memory,
        event: u64,
        answer: &mut NmtAnswer,
    ) -> u32;

    /// [`plcn_dll_event`] on the node of a weigh head.
    pub safe fn plcn_weigh_dll_event(
        weigh: &mut Weigh,
        memory: &mut Memory,
        event: u64,
        expect_preq: u32,
        errors: &mut Errors,
    ) -> u32;

    /// [`plcn_handle_error`] on the node of a weigh head.
    pub safe fn plcn_weigh_handle_error(
        weigh: &mut Weigh,
        memory: &mut Memory,
        kind: u64,
        a: u8,
        b: u8,
        answer: &mut ErrorAnswer,
    ) -> u32;

    /// [`plcn_cycle_complete`] on the node of a weigh head.
    pub safe fn plcn_weigh_cycle_complete(
        weigh: &mut Weigh,
        memory: &mut Memory,
        answer: &mut CycleAnswer,
    ) -> u32;

    /// [`plcn_withdraw`] on the node of a weigh head.
    pub safe fn plcn_weigh_withdraw(weigh: &mut Weigh, memory: &mut Memory) -> u32;

    /// [`plcn_heard`] on the node of a weigh head.
    pub safe fn plcn_weigh_heard(
        weigh: &mut Weigh,
        memory: &mut Memory,
        node: u8,
        time_us: u64,
    ) -> u32;

    /// [`plcn_hand_out`] on the node of a weigh head.
    pub safe fn plcn_weigh_hand_out(
        weigh: &mut Weigh,
        memory: &mut Memory,
        answer: &mut HandedOut,
    ) -> u32;

    /// [`plcn_load`] on the node of a weigh head.
    ///
    /// # Safety
    /// `entries` points to `length` bytes that may be read; with length 0 it may be null.
    pub unsafe fn plcn_weigh_load(
        weigh: &mut Weigh,
        memory: &mut Memory,
        update: &Update,
        entries: *const u8,
        length: u64,
    ) -> u32;

    /// [`plcn_arm`] on the node of a weigh head.
    pub safe fn plcn_weigh_arm(weigh: &mut Weigh, memory: &mut Memory, time_us: u64) -> u32;

    /// [`plcn_tick`] on the node of a weigh head.
    pub safe fn plcn_weigh_tick(
        weigh: &mut Weigh,
        memory: &mut Memory,
        time_us: u64,
        logged: &mut Errors,
    ) -> u32;

    /// [`plcn_range`] on the node of a weigh head.
    pub safe fn plcn_weigh_range(
        weigh: &Weigh,
        earliest_us: u64,
        latest_us: u64,
        answer: &mut RangeAnswer,
    ) -> u32;

    /// [`plcn_margin`] on the node of a weigh head.
    pub safe fn plcn_weigh_margin(weigh: &Weigh, time_us: u64, answer: &mut MarginAnswer) -> u32;

    /// [`plcn_add`] on the node of a weigh head.
    pub safe fn plcn_weigh_add(
        weigh: &mut Weigh,
        memory: &mut Memory,
        node: u8,
        timeout_us: u64,
    ) -> u32;

    /// [`plcn_remove`] on the node of a weigh head.
    pub safe fn plcn_weigh_remove(weigh: &mut Weigh, memory: &mut Memory, node: u8) -> u32;

    /// [`plcn_next_due`] on the node of a weigh head.
    pub safe fn plcn_weigh_next_due(weigh: &Weigh, memory: &Memory, answer: &mut DueAnswer) -> u32;

    /// [`plcn_frame`] on the node of a weigh head; a reset empties its places.
    ///
    /// # Safety
    /// `bytes` points to `length` bytes that may be read; with length 0 it may be null.
    pub unsafe fn plcn_weigh_frame(
        weigh: &mut Weigh,
        memory: &mut Memory,
        time_us: u64,
        bytes: *const u8,
        length: u64,
        answer: &mut FrameAnswer,
    ) -> u32;

    /// Loads a recipe and gives the node its ready word. Refusals: 15, 16.
    ///
    /// # Safety
    /// `components` points to `number` components that may be read; with number 0 it may be null.
    pub unsafe fn plcn_weigh_load_recipe(
        weigh: &mut Weigh,
        memory: &mut Memory,
        components: *const Component,
        number: u64,
    ) -> u32;

    /// The weight for a place, from 0, in grams. Refusal: 17.
    pub safe fn plcn_weigh_weight(weigh: &Weigh, place: u64, grams: &mut u16) -> u32;

    /// Copies the head of a weigh head. Never refused.
    pub safe fn plcn_weigh_head(weigh: &Weigh, head: &mut Head) -> u32;

    /// Copies the places of a weigh head. Never refused.
    pub safe fn plcn_weigh_places(weigh: &Weigh, places: &mut [Component; RECIPE_PLACES]) -> u32;

    /// The entry of a queue by its place from the oldest, 0, on. Never refused.
    pub safe fn plcn_queue_entry(
        head: &Head,
        queue: &Queue,
        index: u64,
        answer: &mut HandedOut,
    ) -> u32;

    /// The entry of a history by its place from the newest, 0, on. Never refused.
    pub safe fn plcn_history_entry(
        head: &Head,
        history: &History,
        index: u64,
        answer: &mut HandedOut,
    ) -> u32;

    /// Writes an entry at a place of a buffer. Refusals: 4, 11, 12.
    ///
    /// # Safety
    /// `buffer` points to `length` bytes that may be written; with length 0 it may be null.
    pub unsafe fn plcn_entry_write(buffer: *mut u8, length: u64, place: u64, entry: &Entry) -> u32;

    /// Reads the entry at a place of a buffer. Refusal: 11.
    ///
    /// # Safety
    /// `buffer` points to `length` bytes that may be read; with length 0 it may be null.
    pub unsafe fn plcn_entry_read(
        buffer: *const u8,
        length: u64,
        place: u64,
        entry: &mut Entry,
    ) -> u32;

    /// Reads a frame. Refusals: 18, 19, 20, 18, 4.
    ///
    /// # Safety
    /// `bytes` points to `length` bytes that may be read; with length 0 it may be null.
    pub unsafe fn plcn_frame_read(bytes: *const u8, length: u64, frame: &mut Frame) -> u32;

    /// The watched nodes as bits. Refusal: 3.
    pub safe fn plcn_bitmap(run: &Run, answer: &mut Bitmap) -> u32;

    /// What a reset passes; nothing for a number that is none. Never refused.
    pub safe fn plcn_reset_steps(reset: u32, steps: &mut ResetSteps) -> u32;

    /// The NMT state of a number. Refusal: 4.
    pub safe fn plcn_read_state(number: u64, state: &mut u8) -> u32;

    /// The state command of a number. Refusal: 4.
    pub safe fn plcn_read_command(number: u64, command: &mut u8) -> u32;

    /// The kind of error behind a code. Refusal: 13.
    pub safe fn plcn_read_code(code: u64, kind: &mut u8) -> u32;

    /// The version of the archive, as [`VERSION`](super::VERSION).
    pub safe fn plcn_version() -> u32;

    /// Why a call is refused; empty where the number is no refusal.
    pub safe fn plcn_refusal_text(number: u32) -> Text;

    /// The name of an NMT state; empty where the number is none.
    pub safe fn plcn_state_name(number: u32) -> Text;

    /// The name of an NMT event; empty where the number is none.
    pub safe fn plcn_event_name(number: u32) -> Text;

    /// The name of a state command; empty where the number is none.
    pub safe fn plcn_command_name(number: u32) -> Text;

    /// The name of a DLL event; empty where the number is none.
    pub safe fn plcn_dll_event_name(number: u32) -> Text;

    /// The name of a kind of error; empty where the number is none.
    pub safe fn plcn_kind_name(number: u32) -> Text;
}
