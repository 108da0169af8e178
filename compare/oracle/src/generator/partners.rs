//! Scenarios of RULES 8: nodes that arrive and leave, runs of every number, of other lengths and with something
//! in the places past the number, and what the head shows as the earliest moment.

use super::{ALL_STATES, OPERATIONAL, RESET, Script, TOP};
use crate::coverage::{PRE_OPERATIONAL_2, READY_TO_OPERATE};
use crate::view::is_node;
use std::io;

const PLACES: u64 = 32;

const TIMEOUTS: [u64; 8] = [0, 1, 10, 50, 50, 2000, 1 << 40, TOP];
const TIMEOUTS_ABOVE: [u64; 4] = [TOP + 1, TOP + 1, 1 << 63, u64::MAX];
const NUMBERS_ABOVE: [u64; 9] = [33, 33, 34, 40, 64, 256, 1 << 32, (1 << 32) + 5, u64::MAX];

/// Lines that are not to be read, as they stand.
const UNREADABLE: [&str; 24] = [
    "lend",
    "lend 32",
    "lend 41 0",
    "lend 32 0 0",
    "lend 32 18446744073709551616",
    "lend 18446744073709551616 0",
    "lend -1 0",
    "lend  32 0",
    "lend 32 0 ",
    "Lend 32 0",
    "add",
    "add 17",
    "add 256 50",
    "add 17 18446744073709551616",
    "add 17 50 0",
    "add 17 -",
    "Add 17 50",
    "remove",
    "remove 256",
    "remove 17 50",
    "remove ",
    "bitmap 1",
    "bitmap ",
    "Bitmap",
];

/// A record of the run: node, timeout, last heard.
type Record = (u8, u64, u64);

impl Script<'_> {
    /// Runs may be lent before the first start; no call may be made.
    pub(super) fn partners_before_the_first_start(&mut self) -> io::Result<()> {
        let lines = [
            "watch 17 50 0",
            "lend 33 0",
            "add 17 50",
            "remove 17",
            "bitmap",
            "show",
            "unwatch",
        ];
        lines.iter().try_for_each(|line| self.give(line))
    }

    /// Behind it the run is mostly one of `good_run`, which the other scenarios go by.
    pub(super) fn partners(&mut self) -> io::Result<()> {
        match self.random.below(14) {
            0..4 => self.arrivals_and_departures()?,
            4..6 => self.something_past_the_number()?,
            6..8 => self.another_length()?,
            8 => self.up_to_32()?,
            9 => self.down_to_none()?,
            10 => self.two_reasons()?,
            11 => self.start_with_a_run()?,
            12 => self.another_run()?,
            _ => self.unreadable_partners()?,
        }
        if self.random.one_in(4) {
            return Ok(());
        }
        self.good_run()
    }

    /// Calls over a run of any number, in any state.
    fn arrivals_and_departures(&mut self) -> io::Result<()> {
        let number = self.random.below(PLACES + 1);
        self.run(number)?;
        self.go_to_any()?;
        for _ in 0..4 + self.random.below(10) {
            self.partner_step()?;
        }
        Ok(())
    }

    /// To a state, mostly one that checks heartbeats.
    fn go_to_any(&mut self) -> io::Result<()> {
        let any = self.random.pick(&ALL_STATES);
        let target = self
            .random
            .pick(&[any, PRE_OPERATIONAL_2, READY_TO_OPERATE, OPERATIONAL]);
        self.go_to(target)
    }

    fn partner_step(&mut self) -> io::Result<()> {
        match self.random.below(12) {
            0..3 => self.arrival(),
            3..6 => self.departure(),
            6 => self.call("bitmap"),
            7 | 8 => self.heard_somewhen(),
            _ => self.heartbeat_step(),
        }
    }

    /// A node that is not watched, before all those that are, behind them or anywhere.
    fn unwatched(&mut self) -> u8 {
        let run = self.head.watched();
        let watched = |node: &u8| run.iter().any(|record| record.0 == *node);
        let (first, last) = match (run.first(), run.last()) {
            (Some(first), Some(last)) => (first.0, last.0),
            _ => (0, 0),
        };
        let place = self.random.below(4);
        let fits = |node: &u8| match place {
            0 => *node < first,
            1 => *node > last,
            _ => true,
        };
        let nodes: Vec<u8> = (1..=255)
            .filter(|node| is_node(*node) && !watched(node))
            .collect();
        let fitting: Vec<u8> = nodes.iter().copied().filter(fits).collect();
        if fitting.is_empty() {
            return self.random.pick(&nodes);
        }
        self.random.pick(&fitting)
    }

    /// A node that is watched, the first and the last one more often; any where there is none.
    fn watched_node(&mut self) -> u8 {
        let run = self.head.watched();
        match (run.first(), run.last()) {
            (Some(first), Some(last)) => {
                let any = self.random.pick(&run);
                self.random.pick(&[*first, *last, any, any]).0
            }
            _ => self.good_node(),
        }
    }

    fn arrival(&mut self) -> io::Result<()> {
        let node = self.unwatched();
        let timeout = self.random.pick(&TIMEOUTS);
        self.call2("add", u64::from(node), timeout)
    }

    fn departure(&mut self) -> io::Result<()> {
        let node = self.watched_node();
        self.call1("remove", u64::from(node))
    }

    /// A watched node heard at the script's time, or before it, or at a bound.
    fn heard_somewhen(&mut self) -> io::Result<()> {
        let now = self.later();
        let node = self.watched_node();
        let time = self
            .random
            .pick(&[now, now, now + 7, now / 2, now.saturating_sub(60), 0, TOP]);
        self.call2("heard", u64::from(node), time)
    }

    /// A run of `number` nodes with up to as many records behind it as there are places left, and the number back
    /// at `number`. What stands past it may be anything.
    fn run_with_a_rest(&mut self, number: u64) -> io::Result<()> {
        self.run(number)?;
        let left = PLACES - number;
        let some = self.random.below(left.min(6) + 1);
        for _ in 0..self.random.pick(&[some, some, left]) {
            let (node, timeout, heard) = self.anything();
            self.watch(node, timeout, heard)?;
        }
        self.lend(PLACES, number)
    }

    fn lend(&mut self, places: u64, number: u64) -> io::Result<()> {
        let (places, number) = (self.number(places), self.number(number));
        self.give(&format!("lend {places} {number}"))
    }

    /// A record for a place past the number: a bad node, times above all bounds, a node that would be late, or zeros.
    fn anything(&mut self) -> Record {
        let now = self.now;
        let (good, bad) = (self.good_node(), self.bad_node());
        let watched = self.watched_node();
        self.random.pick(&[
            (0, 0, 0),
            (0, 0, 0),
            (bad, 50, now),
            (good, u64::MAX, u64::MAX),
            (255, 50, u64::MAX),
            (good, 1, 1),
            (good, 50, now),
            (watched, 10, now / 2),
        ])
    }

    /// Start, ticks and heard leave the places past the number; an accepted add or removal clears them.
    fn something_past_the_number(&mut self) -> io::Result<()> {
        self.go_to_any()?;
        let any = self.random.below(PLACES);
        let number = self.random.pick(&[0, 1, 2, 3, any, any, 30, 31]);
        self.run_with_a_rest(number)?;
        for _ in 0..1 + self.random.below(3) {
            let now = self.later();
            match self.random.below(7) {
                0 => self.heard_somewhen()?,
                1..4 => self.heartbeat_step()?,
                4 => self.tick(now)?,
                5 => self.call("bitmap")?,
                _ => self.refused_arrival()?,
            }
        }
        self.give("show")?;
        let past = self.past_the_number();
        match self.random.below(6) {
            0 => self.start()?,
            1 => self.call1("remove", u64::from(past))?,
            2 => self.call2("add", u64::from(past), 50)?,
            3 => self.departure()?,
            _ => self.arrival()?,
        }
        self.give("show")
    }

    /// The node of a record past the number, mostly one that can be added.
    fn past_the_number(&mut self) -> u8 {
        let lent = self.head.lent();
        let rest: Vec<u8> = lent.rest().iter().map(|record| record.0).collect();
        let mut fitting = rest.clone();
        fitting.retain(|node| is_node(*node) && lent.watched().iter().all(|w| w.0 != *node));
        if rest.is_empty() {
            self.good_node()
        } else if fitting.is_empty() || self.random.one_in(4) {
            self.random.pick(&rest)
        } else {
            self.random.pick(&fitting)
        }
    }

    /// An add that is declined, whatever is watched: its node is bad, or its timeout, or it is watched already.
    fn refused_arrival(&mut self) -> io::Result<()> {
        let (bad, watched) = (self.bad_node(), self.watched_node());
        let unwatched = self.unwatched();
        let above = self.random.pick(&TIMEOUTS_ABOVE);
        let (node, timeout) = self.random.pick(&[
            (bad, 50),
            (bad, above),
            (unwatched, above),
            (watched, above),
        ]);
        self.call2("add", u64::from(node), timeout)
    }

    /// Calls on a run of another length or with a number above 32, and again when it has 32 places.
    fn another_length(&mut self) -> io::Result<()> {
        let any = self.random.below(41);
        if self.random.one_in(2) {
            let number = self.random.pick(&[0, 1, 2, 5, 20, 31]);
            let places = self.random.pick(&[31, 31, 33, 33, any]);
            self.run(number)?;
            self.lend(places, number)?;
            self.calls_that_are_lent_it()?;
            self.lend(PLACES, number)?;
        } else {
            // The 32 records are sound, and those behind them too.
            let written = self.random.pick(&[32, 32, 33, 40]);
            let above = self.random.pick(&NUMBERS_ABOVE);
            let places = self.random.pick(&[32, 32, 32, 32, 33, 40, any]);
            self.run(written)?;
            self.lend(places, above)?;
            if self.random.one_in(6) {
                self.watch(255, 50, 0)?;
            }
            self.calls_that_are_lent_it()?;
            self.lend(PLACES, PLACES)?;
        }
        self.call_that_is_lent_it()
    }

    fn calls_that_are_lent_it(&mut self) -> io::Result<()> {
        for _ in 0..2 + self.random.below(6) {
            self.call_that_is_lent_it()?;
        }
        Ok(())
    }

    fn call_that_is_lent_it(&mut self) -> io::Result<()> {
        let now = self.later();
        match self.random.below(7) {
            0 => self.start(),
            1 => self.tick(now),
            2 => self.heard_somewhen(),
            3 => self.arrival(),
            4 => self.departure(),
            5 => self.call("bitmap"),
            _ => self.arrival_or_departure_of_any(),
        }
    }

    /// Adds until 32 are watched, and further ones.
    fn up_to_32(&mut self) -> io::Result<()> {
        let number = 28 + self.random.below(5);
        self.run_with_a_rest(number)?;
        for _ in number..PLACES {
            self.arrival()?;
        }
        for _ in 0..1 + self.random.below(5) {
            let (unwatched, watched) = (self.unwatched(), self.watched_node());
            let node = self.random.pick(&[unwatched, unwatched, watched]);
            let above = self.random.pick(&TIMEOUTS_ABOVE);
            let timeout = self.random.pick(&[50, 50, 0, above]);
            self.call2("add", u64::from(node), timeout)?;
        }
        self.partner_step()?;
        self.departure()?;
        self.arrival()
    }

    /// Removals until none is watched, and one more.
    fn down_to_none(&mut self) -> io::Result<()> {
        let number = 1 + self.random.below(4);
        self.run_with_a_rest(number)?;
        self.go_to_any()?;
        for _ in 0..=number {
            self.departure()?;
            if self.random.one_in(3) {
                self.heartbeat_step()?;
            }
        }
        self.call("bitmap")?;
        self.arrival()
    }

    /// Adds and removals for which more than one refusal holds, and such for which one does.
    fn two_reasons(&mut self) -> io::Result<()> {
        match self.random.below(3) {
            0 => self.write_a_bad_run()?,
            1 => self.run(PLACES)?,
            _ => {
                let number = self.random.below(PLACES);
                self.run_with_a_rest(number)?;
            }
        }
        for _ in 0..3 + self.random.below(6) {
            self.arrival_or_departure_of_any()?;
        }
        let line = self.random.pick(&["bitmap", "show"]);
        self.call(line)
    }

    fn arrival_or_departure_of_any(&mut self) -> io::Result<()> {
        let (bad, watched) = (self.bad_node(), self.watched_node());
        let unwatched = self.unwatched();
        let node = u64::from(self.random.pick(&[bad, watched, unwatched]));
        let above = self.random.pick(&TIMEOUTS_ABOVE);
        let timeout = self.random.pick(&[50, 0, TOP, above, above]);
        match self.random.below(3) {
            0 => self.call1("remove", node),
            _ => self.call2("add", node, timeout),
        }
    }

    /// A start with a run of any number, at times with something past it.
    fn start_with_a_run(&mut self) -> io::Result<()> {
        for _ in 0..1 + self.random.below(4) {
            let number = self.random.below(PLACES + 1);
            if self.random.one_in(2) {
                self.run_with_a_rest(number)?;
            } else {
                self.run(number)?;
            }
            self.start()?;
            self.call_that_is_lent_it()?;
        }
        Ok(())
    }

    /// Another run than the one that the earliest moment is of: calls that are not lent it, resets and refused ones leave
    /// the moment, and the first accepted one that is lent it works it out again.
    fn another_run(&mut self) -> io::Result<()> {
        self.go_to_any()?;
        let few = self.random.below(4);
        self.run(1 + few)?;
        self.heard_somewhen()?;
        let number = self.random.pick(&[0, 1, 2, 5]);
        self.run_with_a_rest(number)?;
        for _ in 0..1 + self.random.below(3) {
            match self.random.below(4) {
                0 => {
                    let reset = RESET + self.random.below(5);
                    self.nmt(reset)?;
                }
                1 => self.refused_arrival()?,
                2 => self.call("bitmap")?,
                _ => self.plain_call()?,
            }
        }
        self.give("show")?;
        let now = self.later();
        match self.random.below(6) {
            0 => self.arrival()?,
            1 => self.departure()?,
            2 => self.heard_somewhen()?,
            3 | 4 => self.tick(now)?,
            _ => self.start()?,
        }
        self.give("show")
    }

    /// Lines that are no calls, and a `watch` behind a number past the last place, which is unreadable.
    fn unreadable_partners(&mut self) -> io::Result<()> {
        for _ in 0..1 + self.random.below(4) {
            let line = self.random.pick(&UNREADABLE);
            self.call(line)?;
        }
        let number = self.random.pick(&[40, 41, 1 << 32, u64::MAX]);
        let places = self.random.below(41);
        self.lend(places, number)?;
        self.watch(17, 50, 0)?;
        let number = self.random.below(40);
        self.lend(places, number)?;
        self.watch(17, 50, 0)?;
        self.give("show")?;
        self.good_run()
    }
}
