//! The watched nodes of the original, its heartbeat consumers, and the calls that add and remove one, write them as bits
//! (RULES 8). The run is lent from outside: at each call that is lent it the consumers are set from the records
//! up to the number watched, and what they are behind it is given back. The original has no earliest moment, no bits and
//! no limit of 32; these are computed here from the rules.

use crate::forms;
use crate::head::{Answer, Head, LAST_TIME, try_node};
use crate::run::{PLACES, Run};
use crate::script::Watched;
use powerlink_rs::NodeId;
use powerlink_rs::nmt::states::NmtState;
use std::collections::BTreeMap;

/// Timeout and last heard of each node, as the original keeps them.
pub type Consumers = BTreeMap<NodeId, (u64, u64)>;

/// Number 3: the run has 32 places and a number that they hold; the places past it are not tried.
pub fn try_run(run: &Run) -> Result<&[Watched], u8> {
    let watched = run.watched();
    let sound = run.places() == PLACES
        && run.number() <= PLACES as u64
        && watched.is_sorted_by(|one, next| one.node < next.node)
        && watched.iter().all(|record| {
            try_node(record.node).is_ok()
                && record.timeout <= LAST_TIME
                && record.heard <= LAST_TIME
        });
    if sound { Ok(watched) } else { Err(3) }
}

pub fn consumers(watched: &[Watched]) -> Consumers {
    let consumer = |record: &Watched| (NodeId(record.node), (record.timeout, record.heard));
    watched.iter().map(consumer).collect()
}

fn records(consumers: &Consumers) -> Vec<Watched> {
    let record = |(node, (timeout, heard)): (&NodeId, &(u64, u64))| Watched {
        node: node.0,
        timeout: *timeout,
        heard: *heard,
    };
    consumers.iter().map(record).collect()
}

/// The smallest of last heard + timeout + 1 where both are above 0 (RULES 8.5).
pub fn earliest(consumers: &Consumers) -> Option<u64> {
    let counts = |(timeout, heard): &&(u64, u64)| *timeout > 0 && *heard > 0;
    let moment = |(timeout, heard): &(u64, u64)| heard + timeout + 1;
    consumers.values().filter(counts).map(moment).min()
}

/// Node n is bit n mod 8 of byte n / 8, lowest bit first (RULES 8.7).
fn bits(consumers: &Consumers) -> [u8; 32] {
    let mut bytes = [0; 32];
    for NodeId(node) in consumers.keys() {
        bytes[usize::from(node / 8)] |= 1 << (node % 8);
    }
    bytes
}

impl Head {
    /// Makes the run the consumers of the original, if number 3 takes it.
    pub fn lend(&mut self, run: &Run) -> Result<(), u8> {
        self.context.heartbeat_consumers = consumers(try_run(run)?);
        self.left = self.context.heartbeat_consumers.clone();
        Ok(())
    }

    /// Behind an accepted call that leaves the nodes, their number and the places past it. The earliest moment
    /// is worked out anew.
    pub fn give_back(&mut self, run: &mut Run) {
        let left = records(&self.context.heartbeat_consumers);
        let lent = run.watched_mut();
        assert_eq!(lent.len(), left.len(), "the number stays");
        for (record, left) in lent.iter_mut().zip(left) {
            assert_eq!(record.node, left.node, "the nodes stay");
            assert_eq!(record.timeout, left.timeout, "the timeouts stay");
            record.heard = left.heard;
        }
        self.keep();
    }

    /// Behind an accepted add or removal.
    fn give_back_only(&mut self, run: &mut Run) {
        run.become_only(&records(&self.context.heartbeat_consumers));
        self.keep();
    }

    fn keep(&mut self) {
        self.left = self.context.heartbeat_consumers.clone();
        self.earliest = earliest(&self.left);
    }

    /// Asserts by ticks of the original that the moment is the first at which a watched node would be late, or that none
    /// ever would; whether there is one.
    pub fn check_earliest(&self) -> bool {
        match self.earliest {
            Some(moment) => {
                assert!(self.finds_late(moment), "a node is late at the moment");
                assert!(!self.finds_late(moment - 1), "none is late before it");
            }
            None => assert!(!self.finds_late(u64::MAX), "no node is ever late"),
        }
        self.earliest.is_some()
    }

    /// Refused by 1, 3, 10 or 9, in this order.
    pub fn add(&mut self, node: u8, timeout: u64, run: &mut Run) -> Answer {
        let node = try_node(node)?;
        self.lend(run)?;
        if timeout > LAST_TIME {
            return Err(3);
        }
        let consumers = &mut self.context.heartbeat_consumers;
        if consumers.contains_key(&node) {
            return Err(10);
        }
        if consumers.len() == PLACES {
            return Err(9);
        }
        let before = consumers.insert(node, (timeout, 0));
        assert_eq!(before, None, "it was not watched");
        self.give_back_only(run);
        Ok(forms::taken(&[]))
    }

    /// Refused by 3 or 7.
    pub fn remove(&mut self, node: u8, run: &mut Run) -> Answer {
        self.lend(run)?;
        let removed = self.context.heartbeat_consumers.remove(&NodeId(node));
        removed.ok_or(7)?;
        self.give_back_only(run);
        Ok(forms::taken(&[]))
    }

    /// When the next tick is due, by docs/RULES.md 7.13, of the original's own fields: it has no such call. 0 is at once.
    pub fn due(&mut self, run: &Run) -> Answer {
        self.lend(run)?;
        let state = self.context.nmt_state_machine.current_state;
        let timeout = self.context.nmt_state_machine.basic_ethernet_timeout;
        let mut moments: Vec<u64> = self.context.next_tick_us.into_iter().collect();
        if moments.is_empty() && state == NmtState::NmtNotActive && timeout > 0 {
            moments.push(0);
        }
        if state as u8 >= 0x5D {
            for (timeout, heard) in self.context.heartbeat_consumers.values() {
                match (*timeout, *heard) {
                    (_, 0) => moments.push(0),
                    (0, _) => {}
                    (timeout, heard) => moments.push(heard + timeout + 1),
                }
            }
        }
        let first = moments.into_iter().min();
        Ok(forms::taken(&[first.map_or("none".to_string(), |moment| moment.to_string())]))
    }

    /// The bytes, and how many bits are set in them.
    pub fn bitmap(&mut self, run: &Run) -> Answer {
        self.lend(run)?;
        let bytes = bits(&self.context.heartbeat_consumers);
        let nodes: u32 = bytes.iter().map(|byte| byte.count_ones()).sum();
        Ok(forms::taken(&[
            format!("(nodes {nodes})"),
            forms::digits(&bytes),
        ]))
    }
}
