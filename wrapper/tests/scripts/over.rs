//! The calls that are lent a run, made over places of the caller's by the functions `plcn_.._over`.

use crate::run::Lent;
use crate::script::Call;
use crate::station::setup;
use powerlink_cn::{Head, Watched, raw};

/// What such a call answers and leaves: of a copy of the head and of the run.
#[derive(Debug)]
pub struct Over {
    /// 0, or the number of a refusal.
    pub refused: u32,
    pub head: raw::Head,
    pub places: Vec<Watched>,
    pub number: u64,
}

impl Over {
    /// None of a call that is lent no run. The bytes of queue and history are others than the
    /// head's, which no answer tells and no word.
    pub fn made(head: &Head, lent: &Lent, call: &Call) -> Option<Self> {
        let mut over = Self {
            refused: 0,
            head: *head.raw(),
            places: lent.places().to_vec(),
            number: lent.number(),
        };
        over.refused = over.make(call)?;
        Some(over)
    }

    fn make(&mut self, call: &Call) -> Option<u32> {
        let Self {
            head,
            places,
            number,
            ..
        } = self;
        let (at, length) = (places.as_mut_ptr(), places.len() as u64);
        let (mut queue, mut history) = (raw::Queue::default(), raw::History::default());
        // SAFETY: pointer and length are those of one vector, which nothing else refers to.
        Some(unsafe {
            match *call {
                Call::Start(ref start) => {
                    let setup = (&setup(start)).into();
                    raw::plcn_start_over(head, at, length, *number, &setup)
                }
                Call::Tick(time) => {
                    let (queue, history) = (&mut queue, &mut history);
                    let logged = &mut raw::Errors::default();
                    raw::plcn_tick_over(head, queue, history, at, length, *number, time, logged)
                }
                Call::Heard { node, time } => {
                    raw::plcn_heard_over(head, at, length, *number, node, time)
                }
                Call::Add { node, timeout } => {
                    raw::plcn_add_over(head, at, length, number, node, timeout)
                }
                Call::Remove(node) => raw::plcn_remove_over(head, at, length, number, node),
                Call::Due => {
                    let due = &mut raw::DueAnswer::default();
                    raw::plcn_next_due_over(head, at, length, *number, due)
                }
                Call::Bitmap => {
                    raw::plcn_bitmap_over(at, length, *number, &mut raw::Bitmap::default())
                }
                _ => return None,
            }
        })
    }
}
