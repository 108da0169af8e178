//! Stand-in: the cycle of the managing node is not compared.

#[derive(Debug, Clone, Copy, PartialEq, Eq)]
pub enum DllMsEvent {
    Pres,
    Asnd,
}

pub struct DllMsStateMachine;
