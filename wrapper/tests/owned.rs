//! What the types promise beside the calls' answers.

use powerlink_cn::{
    Component, DllError, Head, NmtEvent, Node, Refusal, Run, Setup, Update, WATCHED_PLACES,
    Watched, WeighHead,
};

const fn can_be_sent<T: Send + Sync + 'static>() {}
const _: () = can_be_sent::<Node>();
const _: () = can_be_sent::<WeighHead>();
const _: () = assert!(size_of::<Node>() == 6736 && size_of::<WeighHead>() == 6800);

fn is_error<E: core::error::Error>(_: E) {}

#[test]
fn a_refusal_is_an_error() {
    is_error(Refusal::NodeNumber);
}

#[test]
fn more_nodes_than_a_run_has_places_are_refused() {
    let watched: Vec<Watched> = (1..=33).map(|node| Watched::new(node, 0)).collect();
    let setup = Setup::new(7);
    assert!(Node::start(&setup, &watched[..32]).is_ok());
    assert_eq!(Node::start(&setup, &watched), Err(Refusal::WatchedNodes));
    assert_eq!(
        WeighHead::start(&setup, &watched),
        Err(Refusal::WatchedNodes)
    );
    // The node's number is looked at before.
    assert_eq!(
        Node::start(&Setup::new(0), &watched),
        Err(Refusal::NodeNumber)
    );
}

#[test]
fn a_start_forgets_when_nodes_were_heard() {
    let watched = [Watched {
        last_heard_us: 55,
        ..Watched::new(17, 5000)
    }];
    let node = Node::start(&Setup::new(7), &watched).unwrap();
    assert_eq!(node.watched(), [Watched::new(17, 5000)]);
}

#[test]
fn a_refused_restart_changes_nothing() {
    let mut node = Node::start(&Setup::new(7), &[Watched::new(17, 5000)]).unwrap();
    node.handle_error(DllError::Crc).unwrap();
    let before = node.clone();
    assert_eq!(node.restart(&Setup::new(0)), Err(Refusal::NodeNumber));
    assert_eq!(node, before);
    node.restart(&Setup::new(9)).unwrap();
    assert_eq!(
        node,
        Node::start(&Setup::new(9), &[Watched::new(17, 5000)]).unwrap()
    );
}

#[test]
fn a_run_that_is_not_well_formed_is_refused() {
    let mut node = Node::start(&Setup::new(7), &[]).unwrap();
    *node.run_mut() = Run {
        number: WATCHED_PLACES as u64 + 1,
        ..Run::default()
    };
    assert_eq!(node.watched().len(), WATCHED_PLACES);
    assert_eq!(node.next_due(), Err(Refusal::WatchedNodes));
    assert_eq!(node.tick(0), Err(Refusal::WatchedNodes));
    *node.run_mut() = Run::default();
    assert_eq!(node.next_due(), Ok(None));
}

#[test]
fn the_history_is_read_as_it_was_loaded() {
    let mut bytes = [0; 45];
    bytes[0] = 1;
    bytes[20] = 2;
    let mut node = Node::start(&Setup::new(7), &[]).unwrap();
    node.load(&Update {
        history: Some(&bytes),
        ..Update::default()
    });
    // Newest first; the five bytes behind the last whole entry are no entry.
    assert!(node.history().map(|entry| entry.profile).eq([1, 2]));
    assert_eq!(node.head().history_length(), 2);
    node.load(&Update {
        history: Some(&[]),
        ..Update::default()
    });
    assert_eq!(node.history().next(), None);
}

#[test]
fn what_is_printed_of_a_node_has_its_head() {
    let node = Node::start(&Setup::new(7), &[]).unwrap();
    let head: &Head = node.head();
    assert!(format!("{node:?}").contains(&format!("{head:?}")));
}

#[test]
fn weigh_heads_are_equal_by_what_they_keep() {
    let mut weigh = WeighHead::start(&Setup::new(7), &[]).unwrap();
    for event in [
        NmtEvent::SwReset,
        NmtEvent::SoAReceived,
        NmtEvent::SocReceived,
    ] {
        weigh.nmt_event(event);
    }
    let mut other = weigh.clone();
    weigh.load_recipe(&[Component::new(12, 250)]).unwrap();
    assert_ne!(weigh, other);
    other.load_recipe(&[Component::new(12, 249)]).unwrap();
    assert_eq!(weigh.head(), other.head());
    assert_ne!(weigh, other);
    other.load_recipe(&[Component::new(12, 250)]).unwrap();
    assert_eq!(weigh, other);
}
