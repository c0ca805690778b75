// Made by tools/rust of crates/receiver/src/queues.rt: change that.
//! The scripts of all clients, side by side.

use crate::receiver::due::Due;
use crate::receiver::queue::Queue;
use crate::receiver::session::QUEUES;
use crate::kit::arrayvec::ArrayVec;

/// All entries of each script, whose client has the share at its place.
pub fn queues_of<'a>(scripts: &'a [&'a [u8]], shares: &[u8]) -> ArrayVec<Queue<'a>, QUEUES> {
    assert!(
        scripts.len() <= QUEUES,
        "queues_of requires scripts.len() <= QUEUES"
    );
    assert!(
        shares.len() == scripts.len(),
        "queues_of requires a share for each script"
    );
    let mut queues = ArrayVec::new();
    for index in 0..scripts.len() {
        queues.push(Queue::new(scripts[index], shares[index]));
    }
    queues
}

/// The samples until the first entry of any client.
pub fn least_gap(queues: &[Queue], now: u64) -> u64 {
    let mut least = u64::MAX;
    for queue in queues {
        least = least.min(queue.gap(now));
    }
    least
}

/// Takes the first entry that stands at this time, by client.
pub fn take_due(queues: &mut [Queue], now: u64) -> Option<Due> {
    assert!(
        queues.len() <= QUEUES,
        "take_due requires queues.len() <= QUEUES"
    );
    for index in 0..queues.len() {
        if let Some(timed) = queues[index].take_due(now) {
            return Some(Due {
                client: index as u8 + 1,
                what: timed.what,
            });
        }
    }
    None
}
