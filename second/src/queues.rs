//! The queues: "a queue for each direction of each link: first in, first out,
//! at most 4 messages".

use crate::limits::QUEUE_ROOM;
use crate::message::Message;
use crate::tree::UnitNumber;
use std::collections::{BTreeMap, VecDeque};

/// All queues of a network, by sender and receiver. Empty queues are not kept,
/// so that equal contents are equal values.
#[derive(Clone, Debug, Default, PartialEq, Eq)]
pub struct Queues {
    held: BTreeMap<(UnitNumber, UnitNumber), VecDeque<Message>>,
}

impl Queues {
    /// Puts a message last into the queue. The limit is judged by
    /// [`Queues::some_passes_limit`] after the whole event.
    pub fn push(&mut self, from: UnitNumber, to: UnitNumber, message: Message) {
        self.held.entry((from, to)).or_default().push_back(message);
    }

    /// Takes the first message off the queue, if there is one.
    pub fn pop(&mut self, from: UnitNumber, to: UnitNumber) -> Option<Message> {
        let queue = self.held.get_mut(&(from, to))?;
        let first = queue.pop_front();
        if queue.is_empty() {
            self.held.remove(&(from, to));
        }
        first
    }

    /// "Down empties both queues of the link."
    pub fn clear_link(&mut self, a: UnitNumber, b: UnitNumber) {
        self.held.remove(&(a, b));
        self.held.remove(&(b, a));
    }

    /// The messages of a queue, first one first.
    pub fn queue(&self, from: UnitNumber, to: UnitNumber) -> Vec<&Message> {
        self.held.get(&(from, to)).into_iter().flatten().collect()
    }

    /// Sender, receiver and messages of each queue that isn't empty.
    pub fn waiting(
        &self,
    ) -> impl Iterator<Item = (UnitNumber, UnitNumber, &VecDeque<Message>)> + '_ {
        self.held
            .iter()
            .map(|(&(from, to), queue)| (from, to, queue))
    }

    /// Whether nothing is on its way.
    pub fn all_empty(&self) -> bool {
        self.held.is_empty()
    }

    /// Whether some queue has more messages than it has room for.
    pub fn some_passes_limit(&self) -> bool {
        self.held.values().any(|queue| queue.len() > QUEUE_ROOM)
    }
}

#[cfg(test)]
mod tests {
    use super::*;

    fn message(sender: UnitNumber, acknowledgment: bool) -> Message {
        Message {
            sender,
            acknowledgment,
            update: None,
        }
    }

    #[test]
    fn first_in_first_out_for_each_direction() {
        let mut queues = Queues::default();
        queues.push(0, 1, message(0, true));
        queues.push(0, 1, message(0, false));
        queues.push(1, 0, message(1, true));
        assert_eq!(queues.pop(0, 1), Some(message(0, true)));
        assert_eq!(queues.pop(0, 1), Some(message(0, false)));
        assert_eq!(queues.pop(0, 1), None);
        assert_eq!(queues.queue(1, 0), [&message(1, true)]);
        assert_eq!(queues.pop(1, 0), Some(message(1, true)));
        assert_eq!(queues, Queues::default());
    }

    #[test]
    fn a_link_is_cleared_in_both_directions_and_no_other() {
        let mut queues = Queues::default();
        for (from, to) in [(0, 1), (1, 0), (0, 2), (2, 1)] {
            queues.push(from, to, message(from, true));
        }
        queues.clear_link(1, 0);
        let left: Vec<_> = queues.waiting().map(|(from, to, _)| (from, to)).collect();
        assert_eq!(left, [(0, 2), (2, 1)]);
    }
}
