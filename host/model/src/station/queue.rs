//! A queue of frames.

use super::frames::Frame;
use crate::refusal::Refusal;
use std::collections::VecDeque;

/// "Each queue has 128 slots"
pub const SLOTS: usize = 128;

#[derive(Clone, Debug, PartialEq, Eq)]
pub struct Queue {
    pub capacity: u64,
    /// The slot of the first frame, or of the next one to come where there is none.
    first: usize,
    /// "Queues are first in, first out, and freed room is used again."
    held: VecDeque<Frame>,
}

impl Queue {
    /// "Each queue has 128 slots, all empty at the start"
    pub fn new(capacity: u64) -> Queue {
        Queue::of_frames(capacity, 0, VecDeque::new())
    }

    /// These frames from this slot on. They are taken to be in range.
    pub fn of_frames(capacity: u64, first: usize, held: VecDeque<Frame>) -> Queue {
        Queue {
            capacity,
            first,
            held,
        }
    }

    pub fn first_slot(&self) -> usize {
        self.first
    }

    /// What each slot holds: the frames stand one behind the other, and slot 0 follows
    /// slot 127.
    pub fn slots(&self) -> [Option<Frame>; SLOTS] {
        let mut slots = [None; SLOTS];
        for (behind, frame) in self.held.iter().enumerate() {
            slots[(self.first + behind) % SLOTS] = Some(*frame);
        }
        slots
    }

    pub fn frames(&self) -> usize {
        self.held.len()
    }

    /// "bytes held (the sizes' sum [...])"
    pub fn bytes(&self) -> u64 {
        self.held.iter().map(|frame| frame.size).sum()
    }

    /// "space is capacity less bytes held, or 0 with 128 frames held."
    pub fn space(&self) -> u64 {
        if self.frames() == SLOTS {
            0
        } else {
            self.capacity - self.bytes()
        }
    }

    pub fn head(&self) -> Option<Frame> {
        self.held.front().copied()
    }

    /// "4 | a frame's size exceeds the queue's space"
    pub fn put(&mut self, frame: Frame) -> Result<(), Refusal> {
        if frame.size > self.space() {
            return Err(Refusal::Space);
        }
        self.held.push_back(frame);
        Ok(())
    }

    /// The head leaves, and the slot behind its own is the first.
    pub fn take(&mut self) -> Option<Frame> {
        let head = self.held.pop_front()?;
        self.first = (self.first + 1) % SLOTS;
        Some(head)
    }
}
