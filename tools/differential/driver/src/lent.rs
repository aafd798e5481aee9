//! A buffer as a caller lends it, between canaries in a larger allocation. Each place of the allocation holds a number of its own
//! before a call, so that what a call changed, where it should not have, is seen wherever it lies.

use crate::numbers::Source;
use std::fmt::Display;

pub trait Element: Copy + PartialEq + Display {
    /// The canaries on each side.
    const CANARIES: usize;
    /// In so many ways a buffer's start is moved, each by one element more.
    const SHIFTS: u64;
    /// What a place of the allocation holds before a call.
    fn old(place: usize) -> Self;
}

impl Element for u8 {
    const CANARIES: usize = 32;
    const SHIFTS: u64 = 16;
    fn old(place: usize) -> u8 {
        (place as u8).wrapping_mul(29) ^ 0xa5
    }
}

impl Element for u64 {
    const CANARIES: usize = 4;
    const SHIFTS: u64 = 4;
    fn old(place: usize) -> u64 {
        (place as u64 + 1).wrapping_mul(0x9e37_79b9_7f4a_7c15)
    }
}

impl Element for i64 {
    const CANARIES: usize = u64::CANARIES;
    const SHIFTS: u64 = u64::SHIFTS;
    fn old(place: usize) -> i64 {
        u64::old(place) as i64
    }
}

pub struct Lent<T> {
    memory: Vec<T>,
    start: usize,
    len: usize,
    null: bool,
    /// An allocation of the buffer alone, made anew for each call: valgrind then sees what is read or written beside it.
    exact: bool,
}

impl<T: Element> Lent<T> {
    pub fn new(exact: bool) -> Lent<T> {
        Lent { memory: Vec::new(), start: 0, len: 0, null: true, exact }
    }

    /// Lends `len` elements with their old contents. Half of the buffers that have none are NULL.
    pub fn lend(&mut self, len: usize, vary: &mut Source) {
        let canaries = if self.exact { 0 } else { T::CANARIES };
        let shift = if self.exact { 0 } else { vary.below(T::SHIFTS) as usize };
        (self.start, self.len) = (canaries + shift, len);
        self.null = len == 0 && vary.below(2) == 0;
        let total = self.start + len + canaries;
        if self.exact {
            self.memory = Vec::with_capacity(total);
        } else {
            self.memory.clear();
        }
        self.memory.extend((0..total).map(T::old));
    }

    /// Lends what is to be read.
    pub fn hold(&mut self, contents: &[T], vary: &mut Source) {
        self.lend(contents.len(), vary);
        self.memory[self.start..][..contents.len()].copy_from_slice(contents);
    }

    pub fn len(&self) -> usize {
        self.len
    }

    pub fn as_ptr(&self) -> *const T {
        if self.null {
            return std::ptr::null();
        }
        self.memory[self.start..].as_ptr()
    }

    pub fn as_mut_ptr(&mut self) -> *mut T {
        if self.null {
            return std::ptr::null_mut();
        }
        // Of the whole allocation, so that a write beside the buffer is one to memory that is there.
        self.memory.as_mut_ptr().wrapping_add(self.start)
    }

    /// The first elements, as many as there are.
    pub fn front(&self, len: usize) -> &[T] {
        &self.memory[self.start..][..len.min(self.len)]
    }

    /// An element by its place from the buffer's first on, canaries too.
    pub fn at(&mut self, place: isize) -> Option<&mut T> {
        self.memory.get_mut(self.start.wrapping_add_signed(place))
    }

    /// What is wrong with a buffer that should have `front` at its front and else its old contents, canaries too.
    pub fn fault(&self, front: &[T]) -> Option<String> {
        let end = self.start + front.len();
        let (before, rest) = self.memory.split_at(self.start);
        let (stored, behind) = rest.split_at(front.len().min(rest.len()));
        if are_old(before, 0) && stored == front && are_old(behind, end) {
            return None;
        }
        let wanted = |place: usize| {
            place.checked_sub(self.start).and_then(|place| front.get(place).copied()).unwrap_or(T::old(place))
        };
        let Some(place) = (0..self.memory.len()).find(|&place| self.memory[place] != wanted(place)) else {
            return Some("is too short for what it should hold".to_string());
        };
        Some(format!("{} holds {}, not {}", self.name_of(place), self.memory[place], wanted(place)))
    }

    fn name_of(&self, place: usize) -> String {
        let end = self.start + self.len;
        if place < self.start {
            format!("the canary {} before it", self.start - place)
        } else if place < end {
            format!("place {}", place - self.start)
        } else {
            format!("the canary {} behind it", place - end + 1)
        }
    }
}

fn are_old<T: Element>(cells: &[T], from: usize) -> bool {
    // Without a way out in the middle the compiler compares many at once.
    cells.iter().zip(from..).fold(true, |all, (&cell, place)| all & (cell == T::old(place)))
}
