//! A row of parts of one kind. Of a long one the first and the last are shown.

use std::collections::VecDeque;

use super::walk::Walk;
use crate::wording::grouped;

const FIRST: usize = 4;
const LAST: usize = 3;

/// A part that has not been put in words.
struct Item<T> {
    number: u64,
    offset: usize,
    length: usize,
    data: T,
}

/// Keeps what is shown and counts the rest, so that millions of parts need no memory.
struct Abridged<T> {
    first: Vec<Item<T>>,
    last: VecDeque<Item<T>>,
    left_out: u64,
    left_out_offset: usize,
    left_out_length: usize,
}

/// Reads so many parts and notes them. `kind` is their noun in the forms of one and of many. Where `read` has none, the walk is back
/// in front of the part that it could not read. Says how many it has read.
pub fn note_all<T>(
    walk: &mut Walk,
    total: u64,
    kind: (&str, &str),
    mut read: impl FnMut(&mut Walk) -> Option<T>,
    in_words: impl Fn(&T) -> String,
) -> u64 {
    let mut row = Abridged::new();
    let mut number = 0;
    while number < total {
        let offset = walk.at();
        let Some(data) = read(walk) else {
            walk.go_back(offset);
            break;
        };
        number += 1;
        row.push(Item { number, offset, length: walk.at() - offset, data });
    }
    row.note(walk, kind, in_words);
    number
}

impl<T> Abridged<T> {
    fn new() -> Abridged<T> {
        Abridged { first: Vec::new(), last: VecDeque::new(), left_out: 0, left_out_offset: 0, left_out_length: 0 }
    }

    fn push(&mut self, item: Item<T>) {
        if self.first.len() < FIRST {
            self.first.push(item);
            return;
        }
        self.last.push_back(item);
        // One more than is shown in the end, so that the line which stands for others stands for two at least.
        if self.last.len() > LAST + 1 {
            self.leave_out();
        }
    }

    fn leave_out(&mut self) {
        if let Some(item) = self.last.pop_front() {
            if self.left_out == 0 {
                self.left_out_offset = item.offset;
            }
            self.left_out += 1;
            self.left_out_length += item.length;
        }
    }

    fn note(mut self, walk: &mut Walk, kind: (&str, &str), in_words: impl Fn(&T) -> String) {
        if self.left_out > 0 {
            self.leave_out();
        }
        let note = |walk: &mut Walk, item: &Item<T>| {
            let what = format!("{} {}", kind.0, grouped(item.number));
            walk.note(item.offset, item.length, &what, in_words(&item.data));
        };
        self.first.iter().for_each(|item| note(walk, item));
        if self.left_out > 0 {
            let left_out = format!("{} more {}", grouped(self.left_out), kind.1);
            walk.note(self.left_out_offset, self.left_out_length, "...", left_out);
        }
        self.last.iter().for_each(|item| note(walk, item));
    }
}

#[cfg(test)]
mod tests {
    use super::*;

    /// What is noted of so many parts of two bytes each.
    fn noted(count: usize) -> Vec<(usize, usize, String)> {
        let bytes = vec![0; 2 * count];
        let mut walk = Walk::new(&bytes);
        let read = |walk: &mut Walk| walk.pass(2).then_some(walk.at());
        assert_eq!(note_all(&mut walk, count as u64 + 1, ("run", "runs"), read, usize::to_string), count as u64);
        assert!(walk.rest().is_empty());
        walk.into_parts().into_iter().map(|part| (part.offset, part.length, part.what + ":" + &part.value)).collect()
    }

    #[test]
    fn a_short_row_is_shown_whole() {
        for count in 0..=FIRST + LAST + 1 {
            let part = |number: usize| (2 * number - 2, 2, format!("run {number}:{}", 2 * number));
            assert_eq!(noted(count), (1..=count).map(part).collect::<Vec<_>>());
        }
    }

    #[test]
    fn of_a_long_row_the_middle_is_left_out() {
        let noted = noted(1000);
        assert_eq!(noted.len(), FIRST + 1 + LAST);
        assert_eq!(noted[FIRST - 1], (6, 2, "run 4:8".to_string()));
        assert_eq!(noted[FIRST], (8, 1986, "...:993 more runs".to_string()));
        assert_eq!(noted[FIRST + 1], (1994, 2, "run 998:1996".to_string()));
        assert_eq!(noted[FIRST + LAST], (1998, 2, "run 1,000:2000".to_string()));
    }
}
