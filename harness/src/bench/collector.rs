//! What a program would set behind PCRE2's callout to list readings: rows, each once, found again by a hash table, so that a reading costs the
//! same however many there are.

use std::ffi::{c_int, c_void};

use crate::independent::{Row, ROW_LENGTH};
use crate::pcre2::row;
use crate::pcre2::sys::{group_offsets, Callout};

pub struct Collector {
    rows: Vec<u32>,
    count: usize,
    /// A row's number, counted from 1, or 0; its length is a power of 2 and at least twice that of the rows.
    table: Vec<u32>,
}

impl Collector {
    pub fn new(room: usize) -> Collector {
        Collector { rows: vec![0; ROW_LENGTH * room], count: 0, table: vec![0; (2 * room).next_power_of_two()] }
    }

    pub fn clear(&mut self) {
        self.table.fill(0);
        self.count = 0;
    }

    /// The rows so far.
    pub fn rows(&self) -> &[u32] {
        &self.rows[..ROW_LENGTH * self.count]
    }

    /// Keeps a reading if it is new; `used` numbers of it are not the same in all rows.
    fn note(&mut self, row: &Row, used: usize) {
        let mut slot = hash(&row[..used]) as usize & (self.table.len() - 1);
        while self.table[slot] != 0 {
            if self.row(self.table[slot] as usize - 1)[..] == row[..] {
                return;
            }
            slot = (slot + 1) & (self.table.len() - 1);
        }
        self.rows[ROW_LENGTH * self.count..][..ROW_LENGTH].copy_from_slice(row);
        self.count += 1;
        self.table[slot] = self.count as u32;
    }

    fn row(&self, number: usize) -> &[u32] {
        &self.rows[ROW_LENGTH * number..][..ROW_LENGTH]
    }
}

fn hash(numbers: &[u32]) -> u64 {
    let mixed = numbers.iter().fold(0, |mixed: u64, &number| (mixed.rotate_left(5) ^ u64::from(number)).wrapping_mul(0x517C_C1B7_2722_0A95));
    mixed >> 32
}

/// The handler at the rule's end: keeps the reading in the `Collector` that it is given, and says "fail here and go on".
pub extern "C" fn collect(callout: *const Callout, collector: *mut c_void) -> c_int {
    // Safety: PCRE2 hands over its block, and whoever sets this handler a collector; the offsets are used up here.
    let (block, collector, offsets) = unsafe { (&*callout, &mut *collector.cast::<Collector>(), group_offsets(&*callout)) };
    collector.note(&row(block.start_match, block.current_position, offsets), 2 + offsets.len());
    1
}
