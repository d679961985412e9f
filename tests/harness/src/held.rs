//! What descriptors hold.

use mritvelja::layout::*;
use mritvelja::Tables;

/// The open file that a process holds by a descriptor; none where either number is out of range.
pub fn open_file(tables: &Tables, process: u8, descriptor: u8) -> Option<usize> {
    let (process, descriptor) = (usize::from(process), usize::from(descriptor));
    if process >= PROCESSES || descriptor >= DESCRIPTORS {
        return None;
    }
    (tables.descriptors(process)[descriptor] as usize).checked_sub(1)
}

/// Whether an open file is on this slot, and open for reading.
pub fn reads(tables: &Tables, open_file: usize, slot: usize) -> bool {
    let entry = tables.open_file(open_file);
    entry[OPEN_REFERENCES] > 0
        && entry[OPEN_SLOT] as usize == slot
        && matches!(entry[OPEN_MODE], 1 | 3)
}
