//! Erasing what is no longer needed.

use core::ptr;
use core::sync::atomic::{compiler_fence, Ordering};

/// Zeros over a list, of numbers or bytes, that is no longer needed: draws and packs once they are
/// written and loaded, messages, records and rows with the last opening. The compiler leaves no write
/// out.
///
/// ```
/// let mut rows = [5; gantsorol::rows_len(3, 1, 1)];
/// gantsorol::erase(&mut rows);
/// assert_eq!(rows, [0; gantsorol::rows_len(3, 1, 1)]);
/// ```
pub fn erase<T: Copy + Default>(list: &mut [T]) {
    for item in list {
        // SAFETY: the item is borrowed, to be written.
        unsafe { ptr::write_volatile(item, T::default()) };
    }
    compiler_fence(Ordering::SeqCst);
}
