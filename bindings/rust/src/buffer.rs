//! Buffers that the library writes to.

use crate::sys;
use std::alloc::{alloc_zeroed, Layout};

/// The maximum length of a trace in bytes, and so of any plan.
pub(crate) const MOST_TRACE: usize = 1 << 30;

/// Returns zeros: `room` of them or, if allocation fails, half as many, and so on, but not fewer than the least. A large buffer occupies
/// memory only as far as it is written.
fn zeros(mut room: usize, least: usize) -> Option<Vec<u8>> {
    loop {
        let layout = Layout::array::<u8>(room.max(1)).ok()?;
        // SAFETY: the layout is not empty.
        let at = unsafe { alloc_zeroed(layout) };
        if !at.is_null() {
            // SAFETY: the allocator returned `room` bytes, of this layout, which are zeros.
            return Some(unsafe { Vec::from_raw_parts(at, room, room.max(1)) });
        }
        room /= 2;
        if room < least.max(1) {
            return None;
        }
    }
}

/// Returns the status and the output of a call. A call whose buffer is too small is made again with the required room.
pub(crate) fn given(room: usize, mut call: impl FnMut(&mut [u8], &mut usize) -> u32) -> (u32, Vec<u8>) {
    let (mut room, mut least) = (room, 0);
    loop {
        let (Some(mut buffer), mut size) = (zeros(room, least), 0) else {
            return (sys::MEMORY, Vec::new());
        };
        let status = call(&mut buffer, &mut size);
        if status != sys::TOO_SMALL {
            buffer.truncate(size);
            buffer.shrink_to_fit();
            return (status, buffer);
        }
        room = size;
        least = size;
    }
}

#[cfg(test)]
mod tests {
    use super::*;

    #[test]
    fn a_call_that_needs_more_is_made_twice() {
        let mut calls = 0;
        let given = given(2, |buffer, size| {
            calls += 1;
            *size = 5;
            if buffer.len() < 5 {
                return sys::TOO_SMALL;
            }
            buffer[..5].copy_from_slice(b"plans");
            sys::DONE
        });
        assert_eq!((calls, given), (2, (sys::DONE, b"plans".to_vec())));
    }

    #[test]
    fn a_room_that_the_system_refuses_is_halved() {
        assert!(zeros(usize::MAX / 4, 1 << 20).is_some_and(|zeros| zeros.len() >= 1 << 20));
        assert!(zeros(isize::MAX as usize, isize::MAX as usize).is_none());
    }
}
