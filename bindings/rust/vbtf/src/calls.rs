//! Calls of the C library as results.

use crate::error::Error;
use std::mem::{zeroed, MaybeUninit};
use vbtf_sys::vbtf_error;

const OK: u32 = 0;
const NO_ROOM: u32 = 100;
const NO_ITEM: u32 = 103;

/// The status of a call, the place of its value, which is written with status 0, and its error.
fn made<T>(call: impl FnOnce(*mut T, *mut vbtf_error) -> u32) -> (u32, MaybeUninit<T>, vbtf_error) {
    let mut value = MaybeUninit::zeroed();
    // SAFETY: all its fields are numbers, for which zero bits are a value.
    let mut error = unsafe { zeroed() };
    let status = call(value.as_mut_ptr(), &mut error);
    (status, value, error)
}

/// The value that a call of the library writes if it returns 0, or its error.
pub(crate) fn called<T>(call: impl FnOnce(*mut T, *mut vbtf_error) -> u32) -> Result<T, Error> {
    match made(call) {
        // SAFETY: a call that returns 0 has written its value.
        (OK, value, _) => Ok(unsafe { value.assume_init() }),
        (status, _, error) => Err(Error::of(status, &error)),
    }
}

/// The same for a call that may find nothing.
pub(crate) fn found<T>(
    call: impl FnOnce(*mut T, *mut vbtf_error) -> u32,
) -> Result<Option<T>, Error> {
    match made(call) {
        // SAFETY: a call that returns 0 has written its value.
        (OK, value, _) => Ok(Some(unsafe { value.assume_init() })),
        (NO_ITEM, _, _) => Ok(None),
        (status, _, error) => Err(Error::of(status, &error)),
    }
}

/// The output of a call in a buffer. If the buffer is too short, the call is made again with a longer one.
pub(crate) fn written<T: Copy + Default>(
    room: usize,
    call: impl Fn(*mut T, usize, *mut u64, *mut vbtf_error) -> u32,
) -> Result<Vec<T>, Error> {
    let mut buffer = vec![T::default(); room];
    loop {
        let (at, room) = (buffer.as_mut_ptr(), buffer.len());
        let mut needed = 0;
        match made::<()>(|_, error| call(at, room, &mut needed, error)) {
            (OK, _, _) => {
                buffer.truncate(needed as usize);
                return Ok(buffer);
            }
            (NO_ROOM, _, _) => buffer.resize(needed as usize, T::default()),
            (status, _, error) => return Err(Error::of(status, &error)),
        }
    }
}
