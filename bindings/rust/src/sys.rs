//! The calls as `include/oce.h` declares them.

/// The answer's four numbers; `include/oce.h` tells them apart.
#[repr(C)]
#[derive(Clone, Copy, PartialEq, Eq, Debug)]
pub struct OceAnswer {
    pub refusal: u32,
    pub at: u32,
    pub errors: u32,
    pub warnings: u32,
}

/// The three numbers of a batch's answer; `include/oce.h` tells them apart.
#[repr(C)]
#[derive(Clone, Copy, PartialEq, Eq, Debug)]
pub struct OceBatchAnswer {
    pub refusal: u64,
    pub at: u64,
    pub written: u64,
}

unsafe extern "C" {
    fn oce_check(
        image: *const u8,
        n: usize,
        filled: *mut u8,
        m: usize,
        report: *mut u8,
        k: usize,
    ) -> OceAnswer;

    fn oce_check_batch(batch: *const u8, n: usize, output: *mut u8, k: usize) -> OceBatchAnswer;
}

/// The call with its answer as it comes.
pub fn check(image: &[u8], filled: &mut [u8], report: &mut [u8]) -> OceAnswer {
    // SAFETY: each pointer comes with its slice's own length, and the borrows keep the three apart
    // and unchanged by anyone else during the call. The function asks nothing more.
    unsafe {
        oce_check(
            image.as_ptr(),
            image.len(),
            filled.as_mut_ptr(),
            filled.len(),
            report.as_mut_ptr(),
            report.len(),
        )
    }
}

/// The call for a batch with its answer as it comes.
pub fn check_batch(batch: &[u8], output: &mut [u8]) -> OceBatchAnswer {
    // SAFETY: each pointer comes with its slice's own length, and the borrows keep the two apart
    // and unchanged by anyone else during the call. The function asks nothing more.
    unsafe {
        oce_check_batch(
            batch.as_ptr(),
            batch.len(),
            output.as_mut_ptr(),
            output.len(),
        )
    }
}
