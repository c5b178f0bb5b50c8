//! A safe wrapper around the call into the static library.

unsafe extern "C" {
    fn zefrwyll_host_enclosures(
        lines: *const u8,
        lines_len: usize,
        readings: *const u8,
        readings_len: usize,
        lo: i32,
        hi: i32,
        out: *mut u8,
        out_len: usize,
    ) -> i64;
}

/// Asks the library for both enclosures; the answer is written to `out`.
/// Gives back the code of the call: 0 when it was answered.
pub fn enclosures(lines: &[u8], readings: &[u8], lo: i32, hi: i32, out: &mut [u8]) -> i64 {
    // SAFETY: each pointer comes with the length of its own slice, the slices
    // live until the call is over, and `out` is not shared with anything.
    unsafe {
        zefrwyll_host_enclosures(
            lines.as_ptr(),
            lines.len(),
            readings.as_ptr(),
            readings.len(),
            lo,
            hi,
            out.as_mut_ptr(),
            out.len(),
        )
    }
}
