//! The library under test, by its C entry.

unsafe extern "C" {
    fn odd_lot_play(file: *const u8, file_len: usize, out: *mut u8, out_len: usize) -> u64;
}

pub fn play(file: &[u8], out: &mut [u8]) -> u64 {
    // SAFETY: both are slices, so their pointers are good for their lengths, and they do not overlap.
    unsafe { odd_lot_play(file.as_ptr(), file.len(), out.as_mut_ptr(), out.len()) }
}
