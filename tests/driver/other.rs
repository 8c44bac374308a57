//! The call of another build of the library, under the name that `tests/versus` gives it.

use crate::library::Numbers;

extern "C" {
    fn other_compile(
        file: *const u8,
        file_len: usize,
        work: *mut u32,
        work_len: usize,
        out: *mut u32,
        out_len: usize,
    ) -> Numbers;
}

pub fn compile(file: &[u8], work: &mut [u32], out: &mut [u32]) -> Numbers {
    let (work_words, out_words) = (work.as_mut_ptr(), out.as_mut_ptr());
    // Slices are as long as they say, and apart.
    unsafe {
        other_compile(file.as_ptr(), file.len(), work_words, work.len(), out_words, out.len())
    }
}
