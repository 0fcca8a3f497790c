//! The two programs that are measured, under one signature.

/// Runs a list into a buffer: the code, and the bytes written.
pub type Program = fn(&[u8], &mut [u8]) -> (u32, usize);

/// The programs and their names.
pub const PROGRAMS: [(&str, Program); 2] = [("proved", proved), ("second", second)];

#[link(name = "embed", kind = "static")]
extern "C" {
    fn aldwomp_run(
        list: *const u8,
        list_length: usize,
        out: *mut u8,
        out_length: usize,
        written: *mut usize,
    ) -> u32;
}

/// The proved run, as C calls it.
pub fn proved(list: &[u8], out: &mut [u8]) -> (u32, usize) {
    let mut written = 0;
    // SAFETY: the pointers are of slices and of a local, so they are valid for
    // their lengths, not null, and overlap nowhere.
    let code = unsafe {
        aldwomp_run(list.as_ptr(), list.len(), out.as_mut_ptr(), out.len(), &mut written)
    };
    (code, written)
}

/// The second program's run.
pub fn second(list: &[u8], out: &mut [u8]) -> (u32, usize) {
    match second::run_into(list, out) {
        Ok(written) => (0, written),
        Err(refusal) => (u32::from(refusal.number()), 0),
    }
}
