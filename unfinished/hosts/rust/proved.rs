//! The proved library's C function, and a safe way to call it.

extern "C" {
    fn depot_run(script: *const u8, script_len: usize, out: *mut u8, out_len: usize) -> usize;
}

/// What the function answers where the listing does not fit.
pub const NO_ROOM: usize = 1_000_036;

/// Runs a script; the answer is how many bytes of the buffer were written, or `NO_ROOM`.
pub fn run(script: &[u8], out: &mut [u8]) -> usize {
    // The function reads and writes within the two slices only.
    unsafe { depot_run(script.as_ptr(), script.len(), out.as_mut_ptr(), out.len()) }
}

/// The listing of a script, with a buffer that grows until it fits.
pub fn listing(script: &[u8]) -> Vec<u8> {
    let mut out = vec![0; 1024];
    loop {
        let written = run(script, &mut out);
        if written == NO_ROOM {
            out.resize(out.len() * 2, 0);
        } else {
            out.truncate(written);
            return out;
        }
    }
}
