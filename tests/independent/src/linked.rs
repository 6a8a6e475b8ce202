//! The library's call. Each program has this file as a module of its own, so that only programs
//! are linked with the library.

#[link(name = "reflectors_c", kind = "static")]
extern "C" {
    fn reflectors_direct(
        table: *const u8,
        table_length: usize,
        injected: u64,
        buffer: *mut u8,
        buffer_length: usize,
    ) -> u64;
}

pub fn direct(table: &[u8], injected: u64, buffer: &mut [u8]) -> u64 {
    // SAFETY: the pointers of slices are never null and stand for as many bytes as their lengths
    // say; two slices of which one is mutable do not overlap.
    unsafe {
        reflectors_direct(
            table.as_ptr(),
            table.len(),
            injected,
            buffer.as_mut_ptr(),
            buffer.len(),
        )
    }
}
