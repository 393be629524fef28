//! The proved machine: the functions of the Rattle crate `boundary`.

mod foreign {
    extern "C" {
        pub fn pump_case(
            script: *const u8,
            script_length: usize,
            transcript: *mut u8,
            transcript_length: usize,
        ) -> usize;
        pub fn pump_open_many(image: *const u8, length: usize, times: u32) -> u32;
        pub fn pump_run(image: *const u8, length: usize, engine: u8, budget: u32) -> u32;
        pub fn pump_page_many(image: *const u8, length: usize, budget: u32, times: u32) -> u32;
    }
}

// Each of them reads the bytes of the slices that it is given, writes at most those of the one
// that is lent for writing, and keeps none.

pub fn run_case(script: &[u8], transcript: &mut [u8]) -> usize {
    unsafe {
        foreign::pump_case(
            script.as_ptr(),
            script.len(),
            transcript.as_mut_ptr(),
            transcript.len(),
        )
    }
}

pub fn open_many(image: &[u8], times: u32) -> u32 {
    unsafe { foreign::pump_open_many(image.as_ptr(), image.len(), times) }
}

pub fn run_image(image: &[u8], engine: u8, budget: u32) -> u32 {
    unsafe { foreign::pump_run(image.as_ptr(), image.len(), engine, budget) }
}

pub fn page_many(image: &[u8], budget: u32, times: u32) -> u32 {
    unsafe { foreign::pump_page_many(image.as_ptr(), image.len(), budget, times) }
}
