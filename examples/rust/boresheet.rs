// include/boresheet.h in Rust: the C functions, and the same over slices of any length.
unsafe extern "C" {
    pub fn boresheet_check(sheet: *const u8, sheet_len: usize, kinds: *mut u8, kinds_len: usize, line: *mut u32) -> u32;
    pub fn boresheet_run(
        sheet: *const u8,
        sheet_len: usize,
        readings: *const f64,
        readings_len: usize,
        out: *mut u8,
        out_len: usize,
        line: *mut u32,
        written: *mut u64,
    ) -> u32;
}

// What is not set would show.
const UNSET: u32 = 0xa5a5_a5a5;

// Number and line.
pub fn check(sheet: &[u8], kinds: &mut [u8]) -> (u32, u32) {
    let mut line = UNSET;
    let number = unsafe { boresheet_check(sheet.as_ptr(), sheet.len(), kinds.as_mut_ptr(), kinds.len(), &mut line) };
    (number, line)
}

// Number, line and bytes written.
pub fn run(sheet: &[u8], readings: &[f64], out: &mut [u8]) -> (u32, u32, u64) {
    let (mut line, mut written) = (UNSET, UNSET as u64);
    let number = unsafe {
        boresheet_run(
            sheet.as_ptr(),
            sheet.len(),
            readings.as_ptr(),
            readings.len(),
            out.as_mut_ptr(),
            out.len(),
            &mut line,
            &mut written,
        )
    };
    (number, line, written)
}
