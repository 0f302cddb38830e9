//! The limits of document 01, each written once, and the roundings.

/// "32 task places (numbers 1 to 32; task 1 is the job step task)"
pub const TASKS: u32 = 32;
/// "128 queue entries"
pub const ENTRIES: usize = 128;
/// "64 event control blocks (ECBs 0 to 63)"
pub const ECBS: u32 = 64;
/// "128 storage areas"
pub const AREAS: usize = 128;
/// "in a region of 131,072 bytes, addresses 0 to 131,071"
pub const REGION: u32 = 131_072;
/// "A page is 4,096 bytes."
pub const PAGE: u32 = 4_096;
/// Priorities and LPMOD are "0 to 255", DPMOD "-255 to 255".
pub const PRIORITY: u32 = 255;
/// END's and ABEND's code, "0 to 4,095".
pub const END_CODE: u32 = 4_095;
/// POST's code, "0 to 1,073,741,823".
pub const POST_CODE: u32 = 1_073_741_823;
/// "subpool 0 to 127"
pub const SUBPOOL: u32 = 127;
/// "takes 1 to 16 names", "takes 1 to 16 ECBs"
pub const LIST: usize = 16;
/// "a major part of 8 bytes"
pub const MAJOR: usize = 8;
/// "a minor part of 1 to 44 bytes"
pub const MINOR: usize = 44;
/// "in a name area of 16,384 bytes" (document 02, section 5)
pub const NAMES: usize = 16_384;
/// Areas begin at "multiples of 8", lengths are "rounded up to 8".
pub const GRAIN: u32 = 8;

/// Is this a task number, 1 to 32?
pub fn is_task(number: u32) -> bool {
    1 <= number && number <= TASKS
}

/// Is this an ECB number, 0 to 63?
pub fn is_ecb(number: u32) -> bool {
    number < ECBS
}

/// Is this an address of the region?
pub fn is_address(number: u32) -> bool {
    number < REGION
}

/// Is this a length that GETMAIN and FREEMAIN take?
pub fn is_length(number: u32) -> bool {
    1 <= number && number <= REGION
}

/// A length "rounded up to 8".
pub fn rounded(length: u32) -> u32 {
    (length + GRAIN - 1) / GRAIN * GRAIN
}
