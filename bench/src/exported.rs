//! The proved library's functions, as `crates/bench_checks_c`, `crates/bench_rounds_c` and
//! `crates/test_script_c` export them.
#[allow(improper_ctypes)]
extern "C" {
    fn flow_checks(file: &[u8], mode: u32, inputs: &[u32], allowed: u32, limit: u32, rounds: u32) -> u64;
    fn flow_loads(files: &[u8], rounds: u32) -> u64;
    fn flow_writes(file: &[u8], buf: &mut [u8], rounds: u32) -> u64;
    fn flow_converts(file: &[u8], buf: &mut [u8], rounds: u32) -> u64;
    fn flow_rewrites(files: &[u8], buf: &mut [u8], rounds: u32) -> u64;
    fn flow_shows(file: &[u8], rounds: u32) -> u64;
    fn flow_script(files: &[u8], words: &[u32], told: &mut [u32], buf: &mut [u8]) -> usize;
}

pub fn checks(file: &[u8], mode: u32, inputs: &[u32], allowed: u32, limit: u32, rounds: u32) -> u64 {
    unsafe { flow_checks(file, mode, inputs, allowed, limit, rounds) }
}

pub fn loads(files: &[u8], rounds: u32) -> u64 {
    unsafe { flow_loads(files, rounds) }
}

pub fn writes(file: &[u8], buf: &mut [u8], rounds: u32) -> u64 {
    unsafe { flow_writes(file, buf, rounds) }
}

pub fn converts(file: &[u8], buf: &mut [u8], rounds: u32) -> u64 {
    unsafe { flow_converts(file, buf, rounds) }
}

pub fn rewrites(files: &[u8], buf: &mut [u8], rounds: u32) -> u64 {
    unsafe { flow_rewrites(files, buf, rounds) }
}

pub fn shows(file: &[u8], rounds: u32) -> u64 {
    unsafe { flow_shows(file, rounds) }
}

/// A list of calls, and what each tells, four numbers a call: the three of `kinds::numbers`, and a
/// sum over bytes; how many calls were made.
pub fn script(files: &[u8], words: &[u32], told: &mut [u32], buf: &mut [u8]) -> usize {
    unsafe { flow_script(files, words, told, buf) }
}
