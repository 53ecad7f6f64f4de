//! The functions of `include/x86_vcpu.h`. A buffer is a pointer and its length; each function answers 0 or the number of the refusal.

extern "C" {
    pub fn vcpu_new(record: *mut u8, length: usize, a: *mut u8, a_length: usize, b: *mut u8, b_length: usize, msr: *mut u8, msr_length: usize) -> u32;
    pub fn vcpu_setup(
        record: *mut u8,
        length: usize,
        block: *const u8,
        block_length: usize,
        a: *mut u8,
        a_length: usize,
        b: *mut u8,
        b_length: usize,
        msr: *mut u8,
        msr_length: usize,
    ) -> u32;
    pub fn vcpu_queue_event(record: *mut u8, length: usize, vector: u8, coded: u8, code: u32) -> u32;
    pub fn vcpu_inject_interrupt(record: *mut u8, length: usize, vector: u64) -> u32;
    pub fn vcpu_entry(record: *mut u8, length: usize, host_stack: u64, resumed: *mut u8, event: *mut u8) -> u32;
    pub fn vcpu_exit_report(record: *mut u8, length: usize, block: *const u8, block_length: usize, answer: *mut u64) -> u32;
    pub fn vcpu_apic_value(record: *mut u8, length: usize, value: u64) -> u32;
    pub fn vcpu_read_field(record: *const u8, length: usize, encoding: u64, value: *mut u64) -> u32;
    pub fn vcpu_write_field(record: *mut u8, length: usize, encoding: u64, value: u64) -> u32;
    pub fn vcpu_get_reg_of_index(record: *const u8, length: usize, index: u64, value: *mut u64) -> u32;
    pub fn vcpu_set_reg_of_index(record: *mut u8, length: usize, index: u64, value: u64) -> u32;
    pub fn vcpu_get_counts(record: *const u8, length: usize, phase: *mut u8, launched: *mut u8, waiting: *mut u8, entries: *mut u32, held: *mut u32) -> u32;
    pub fn vcpu_get_xcr0(record: *const u8, length: usize, xcr0: *mut u64) -> u32;
    pub fn vcpu_get_cpu_mode(record: *const u8, length: usize, host_efer: u64, mode: *mut u32) -> u32;
    pub fn vcpu_get_ptw_info(record: *const u8, length: usize, top_entry: *mut u64, level: *mut u8, width: *mut u8, flags: *mut u32) -> u32;
    pub fn vcpu_page_walk(
        record: *const u8,
        length: usize,
        memory: *const u8,
        memory_length: usize,
        address: u64,
        kind: u8,
        answer: *mut u64,
    ) -> u32;
    pub fn vcpu_gla2gva(record: *const u8, length: usize, host_efer: u64, address: u64, linear: *mut u64) -> u32;
    pub fn vcpu_set_control(allowed0: u32, allowed1: u32, old: u32, set: u32, clear: u32, word: *mut u32) -> u32;
    pub fn vcpu_set_io_intercept_of_range(a: *mut u8, a_length: usize, b: *mut u8, b_length: usize, port_base: u32, count: u32, intercept: u8) -> u32;
    pub fn vcpu_set_read_intercept(frame: *mut u8, length: usize, msr: u32, intercept: u8) -> u32;
    pub fn vcpu_set_write_intercept(frame: *mut u8, length: usize, msr: u32, intercept: u8) -> u32;
    pub fn vcpu_set_msr_intercept_of_range(frame: *mut u8, length: usize, msr: u32, intercept: u8) -> u32;
    pub fn vcpu_trap_sheet(
        a: *const u8,
        a_length: usize,
        b: *const u8,
        b_length: usize,
        msr: *const u8,
        msr_length: usize,
        output: *mut u8,
        output_length: usize,
        length: *mut u64,
    ) -> u32;
    pub fn vcpu_try_exit_report(
        record: *const u8,
        length: usize,
        shown: *mut u8,
        shown_length: usize,
        block: *const u8,
        block_length: usize,
        answer: *mut u64,
    ) -> u32;
    pub fn vcpu_try_entry(record: *const u8, length: usize, shown: *mut u8, shown_length: usize, host_stack: u64, resumed: *mut u8, event: *mut u8) -> u32;
    pub fn vcpu_try_io_intercept_of_range(
        a: *const u8,
        a_length: usize,
        b: *const u8,
        b_length: usize,
        shown_a: *mut u8,
        shown_a_length: usize,
        shown_b: *mut u8,
        shown_b_length: usize,
        port_base: u32,
        count: u32,
        intercept: u8,
    ) -> u32;
    pub fn vcpu_try_read_intercept(frame: *const u8, length: usize, shown: *mut u8, shown_length: usize, msr: u32, intercept: u8) -> u32;
    pub fn vcpu_try_write_intercept(frame: *const u8, length: usize, shown: *mut u8, shown_length: usize, msr: u32, intercept: u8) -> u32;
    pub fn vcpu_try_msr_intercept_of_range(frame: *const u8, length: usize, shown: *mut u8, shown_length: usize, msr: u32, intercept: u8) -> u32;
}
