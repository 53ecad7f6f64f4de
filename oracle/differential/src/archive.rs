//! The functions of the port's archive (include/x86_vcpu.h). A slice is a pointer and a length. Each answers 0,
//! or document 01's number of the refusal.

macro_rules! functions {
    ($( $text:tt $name:ident($($type:ty),* $(,)?); )*) => { $(
        /// The function, if the archive has it.
        pub fn $name() -> Option<unsafe extern "C" fn($($type),*) -> u32> {
            #[cfg(exported = $text)]
            {
                unsafe extern "C" {
                    fn $name($(_: $type),*) -> u32;
                }
                Some($name)
            }
            #[cfg(not(exported = $text))]
            None
        }
    )* };
}

functions! {
    // allowed-0, allowed-1, old, set, clear, word
    "vcpu_set_control" vcpu_set_control(u32, u32, u32, u32, u32, *mut u32);
    // I/O A, I/O B, first port, count, intercept
    "vcpu_set_io_intercept_of_range" vcpu_set_io_intercept_of_range(*mut u8, usize, *mut u8, usize, u32, u32, u8);
    // MSR frame, MSR, intercept
    "vcpu_set_read_intercept" vcpu_set_read_intercept(*mut u8, usize, u32, u8);
    "vcpu_set_write_intercept" vcpu_set_write_intercept(*mut u8, usize, u32, u8);
    "vcpu_set_msr_intercept_of_range" vcpu_set_msr_intercept_of_range(*mut u8, usize, u32, u8);
    // I/O A, I/O B, MSR frame, output, length
    "vcpu_trap_sheet" vcpu_trap_sheet(*const u8, usize, *const u8, usize, *const u8, usize, *mut u8, usize, *mut u64);
    // record, I/O A, I/O B, MSR frame
    "vcpu_new" vcpu_new(*mut u8, usize, *mut u8, usize, *mut u8, usize, *mut u8, usize);
    // record, arguments, I/O A, I/O B, MSR frame
    "vcpu_setup" vcpu_setup(*mut u8, usize, *const u8, usize, *mut u8, usize, *mut u8, usize, *mut u8, usize);
    // record, vector, code given, code
    "vcpu_queue_event" vcpu_queue_event(*mut u8, usize, u8, u8, u32);
    // record, vector
    "vcpu_inject_interrupt" vcpu_inject_interrupt(*mut u8, usize, u64);
    // record, host stack, resumed, event
    "vcpu_entry" vcpu_entry(*mut u8, usize, u64, *mut u8, *mut u8);
    // record, report, eight words of answer
    "vcpu_exit_report" vcpu_exit_report(*mut u8, usize, *const u8, usize, *mut u64);
    // record, value
    "vcpu_apic_value" vcpu_apic_value(*mut u8, usize, u64);
    // record, encoding, value
    "vcpu_read_field" vcpu_read_field(*const u8, usize, u64, *mut u64);
    "vcpu_write_field" vcpu_write_field(*mut u8, usize, u64, u64);
    // record, index, value
    "vcpu_get_reg_of_index" vcpu_get_reg_of_index(*const u8, usize, u64, *mut u64);
    "vcpu_set_reg_of_index" vcpu_set_reg_of_index(*mut u8, usize, u64, u64);
    // record, phase, launched, waiting, entries, held
    "vcpu_get_counts" vcpu_get_counts(*const u8, usize, *mut u8, *mut u8, *mut u8, *mut u32, *mut u32);
    // record, XCR0
    "vcpu_get_xcr0" vcpu_get_xcr0(*const u8, usize, *mut u64);
    // record, host EFER, mode
    "vcpu_get_cpu_mode" vcpu_get_cpu_mode(*const u8, usize, u64, *mut u32);
    // record, top entry, level, width, flags
    "vcpu_get_ptw_info" vcpu_get_ptw_info(*const u8, usize, *mut u64, *mut u8, *mut u8, *mut u32);
    // record, memory, address, access, three words of answer
    "vcpu_page_walk" vcpu_page_walk(*const u8, usize, *const u8, usize, u64, u8, *mut u64);
    // record, host EFER, address, linear address
    "vcpu_gla2gva" vcpu_gla2gva(*const u8, usize, u64, u64, *mut u64);
    // record, second record, report, eight words of answer
    "vcpu_try_exit_report"
    vcpu_try_exit_report(*const u8, usize, *mut u8, usize, *const u8, usize, *mut u64);
    // record, second record, host stack, resumed, event
    "vcpu_try_entry" vcpu_try_entry(*const u8, usize, *mut u8, usize, u64, *mut u8, *mut u8);
    // I/O A, I/O B, second I/O A, second I/O B, first port, count, intercept
    "vcpu_try_io_intercept_of_range"
    vcpu_try_io_intercept_of_range(
        *const u8, usize, *const u8, usize, *mut u8, usize, *mut u8, usize, u32, u32, u8,
    );
    // MSR frame, second MSR frame, MSR, intercept
    "vcpu_try_read_intercept" vcpu_try_read_intercept(*const u8, usize, *mut u8, usize, u32, u8);
    "vcpu_try_write_intercept" vcpu_try_write_intercept(*const u8, usize, *mut u8, usize, u32, u8);
    "vcpu_try_msr_intercept_of_range"
    vcpu_try_msr_intercept_of_range(*const u8, usize, *mut u8, usize, u32, u8);
}

/// The names of all functions that the archive exports.
pub fn exported() -> impl Iterator<Item = &'static str> {
    env!("EXPORTED").split_whitespace()
}
