//! The byte blocks of the C interface: setup's arguments and the exit report. Numbers stand one after the other, least
//! significant byte first, with nothing between them.

use crate::{Capabilities, HostWords, Report, Setup};

/// How many numbers setup takes.
pub const SETUP_NUMBERS: usize = 42;
/// Their widths in bytes: 18 host words, entry, guest PAT, four addresses, 14 capability MSRs, the supported bits of XCR0, three
/// yes/no bytes.
pub const SETUP_WIDTHS: [usize; SETUP_NUMBERS] = [
    8, 8, 8, 8, 8, 2, 2, 2, 2, 2, 2, 8, 8, 2, 8, 8, 8, 8, // host
    8, 8, // entry, guest PAT
    8, 8, 8, 8, // EPT root, I/O A, I/O B, MSR
    8, 8, 8, 8, 8, 8, 8, 8, 8, 8, 8, 8, 8, 8, // MSRs
    8, // supported bits of XCR0
    1, 1, 1, // RDTSCP, INVPCID, XSAVES
];
pub const SETUP_BYTES: usize = 273;
/// Where the yes/no bytes stand.
pub const SETUP_FLAGS: usize = SETUP_BYTES - 3;

/// The numbers, each in its width.
fn block(numbers: impl IntoIterator<Item = (u64, usize)>) -> Vec<u8> {
    let bytes = |(number, width): (u64, usize)| number.to_le_bytes().into_iter().take(width);
    numbers.into_iter().flat_map(bytes).collect()
}

impl Setup {
    /// The numbers in the order of the block: the host words as `setup_vmcs_host` has them, the MSRs by ascending number.
    pub fn numbers(&self) -> [u64; SETUP_NUMBERS] {
        let h = &self.host;
        let c = &self.capabilities;
        let [pin, primary, secondary, exit, entry] = c.pairs;
        let mut numbers = vec![h.pat, h.efer, h.cr0, h.cr3, h.cr4];
        numbers.extend([h.es, h.cs, h.ss, h.ds, h.fs, h.gs].map(u64::from));
        numbers.extend([h.fs_base, h.gs_base, h.tr as u64, h.tr_base, h.gdtr_base, h.idtr_base, h.rip]);
        numbers.extend([self.entry, self.guest_pat, self.ept_root]);
        numbers.extend(self.frames);
        numbers.push(self.vmx_basic);
        numbers.extend(c.plain);
        numbers.extend(c.fixed());
        numbers.extend([secondary, pin, primary, exit, entry]);
        numbers.push(self.xcr0_supported);
        numbers.extend([self.rdtscp, self.invpcid, self.xsaves].map(u64::from));
        numbers.try_into().expect("as many numbers as setup takes")
    }

    /// The setup of these numbers, each cut to its width; a yes/no number is yes if it is 1.
    pub fn of_numbers(numbers: &[u64; SETUP_NUMBERS]) -> Setup {
        let n = numbers;
        let short = |i: usize| n[i] as u16;
        Setup {
            host: HostWords {
                pat: n[0],
                efer: n[1],
                cr0: n[2],
                cr3: n[3],
                cr4: n[4],
                es: short(5),
                cs: short(6),
                ss: short(7),
                ds: short(8),
                fs: short(9),
                gs: short(10),
                fs_base: n[11],
                gs_base: n[12],
                tr: short(13),
                tr_base: n[14],
                gdtr_base: n[15],
                idtr_base: n[16],
                rip: n[17],
            },
            entry: n[18],
            guest_pat: n[19],
            ept_root: n[20],
            frames: [n[21], n[22], n[23]],
            vmx_basic: n[24],
            capabilities: Capabilities {
                plain: [n[25], n[26], n[27], n[28]],
                cr0_fixed0: n[29],
                cr0_fixed1: n[30],
                cr4_fixed0: n[31],
                cr4_fixed1: n[32],
                pairs: [n[34], n[35], n[33], n[36], n[37]],
            },
            xcr0_supported: n[38],
            rdtscp: n[39] == 1,
            invpcid: n[40] == 1,
            xsaves: n[41] == 1,
        }
    }

    /// The block of `vcpu_setup`.
    pub fn block(&self) -> Vec<u8> {
        block(self.numbers().into_iter().zip(SETUP_WIDTHS))
    }
}

/// How many numbers a report has.
pub const REPORT_NUMBERS: usize = 36;
/// Their widths in bytes: registers, the guest's fields, exit words, CPUID.
pub const REPORT_WIDTHS: [usize; REPORT_NUMBERS] = [
    8, 8, 8, 8, 8, 8, 8, 8, 8, 8, 8, 8, 8, 8, 8, 8, // registers
    8, 8, 8, 4, 8, 8, 8, 8, 8, 4,
    4, // RIP, RSP, RFLAGS, interruptibility, CR0, CR3, CR4, EFER, CS base, CS and SS rights
    4, 8, 4, 4, 4, // reason, qualification, instruction length, interruption information, error code
    4, 4, 4, 4, // CPUID
];

impl Report {
    /// The numbers in document 01's order.
    pub fn numbers(&self) -> [u64; REPORT_NUMBERS] {
        let mut numbers = self.registers.to_vec();
        numbers.extend([self.rip, self.rsp, self.rflags, self.interruptibility as u64]);
        numbers.extend([self.cr0, self.cr3, self.cr4, self.efer, self.cs_base]);
        numbers.extend([self.cs_rights, self.ss_rights, self.reason].map(u64::from));
        numbers.push(self.qualification);
        let words = [self.instruction_length, self.interruption_info, self.interruption_error_code];
        numbers.extend(words.into_iter().chain(self.cpuid).map(u64::from));
        numbers.try_into().expect("as many numbers as a report has")
    }

    /// The report of these numbers, each cut to its width.
    pub fn of_numbers(numbers: &[u64; REPORT_NUMBERS]) -> Report {
        let n = numbers;
        let word = |i: usize| n[i] as u32;
        Report {
            registers: n[..16].try_into().expect("sixteen registers"),
            rip: n[16],
            rsp: n[17],
            rflags: n[18],
            interruptibility: word(19),
            cr0: n[20],
            cr3: n[21],
            cr4: n[22],
            efer: n[23],
            cs_base: n[24],
            cs_rights: word(25),
            ss_rights: word(26),
            reason: word(27),
            qualification: n[28],
            instruction_length: word(29),
            interruption_info: word(30),
            interruption_error_code: word(31),
            cpuid: [32, 33, 34, 35].map(word),
        }
    }

    /// The block of `vcpu_exit_report`.
    pub fn block(&self) -> Vec<u8> {
        block(self.numbers().into_iter().zip(REPORT_WIDTHS))
    }
}
