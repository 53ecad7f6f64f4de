//! Random arguments: plausible and extreme ones.
//!
//! The comparable domain is where document 01 says that the Rust decides: no port that the Rust's
//! 1,024-byte bitmaps lack, no I/O size of 8, no interruption type 1, no failed entry of a reason other
//! than 33, 34 and 41, CR0 and CR4 as their masks demand, fixed bits that agree, a host CR3 that is a
//! frame, a TR selector with a following descriptor. Of XSETBV and of processors without the TRUE words
//! document 02 decides: the comparable domain has none, and bit 55 of IA32_VMX_BASIC is set in every setup.
//! It also decides of vectors 1 and 21 and of codes while CR0.PE is clear; these are among the events, and the
//! comparison with the port sees to them (differential/src/events.rs).

use crate::{Capabilities, HostWords, Oracle, Report, Setup, VMX_FLEX_CONTROLS};

/// A xorshift generator.
pub struct Random {
    state: u64,
    pub comparable: bool,
}

/// Set and clear bits of setup by word (pin, primary, secondary with all flags, exit, entry).
const SET: [u32; 5] = [0x9, 0x9200_0000, 0x10_108A, 0x3C_8200, 0xC000];
const CLEAR: [u32; 5] = [0, 0x19_8000, 0, 0, 0];

const CR0: (u32, u32) = (0x6800, 0x6000);
const CR4: (u32, u32) = (0x6804, 0x6002);

/// Exit reasons.
const WBINVD: u32 = 54;
const XSETBV: u32 = 55;

impl Random {
    pub fn new(seed: u64, comparable: bool) -> Self {
        let state = seed.wrapping_mul(0x9E37_79B9_7F4A_7C15) ^ 0x5DEE_CE66_D1CE_4E5B;
        Random { state: state | 1, comparable }
    }

    pub fn next(&mut self) -> u64 {
        self.state ^= self.state << 13;
        self.state ^= self.state >> 7;
        self.state ^= self.state << 17;
        self.state.wrapping_mul(0x2545_F491_4F6C_DD1D)
    }

    pub fn below(&mut self, n: u64) -> u64 {
        (self.next() >> 11) % n
    }

    pub fn chance(&mut self, percent: u64) -> bool {
        self.below(100) < percent
    }

    pub fn pick<T: Copy>(&mut self, from: &[T]) -> T {
        from[self.below(from.len() as u64) as usize]
    }

    /// Zero, small, a power of two and its neighbours, near the end, sparse, or any number.
    pub fn word(&mut self) -> u64 {
        match self.below(8) {
            0 => 0,
            1 => self.below(256),
            2 => (1u64 << self.below(64)).wrapping_add(self.below(3)).wrapping_sub(1),
            3 => u64::MAX - self.below(4),
            4 => self.next() & self.next() & self.next(),
            5 => self.next() & 0xFFFF_FFFF,
            6 => 0xFFFF_FFFF - self.below(4),
            _ => self.next(),
        }
    }

    pub fn word32(&mut self) -> u32 {
        self.word() as u32
    }

    fn word16(&mut self) -> u16 {
        self.word() as u16
    }

    pub fn setup(&mut self) -> Setup {
        let mut host = HostWords {
            pat: self.word(),
            efer: self.word(),
            cr0: self.word(),
            cr3: self.word(),
            cr4: self.word(),
            es: self.word16(),
            cs: self.word16(),
            ss: self.word16(),
            ds: self.word16(),
            fs: self.word16(),
            gs: self.word16(),
            fs_base: self.word(),
            gs_base: self.word(),
            tr: self.word16(),
            tr_base: self.word(),
            gdtr_base: self.word(),
            idtr_base: self.word(),
            rip: self.word(),
        };
        if self.comparable {
            host.cr3 &= 0x000F_FFFF_FFFF_F000;
        }
        if self.comparable || self.chance(99) {
            host.tr %= 8191 * 8;
        }
        Setup {
            host,
            entry: self.word(),
            ept_root: self.word(),
            frames: [self.word(), self.word(), self.word()],
            vmx_basic: self.word() | VMX_FLEX_CONTROLS,
            capabilities: self.capabilities(),
            guest_pat: self.word(),
            xcr0_supported: self.xcr0_supported(),
            rdtscp: self.chance(50),
            invpcid: self.chance(50),
            xsaves: self.chance(50),
        }
    }

    /// Bits of XCR0 as processors support them, all but one, all, or any.
    pub fn xcr0_supported(&mut self) -> u64 {
        let (any, but_one) = (self.word(), !(1 << self.below(64)));
        self.pick(&[7, 0x1F, 0xE7, 0x6_02E7, but_one, u64::MAX, any])
    }

    pub fn capabilities(&mut self) -> Capabilities {
        let mut pairs = [0; 5];
        // At most one bad pair, so that the order of setup's tests does not matter.
        let bad = if self.chance(10) { self.below(5) as usize } else { 5 };
        for i in 0..5 {
            let mut allowed1 = self.word32() | SET[i];
            let mut allowed0 = self.word32() & allowed1 & !CLEAR[i];
            if i == bad || (bad < 5 && !self.comparable) {
                (allowed0, allowed1) = (self.word32(), self.word32());
            }
            if i == 1 && i != bad && self.chance(90) {
                (allowed0, allowed1) = (allowed0 & !4, allowed1 | 4);
            }
            pairs[i] = (allowed1 as u64) << 32 | allowed0 as u64;
        }
        let fixed = |random: &mut Self, usual: u64| {
            let fixed1 = random.word() | usual;
            let fixed0 = random.word();
            (if random.comparable { fixed0 & fixed1 } else { fixed0 }, fixed1)
        };
        let (cr0_fixed0, cr0_fixed1) = fixed(self, 0xE000_0031);
        let (cr4_fixed0, cr4_fixed1) = fixed(self, 0x2000);
        Capabilities {
            pairs,
            plain: [self.word(), self.word(), self.word(), self.word()],
            cr0_fixed0,
            cr0_fixed1,
            cr4_fixed0,
            cr4_fixed1,
        }
    }

    /// A pair of a control word (pin, primary, secondary, exit, entry) changed so that setup can't have it: a bit to be set is not
    /// allowed (8), one to be cleared is demanded (9, primary only), or allowed-0 has a bit that allowed-1 lacks (6).
    pub fn spoiled_pair(&mut self, word: usize, pair: u64) -> u64 {
        let mut one_of = |mask: u32| {
            let bits: Vec<u64> = (0..32).map(|bit| 1 << bit).filter(|bit| mask as u64 & bit != 0).collect();
            self.pick(&bits)
        };
        let (set, any) = (one_of(SET[word]), one_of(u32::MAX));
        match self.below(3) {
            0 if CLEAR[word] != 0 => {
                let clear = 1 << self.pick(&[15, 16, 19, 20]);
                pair | clear | clear << 32
            }
            1 => pair & !(any << 32) | any,
            _ => pair & !(set | set << 32),
        }
    }

    pub fn event(&mut self) -> (u8, Option<u32>) {
        let vector = if self.chance(50) { self.below(40) as u8 } else { self.next() as u8 };
        let code = if self.chance(50) { Some(self.word32()) } else { None };
        (vector, code)
    }

    pub fn interrupt(&mut self) -> u64 {
        if self.comparable || self.chance(90) { self.below(256) } else { self.word() }
    }

    /// The five words of `set_control`: words that pass, each condition then broken now and then.
    pub fn control_words(&mut self) -> [u32; 5] {
        let mut allowed1 = self.word32() | self.word32();
        let mut allowed0 = self.word32() & allowed1;
        let mut set = self.word32() & allowed1;
        let mut clear = self.word32() & !allowed0 & !set;
        let bit = |random: &mut Self| 1u32 << random.below(32);
        if self.chance(15) {
            allowed0 |= bit(self);
        }
        if self.chance(15) {
            clear |= bit(self);
        }
        if self.chance(15) {
            set |= bit(self);
        }
        if self.chance(15) {
            allowed1 &= !bit(self);
        }
        [allowed0, allowed1, self.word32(), set, clear]
    }

    /// A port and a count.
    pub fn ports(&mut self) -> (u32, u32) {
        if self.comparable {
            return self.comparable_ports();
        }
        let base = if self.chance(80) { self.below(0x1_2000) } else { self.word() };
        (base as u32, self.below(20) as u32)
    }

    /// A port and a count, where document 01 and the Rust agree: all ports are in the first 1,024 bytes
    /// of a frame, or all are above 65,535, or the count is 0, or the sum passes 2^32.
    pub fn comparable_ports(&mut self) -> (u32, u32) {
        let half = self.pick(&[0, 0x8000]);
        let count = if self.chance(90) { self.below(20) } else { self.below(0x2001) } as u32;
        match self.below(20) {
            0 => (0x1_0000 + self.below(40) as u32, count),
            1 => (u32::MAX - self.below(40) as u32, count),
            2 => (self.word32(), 0),
            3 => {
                let base = self.word32() | 1;
                (base, u32::MAX - self.below(base as u64) as u32)
            }
            _ => (half + self.below(0x2001 - count as u64) as u32, count),
        }
    }

    pub fn msr(&mut self) -> u32 {
        match self.below(4) {
            0 => self.below(0x2010) as u32,
            1 => 0xC000_0000 + self.below(0x2010) as u32,
            2 => self.pick(&[0, 0x1FFF, 0x2000, 0xBFFF_FFFF, 0xC000_0000, 0xC000_1FFF, 0xC000_2000]),
            _ => self.word32(),
        }
    }

    /// A report in the running state.
    pub fn report(&mut self, oracle: &mut Oracle) -> Report {
        let mut reason = self.below(65) as u32;
        if self.chance(50) {
            reason = self.pick(&[1, 7, 10, 10, 18, 28, 28, 28, 30, 30, 31, 32, 44, 52, 55]);
        }
        if self.comparable && reason == XSETBV {
            reason = WBINVD;
        }
        if self.chance(5) {
            reason |= self.word32() & 0x7FFF_0000;
        }
        if self.chance(2) {
            let any = if self.comparable { 33 } else { reason };
            reason = self.pick(&[33, 34, 41, any]) | 1 << 31;
        }
        let mut report = Report { reason, ..Report::default() };
        for register in &mut report.registers {
            *register = self.word();
        }
        if self.chance(60) {
            report.registers[1] =
                self.pick(&[0, 1, 1 << 32, 0x7FF, 0x800, 0x80F, 0x8FF, 0x900, 0x1_0000_0800, 0xC000_0080]);
        }
        if self.chance(60) {
            report.registers[0] =
                self.pick(&[0, 1, 7, 0xD, 0x16, 0x2000, 0x1_2000, 0x4000_0000, 0x4000_0001, 0x1_0000_0007]);
        }
        report.rip = if self.chance(90) { self.word() >> 8 } else { self.word() };
        report.rsp = self.word();
        report.rflags = self.word();
        report.interruptibility = if self.chance(60) { 0 } else { self.word32() };
        report.cr0 = self.control_register(oracle, CR0);
        report.cr3 = self.word();
        report.cr4 = self.control_register(oracle, CR4);
        report.efer = if self.chance(50) { self.pick(&[0, 0x100, 0x400, 0x500, 0xD01]) } else { self.word() };
        report.cs_base = self.word();
        report.cs_rights = self.word32();
        report.ss_rights = self.word32();
        report.qualification = match reason & 0xFFFF {
            28 if self.chance(80) => self.below(16) << 8 | self.pick(&[0, 4, 0, 4, 3, 0x10, 0x20]),
            30 if self.chance(20) => {
                report.registers[0] = self.pick(&[0x2000, 0x1_2000, 0x2001]);
                self.pick(&[0x0604_0001, 0x0604_0001, 0x0604_0000, 0x0604_0003, 0x0605_0001])
            }
            30 if self.chance(80) => self.pick(&[0x604, 0x60, 0xFFFF, 0]) << 16 | self.below(64),
            44 => self.below(16) << 12 | self.below(4096),
            _ => self.word(),
        };
        report.instruction_length = if self.chance(80) { self.below(16) as u32 } else { self.word32() };
        report.interruption_info = self.word32();
        if self.chance(70) {
            report.interruption_info |= 1 << 31;
        }
        report.interruption_error_code = self.word32();
        for word in &mut report.cpuid {
            *word = self.word32();
        }
        if self.comparable {
            match reason & 0xFFFF {
                1 if report.interruption_info >> 8 & 7 == 1 => report.interruption_info ^= 0x100,
                30 if report.qualification & 7 == 7 => report.qualification &= !4,
                _ => (),
            }
        }
        report
    }

    /// Any value; where the mask decides, the session's bits.
    fn control_register(&mut self, oracle: &mut Oracle, (value, mask): (u32, u32)) -> u64 {
        let value = oracle.read_field(value).unwrap();
        let mask = oracle.read_field(mask).unwrap();
        let any = self.word();
        if self.comparable { value & mask | any & !mask } else { self.pick(&[value, value, any]) }
    }
}
