//! The byte blocks of setup and of an exit report, from structs.

pub const SETUP_LENGTH: usize = 273;
pub const REPORT_LENGTH: usize = 244;

/// Writes numbers one behind the other, least significant byte first.
struct Writer<'a> {
    bytes: &'a mut [u8],
    at: usize,
}

impl Writer<'_> {
    fn put(&mut self, bytes: &[u8]) {
        self.bytes[self.at..self.at + bytes.len()].copy_from_slice(bytes);
        self.at += bytes.len();
    }

    fn u16s(&mut self, xs: &[u16]) {
        for x in xs {
            self.put(&x.to_le_bytes());
        }
    }

    fn u32s(&mut self, xs: &[u32]) {
        for x in xs {
            self.put(&x.to_le_bytes());
        }
    }

    fn u64s(&mut self, xs: &[u64]) {
        for x in xs {
            self.put(&x.to_le_bytes());
        }
    }
}

/// The host's state, which an exit restores.
#[derive(Clone, Copy, Default, Debug)]
pub struct HostWords {
    pub pat: u64,
    pub efer: u64,
    pub cr0: u64,
    pub cr3: u64,
    pub cr4: u64,
    pub es: u16,
    pub cs: u16,
    pub ss: u16,
    pub ds: u16,
    pub fs: u16,
    pub gs: u16,
    pub fs_base: u64,
    pub gs_base: u64,
    pub tr: u16,
    pub tr_base: u64,
    pub gdtr_base: u64,
    pub idtr_base: u64,
    pub rip: u64,
}

/// The arguments of setup.
#[derive(Clone, Copy, Default, Debug)]
pub struct Setup {
    pub host: HostWords,
    /// The guest's first RIP.
    pub entry: u64,
    pub guest_pat: u64,
    pub ept_root: u64,
    pub io_bitmap_a: u64,
    pub io_bitmap_b: u64,
    pub msr_bitmaps: u64,
    /// The capability MSRs 0x480 to 0x484, 0x486 to 0x489, 0x48B, 0x48D to 0x490. Where bit 55 of the first is clear the processor lacks the last four, the
    /// TRUE words: they are not looked at, and a host gives 0 for them and does not read the MSRs.
    pub msrs: [u64; 14],
    /// The bits of XCR0 that the guest may set: CPUID leaf 0xD, subleaf 0, EDX:EAX, or fewer.
    pub xcr0_supported: u64,
    pub rdtscp: bool,
    pub invpcid: bool,
    pub xsaves: bool,
}

impl Setup {
    /// The block that the archive takes.
    #[must_use]
    pub fn to_bytes(&self) -> [u8; SETUP_LENGTH] {
        let h = &self.host;
        let mut bytes = [0; SETUP_LENGTH];
        let mut w = Writer { bytes: &mut bytes, at: 0 };
        w.u64s(&[h.pat, h.efer, h.cr0, h.cr3, h.cr4]);
        w.u16s(&[h.es, h.cs, h.ss, h.ds, h.fs, h.gs]);
        w.u64s(&[h.fs_base, h.gs_base]);
        w.u16s(&[h.tr]);
        w.u64s(&[h.tr_base, h.gdtr_base, h.idtr_base, h.rip]);
        w.u64s(&[self.entry, self.guest_pat, self.ept_root, self.io_bitmap_a, self.io_bitmap_b, self.msr_bitmaps]);
        w.u64s(&self.msrs);
        w.u64s(&[self.xcr0_supported]);
        w.put(&[u8::from(self.rdtscp), u8::from(self.invpcid), u8::from(self.xsaves)]);
        bytes
    }
}

/// What the processor tells after an exit.
#[derive(Clone, Copy, Default, Debug)]
pub struct Report {
    /// In the order of their encoding; place 4 is not used.
    pub regs: [u64; 16],
    pub rip: u64,
    pub rsp: u64,
    pub rflags: u64,
    pub interruptibility: u32,
    pub cr0: u64,
    pub cr3: u64,
    pub cr4: u64,
    pub efer: u64,
    pub cs_base: u64,
    pub cs_rights: u32,
    pub ss_rights: u32,
    pub reason: u32,
    pub qualification: u64,
    pub instruction_length: u32,
    pub interruption: u32,
    pub error_code: u32,
    /// EAX, EBX, ECX, EDX that CPUID gives for the guest's EAX and ECX, as the header's "What the host does" says.
    pub cpuid: [u32; 4],
}

impl Report {
    /// The block that the archive takes.
    #[must_use]
    pub fn to_bytes(&self) -> [u8; REPORT_LENGTH] {
        let mut bytes = [0; REPORT_LENGTH];
        let mut w = Writer { bytes: &mut bytes, at: 0 };
        w.u64s(&self.regs);
        w.u64s(&[self.rip, self.rsp, self.rflags]);
        w.u32s(&[self.interruptibility]);
        w.u64s(&[self.cr0, self.cr3, self.cr4, self.efer, self.cs_base]);
        w.u32s(&[self.cs_rights, self.ss_rights, self.reason]);
        w.u64s(&[self.qualification]);
        w.u32s(&[self.instruction_length, self.interruption, self.error_code]);
        w.u32s(&self.cpuid);
        bytes
    }
}
