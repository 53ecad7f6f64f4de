//! Which fields the original's setup writes, and what: run on a machine of zeros and one of ones,
//! with arguments that can be told apart. One line for each listed field:
//! encoding, name, `set` with the value or `kept`.

use oracle::*;

fn main() {
    let pair = |allowed0: u64| 0xFFFF_FFFF << 32 | allowed0;
    let args = Setup {
        host: HostWords {
            pat: 0x1001,
            efer: 0x1002,
            cr0: 0x1003,
            cr3: 0x1004_0000,
            cr4: 0x1005,
            es: 0x1006,
            cs: 0x1007,
            ss: 0x1008,
            ds: 0x1009,
            fs: 0x100A,
            gs: 0x100B,
            fs_base: 0x100C,
            gs_base: 0x100D,
            tr: 0x100E,
            tr_base: 0x100F,
            gdtr_base: 0x1010,
            idtr_base: 0x1011,
            rip: 0x1012,
        },
        entry: 0x2001,
        ept_root: 0x2002_0000,
        frames: [0x3001, 0x3002, 0x3003],
        capabilities: Capabilities {
            pairs: [pair(0x16), pair(0x0400_6172), pair(0), pair(0x36DFB), pair(0x11FB)],
            plain: [0; 4],
            cr0_fixed0: 0x8000_0021,
            cr0_fixed1: 0xFFFF_FFFF,
            cr4_fixed0: 0x2000,
            cr4_fixed1: 0x3F_FFFF,
        },
        guest_pat: 0x4001,
        ..Setup::default()
    };
    let after = |before: u64| {
        let mut oracle = Oracle::new();
        for (encoding, _) in FIELDS {
            oracle.store_field(encoding, before & u64::MAX >> (64 - field_bits(encoding)));
        }
        oracle.setup(&args).expect("setup");
        oracle.state().fields
    };
    let (zeros, ones) = (after(0), after(u64::MAX));
    let mut written = 0;
    for (i, (encoding, name)) in FIELDS.iter().enumerate() {
        if zeros[i] == ones[i] {
            written += 1;
            println!("{encoding:04x}\t{name}\tset\t{:#x}", zeros[i]);
        } else {
            println!("{encoding:04x}\t{name}\tkept");
        }
    }
    eprintln!("{written} fields set by setup");
}
