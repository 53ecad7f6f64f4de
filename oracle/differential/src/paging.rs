//! The walk of the guest's page tables by document 02 (N6), typed from the manual's tables (SDM 3A, 4.3 to 4.6): each kind of entry is a row that says what its
//! bits are. The original has no walk; it hands out what one starts from.

use oracle::PageWalk;

/// From the first bit to the last.
pub type Bits = (u32, u32);

pub fn bits(number: u64, (first, last): Bits) -> u64 {
    number >> first & u64::MAX >> (63 - (last - first))
}

pub fn with_bits(number: u64, (first, last): Bits, value: u64) -> u64 {
    number ^ (bits(number, (first, last)) ^ value) << first
}

/// A kind of entry.
pub struct Kind {
    /// Bit 7, where it tells the kinds of a level apart.
    pub large: Option<bool>,
    pub reserved: &'static [Bits],
    /// The bits that are address bits, each run with the place of its first there.
    pub address: &'static [(Bits, u32)],
    /// A page, with so many bits of the virtual address below; or a table.
    pub page: Option<u32>,
}

/// A level of the tables.
pub struct Level {
    pub levels: u64,
    pub level: u64,
    /// The bits of the virtual address that choose an entry.
    pub index: Bits,
    /// Its entries have the bits for write, user and execute-disable.
    pub rights: bool,
    pub kinds: &'static [Kind],
}

const TABLE: Kind = Kind { large: Some(false), reserved: &[], address: &[((12, 51), 12)], page: None };
const PAE_TABLE: Kind = Kind { reserved: &[(52, 62)], ..TABLE };
const SHORT_TABLE: Kind = Kind { address: &[((12, 31), 12)], ..TABLE };
const LARGE: Kind = Kind { large: Some(true), page: Some(21), address: &[((21, 51), 21)], reserved: &[(13, 20)] };
const HUGE: Kind = Kind { page: Some(30), address: &[((30, 51), 30)], reserved: &[(13, 29)], ..LARGE };
const PAE_LARGE: Kind = Kind { reserved: &[(13, 20), (52, 62)], ..LARGE };
/// With PSE-36: the address has 40 bits.
const SHORT_LARGE: Kind =
    Kind { page: Some(22), address: &[((22, 31), 22), ((13, 20), 32)], reserved: &[(21, 21)], ..LARGE };
const SMALL: Kind = Kind { large: None, page: Some(12), ..TABLE };
const PAE_SMALL: Kind = Kind { large: None, page: Some(12), ..PAE_TABLE };
const SHORT_SMALL: Kind = Kind { large: None, page: Some(12), ..SHORT_TABLE };
const TOP: Kind = Kind { large: None, reserved: &[(7, 7)], ..TABLE };
const PAE_TOP: Kind = Kind { large: None, reserved: &[(1, 2), (5, 8), (52, 63)], ..TABLE };

const fn level(levels: u64, level: u64, index: Bits, kinds: &'static [Kind]) -> Level {
    Level { levels, level, index, rights: true, kinds }
}

/// 4-level paging, PAE paging and 32-bit paging, each from its top table down.
pub const LEVELS: [Level; 9] = [
    level(4, 4, (39, 47), &[TOP]),
    level(4, 3, (30, 38), &[HUGE, TABLE]),
    level(4, 2, (21, 29), &[LARGE, TABLE]),
    level(4, 1, (12, 20), &[SMALL]),
    Level { rights: false, ..level(3, 3, (30, 31), &[PAE_TOP]) },
    level(3, 2, (21, 29), &[PAE_LARGE, PAE_TABLE]),
    level(3, 1, (12, 20), &[PAE_SMALL]),
    level(2, 2, (22, 31), &[SHORT_LARGE, SHORT_TABLE]),
    level(2, 1, (12, 21), &[SHORT_SMALL]),
];

/// The bits of CR3 that are those of the top table's address.
pub fn top_bits(levels: u64) -> Bits {
    [(12, 31), (5, 31), (12, 51)][levels as usize - 2]
}

pub fn entry_bytes(levels: u64) -> usize {
    if levels == 2 { 4 } else { 8 }
}

#[derive(Clone, Copy, PartialEq, Eq, PartialOrd, Ord, Debug)]
pub enum End {
    Address(u64),
    Fails(u64),
    /// The entry lies past the end of memory.
    Past,
}

const WRITE: u8 = 1;
const FETCH: u8 = 2;

/// The first rule that an entry breaks, by its number. `open`: every entry so far, this one too, lets the user in.
fn broken(reading: &PageWalk, access: u8, level: &Level, kind: &Kind, entry: u64, open: bool) -> Option<u64> {
    let bit = |place: u32| bits(entry, (place, place)) == 1;
    let (user, nxe) = (reading.is_user_mode_access, reading.nxe);
    let supervisor_at_users = kind.page.is_some() && open && !user;
    let rules = [
        !bit(0),
        kind.reserved.iter().any(|&run| bits(entry, run) != 0) || level.rights && !nxe && bit(63),
        level.rights && user && !bit(2),
        level.rights && access == WRITE && !bit(1) && (user || reading.wp),
        level.rights && access == FETCH && nxe && bit(63),
        supervisor_at_users && access == FETCH && reading.is_smep_on,
        supervisor_at_users && access != FETCH && reading.is_smap_on,
    ];
    rules.iter().position(|broken| *broken).map(|place| place as u64 + 1)
}

impl Level {
    /// The kind of an entry. In 32-bit paging bit 7 says nothing without CR4.PSE.
    fn kind(&self, entry: u64, pse: bool) -> &Kind {
        let large = bits(entry, (7, 7)) == 1 && (self.levels > 2 || pse);
        self.kinds.iter().find(|kind| kind.large.is_none_or(|bit| bit == large)).expect("a kind")
    }
}

/// The level at which the walk of an access ends, 0 without paging, and how.
pub fn walk(memory: &[u8], reading: &PageWalk, address: u64, access: u8) -> (u64, End) {
    let levels = reading.level;
    let (mut table, mut open) = (0, true);
    for level in LEVELS.iter().filter(|level| level.levels == levels) {
        if level.level == levels {
            table = bits(reading.top_entry, top_bits(levels)) << top_bits(levels).0;
        }
        let size = entry_bytes(levels);
        let at = table as usize + bits(address, level.index) as usize * size;
        let Some(bytes) = memory.get(at..at + size) else { return (level.level, End::Past) };
        let entry = bytes.iter().rev().fold(0, |number, &byte| number << 8 | byte as u64);
        let kind = level.kind(entry, reading.pse);
        open &= !level.rights || bits(entry, (2, 2)) == 1;
        if let Some(rule) = broken(reading, access, level, kind, entry, open) {
            return (level.level, End::Fails(rule));
        }
        table = kind.address.iter().map(|&(run, place)| bits(entry, run) << place).sum();
        if let Some(below) = kind.page {
            return (level.level, End::Address(table + bits(address, (0, below - 1))));
        }
    }
    (0, End::Address(address))
}
