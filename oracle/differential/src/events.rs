//! What an entry writes of an event, by document 02 (N7). The original has other words for vectors 1 and 21, and gives a code to a guest in real mode too. It is
//! asked all the same: where document 02 decides, 0x4016, 0x4018 and 0x401A are then set on its side to what the rule here says, so that the session goes
//! on from them and all other bytes stay the original's. Such entries are counted on lines of their own.

use crate::calls::Call;
use oracle::{Entered, EntryEvent, Event, Oracle};

/// Entry interruption information, exception error code, instruction length.
const WRITTEN: [u32; 3] = [0x4016, 0x4018, 0x401A];
const EXIT_ERROR_CODE: u32 = 0x4406;
const EXIT_INSTRUCTION_LENGTH: u32 = 0x440C;
const CR0: u32 = 0x6800;
/// Protection enable, in CR0.
const PE: u64 = 1;

/// Places in the word: the type, whether a code goes in, whether the word is valid.
const TYPE: u32 = 8;
const HAS_CODE: u32 = 11;
const VALID: u32 = 31;
/// The types of vectors 0 to 31. Those above have type 0.
const TYPES: [u64; 32] =
    [3, 3, 2, 6, 6, 3, 3, 3, 3, 3, 3, 3, 3, 3, 3, 3, 3, 3, 3, 3, 3, 3, 7, 7, 7, 7, 7, 7, 7, 7, 7, 7];
/// Types that go in with the length of an instruction: software interrupts and both kinds of software exceptions.
const SOFT: [u64; 3] = [4, 5, 6];
/// Vectors that carry a code.
const CARRYING: [u8; 8] = [8, 10, 11, 12, 13, 14, 17, 21];

/// What an event that an entry writes is to the comparison; document 02 decides of all but the last two.
#[derive(Clone, Copy)]
enum Kind {
    Debug,
    ControlProtection,
    CodeInRealMode,
    Code,
    Other,
}

/// In the order of `Kind`.
const KINDS: [&str; 5] = ["vector 1", "vector 21", "codes with PE clear", "codes with PE set", "others"];

impl Kind {
    fn of(vector: u8, cr0: u64) -> Self {
        match vector {
            1 => Kind::Debug,
            21 => Kind::ControlProtection,
            8 | 10..=14 | 17 if cr0 & PE == 0 => Kind::CodeInRealMode,
            8 | 10..=14 | 17 => Kind::Code,
            _ => Kind::Other,
        }
    }

    fn decided_by_document_02(self) -> bool {
        !matches!(self, Kind::Code | Kind::Other)
    }
}

fn field(oracle: &Oracle, encoding: u32) -> u64 {
    oracle.machine().field(encoding)
}

/// Document 02's rule: the fields `WRITTEN` after an entry that writes this event. The session is as it is before the entry.
fn rule(oracle: &Oracle, (vector, code): Event) -> [u64; 3] {
    let kind = TYPES.get(vector as usize).copied().unwrap_or(0);
    let has_code = CARRYING.contains(&vector) && field(oracle, CR0) & PE != 0;
    let [_, old_code, old_length] = WRITTEN.map(|encoding| field(oracle, encoding));
    let given_code = code.map_or(field(oracle, EXIT_ERROR_CODE), u64::from);
    [
        1 << VALID | (has_code as u64) << HAS_CODE | kind << TYPE | vector as u64,
        if has_code { given_code } else { old_code },
        if SOFT.contains(&kind) { field(oracle, EXIT_INSTRUCTION_LENGTH) } else { old_length },
    ]
}

fn kind_of_front(oracle: &Oracle) -> Option<(Event, Kind)> {
    let front = *oracle.events().first()?;
    Some((front, Kind::of(front.0, field(oracle, CR0))))
}

/// An entry of the original, and then document 02's event where it decides.
pub fn enter(oracle: &mut Oracle, host_stack: u64) -> Entered {
    let decided = kind_of_front(oracle).filter(|(_, kind)| kind.decided_by_document_02());
    let wanted = decided.map(|(front, _)| rule(oracle, front));
    let entered = oracle.enter(host_stack).expect("an entry");
    if let Some(values) = wanted {
        assert_eq!(entered.event, EntryEvent::Written, "no vector below 32 is held");
        WRITTEN.into_iter().zip(values).for_each(|(encoding, value)| oracle.store_field(encoding, value));
    }
    entered
}

/// How often an event of each kind stood in front when an entry was made.
#[derive(Default)]
pub struct Met {
    times: [u64; KINDS.len()],
}

impl Met {
    /// Counts the front if the call is an entry: whether document 02 decides of it.
    pub fn count(&mut self, call: Call, oracle: &Oracle) -> bool {
        let Call::Entry { .. } = call else { return false };
        let Some((_, kind)) = kind_of_front(oracle) else { return false };
        self.times[kind as usize] += 1;
        kind.decided_by_document_02()
    }

    pub fn text(&self) -> String {
        let texts: Vec<String> = KINDS.iter().zip(self.times).map(|(kind, times)| format!("{kind}: {times}")).collect();
        texts.join(", ")
    }
}
