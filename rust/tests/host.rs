//! The wrapper on the archive: every function is called, one life of a session is gone through, and each refusal is met or compared with the header.

use std::collections::BTreeMap;
use std::error::Error;

use x86_vcpu_core::fields::{
    VmcsControl32, VmcsControl64, VmcsControlNW, VmcsGuest16, VmcsGuest32, VmcsGuest64, VmcsGuestNW, VmcsHostNW, VmcsReadOnly32, VmcsReadOnlyNW,
};
use x86_vcpu_core::{
    blocks, ffi, set_control, Access, Answer, Entry, Event, Field, Frames, HostWords, PageWalk, Phase, Refusal, Report, Rule, Session, Setup, VmCpuMode, WalkFlags,
    Walked, FRAME_LENGTH, RECORD_LENGTH, SHEET_LARGEST, SHEET_LINE,
};

const WORDS: [u64; 14] = [
    0x00DA_0400_0000_0004,
    0x0000_007F_0000_0016,
    0xFFF9_FFFE_0401_E172,
    0x01FF_FFFF_0003_6DFF,
    0x0003_FFFF_0000_11FF,
    0x8000_0021,
    0xFFFF_FFFF,
    0x2000,
    0x0037_67FF,
    0x55CF_EFFF_0000_0000,
    0x0000_007F_0000_0016,
    0xFFF9_FFFE_0400_6172,
    0x01FF_FFFF_0003_6DFB,
    0x0003_FFFF_0000_11FB,
];

/// Where the fields lie in a record, and the pairs that it keeps: pin, primary, secondary, exit, entry.
const FIELDS: std::ops::Range<usize> = 138..1068;
const PAIRS: std::ops::Range<usize> = 1397..1437;

/// X87, SSE and AVX.
const XCR0_SUPPORTED: u64 = 7;

fn setup() -> Setup {
    Setup { entry: 0x8000, ept_root: 0x1FFF, msrs: WORDS, xcr0_supported: XCR0_SUPPORTED, ..Setup::default() }
}

fn ready() -> (Session, Frames) {
    let mut frames = Frames::default();
    let mut session = Session::new(&mut frames);
    session.setup(&setup(), &mut frames).expect("setup");
    (session, frames)
}

fn report(session: &Session, reason: u32) -> Report {
    Report {
        reason,
        rip: session.read_field(VmcsGuestNW::RIP).unwrap(),
        cr0: session.read_field(VmcsGuestNW::CR0).unwrap(),
        cr4: session.read_field(VmcsGuestNW::CR4).unwrap(),
        rflags: 0x202,
        ..Report::default()
    }
}

#[test]
fn setup_gives_the_worked_values() {
    let (session, frames) = ready();
    assert_eq!(session.read_field(VmcsGuestNW::CR0), Ok(0x30));
    assert_eq!(session.read_field(VmcsControlNW::CR0_GUEST_HOST_MASK), Ok(0xFFFF_FFFF_6000_0020));
    assert_eq!(session.read_field(VmcsControl64::EPTP), Ok(0x105E));
    assert_eq!(frames.io_a.0[0x604 / 8], 1 << (0x604 % 8));
    let ones: u32 = frames.msr.0.iter().map(|byte| byte.count_ones()).sum();
    assert_eq!(ones, 2 * 65);
}

/// The sheet of the frames that setup leaves over zeros, typed by document 02's words.
const SETUP_SHEET: &str = "\
port                                   1
read                                  65
writ                                  65
port  00000604  00000604               1
read  000000e1  000000e1               1
read  00000800  0000083f              64
writ  000000e1  000000e1               1
writ  00000800  0000083f              64
";

#[test]
fn setup_gives_its_trap_sheet() {
    let (_, frames) = ready();
    let mut output = [0; 328];
    assert_eq!(frames.trap_sheet(&mut output), Ok(328));
    assert_eq!(str::from_utf8(&output), Ok(SETUP_SHEET));
}

#[test]
fn setup_refuses_a_processor_without_ept() {
    let mut frames = Frames::new();
    let mut session = Session::new(&mut frames);
    let mut arguments = setup();
    arguments.msrs[9] = 0x55CF_EFFD_0000_0000;
    let before = session.clone();
    assert_eq!(session.setup(&arguments, &mut frames), Err(Refusal::Set));
    assert_eq!(session, before);
}

/// For the TRUE words of an older board: 0, as a host gives, words that contradict themselves, and those of a processor that has them.
const TRUE_WORDS: [[u64; 4]; 3] = [
    [0; 4],
    [0x1234_5678_9ABC_DEF0, 1, 0xFFFF_FFFF, 0x0F0F_0F0F_F0F0_F0F0],
    [WORDS[10], WORDS[11], WORDS[12], WORDS[13]],
];

/// A board without the TRUE words: bit 55 of 0x480 is clear.
fn older_board(primary: u64, true_words: [u64; 4]) -> Setup {
    let mut arguments = setup();
    arguments.msrs[0] &= !(1 << 55);
    arguments.msrs[2] = primary;
    arguments.msrs[10..].copy_from_slice(&true_words);
    arguments
}

/// Its 0x482 demands bits 15 and 16, which setup clears.
#[test]
fn setup_refuses_an_older_board() {
    for true_words in TRUE_WORDS {
        let mut frames = Frames::new();
        let mut session = Session::new(&mut frames);
        let before = session.clone();
        assert_eq!(session.setup(&older_board(WORDS[2], true_words), &mut frames), Err(Refusal::Clear));
        assert_eq!(session, before);
    }
}

/// Where 0x482 demands neither bit, the plain words are used and kept, whatever stands in the TRUE words.
#[test]
fn setup_takes_an_older_board_by_its_plain_words() {
    let primary = WORDS[2] & !0x0001_8000;
    for true_words in TRUE_WORDS {
        let mut frames = Frames::new();
        let mut session = Session::new(&mut frames);
        session.setup(&older_board(primary, true_words), &mut frames).unwrap();
        assert_eq!(session.read_field(VmcsControl32::PRIMARY_PROCBASED_EXEC_CONTROLS), Ok(0x9600_6172));
        let pairs = [WORDS[1], primary, WORDS[9], WORDS[3], WORDS[4]].map(u64::to_le_bytes);
        assert_eq!(session.as_bytes()[PAIRS], *pairs.as_flattened());
    }
}

/// A host word, told by its field, is at its place in the block.
#[test]
fn the_blocks_have_the_lengths_and_the_order_of_the_header() {
    let mut frames = Frames::new();
    let mut session = Session::new(&mut frames);
    let host = HostWords { rip: 0x1234, cr3: 0x5000, tr: 0x40, ..HostWords::default() };
    let arguments = Setup { host, rdtscp: true, ..setup() };
    assert_eq!(arguments.to_bytes().len(), blocks::SETUP_LENGTH);
    session.setup(&arguments, &mut frames).unwrap();
    assert_eq!(session.read_field(VmcsHostNW::RIP), Ok(0x1234));
    assert_eq!(session.read_field(VmcsHostNW::CR3), Ok(0x5000));
    assert_eq!(session.read_field(VmcsControl32::SECONDARY_PROCBASED_EXEC_CONTROLS), Ok(0x8A));
    session.entry(0).unwrap();
    let exit = Report { error_code: 5, ss_rights: 0x60, cpuid: [1, 2, 3, 4], ..report(&session, 10) };
    assert_eq!(exit.to_bytes().len(), blocks::REPORT_LENGTH);
    assert_eq!(session.exit_report(&exit), Ok(Answer::Nothing));
    assert_eq!(session.read_field(VmcsReadOnly32::VMEXIT_INTERRUPTION_ERR_CODE), Ok(5));
    assert_eq!(session.registers()[..4], [1, 3, 4, 2]);
    assert!(session.ptw_info().flags.contains(WalkFlags::USER));
}

#[test]
fn an_interrupt_waits_for_its_window() {
    let (mut session, _) = ready();
    session.inject_interrupt(32).unwrap();
    assert_eq!(session.entry(0x1000), Ok(Entry { resumed: false, event: Event::Held }));
    assert_eq!(session.read_field(VmcsHostNW::RSP), Ok(0x1000));
    assert_eq!(session.exit_report(&report(&session, 7)), Ok(Answer::Nothing));
    assert_eq!(session.entry(0), Ok(Entry { resumed: true, event: Event::Written }));
    assert_eq!(session.read_field(VmcsControl32::VMENTRY_INTERRUPTION_INFO_FIELD), Ok(0x8000_0020));
    let counts = session.counts();
    assert_eq!((counts.phase, counts.entries, counts.held, counts.waiting), (Phase::Running, 2, 1, 0));
    assert!(counts.launched);
}

#[test]
fn every_phase_is_told() {
    let mut frames = Frames::new();
    let mut session = Session::new(&mut frames);
    assert_eq!(session.counts().phase, Phase::Fresh);
    session.setup(&setup(), &mut frames).unwrap();
    assert_eq!(session.counts().phase, Phase::Ready);
    assert_eq!(session.entry(0), Ok(Entry { resumed: false, event: Event::None }));
    assert_eq!(session.counts().phase, Phase::Running);
    let mut exit = report(&session, 31);
    exit.regs[1] = 0x802;
    assert_eq!(session.exit_report(&exit), Ok(Answer::ApicRead { msr: 0x802 }));
    assert_eq!(session.counts().phase, Phase::Waiting);
    assert_eq!(session.entry(0), Err(Refusal::Phase));
    session.apic_value(0x1_0000_0002).unwrap();
    assert_eq!((session.reg_of_index(0), session.reg_of_index(2)), (Ok(2), Ok(1)));
    session.entry(0).unwrap();
    assert_eq!(session.exit_report(&report(&session, 0x8000_0021)), Ok(Answer::FailEntry));
    assert_eq!(session.counts().phase, Phase::Ended);
    assert_eq!(session.read_field(VmcsReadOnly32::EXIT_REASON), Ok(0x8000_0021));
    assert_eq!(session.queue_event(14, Some(2)), Err(Refusal::Phase));
}

/// What the guest's XSETBV reports: RCX, RDX and RAX.
fn xsetbv(session: &Session, rcx: u64, rdx: u64, rax: u64) -> Report {
    let mut exit = Report { instruction_length: 5, ..report(session, 55) };
    (exit.regs[0], exit.regs[1], exit.regs[2]) = (rax, rcx, rdx);
    exit
}

#[test]
fn xsetbv_brings_xcr0() {
    let mut frames = Frames::new();
    let mut session = Session::new(&mut frames);
    assert_eq!(session.xcr0(), 0);
    session.setup(&setup(), &mut frames).unwrap();
    assert_eq!(session.xcr0(), 1);
    for value in [7, 3, 1, 7] {
        session.entry(0).unwrap();
        let exit = xsetbv(&session, 1 << 32, 0xF << 32, 0xF << 32 | value);
        assert_eq!(session.exit_report(&exit), Ok(Answer::Nothing));
        assert_eq!((session.xcr0(), session.read_field(VmcsGuestNW::RIP)), (value, Ok(exit.rip + 3)));
        assert_eq!(session.counts().phase, Phase::Ready);
    }
}

/// The rule, the supported bits and the register; then the value stays.
#[test]
fn xsetbv_is_refused_by_name() {
    let (mut session, _) = ready();
    session.entry(0).unwrap();
    let refused = [
        (0, 0, 0, Refusal::Xcr0),
        (0, 0, 5, Refusal::Xcr0),
        (0, 0, 0x1F, Refusal::Xcr0),
        (0, 1, 7, Refusal::Xcr0),
        (1, 0, 7, Refusal::Xcr),
        (1, 0, 0, Refusal::Xcr),
    ];
    for (rcx, rdx, rax, refusal) in refused {
        let before = session.clone();
        assert_eq!(session.exit_report(&xsetbv(&session, rcx, rdx, rax)), Err(refusal));
        assert_eq!((&session, session.xcr0()), (&before, 1));
    }
    let at_end = |rip, rax| Report { rip, ..xsetbv(&session, 0, 0, rax) };
    let [past, bad, last] = [at_end(u64::MAX - 2, 7), at_end(u64::MAX - 2, 5), at_end(u64::MAX - 3, 7)];
    assert_eq!(session.exit_report(&past), Err(Refusal::Sum));
    assert_eq!(session.exit_report(&bad), Err(Refusal::Xcr0));
    assert_eq!(session.exit_report(&last), Ok(Answer::Nothing));
    assert_eq!((session.xcr0(), session.read_field(VmcsGuestNW::RIP)), (7, Ok(u64::MAX)));
}

#[test]
fn every_answer_is_decoded() {
    let exits: [(u32, u64, u64, u64, Answer); 8] = [
        (18, 0, 5, 6, Answer::Hypercall { nr: 5, args: [0, 0, 0, 6, 0, 0] }),
        (30, 0x02F8_0008, 0, 0, Answer::IoRead { port: 0x2F8, width: 1 }),
        (30, 0x02F8_0001, 0x12345, 0, Answer::IoWrite { port: 0x2F8, width: 2, data: 0x2345 }),
        (30, 0x0604_0001, 0x2000, 0, Answer::SystemDown),
        (31, 0, 0, 0xC000_0080, Answer::SysRegRead { addr: 0xC000_0080 }),
        (32, 0, 7, 0xE1, Answer::SysRegWrite { addr: 0xE1, value: 7 }),
        (32, 0, 9, 0x80B, Answer::ApicWrite { msr: 0x80B, value: 9 }),
        (12, 0, 0, 0, Answer::Halt),
    ];
    let (mut session, _) = ready();
    for (reason, qualification, rax, rcx, answer) in exits {
        session.entry(0).unwrap();
        let mut exit = Report { qualification, ..report(&session, reason) };
        (exit.regs[0], exit.regs[1]) = (rax, rcx);
        assert_eq!(session.exit_report(&exit), Ok(answer));
    }
    session.entry(0).unwrap();
    let exit = Report { interruption: 0x8000_0031, ..report(&session, 1) };
    assert_eq!(session.exit_report(&exit), Ok(Answer::ExternalInterrupt { vector: 0x31 }));
}

#[test]
fn calls_are_refused_by_name() {
    let (mut session, mut frames) = ready();
    assert_eq!(session.setup(&setup(), &mut frames), Err(Refusal::Phase));
    assert_eq!(session.exit_report(&Report::default()), Err(Refusal::Phase));
    assert_eq!(session.read_field(Field(1)), Err(Refusal::Encoding));
    assert_eq!(session.write_field(VmcsReadOnly32::EXIT_REASON, 0), Err(Refusal::ReadOnly));
    assert_eq!(session.write_field(VmcsGuest16::ES_SELECTOR, 0x10000), Err(Refusal::Width));
    assert_eq!(session.reg_of_index(4), Err(Refusal::Index));
    assert_eq!(session.set_reg_of_index(256, 0), Err(Refusal::Index));
    assert_eq!(session.inject_interrupt(256), Err(Refusal::Vector));
    assert_eq!(session.apic_value(0), Err(Refusal::Phase));
    assert_eq!(frames.set_io_intercept_of_range(65535, 2, true), Err(Refusal::Port));
    assert_eq!(frames.set_read_intercept(0x2000, true), Err(Refusal::Msr));
    assert_eq!(frames.set_write_intercept(0xC000_2000, true), Err(Refusal::Msr));
    assert_eq!(frames.set_msr_intercept_of_range(0xBFFF_FFFF, true), Err(Refusal::Msr));
    session.write_field(VmcsGuestNW::CS_BASE, 1).unwrap();
    assert_eq!(session.gla2gva(0, u64::MAX), Err(Refusal::Sum));
    (0..64).for_each(|_| session.queue_event(32, None).unwrap());
    assert_eq!(session.queue_event(32, None), Err(Refusal::Full));
    let mut bytes = [0; RECORD_LENGTH];
    bytes[0] = 5;
    assert_eq!(Session::from_bytes(bytes), Err(Refusal::Bytes));
}

#[test]
fn control_words() {
    assert_eq!(set_control(0x16, 0x7F, 0x16, 9, 0), Ok(0x1F));
    assert_eq!(set_control(0x80, 0x7F, 0, 0, 0), Err(Refusal::Pair));
    assert_eq!(set_control(0x16, 0x7F, 0x16, 1, 1), Err(Refusal::SetAndClear));
    assert_eq!(set_control(0x16, 0x7F, 0x16, 0x80, 0), Err(Refusal::Set));
    assert_eq!(set_control(0x16, 0x7F, 0x16, 0, 2), Err(Refusal::Clear));
}

/// On a processor that does not allow entry control bit 9.
#[test]
fn reports_are_refused_by_name() {
    let mut frames = Frames::new();
    let mut session = Session::new(&mut frames);
    let mut arguments = setup();
    arguments.msrs[13] = 0x0003_FDFF_0000_11FB;
    session.setup(&arguments, &mut frames).unwrap();
    session.entry(0).unwrap();
    let told = |reason| report(&session, reason);
    let mut xcr = told(55);
    xcr.regs[1] = 1;
    let mut paging = told(28);
    paging.regs[0] = 0x8000_0000;
    let reports = [
        (told(65), Refusal::Reason),
        (Report { cr0: 0x10, ..told(12) }, Refusal::OwnedBits),
        (Report { interruption: 0x31, ..told(1) }, Refusal::Interrupt),
        (Report { qualification: 0x10, ..told(28) }, Refusal::CrAccess),
        (told(55), Refusal::Xcr0),
        (xcr, Refusal::Xcr),
        (told(44), Refusal::ApicAccess),
        (Report { rip: u64::MAX, ..told(10) }, Refusal::Sum),
        (paging, Refusal::Set),
    ];
    for (exit, refusal) in reports {
        let before = session.clone();
        assert_eq!(session.exit_report(&exit), Err(refusal));
        assert_eq!(session, before);
    }
}

#[test]
fn the_count_of_entries_has_an_end() {
    let (session, _) = ready();
    let mut bytes = *session.as_bytes();
    bytes[2..6].fill(0xFF);
    assert_eq!(Session::from_bytes(bytes).unwrap().entry(0), Err(Refusal::Count));
}

/// The header's names in the wrapper's spelling: `SET_AND_CLEAR` is `SetAndClear`.
fn camel(name: &str) -> String {
    let part = |part: &str| part[..1].to_string() + &part[1..].to_lowercase();
    name.split('_').map(part).collect()
}

fn header_numbers(prefix: &str) -> BTreeMap<String, u32> {
    let header = include_str!("../../include/x86_vcpu.h");
    let lines = header.lines().filter_map(|line| line.strip_prefix("#define ")?.strip_prefix(prefix)?.split_once(' '));
    lines.map(|(name, number)| (name.to_string(), number.parse().expect(name))).collect()
}

#[test]
fn lengths_are_those_of_the_header() {
    let lengths = [("RECORD_", RECORD_LENGTH), ("FRAME_", FRAME_LENGTH), ("REPORT_", blocks::REPORT_LENGTH), ("SETUP_", blocks::SETUP_LENGTH)];
    for (part, length) in lengths {
        let header = header_numbers(&format!("VCPU_{part}LENGTH"));
        assert_eq!(header.into_values().map(|number| number as usize).collect::<Vec<usize>>(), [length]);
    }
    let sheet = header_numbers("VCPU_SHEET_").into_iter().map(|(name, number)| (name, number as usize));
    assert_eq!(sheet.collect::<Vec<_>>(), [("LARGEST".to_string(), SHEET_LARGEST), ("LINE".to_string(), SHEET_LINE)]);
}

#[test]
fn refusals_are_those_of_the_header() {
    let header: BTreeMap<String, u32> = header_numbers("VCPU_REFUSED_").into_iter().map(|(name, number)| (camel(&name), number)).collect();
    let wrapper: BTreeMap<String, u32> = Refusal::ALL.iter().map(|refusal| (format!("{refusal:?}"), refusal.number())).collect();
    assert_eq!(wrapper, header);
    assert!(Refusal::ALL.iter().zip(1..).all(|(refusal, number)| refusal.number() == number));
}

#[test]
fn walk_flags_are_those_of_the_header() {
    let flags = [
        ("USER", WalkFlags::USER),
        ("WRITE", WalkFlags::WRITE),
        ("FETCH", WalkFlags::FETCH),
        ("PSE", WalkFlags::PSE),
        ("WP", WalkFlags::WP),
        ("NXE", WalkFlags::NXE),
        ("SMAP", WalkFlags::SMAP),
        ("SMEP", WalkFlags::SMEP),
    ];
    let wrapper: BTreeMap<String, u32> = flags.iter().map(|(name, flag)| ((*name).to_string(), flag.bits())).collect();
    assert_eq!(wrapper, header_numbers("VCPU_WALK_"));
}

/// The rules and the accesses, in the wrapper's spelling, and the words that start an answer.
#[test]
fn rules_and_accesses_are_those_of_the_header() {
    let header = |prefix| header_numbers(prefix).into_iter().map(|(name, number)| (camel(&name), number)).collect::<BTreeMap<String, u32>>();
    let rules: BTreeMap<String, u32> = Rule::ALL.iter().map(|rule| (format!("{rule:?}"), rule.number().into())).collect();
    assert_eq!(rules, header("VCPU_RULE_"));
    let accesses = [Access::Read, Access::Write, Access::Fetch];
    let accesses: BTreeMap<String, u32> = accesses.iter().map(|access| (format!("{access:?}"), access.number().into())).collect();
    assert_eq!(accesses, header("VCPU_ACCESS_"));
    assert_eq!(header("VCPU_WALKED_"), BTreeMap::from([("Address".to_string(), 0), ("Fails".to_string(), 1)]));
}

#[test]
fn refusals_are_errors_with_a_text() {
    let error: Box<dyn Error> = Box::new(Refusal::Full);
    assert_eq!(error.to_string(), "refused (13): 64 events wait already");
    let texts: std::collections::BTreeSet<String> = Refusal::ALL.iter().map(ToString::to_string).collect();
    assert_eq!(texts.len(), Refusal::ALL.len());
}

#[test]
fn every_field_has_its_name() {
    let (session, _) = ready();
    assert!(Field::ALL.is_sorted());
    for field in Field::ALL {
        assert!(session.read_field(field).is_ok());
    }
    let known = (0..0x8000).filter(|&encoding| session.read_field(Field(encoding)).is_ok()).count();
    assert_eq!(known, Field::ALL.len());
    assert_eq!(VmcsReadOnlyNW::EXIT_QUALIFICATION, Field(0x6400));
}

/// Two sessions whose fields differ in every byte are set up alike: the fields that are then the same are those that setup writes.
#[test]
fn setup_writes_its_fields() {
    let mut bytes = [[0; RECORD_LENGTH]; 2];
    bytes[1][FIELDS].fill(0xFF);
    let [zeros, ones] = bytes.map(|bytes| {
        let mut session = Session::from_bytes(bytes).unwrap();
        session.setup(&setup(), &mut Frames::new()).unwrap();
        session
    });
    let written: Vec<Field> = Field::ALL.into_iter().filter(|&field| zeros.read_field(field) == ones.read_field(field)).collect();
    assert_eq!(written, Field::SETUP);
}

#[test]
fn each_edit_sets_and_clears_its_own_bits() {
    let mut frames = Frames::new();
    let bits = |frames: &Frames| [frames.msr.0[0], frames.msr.0[2048], frames.io_a.0[1], frames.io_b.0[0]];
    frames.set_read_intercept(1, true).unwrap();
    assert_eq!(bits(&frames), [2, 0, 0, 0]);
    frames.set_write_intercept(2, true).unwrap();
    assert_eq!(bits(&frames), [2, 4, 0, 0]);
    frames.set_msr_intercept_of_range(3, true).unwrap();
    assert_eq!(bits(&frames), [10, 12, 0, 0]);
    frames.set_msr_intercept_of_range(1, false).unwrap();
    assert_eq!(bits(&frames), [8, 12, 0, 0]);
    frames.set_io_intercept_of_range(8, 1, true).unwrap();
    frames.set_io_intercept_of_range(0x8000, 2, true).unwrap();
    assert_eq!(bits(&frames), [8, 12, 1, 3]);
}

/// A trial leaves the session as it was; the report then answers and leaves what the trial showed.
#[test]
fn a_trial_of_a_report_shows_what_the_report_does() {
    let (mut session, _) = ready();
    for reason in [1, 7, 10, 12, 18, 28, 30, 32, 55, 31, 0x8000_0021] {
        session.entry(0).unwrap();
        let mut exit = Report { interruption: 0x8000_0031, ..report(&session, reason) };
        (exit.regs[0], exit.regs[1]) = (7, if reason == 31 { 0x802 } else { 0 });
        let before = session.clone();
        let (answer, shown) = session.try_exit_report(&exit).unwrap();
        assert_eq!(session, before);
        assert_ne!(shown, before);
        assert_eq!((session.exit_report(&exit), &session), (Ok(answer), &shown));
        if session.counts().phase == Phase::Waiting {
            session.apic_value(0).unwrap();
        }
    }
    assert_eq!(session.counts().phase, Phase::Ended);
}

#[test]
fn a_trial_of_an_entry_shows_what_the_entry_does() {
    let (mut session, _) = ready();
    session.inject_interrupt(32).unwrap();
    for event in [Event::Held, Event::Written, Event::None] {
        let before = session.clone();
        let (entry, shown) = session.try_entry(0x1000).unwrap();
        assert_eq!((&session, entry.event), (&before, event));
        assert_ne!(shown, before);
        assert_eq!((session.entry(0x1000), &session), (Ok(entry), &shown));
        session.exit_report(&report(&session, 7)).unwrap();
    }
}

/// Calls and trials go on from what a trial shows, while the session stays where it is.
#[test]
fn a_trial_shows_a_session() {
    let (session, _) = ready();
    let before = session.clone();
    let (_, mut running) = session.try_entry(0x1000).unwrap();
    let (answer, next) = running.try_exit_report(&report(&running, 10)).unwrap();
    assert_eq!((answer, next.counts().phase), (Answer::Nothing, Phase::Ready));
    assert_eq!(next.read_field(VmcsHostNW::RSP), Ok(0x1000));
    assert_eq!((running.exit_report(&report(&running, 10)), &running), (Ok(answer), &next));
    assert_eq!(session, before);
}

fn frame_bytes(frames: &Frames) -> [&[u8; FRAME_LENGTH]; 3] {
    [&frames.io_a.0, &frames.io_b.0, &frames.msr.0]
}

/// Both sides of each edit: ports of both frames, one that setup intercepts and no port; MSRs; and what is refused.
#[test]
fn a_trial_of_an_edit_shows_what_the_edit_does() {
    type Trial = fn(&Frames) -> Result<Frames, Refusal>;
    type Edit = fn(&mut Frames) -> Result<(), Refusal>;
    let edits: [(Trial, Edit); 10] = [
        (|f| f.try_io_intercept_of_range(0x7FFF, 2, true), |f| f.set_io_intercept_of_range(0x7FFF, 2, true)),
        (|f| f.try_io_intercept_of_range(0x604, 1, false), |f| f.set_io_intercept_of_range(0x604, 1, false)),
        (|f| f.try_io_intercept_of_range(u32::MAX, 0, true), |f| f.set_io_intercept_of_range(u32::MAX, 0, true)),
        (|f| f.try_read_intercept(1, true), |f| f.set_read_intercept(1, true)),
        (|f| f.try_write_intercept(0xC000_0080, true), |f| f.set_write_intercept(0xC000_0080, true)),
        (|f| f.try_msr_intercept_of_range(0x800, false), |f| f.set_msr_intercept_of_range(0x800, false)),
        (|f| f.try_io_intercept_of_range(65535, 2, true), |f| f.set_io_intercept_of_range(65535, 2, true)),
        (|f| f.try_read_intercept(0x2000, true), |f| f.set_read_intercept(0x2000, true)),
        (|f| f.try_write_intercept(0xC000_2000, true), |f| f.set_write_intercept(0xC000_2000, true)),
        (|f| f.try_msr_intercept_of_range(0xBFFF_FFFF, true), |f| f.set_msr_intercept_of_range(0xBFFF_FFFF, true)),
    ];
    let (_, mut frames) = ready();
    for (trial, edit) in edits {
        let before = frames.clone();
        let shown = trial(&frames);
        assert!(frame_bytes(&frames) == frame_bytes(&before));
        assert_eq!(edit(&mut frames), shown.as_ref().map(|_| ()).map_err(|refusal| *refusal));
        assert!(frame_bytes(&frames) == frame_bytes(shown.as_ref().unwrap_or(&before)));
    }
}

#[test]
fn trials_are_refused_by_name() {
    let (mut session, frames) = ready();
    assert_eq!(session.try_exit_report(&Report::default()), Err(Refusal::Phase));
    session.entry(0).unwrap();
    assert_eq!(session.try_entry(0), Err(Refusal::Phase));
    assert_eq!(session.try_exit_report(&report(&session, 65)), Err(Refusal::Reason));
    assert_eq!(session.try_exit_report(&Report { cr0: 0x10, ..report(&session, 12) }), Err(Refusal::OwnedBits));
    assert_eq!(frames.try_io_intercept_of_range(65535, 2, true).err(), Some(Refusal::Port));
    assert_eq!(frames.try_read_intercept(0x2000, true).err(), Some(Refusal::Msr));
    assert_eq!(frames.try_write_intercept(0xC000_2000, true).err(), Some(Refusal::Msr));
    assert_eq!(frames.try_msr_intercept_of_range(0xBFFF_FFFF, true).err(), Some(Refusal::Msr));
}

#[test]
fn kept_bytes_are_the_session() {
    let (mut session, _) = ready();
    session.queue_event(14, Some(2)).unwrap();
    session.set_reg_of_index(3, 7).unwrap();
    let again = Session::from_bytes(*session.as_bytes()).unwrap();
    assert_eq!((&again, again.reg_of_index(3), again.counts()), (&session, Ok(7), session.counts()));
}

#[test]
fn all_registers_at_once() {
    let (mut session, _) = ready();
    let before = session.clone();
    let registers: [u64; 16] = std::array::from_fn(|i| 0x0101_0101_0101_0101 * (i as u64 + 1));
    session.set_registers(&registers);
    assert_eq!(session.registers(), registers);
    for index in (0..16).filter(|&index| index != 4) {
        assert_eq!(session.reg_of_index(index), Ok(0x0101_0101_0101_0101 * (index + 1)));
    }
    session.set_registers(&before.registers());
    assert_eq!(session, before);
}

#[test]
fn readings() {
    let (mut session, _) = ready();
    assert_eq!(session.ptw_info(), PageWalk { top_entry: 0, level: 0, width: 0, flags: WalkFlags::PSE });
    assert_eq!(session.gla2gva(0, 0x1234), Ok(0x1234));
    assert_eq!(session.cpu_mode(0), VmCpuMode::Real);
    assert_eq!(session.cpu_mode(0x400), VmCpuMode::Compatibility);
    session.write_field(VmcsGuest32::CS_ACCESS_RIGHTS, 0x2000).unwrap();
    assert_eq!(session.cpu_mode(0x400), VmCpuMode::Mode64);
    session.write_field(VmcsGuestNW::CR0, 0x8001_0001).unwrap();
    assert_eq!(session.cpu_mode(0), VmCpuMode::Protected);
    session.write_field(VmcsGuestNW::CR4, 0x0030_0020).unwrap();
    session.write_field(VmcsGuest64::IA32_EFER, 0xC00).unwrap();
    session.write_field(VmcsGuestNW::CR3, 0x7000).unwrap();
    let flags = WalkFlags::PSE | WalkFlags::WP | WalkFlags::NXE | WalkFlags::SMAP | WalkFlags::SMEP;
    assert_eq!(session.ptw_info(), PageWalk { top_entry: 0x7000, level: 4, width: 9, flags });
}

/// What differs from a read of the guest in an empty memory.
#[derive(Clone, Copy)]
enum Change {
    /// A word of the guest's memory: where and what.
    Word(usize, u64),
    Field(Field, u64),
    Access(Access),
}
use Change::{Field as Set, Word};

const USER: Change = Set(VmcsGuest32::SS_ACCESS_RIGHTS, 0x60);
const LONG_MODE_AND_NXE: u64 = 0xD00;

/// A guest whose page tables have so many levels, with CR3 0x1000 and EFER.NXE; WP, SMEP and SMAP are clear.
fn paging(levels: u8) -> Session {
    let (mut session, _) = ready();
    let (cr4, efer) = match levels {
        2 => (0, 0x800),
        3 => (0x20, 0x800),
        _ => (0x20, LONG_MODE_AND_NXE),
    };
    session.write_field(VmcsGuestNW::CR0, 0x8000_0001).unwrap();
    session.write_field(VmcsGuestNW::CR4, cr4).unwrap();
    session.write_field(VmcsGuest64::IA32_EFER, efer).unwrap();
    session.write_field(VmcsGuestNW::CR3, 0x1000).unwrap();
    session
}

/// A walk in a memory of 0x6000 bytes that is zero but for the words of the changes; a read, unless they say otherwise.
fn walked(mut session: Session, address: u64, changes: &[Change]) -> Result<Walked, Refusal> {
    let (mut memory, mut access) = (vec![0; 0x6000], Access::Read);
    for change in changes {
        match *change {
            Word(at, word) => memory[at..at + 8].copy_from_slice(&word.to_le_bytes()),
            Set(field, value) => session.write_field(field, value).unwrap(),
            Change::Access(kind) => access = kind,
        }
    }
    let (before, tables) = (session.clone(), memory.clone());
    let answer = session.page_walk(&memory, address, access);
    assert!(session == before && memory == tables);
    answer
}

const TABLES: [Change; 4] = [Word(0x1008, 0x2007), Word(0x2008, 0x3007), Word(0x3008, 0x4007), Word(0x4008, 0x5007)];
const IN_TABLES: u64 = 0x80_4020_1ABC;

/// The walk of `IN_TABLES` with the tables changed.
fn walked_with(changes: impl IntoIterator<Item = Change>) -> Result<Walked, Refusal> {
    walked(paging(4), IN_TABLES, &TABLES.into_iter().chain(changes).collect::<Vec<Change>>())
}

fn fails(level: u8, rule: Rule) -> Walked {
    Walked::Fails { level, rule }
}

/// Typed by document 02's words.
#[test]
fn walks_give_the_worked_answers() {
    assert_eq!(walked_with([]), Ok(Walked::Address(0x5ABC)));
    assert_eq!(walked_with([Word(0x3008, 0x2000_0087)]), Ok(Walked::Address(0x2000_1ABC)));
    assert_eq!(walked_with([Word(0x3008, 0x2000_2087)]), Ok(fails(2, Rule::Reserved)));
    assert_eq!(walked_with([Word(0x1008, 0x2003), Word(0x2008, 0), USER]), Ok(fails(4, Rule::User)));
    assert_eq!(walked_with([Word(0x1008, 0x000F_FFFF_FFFF_F003)]), Err(Refusal::Memory));
    assert_eq!(walked_with([Set(VmcsGuestNW::CR4, 0x0020_0020)]), Ok(fails(1, Rule::Smap)));
    let large = Word(0x100C, 0x0080_2087);
    assert_eq!(walked(paging(2), 0x00C0_1234, &[large, Set(VmcsGuestNW::CR4, 0x10)]), Ok(Walked::Address(0x1_0080_1234)));
    assert_eq!(walked(paging(2), 0x00C0_1234, &[large]), Err(Refusal::Memory));
    assert_eq!(walked(paging(3), 0, &[Word(0x1020, 0x2003), Set(VmcsGuestNW::CR3, 0x1020)]), Ok(fails(3, Rule::Reserved)));
}

/// Each access and each rule, and a neighbour that passes.
#[test]
fn every_rule_is_told() {
    const NO_EXECUTE: u64 = 1 << 63;
    const WRITE: Change = Change::Access(Access::Write);
    const FETCH: Change = Change::Access(Access::Fetch);
    const WP: Change = Set(VmcsGuestNW::CR0, 0x8001_0001);
    const SMEP: Change = Set(VmcsGuestNW::CR4, 0x0010_0020);
    const SMAP: Change = Set(VmcsGuestNW::CR4, 0x0020_0020);
    let passes = Ok(Walked::Address(0x5ABC));
    assert_eq!(walked_with([Word(0x4008, 0x5006)]), Ok(fails(1, Rule::NotPresent)));
    assert_eq!(walked_with([Word(0x1008, 0x2087)]), Ok(fails(4, Rule::Reserved)));
    assert_eq!(walked_with([Word(0x2008, 0x3003), USER]), Ok(fails(3, Rule::User)));
    assert_eq!(walked_with([Word(0x3008, 0x4005), WRITE, WP]), Ok(fails(2, Rule::Write)));
    assert_eq!(walked_with([Word(0x3008, 0x4005), WRITE]), passes);
    assert_eq!(walked_with([Word(0x3008, 0x4005), WP]), passes);
    assert_eq!(walked_with([Word(0x4008, NO_EXECUTE | 0x5007), FETCH]), Ok(fails(1, Rule::Execute)));
    assert_eq!(walked_with([Word(0x4008, NO_EXECUTE | 0x5007), WRITE]), passes);
    assert_eq!(walked_with([SMEP, FETCH]), Ok(fails(1, Rule::Smep)));
    assert_eq!(walked_with([SMEP]), passes);
    assert_eq!(walked_with([SMAP, WRITE]), Ok(fails(1, Rule::Smap)));
    assert_eq!(walked_with([SMAP, FETCH]), passes);
}

/// Without paging the address is the answer, whatever the memory; with it no entry lies in a memory of no byte.
#[test]
fn a_walk_without_memory() {
    for access in [Access::Read, Access::Write, Access::Fetch] {
        assert_eq!(ready().0.page_walk(&[], u64::MAX, access), Ok(Walked::Address(u64::MAX)));
        assert_eq!(paging(4).page_walk(&[], 0, access), Err(Refusal::Memory));
    }
}

/// The wrapper's accesses are right always; the archive refuses others, and then writes nothing.
#[test]
fn a_walk_of_another_access_is_refused() {
    let (session, memory, mut answer) = (paging(4), [0; 0x1000], [9; 3]);
    for (kind, refusal) in [(2, Refusal::Memory), (3, Refusal::Bytes), (255, Refusal::Bytes)] {
        let record = session.as_bytes();
        let number = unsafe { ffi::vcpu_page_walk(record.as_ptr(), record.len(), memory.as_ptr(), memory.len(), 0, kind, answer.as_mut_ptr()) };
        assert_eq!((number, answer), (refusal.number(), [9; 3]));
    }
}

/// The wrapper's lengths are right always; the archive refuses others.
#[test]
fn a_wrong_length_is_refused() {
    let (mut record, mut frame) = ([0; RECORD_LENGTH], [0; FRAME_LENGTH]);
    let number = unsafe { ffi::vcpu_apic_value(record.as_mut_ptr(), RECORD_LENGTH - 1, 0) };
    assert_eq!(number, Refusal::Bytes.number());
    let number = unsafe { ffi::vcpu_set_read_intercept(frame.as_mut_ptr(), FRAME_LENGTH - 1, 0, 1) };
    assert_eq!(number, Refusal::Bytes.number());
}

/// The wrapper's second buffers have the length of the first always; the archive refuses others: after 2, before 1, and nothing is written.
#[test]
fn a_second_buffer_of_another_length_is_refused() {
    let (session, _) = ready();
    let (record, mut none) = (*session.as_bytes(), *session.as_bytes());
    none[0] = 5;
    let (mut shown, block, mut answer) = ([0xA5; RECORD_LENGTH], Report::default().to_bytes(), [9; 8]);
    let trials = [
        (record, RECORD_LENGTH, Refusal::Phase),
        (record, RECORD_LENGTH - 1, Refusal::Shown),
        (none, RECORD_LENGTH - 1, Refusal::Bytes),
        (none, RECORD_LENGTH, Refusal::Bytes),
    ];
    for (record, length, refusal) in trials {
        let number = unsafe {
            ffi::vcpu_try_exit_report(record.as_ptr(), record.len(), shown.as_mut_ptr(), length, block.as_ptr(), block.len(), answer.as_mut_ptr())
        };
        assert_eq!((number, shown, answer), (refusal.number(), [0xA5; RECORD_LENGTH], [9; 8]));
    }
}

/// The wrong length comes before a short output, and neither result is written.
#[test]
fn a_trap_sheet_of_a_wrong_length_is_refused() {
    let frames = Frames::new();
    let [a, b, m] = [&frames.io_a, &frames.io_b, &frames.msr].map(|frame| frame.0.as_ptr());
    let (mut output, mut length) = ([b'-'; 3 * SHEET_LINE], 9);
    for wrong in 0..3 {
        let mut n = [FRAME_LENGTH; 3];
        n[wrong] -= 1;
        for room in [0, output.len()] {
            let number = unsafe { ffi::vcpu_trap_sheet(a, n[0], b, n[1], m, n[2], output.as_mut_ptr(), room, &raw mut length) };
            assert_eq!((number, output, length), (Refusal::Bytes.number(), [b'-'; 3 * SHEET_LINE], 9));
        }
    }
}
