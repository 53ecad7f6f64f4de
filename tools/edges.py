#!/usr/bin/env python3
"""What the programs `edges`, `edges_sessions`, `edges_setup` and `edges_trials` must print: usage tools/edges.py PROGRAM > crates/PROGRAM/stdout.

Each line is a call of an exported function, its arguments, and the answer that documents 01 and 02 give: the edges of "Worked by hand", and each number of "The operations
and their numbers" at its boundary, the last call that is accepted and the first that is refused; and the edges of the requests. The answers are written out here, call by call, but for the words of
N4: there the number is, and a model of setup's rule gives the same number and the words. Nothing of the port is read.
"""
import sys

M64 = 2**64 - 1


class Refused(int):
    """A refusal, as against a value."""


def edge(name, *rest):
    """A line: the arguments, and last the answer, which is a refusal, a list of values, or None for a call that leaves nothing to print."""
    *arguments, answer = rest
    if isinstance(answer, Refused):
        said = "refused %d" % answer
    elif answer is None:
        said = "accepted"
    else:
        said = " ".join("%x" % value for value in answer)
    print(name + "".join(" %x" % n for n in arguments) + ": " + said)


def ports():
    """Byte 192 of A and byte 4,095 of B. P6: port 0x604 is bit 4 of byte 192 of A."""
    name = "set_io_intercept_of_range"
    edge(name, 0x604, 1, 1, [0x10, 0])
    edge(name, 0x604, 1, 2, Refused(2))
    # port 65,535 and count 1 pass, count 2 is 10
    edge(name, 65535, 1, 1, [0, 0x80])
    edge(name, 65535, 2, 1, Refused(10))
    # count 0 passes for any port and changes nothing
    edge(name, 65536, 0, 1, [0, 0])
    edge(name, 65536, 1, 1, Refused(10))
    edge(name, 0, 65536, 1, [0xFF, 0xFF])
    edge(name, 0, 65537, 1, Refused(10))
    edge(name, 2**32 - 1, 0, 1, [0, 0])
    # the last port does not wrap
    edge(name, 1, 2**32 - 1, 1, Refused(10))


def port_orders():
    """One edit sets a port's intercept and another clears a port's, in both orders: byte 192 of A, of which bit 5, port 0x605, is set before. N8: on one port the last
    one decides; on two ports the order does not matter."""
    name = "set_io_intercept_of_range, both orders"
    edge(name, 0x604, 0x604, [0x20, 0x30])
    edge(name, 0x604, 0x605, [0x10, 0x10])


def msrs():
    """Bytes 1,040 and 3,088. P7: the write of MSR 0xC0000080 is bit 0 of byte 3,088; its read is in the quarter "read high"."""
    names = ["set_read_intercept", "set_write_intercept", "set_msr_intercept_of_range"]
    here = [[1, 0], [0, 1], [1, 1]]
    for msr, passes in [
        (0, True),
        (0x1FFF, True),
        (0x2000, False),
        (0xBFFFFFFF, False),
        (0xC0000000, True),
        (0xC0000080, True),
        (0xC0001FFF, True),
        (0xC0002000, False),
    ]:
        for name, bits in zip(names, here):
            edge(name, msr, 1, (bits if msr == 0xC0000080 else [0, 0]) if passes else Refused(11))
    for name in names:
        edge(name, 0xC0000080, 2, Refused(2))


def registers():
    """Index 4 and those above 15 are refused, judged whole; a new session's registers are 0."""
    for index, allowed in [(0, 1), (3, 1), (4, 0), (5, 1), (15, 1), (16, 0), (256, 0), (2**32, 0)]:
        edge("get_reg_of_index", index, [0] if allowed else Refused(23))
        edge("set_reg_of_index", index, M64, [M64] if allowed else Refused(23))


def fields():
    # VmcsControl16 is not in the table; before its first encoding, the first, a high half; the last, past it; an encoding judged whole
    for encoding, listed in [(0, 0), (0x7FE, 0), (0x800, 1), (0x801, 0), (0x6C16, 1), (0x6C18, 0), (0x100000800, 0)]:
        edge("read_field", encoding, [0] if listed else Refused(3))
    edge("write_field", 0x6C18, 0, Refused(3))
    # read-only, before too wide
    edge("write_field", 0x2400, 0, Refused(4))
    edge("write_field", 0x4402, M64, Refused(4))
    edge("write_field", 0x6400, 0, Refused(4))
    # 16 bits, 32, 64, natural
    edge("write_field", 0x800, 0xFFFF, [0xFFFF])
    edge("write_field", 0x800, 0x10000, Refused(5))
    edge("write_field", 0x4016, 0xFFFFFFFF, [0xFFFFFFFF])
    edge("write_field", 0x4016, 0x100000000, Refused(5))
    edge("write_field", 0x2000, M64, [M64])
    edge("write_field", 0x6800, M64, [M64])


def controls():
    name = "set_control"
    edge(name, 0x16, 0x7F, 0x16, 9, 0, [0x1F])  # P1
    edge(name, 0x7F, 0x7F, 0, 0, 0, [0x7F])
    edge(name, 0x80, 0x7F, 0, 1, 1, Refused(6))  # before 7
    edge(name, 0x16, 0x7F, 0x16, 1, 8, [0x17])
    edge(name, 0x16, 0x7F, 0x16, 1, 1, Refused(7))  # P2
    edge(name, 0x16, 0x7F, 0x16, 0x80, 0x80, Refused(7))  # before 8
    edge(name, 0x16, 0x7F, 0x16, 0x40, 0, [0x56])
    edge(name, 0x16, 0x7F, 0x16, 0x80, 0, Refused(8))
    edge(name, 0x16, 0x7F, 0x16, 0x80, 2, Refused(8))  # before 9
    edge(name, 0x16, 0x7F, 0x7F, 0, 0x69, [0x16])
    edge(name, 0x16, 0x7F, 0x16, 0, 2, Refused(9))  # P3


def lengths():
    """2: a lent length is wrong. A record has 1,485 bytes, a frame 4,096."""
    edge("new, record of", 1484, Refused(2))
    edge("new, record of", 1485, None)
    edge("new, record of", 1486, Refused(2))
    for length in [4095, 4097]:
        for name in ["new, A of", "new, B of", "new, MSR of"]:
            edge(name, length, Refused(2))
        edge("set_io_intercept_of_range, A of", length, Refused(2))
        edge("set_io_intercept_of_range, B of", length, Refused(2))
        edge("set_write_intercept, MSR of", length, Refused(2))


def records():
    """2: a phase byte above 4, a yes/no byte other than 0 or 1, more than 64 events, more held entries than entries."""
    for phase, launched, waiting, entries, held, accepted in [
        (0, 0, 0, 0, 0, True),
        (4, 0, 0, 0, 0, True),
        (5, 0, 0, 0, 0, False),
        (0, 1, 0, 0, 0, True),
        (0, 2, 0, 0, 0, False),
        (0, 0, 64, 0, 0, True),
        (0, 0, 65, 0, 0, False),
        (0, 0, 0, 7, 7, True),
        (0, 0, 0, 7, 8, False),
        (0, 0, 0, 2**32 - 1, 2**32 - 1, True),
    ]:
        numbers = [phase, launched, waiting, entries, held]
        edge("get_counts", *numbers, numbers if accepted else Refused(2))


def queues():
    """A phase, how many wait, the event: how many wait after it."""
    edge("queue_event", 0, 0, 0, 0, [1])
    edge("queue_event", 0, 0, 255, 1, [1])
    edge("queue_event", 0, 0, 255, 2, Refused(2))
    edge("queue_event", 3, 0, 32, 0, [1])
    edge("queue_event", 4, 0, 32, 0, Refused(1))  # ended
    edge("queue_event", 0, 63, 32, 0, [64])  # the 64th event passes
    edge("queue_event", 0, 64, 32, 0, Refused(13))  # the 65th is 13
    edge("queue_event", 4, 64, 32, 0, Refused(1))  # before 13
    edge("inject_interrupt", 0, 0, 0, Refused(12))
    edge("inject_interrupt", 0, 0, 1, [1])
    edge("inject_interrupt", 0, 0, 255, [1])
    edge("inject_interrupt", 0, 0, 256, Refused(12))
    edge("inject_interrupt", 0, 0, 0x100000001, Refused(12))
    edge("inject_interrupt", 3, 0, 32, [1])
    edge("inject_interrupt", 4, 0, 0, Refused(1))  # before 12
    edge("inject_interrupt", 0, 63, 32, [64])
    edge("inject_interrupt", 0, 64, 32, Refused(13))
    edge("inject_interrupt", 0, 64, 0, Refused(12))  # before 13


LAUNCH, RESUME = 0, 1
NONE, HELD, WRITTEN = 0, 1, 2


def entries():
    """A phase, the entries before, the vector that waits, RFLAGS, interruptibility: launch or resume, what was done with the event, entries, held ones."""
    edge("entry, none waiting", 0, [LAUNCH, NONE, 1, 0])
    edge("entry, none waiting", 1, [RESUME, NONE, 1, 0])
    for phase in range(5):
        edge("entry", phase, 0, 31, 0, 0, [LAUNCH, WRITTEN, 1, 0] if phase == 1 else Refused(1))  # ready alone
    # with IF clear, vector 31 goes in (above) and 32 is held
    edge("entry", 1, 0, 32, 0, 0, [LAUNCH, HELD, 1, 1])
    edge("entry", 1, 0, 32, 0x200, 0, [LAUNCH, WRITTEN, 1, 0])
    edge("entry", 1, 0, 32, M64 - 0x200, 0, [LAUNCH, HELD, 1, 1])
    # interruptibility not 0
    edge("entry", 1, 0, 32, 0x200, 1, [LAUNCH, HELD, 1, 1])
    edge("entry", 1, 0, 31, 0x200, 1, [LAUNCH, WRITTEN, 1, 0])
    # the entry count is 2^32 - 1
    edge("entry", 1, 2**32 - 2, 31, 0, 0, [LAUNCH, WRITTEN, 2**32 - 1, 0])
    edge("entry", 1, 2**32 - 1, 31, 0, 0, Refused(22))
    edge("entry", 0, 2**32 - 1, 31, 0, 0, Refused(1))


def events():
    """N7. A vector, CR0, and whether code 2 is given: 0x4016, 0x4018 and 0x401A, where 0x4018 was 9, 0x401A 5, the exit's code 6 and its length 3."""
    name = "entry, event"
    # PE set
    edge(name, 1, 1, 0, [0x80000301, 9, 5])
    edge(name, 2, 1, 0, [0x80000202, 9, 5])
    edge(name, 3, 1, 0, [0x80000603, 9, 3])
    edge(name, 4, 1, 1, [0x80000604, 9, 3])
    edge(name, 8, 1, 0, [0x80000B08, 6, 5])
    edge(name, 9, 1, 1, [0x80000309, 9, 5])
    edge(name, 14, 1, 1, [0x80000B0E, 2, 5])
    edge(name, 17, 1, 1, [0x80000B11, 2, 5])
    edge(name, 20, 1, 1, [0x80000314, 9, 5])
    edge(name, 21, 1, 0, [0x80000B15, 6, 5])
    edge(name, 21, 1, 1, [0x80000B15, 2, 5])
    edge(name, 22, 1, 1, [0x80000716, 9, 5])
    edge(name, 31, M64, 1, [0x8000071F, 9, 5])
    # PE clear
    edge(name, 1, 0, 0, [0x80000301, 9, 5])
    edge(name, 3, 0, 0, [0x80000603, 9, 3])
    edge(name, 8, 0, 0, [0x80000308, 9, 5])
    edge(name, 10, 0, 1, [0x8000030A, 9, 5])
    edge(name, 11, 0, 1, [0x8000030B, 9, 5])
    edge(name, 12, 0, 0, [0x8000030C, 9, 5])
    edge(name, 13, 0, 1, [0x8000030D, 9, 5])
    edge(name, 14, 0, 1, [0x8000030E, 9, 5])
    edge(name, 14, M64 - 1, 1, [0x8000030E, 9, 5])
    edge(name, 17, 0, 1, [0x80000311, 9, 5])
    edge(name, 21, 0, 0, [0x80000315, 9, 5])
    edge(name, 21, 0, 1, [0x80000315, 9, 5])
    # vector 14 with code 2: CR0 while it is queued, and then
    edge("entry, CR0 written", 0, 1, [0x80000B0E, 2, 5])
    edge("entry, CR0 written", 1, 0, [0x8000030E, 9, 5])


def apic_values():
    """Waiting alone; then ready, with the low half in RAX and the high half in RDX."""
    value = 0x1122334455667788
    edge("apic_value", 2, value, Refused(1))
    edge("apic_value", 3, value, [1, 0x55667788, 0x11223344])
    edge("apic_value", 4, value, Refused(1))


# The capability MSRs by number, with the usual word of each. They stand in setup's block from byte 150 on, 8 bytes each; its yes/no bytes are the last three.
USUAL = {
    0x480: 0x00DA0400_00000004,
    0x481: 0x0000007F_00000016,
    0x482: 0xFFF9FFFE_0401E172,
    0x483: 0x01FFFFFF_00036DFF,
    0x484: 0x0000F3FF_000011FF,
    0x486: 0x80000021,
    0x487: 0xFFFFFFFF,
    0x488: 0x2000,
    0x489: 0x3FFFFF,
    0x48B: 0x0010108A_00000000,
    0x48D: 0x0000007F_00000016,
    0x48E: 0xFFF9FFFE_04006172,
    0x48F: 0x01FFFFFF_00036DFB,
    0x490: 0x0000F3FF_000011FB,
}
OFFSET = {msr: 150 + 8 * place for place, msr in enumerate(USUAL)}
CR0_FIXED1, CR4_FIXED1, SECONDARY, PIN, PRIMARY, EXIT, ENTRY = (OFFSET[msr] for msr in (0x487, 0x489, 0x48B, 0x48D, 0x48E, 0x48F, 0x490))
FLAGS = (270, 271, 272)
READY = [1]


def setups():
    """A phase, and two words of the block by their offsets, of a processor with TRUE words. Allowed-1 is the high half of a pair."""
    # pin sets 0x9
    words = [(PIN, 0x0000001F_00000016, READY), (PIN, 0x0000001F_00000036, Refused(6)), (PIN, 0x0000001E_00000016, Refused(8))]
    # primary sets 0x92000000 and clears 0x198000
    words += [(PRIMARY, 0x96016172_04006172, READY), (PRIMARY, 0x92016172_04006172, Refused(6))]
    words += [(PRIMARY, 0x86016172_04006172, Refused(8)), (PRIMARY, 0xFFF9FFFE_0400E172, Refused(9))]
    # secondary sets 0x82
    words += [(SECONDARY, 0x00000082_00000082, READY), (SECONDARY, 0x00000082_00000083, Refused(6)), (SECONDARY, 0x00000080_00000000, Refused(8))]
    # exit sets 0x3C8200
    words += [(EXIT, 0x003FEFFB_00036DFB, READY), (EXIT, 0x003FEFF9_00036DFB, Refused(6)), (EXIT, 0x003BEFFB_00036DFB, Refused(8))]
    # entry sets 0xC000
    words += [(ENTRY, 0x0000D1FB_000011FB, READY), (ENTRY, 0x0000C1FB_000011FB, Refused(6)), (ENTRY, 0x000091FB_000011FB, Refused(8))]
    # fixed-0 is 0x80000021 of CR0 and 0x2000 of CR4
    words += [(CR0_FIXED1, 0x80000021, READY), (CR0_FIXED1, 0x80000020, Refused(6))]
    words += [(CR4_FIXED1, 0x2000, READY), (CR4_FIXED1, 0x1FFF, Refused(6))]
    for offset, value, answer in words:
        edge("setup", 0, offset, value, offset, value, answer)
    edge("setup", 1, CR4_FIXED1, 0x2000, CR4_FIXED1, 0x2000, Refused(1))
    edge("setup", 4, CR4_FIXED1, 0, CR4_FIXED1, 0, Refused(1))  # before 6
    edge("setup", 0, PIN, 0x0000001E_00000016, CR4_FIXED1, 0, Refused(6))  # of any word, before 8
    edge("setup", 0, PIN, 0x0000001E_00000016, PRIMARY, 0xFFF9FFFE_0400E172, Refused(8))  # pin before primary
    edge("setup", 0, PRIMARY, 0xFFF9FFFE_0400E172, SECONDARY, 0, Refused(9))  # primary before secondary
    for offset in FLAGS:
        edge("setup, yes/no byte", offset, 1, READY)
        edge("setup, yes/no byte", offset, 2, Refused(2))


# The five words in the order of setup's refusals: the plain MSR, the TRUE one (0x48B stands for both), what setup sets without a yes/no byte, what it clears.
WORDS = [
    (0x481, 0x48D, 0x9, 0),
    (0x482, 0x48E, 0x92000000, 0x198000),
    (0x48B, 0x48B, 0x82, 0),
    (0x483, 0x48F, 0x3C8200, 0),
    (0x484, 0x490, 0xC000, 0),
]


def low(word):
    return word % 2**32


def high(word):
    return word >> 32


def set_up(phase, msrs):
    """The five capability words used and the five control words, or the refusal."""
    used = [msrs[superseding if msrs[0x480] >> 55 & 1 else plain] for plain, superseding, _, _ in WORDS]
    if phase != 0:
        return Refused(1)
    if any(low(word) & ~high(word) for word in used) or msrs[0x486] & ~msrs[0x487] or msrs[0x488] & ~msrs[0x489]:
        return Refused(6)
    controls = []
    for word, (plain, _, sets, clears) in zip(used, WORDS):
        if sets & ~high(word):
            return Refused(8)
        if clears & low(word):
            return Refused(9)
        controls.append(low(word) | sets | low(msrs[plain]) & ~low(word) & high(word) & ~sets & ~clears)
    return used + controls


def words_used(number, basic, *changes, phase=0):
    """A line: the phase, IA32_VMX_BASIC, and two changed words of the block by their offsets; a single change is named twice, none names IA32_VMX_BASIC."""
    changes = changes or ((0x480, basic),)
    (first, value), (second, other) = (changes * 2)[:2]
    answer = set_up(phase, {**USUAL, 0x480: basic, **dict(changes)})
    if number != (answer if isinstance(answer, Refused) else 0):
        sys.exit("edges.py: %d by the request, %s by the model" % (number, answer))
    edge("setup, words", phase, basic, OFFSET[first], value, OFFSET[second], other, answer)


# IA32_VMX_BASIC with bit 55, and without; a plain primary word that demands none of the bits that setup clears.
TRUE, PLAIN = 0x00DA0400_00000004, 0x005A0400_00000004
OPEN = (0x482, 0xFFF9FFFE_04006172)


def pairs():
    """N4. After an accepted setup: the MSRs whose halves are kept as the pairs of pin, primary, secondary, exit and entry, and the five control words."""
    words_used(0, TRUE)
    words_used(9, PLAIN)
    words_used(0, PLAIN, OPEN, (0x48E, 0))
    # bit 55 alone counts
    words_used(0, 2**55)
    words_used(0, M64)
    for basic in [0, 2**54, 2**56, 2**54 + 2**56, M64 - 2**55]:
        words_used(9, basic)
        words_used(0, basic, OPEN, (0x48E, 0))
    # a word that contradicts itself is 6 if it is used; a plain one beside TRUE words gives its low half as the old word
    for msr in [0x48D, 0x48E, 0x48B, 0x48F, 0x490]:
        words_used(6, TRUE, (msr, 1))
    for old in [1, 0xFFFFFFFF]:
        for msr in [0x481, 0x482, 0x483, 0x484]:
            words_used(0, TRUE, (msr, old))
    words_used(0, TRUE, (0x481, 0xFFFFFFFF_00000000))
    for msr in [0x481, 0x482, 0x48B, 0x483, 0x484]:
        words_used(6, PLAIN, (msr, 1))
    words_used(9, PLAIN, (0x48D, 1))
    for msr in [0x48D, 0x48E, 0x48F, 0x490]:
        words_used(0, PLAIN, OPEN, (msr, 1))
    # each plain word is kept
    words_used(0, PLAIN, OPEN, (0x481, 0x00000079_00000070))
    words_used(0, PLAIN, OPEN, (0x483, 0x007FFFFF_00036DFF))
    words_used(0, PLAIN, OPEN, (0x484, 0x0000D1FF_000011FF))
    demanded()
    orders()


def demanded():
    """Each bit that setup clears."""
    for bit in [15, 16, 19, 20]:
        words_used(9, PLAIN, (0x482, OPEN[1] + 2**bit))
    for bit in [16, 19, 20]:
        words_used(9, TRUE, (0x48E, OPEN[1] + 2**bit))
    words_used(0, PLAIN, OPEN, (0x48E, OPEN[1] + 0x198000))


def orders():
    """Without TRUE words: 8 of each word, and what comes before what."""
    words_used(8, PLAIN, (0x481, 0x0000007E_00000016))  # pin's 8 before primary's 9
    words_used(8, PLAIN, (0x482, 0x7FF9FFFE_0401E172))  # within a word, too
    words_used(9, PLAIN, (0x48B, 0))  # before secondary's 8
    words_used(8, PLAIN, OPEN, (0x48B, 0))
    words_used(8, PLAIN, OPEN, (0x483, 0x01FFFDFF_00036DFF))
    words_used(8, PLAIN, OPEN, (0x484, 0x0000B3FF_000011FF))
    words_used(6, PLAIN, (0x481, 0x0000007E_00000016), (0x484, 1))  # of any word, before 8
    words_used(6, PLAIN, (0x481, 0x0000007E_00000016), (0x489, 0))
    words_used(1, PLAIN, (0x481, 1), phase=1)  # before 6


WAITING, ENDED = [3], [4]


def reports():
    """A phase and a full reason: the phase after an accepted report."""
    name = "exit_report"
    edge(name, 1, 10, Refused(1))
    edge(name, 2, 10, READY)
    edge(name, 3, 10, Refused(1))
    edge(name, 1, 65, Refused(1))  # before 14
    # above 64 or 35, 38 or 42: 14
    for reason in [34, 35, 36, 37, 38, 39, 41, 42, 43, 64, 65, 0xFFFF]:
        edge(name, 2, reason, Refused(14) if reason > 64 or reason in (35, 38, 42) else READY)
    # the reason is bits 0 to 15
    edge(name, 2, 0x7FFF0040, READY)
    # bit 31: a failed entry of 33, 34 or 41 ends the session, any other is 14
    for reason in [32, 33, 34, 35, 40, 41, 42]:
        edge(name, 2, 0x80000000 + reason, ENDED if reason in (33, 34, 41) else Refused(14))
    edge(name, 2, 44, Refused(21))
    # 16: reason 1 with valid clear or type 1
    edge("exit_report, interruption", 1, 0x80000020, READY)
    edge("exit_report, interruption", 1, 0x00000020, Refused(16))
    edge("exit_report, interruption", 1, 0x80000120, Refused(16))
    edge("exit_report, interruption", 1, 0x80000220, READY)
    edge("exit_report, interruption", 10, 0, READY)
    name = "exit_report, qualification"
    # 18: reason 28 unless it is a move to CR0 or CR4
    for qualification, moves in [(0, 1), (3, 0), (4, 1), (8, 0), (0x10, 0), (0x14, 0), (0x20, 0), (0x30, 0)]:
        edge(name, 28, qualification, 0, 0, READY if moves else Refused(18))
    # reason 55 with ECX not 0 is 20, with it 0 and a value of 0 is 19
    edge(name, 55, 0, 0, 0, Refused(19))
    edge(name, 55, 0, 1, 0, Refused(20))
    edge(name, 55, 0, 2**32, 0, Refused(19))
    edge(name, 44, 0, 0, M64, Refused(21))
    # CPUID advances RIP by 2 and a move to CR0 by 3: to 2^64 - 1, and past it; an interrupt window by nothing
    edge(name, 10, 0, 0, M64 - 2, READY)
    edge(name, 10, 0, 0, M64 - 1, Refused(17))
    edge(name, 28, 0, 0, M64 - 3, READY)
    edge(name, 28, 0, 0, M64 - 2, Refused(17))
    edge(name, 7, 0, 0, M64, READY)
    # reads of MSRs 0x800 to 0x8FF wait for the APIC's value
    for msr, answer in [(0x7FF, READY), (0x800, WAITING), (0x8FF, WAITING), (0x900, READY)]:
        edge(name, 31, 0, msr, 0, answer)


def control_registers():
    # 15: a bit under the mask, bit 0, differs from the session's, which is 0
    name = "exit_report, masks of bit 0"
    edge(name, 10, 0, 0, READY)
    edge(name, 10, M64 - 1, M64 - 1, READY)
    edge(name, 10, 1, 0, Refused(15))
    edge(name, 10, 0, 1, Refused(15))
    edge(name, 0x80000021, 1, 1, ENDED)  # failed, so not judged
    edge(name, 65, 1, 1, Refused(14))  # before 15
    edge(name, 44, 1, 0, Refused(15))  # before 21
    # 8: RAX, EFER, allowed-1 of the entry word, RIP. Entry bit 9 is to be set where RAX has PG and LME and LMA are not both set
    name = "exit_report, move to CR0"
    edge(name, 0x80000000, 0, 0x200, 0, READY)
    edge(name, 0x80000000, 0, 0xFFFFFDFF, 0, Refused(8))
    edge(name, 0x80000000, 0x400, 0, 0, Refused(8))
    edge(name, 0x80000000, 0x100, 0, 0, Refused(8))
    edge(name, 0x80000000, 0x500, 0, 0, READY)
    edge(name, 0x7FFFFFFF, 0, 0, 0, READY)
    edge(name, 0x80000000, 0, 0, M64, Refused(17))  # before 8


def xcr0():
    """N1. The reading gives what the record holds, in any phase."""
    edge("get_xcr0", 0, 0, [0])
    edge("get_xcr0", 0, M64 - 1, [M64 - 1])
    edge("get_xcr0", 4, 2, [2])
    edge("get_xcr0", 5, 1, Refused(2))
    # the supported bits, EDX:EAX, and whether it passes: X87, SSE and AVX; MPX; AVX-512; AMX; the supported bits alone
    for supported, value, passes in [
        (7, 1, True), (7, 3, True), (7, 7, True), (7, 0, False), (7, 2, False), (7, 5, False), (7, 6, False),
        (7, 0xF, False), (0x1F, 0x19, True), (0x1F, 0x1F, True), (0x1F, 0x9, False), (0x1F, 0x11, False),
        (0xE7, 0xE7, True), (0xE7, 0xE3, False), (0xE7, 0x27, False), (0xE7, 0xC7, False), (0xE7, 0xA7, False), (0xE7, 0x67, False),
        (0x60007, 0x60001, True), (0x60007, 0x20001, False), (0x60007, 0x40001, False),
        (0x207, 0x201, True), (7, 0x201, False), (M64, 0x101, True), (M64, 2**63 + 1, True), (M64, M64, True),
        (6, 7, False), (6, 1, False), (0, 1, False),
    ]:
        edge("exit_report, XSETBV", supported, value >> 32, value % 2**32, 0, 0x1000, [0, value, 0x1003] if passes else Refused(19))
    # RDX, RAX, RCX and RIP: the low halves count, ECX is looked at first, RIP last
    name = "exit_report, XSETBV"
    edge(name, 7, 0, 3, 2**32, 0x1000, [0, 3, 0x1003])
    edge(name, 7, 0, 3, 1, 0x1000, Refused(20))
    edge(name, 7, 0, 2, 1, 0x1000, Refused(20))
    edge(name, 7, M64 - (2**32 - 1), M64 - (2**32 - 1) + 3, 0, 0x1000, [0, 3, 0x1003])
    edge(name, 7, 0, 3, 0, 2**64 - 4, [0, 3, M64])
    edge(name, 7, 0, 3, 0, 2**64 - 3, Refused(17))
    edge(name, 7, 0, 2, 0, 2**64 - 3, Refused(19))


def addresses():
    """17: the sum of CS base and address passes 2^64 - 1. Host EFER, CS rights, CS base, address."""
    edge("gla2gva", 0, 0, 1, M64 - 1, [M64])
    edge("gla2gva", 0, 0, 1, M64, Refused(17))
    edge("gla2gva", 0x400, 0, 1, M64, Refused(17))
    edge("gla2gva", 0x400, 0x2000, 1, M64, [M64])  # 64-bit mode


def sheets():
    """N2. The lengths of A, B, the MSR frame and the output, with no trap: the sheet's length. Three lines have 123 bytes."""
    name = "trap_sheet"
    edge(name, 4096, 4096, 4096, 0, Refused(24))
    edge(name, 4096, 4096, 4096, 122, Refused(24))
    edge(name, 4096, 4096, 4096, 123, [123])
    edge(name, 4096, 4096, 4096, 124, [123])
    # 2 of each frame, before 24
    for length in [4095, 4097]:
        for room in [122, 123]:
            edge(name, length, 4096, 4096, room, Refused(2))
            edge(name, 4096, length, 4096, room, Refused(2))
            edge(name, 4096, 4096, length, room, Refused(2))
    # a port and its count: a fourth line, also from A to B
    for port, count in [(0x604, 1), (0x7FFF, 2), (0, 65536)]:
        edge("trap_sheet, ports", port, count, 163, Refused(24))
        edge("trap_sheet, ports", port, count, 164, [164])
    # MSRs whose reads are trapped: neighbours are one line, the last low one and the first high one are two
    for msr, other, room, answer in [(0x1FFE, 0x1FFF, 163, Refused(24)), (0x1FFE, 0x1FFF, 164, [164]), (0x1FFF, 0xC0000000, 204, Refused(24)), (0x1FFF, 0xC0000000, 205, [205])]:
        edge("trap_sheet, reads", msr, other, room, answer)


SHOWN = Refused(25)


def tried_entries():
    """N5. A phase, the lengths of the record and of the second one: launch or resume, what is done with the event, phase and entries shown."""
    name = "try_entry"
    for phase in range(6):
        edge(name, phase, 1485, 1485, [LAUNCH, NONE, 2, 1] if phase == 1 else Refused(2 if phase == 5 else 1))
    for length in [0, 1484, 1486]:
        edge(name, 1, 1485, length, SHOWN)
    # 25 before 1, and 2 before 25
    edge(name, 0, 1485, 1484, SHOWN)
    edge(name, 5, 1485, 1484, Refused(2))
    # 25 before 22
    edge("try_entry, the last", 1485, Refused(22))
    edge("try_entry, the last", 1484, SHOWN)
    # another length of the first is 2, also where the second has it too
    edge(name, 1, 1484, 1485, Refused(2))
    edge(name, 1, 1484, 1484, Refused(2))
    edge(name, 1, 1486, 1486, Refused(2))


def tried_reports():
    """N5. A phase, a reason, the lengths of the record, of the second one and of the block: the answer's number (10 is Halt), and the phase shown."""
    name = "try_exit_report"
    edge(name, 1, 10, 1485, 1485, 244, Refused(1))
    edge(name, 2, 10, 1485, 1485, 244, [0, 1])
    edge(name, 2, 12, 1485, 1485, 244, [10, 1])
    edge(name, 3, 10, 1485, 1485, 244, Refused(1))
    edge(name, 2, 65, 1485, 1485, 244, Refused(14))
    edge(name, 2, 10, 1485, 1484, 244, SHOWN)
    edge(name, 2, 10, 1485, 1486, 244, SHOWN)
    # 25 before 1 and 14
    edge(name, 1, 10, 1485, 1484, 244, SHOWN)
    edge(name, 2, 65, 1485, 1484, 244, SHOWN)
    # 2 of the block, and of the record, before 25
    edge(name, 2, 0, 1485, 1485, 243, Refused(2))
    edge(name, 2, 0, 1485, 1484, 243, Refused(2))
    edge(name, 2, 10, 1484, 1484, 244, Refused(2))
    edge(name, 2, 10, 1484, 1485, 244, Refused(2))


def tried_ports():
    """N5. Ports, the yes/no byte and the lengths of the second A and B: byte 192 of A and byte 4,095 of B shown, both of them whichever is edited."""
    name = "try_io_intercept_of_range"
    edge(name, 0x604, 1, 1, 4096, 4096, [0x10, 0])
    edge(name, 65535, 1, 1, 4096, 4096, [0, 0x80])
    edge(name, 65535, 2, 1, 4096, 4096, Refused(10))
    edge(name, 2**32 - 1, 0, 1, 4096, 4096, [0, 0])
    edge(name, 0x604, 1, 2, 4096, 4096, Refused(2))
    # 25 of either, before 10 and after 2
    for base, count, intercept, length, answer in [
        (0x604, 1, 1, 4095, SHOWN),
        (0x604, 1, 1, 4097, SHOWN),
        (65535, 2, 1, 4095, SHOWN),
        (2**32 - 1, 0, 1, 4097, SHOWN),
        (0x604, 1, 2, 4095, Refused(2)),
    ]:
        edge(name, base, count, intercept, length, 4096, answer)
        edge(name, base, count, intercept, 4096, length, answer)
    # another length of the first, which the second has too
    edge("try_io_intercept_of_range, A and B of", 4095, 4096, Refused(2))
    edge("try_io_intercept_of_range, A and B of", 4096, 4097, Refused(2))


def tried_msrs():
    """N5. An MSR, the yes/no byte, the lengths of the frame and of the second one: bytes 1,040 and 3,088 shown."""
    names = ["try_read_intercept", "try_write_intercept", "try_msr_intercept_of_range"]
    here = [[1, 0], [0, 1], [1, 1]]
    for msr, intercept, first, second, answer in [
        (0xC0000080, 1, 4096, 4096, None),
        (0x2000, 1, 4096, 4096, Refused(11)),
        (0xC0000080, 2, 4096, 4096, Refused(2)),
        (0xC0000080, 1, 4096, 4095, SHOWN),
        (0x2000, 1, 4096, 4097, SHOWN),
        (0xC0000080, 2, 4096, 4095, Refused(2)),
        (0xC0000080, 1, 4095, 4095, Refused(2)),
        (0x2000, 1, 4095, 4096, Refused(2)),
    ]:
        for name, bits in zip(names, here):
            edge(name, msr, intercept, first, second, bits if answer is None else answer)


PROGRAMS = {
    "edges": [ports, port_orders, msrs, registers, fields, controls, lengths, addresses, sheets],
    "edges_sessions": [records, queues, entries, events, apic_values, reports, control_registers],
    "edges_setup": [setups, pairs, xcr0],
    "edges_trials": [tried_entries, tried_reports, tried_ports, tried_msrs],
}
for part in PROGRAMS[sys.argv[1]]:
    part()
