"""Modules with one edit each, which the traces have to tell apart from the right one: name, the rule
that most of the traces break, their liberties, file, old text, new text."""

SOURCE, SINK, BLOCK, LEGALITY, BURST = "tl_source_rules.sv", "tl_sink_rules.sv", "tl_block_rules.sv", "tl_legality.sv", "tl_bursts.sv"

WRONG = [
    ("H4 forgets the Release", "H4", (), BLOCK, "H4 = acquire || release_;", "H4 = acquire;"),
    ("H5 forgets BtoT", "H5", (), BLOCK, "grow == GROW_BtoT ? held == TRUNK :", "grow == GROW_BtoT ? 1'b0 :"),
    ("H6 forgets the Probe", "H6", (), BLOCK, "held != BRANCH) || probe;", "held != BRANCH);"),
    ("H6 takes any cap", "H6", (), SOURCE, "!denied && (!right_cap(cap, request, grow)\n", "!denied && (1'b0\n"),
    ("H9 forgets the GrantAck", "H9", (), BLOCK, "H9 = probe || grant_ack;", "H9 = probe;"),
    ("H11 is left out", "H11", (), BLOCK, "H11 = release_;", "H11 = 1'b0;"),
    ("H13 forgets the Acquire", "H13", (), BLOCK, "H13 = acquire || release_\n", "H13 = release_\n"),
    ("H3 comes before H2", "H2", (), SOURCE, "d_h3 = !d_h2 && H3(d.size, size_n);", "d_h3 = H3(d.size, size_n); d_h2 = d_h2 && !d_h3;"),
    ("a Release leaves nothing held", "H13", (), BLOCK, "{2'b11, c.source, right_end(c.param)}", "{2'b11, c.source, NONE}"),
    ("what a ProbeAck leaves is held from its first beat on", "H5", (), BLOCK, "if (answers && c.last) begin",
     "if (answers && c.first) held_n = right_end(c.param);\n    if (answers && c.last) begin"),
    ("any GrantAck acknowledges the Grant of a block", "H9", (), BLOCK, "grant_ack_n && e.sink == grant_sink_n", "grant_ack_n"),
    ("any ReleaseAck ends the Release of a block", "H4", (), BLOCK, "release_n && d.source == release_source_n", "release_n"),
    ("a request may be answered before it is complete", "H2", (), SOURCE, "!(complete || |(LIBERTIES & LIBERTY_EARLY))", "1'b0"),
    ("a Grant may be acknowledged before it is complete", "H8", (), SINK, "!(complete || |(LIBERTIES & LIBERTY_EARLY))", "1'b0"),
    ("a sink is free after its Grant's last beat", "H7", (), SINK, "if (d_here && d.last) granted_n = 1;",
     "if (d_here && d.last) {granted_n, pending_n} = 2'b10;"),
    ("S1 forgets the sink", "S1", (), BURST, "it.source, it.sink, it.address", "it.source, 8'd0, it.address"),
    ("the mask of a PutPartialData is that of a PutFullData", "L5", (), LEGALITY, "CHANNEL == CHANNEL_A && opcode == A_PutPartialData ?", "1'b0 ?"),
    ("a ProbePerm may be answered with data", "H10", (), BLOCK, "(answer == C_ProbeAckData && probe_opcode == B_ProbePerm)", "1'b0"),
    ("an AcquirePerm may be answered with data", "H2", (), SOURCE, "D_GrantData: may_answer = request == A_AcquireBlock;",
     "D_GrantData: may_answer = acquires(request);"),
    ("a Release may be answered before it is complete", "H2", (), SOURCE, "H2(giving_n, given_n, 1'b1)", "H2(giving_n, 1'b1, 1'b1)"),
    ("an address is aligned to a beat alone", "L4", (), LEGALITY, "(33'd1 << size) - 33'd1", "(33'd1 << (size > BEAT_SIZE ? BEAT_SIZE : size)) - 33'd1"),
    ("a Probe is answered when its answer begins", "H9", (), BLOCK, "if (answers && c.last) begin",
     "if (answers && c.first) probe_n = 1'b0;\n    if (answers && c.last) begin"),
    ("a ProbeAck may have another source than its Probe", "H10", ("ids",), BLOCK, "answer_source != probe_source", "1'b0"),
    ("a Grant that was acknowledged is held from its last beat on", "H12", ("early",), BLOCK,
     "e.sink == grant_sink_n) begin\n      if (granting_n)", "e.sink == grant_sink_n) begin\n      if (1'b0)"),
    ("a denied Grant leaves its cap held", "H5", ("denied",), BLOCK, "{1'b1, !d.denied, d.sink, capped(d.param)}", "{2'b11, d.sink, capped(d.param)}"),
]

BETWEEN = "tl_manager_properties.sv"

# The same of the rules between links: name, file, old text, new text.
WRONG_BETWEEN = [
    ("M1 forgets readers", BETWEEN, "cap == CAP_toT ? held != NONE :", "cap == CAP_toT ? held == TRUNK :"),
    ("M1 forgets a Grant toB", BETWEEN, ": held == TRUNK;\n  endfunction\n\n  wire [N-1:0] beside", ": 1'b0;\n  endfunction\n\n  wire [N-1:0] beside"),
    ("a Get is excluded by readers", BETWEEN, "reads ? held == TRUNK : held != NONE", "held != NONE"),
    ("an access is excluded by writers alone", BETWEEN, "reads ? held == TRUNK : held != NONE", "held == TRUNK"),
    ("M4 looks at the moment of the answer alone", BETWEEN, "    m4_broken = access_n",
     "    window_n = is_free(held_after_c, reads_n);\n    m4_broken = access_n"),
    ("no report shows bytes", BETWEEN, "(reads_n && |shows_here)", "1'b0"),
    ("a report shows bytes to who writes", BETWEEN, "(reads_n && |shows_here)", "|shows_here"),
    ("the answer to a ProbePerm shows bytes", BLOCK, "(c.opcode == C_ProbeAckData || probe_opcode_n == B_ProbeBlock)", "1'b1"),
    ("a report that leaves Branch alone shows bytes", BLOCK, "shows_here = right_end(c.param) == TRUNK && (", "shows_here = right_end(c.param) == BRANCH && ("),
]


def beside_trunk(access, report):
    """A trace of an access beside a link that holds Trunk."""
    opened = ["tltrace 2 8 C UL", "00 A 7 1 6 00 00000000 ff - 0", "00 D 4 0 6 00 00 0 - 0", "00 E 00"]
    return "\n".join([*opened, access[0], *report, access[1], ""])


GET = "01 A 4 0 3 00 00000000 ff - 0", "01 D 1 0 3 00 00 0 0000000000000000 0"
PUT = "01 A 0 0 3 00 00000000 ff 0000000000000000 0", "01 D 0 0 3 00 00 0 - 0"
PROBE_BLOCK = "00 B 6 0 6 00 00000000 ff - 0"
PROBE_PERM = "00 B 7 0 6 00 00000000 ff - 0"
PROBE_ACK = "00 C 4 3 6 00 00000000 - 0"
PROBE_ACK_DATA = ["00 C 5 3 6 00 00000000 0000000000000000 0"] * 8

# Traces in which a report keeps Trunk: name and text.
DIRECTED_BETWEEN = [
    ("a Get behind the ProbeAck of a ProbeBlock", beside_trunk(GET, [PROBE_BLOCK, PROBE_ACK])),
    ("a Get behind a ProbeAckData", beside_trunk(GET, [PROBE_BLOCK, *PROBE_ACK_DATA])),
    ("a Get before the last beat of a ProbeAckData", beside_trunk(GET, [PROBE_BLOCK, *PROBE_ACK_DATA[:7]])),
    ("a Get behind the ProbeAck of a ProbePerm", beside_trunk(GET, [PROBE_PERM, PROBE_ACK])),
    ("a Put behind the ProbeAck of a ProbeBlock", beside_trunk(PUT, [PROBE_BLOCK, PROBE_ACK])),
]

STEPS = "tl_memory_steps.sv"
MEMORY = "tl_memory_properties.sv"

# The same of the bytes of memory.
WRONG_MEMORY = [
    ("data that are given back say nothing", STEPS, "(it.opcode == C_ProbeAckData || it.opcode == C_ReleaseData)", "1'b0"),
    ("a GrantData says nothing", STEPS, "grant && it.last && (it.opcode == D_GrantData || unread)", "1'b0"),
    ("a Put writes all lanes", STEPS, "has_byte && mask[lane]", "has_byte"),
    ("a Put is pending from its last beat on", STEPS, "(is_put || it.last)", "it.last"),
    ("the windows of a Put count from its last beat on", STEPS, "{SLOTS{it.first || !is_put}}", "{SLOTS{it.last}}"),
    ("what is pending can't be granted", STEPS, "was.may || |(was.pending & was.writes & was.could & was.window)", "was.may"),
    ("what is pending can't be read", STEPS, "(it.may || |(it.pending & it.writes & it.could & ~reader))", "it.may"),
    ("a read looks at the last window alone", STEPS, "wire read = it.read || (window", "wire read = (window"),
    ("a read may bring what was so while it had no window", STEPS, "(window && (it.may", "(1'b1 && (it.may"),
    ("no report shows bytes to a read", MEMORY, "|| shows_here[g] : is_free", ": is_free"),
    ("a later beat of a Get's answer brings what was so before the first", STEPS, "it.first || gets ? was.read", "it.first ? was.read"),
    ("a write leaves what was before", STEPS, "wire stays = !(was.free && once) || |(slot & was.since);", "wire stays = 1'b1;"),
    ("a write leaves nothing of what was said since its window began", STEPS, "|| |(slot & was.since);", "|| 1'b0;"),
    ("a denied Put may leave anything", STEPS, "wire wrote = |", "wire wrote = it.denied || |"),
    ("a denied Put was performed", STEPS, "(slot & was.window & ~was.again) && !it.denied;", "(slot & was.window & ~was.again);"),
    ("a denied Put wasn't performed", STEPS, "it.last && (was.free || !was.told);", "it.last && (was.free || !was.told) && !it.denied;"),
    ("a read of the block brings bytes that it didn't ask for", STEPS, "assign reads = reaches;", "assign reads = here;"),
]

# Traces in which a byte tells the modules apart: name and text.
DIRECTED_MEMORY = [
    *((f"a Put of 7 over 5 is denied, and a Get brings {value}", f"""tltrace 2 8 UL UL UL
00 A 0 0 0 00 00000000 01 0000000000000005 0
00 D 0 0 0 00 00 0 - 0
00 A 0 0 0 00 00000000 01 0000000000000007 0
00 D 0 0 0 00 00 1 - 0
01 A 4 0 0 00 00000000 01 - 0
01 D 1 0 0 00 00 0 000000000000000{value} 0
""") for value in (5, 6, 7)),
    *((f"a Get that waits for a report of 7 brings {value}", "\n".join([
        "tltrace 2 8 C UL UL", "00 A 6 1 6 00 00000000 ff - 0", *["00 D 5 0 6 00 00 0 0000000000000005 0"] * 8, "00 E 00",
        "01 A 4 0 0 00 00000000 01 - 0", PROBE_BLOCK, *["00 C 5 3 6 00 00000000 0000000000000007 0"] * 8,
        f"01 D 1 0 0 00 00 0 000000000000000{value} 0", ""])) for value in (5, 7)),
    ("a Get is served beat by beat beside a Put of 7", """tltrace 2 8 UL UH UL
00 A 0 0 0 00 00000008 01 0000000000000005 0
00 D 0 0 0 00 00 0 - 0
01 A 4 0 4 00 00000000 ff - 0
01 D 1 0 4 00 00 0 0000000000000000 0
00 A 0 0 0 00 00000008 01 0000000000000007 0
00 D 0 0 0 00 00 0 - 0
01 D 1 0 4 00 00 0 0000000000000007 0
"""),
    ("a Get brings the first beat of a Put whose second has not come", """tltrace 2 8 UH UL UL
00 A 0 0 3 00 00000000 ff 0505050505050505 0
00 D 0 0 3 00 00 0 - 0
00 A 0 0 4 00 00000000 ff 0707070707070707 0
01 A 4 0 0 00 00000000 01 - 0
01 D 1 0 0 00 00 0 0000000000000007 0
"""),
    ("a Put of 9 is written between the beats of a Put of 7, and found behind both", """tltrace 2 8 UH UH UL
00 A 0 0 4 00 00000000 ff 0707070707070707 0
01 A 0 0 4 00 00000000 ff 0909090909090909 0
01 A 0 0 4 00 00000000 ff 0909090909090909 0
01 D 0 0 4 00 00 0 - 0
00 A 0 0 4 00 00000000 ff 0707070707070707 0
00 D 0 0 4 00 00 0 - 0
01 A 4 0 0 00 00000000 01 - 0
01 D 1 0 0 00 00 0 0000000000000009 0
"""),
    ("a Get brings what a Put writes that is pending", """tltrace 2 8 UL UL UL
00 A 0 0 0 00 00000000 01 0000000000000005 0
00 D 0 0 0 00 00 0 - 0
00 A 0 0 0 00 00000000 01 0000000000000007 0
01 A 4 0 0 00 00000000 01 - 0
01 D 1 0 0 00 00 0 0000000000000007 0
"""),
    ("two Puts are pending at once, and a Get brings what the first to be answered wrote", """tltrace 2 8 UL UL UL
00 A 0 0 0 00 00000000 01 0000000000000005 0
01 A 0 0 0 00 00000000 01 0000000000000007 0
00 D 0 0 0 00 00 0 - 0
01 D 0 0 0 00 00 0 - 0
02 A 4 0 0 00 00000000 01 - 0
02 D 1 0 0 00 00 0 0000000000000005 0
"""),
    ("two Puts are pending at once, and a Get brings what was before both", """tltrace 2 8 UL UL UL
00 A 0 0 0 00 00000000 01 0000000000000003 0
00 D 0 0 0 00 00 0 - 0
00 A 0 0 0 00 00000000 01 0000000000000005 0
01 A 0 0 0 00 00000000 01 0000000000000007 0
00 D 0 0 0 00 00 0 - 0
01 D 0 0 0 00 00 0 - 0
02 A 4 0 0 00 00000000 01 - 0
02 D 1 0 0 00 00 0 0000000000000003 0
"""),
    ("a Get has another byte beside the one that it asks for", """tltrace 2 8 UL UL UL
00 A 0 0 1 00 00000000 03 0000000000000305 0
00 D 0 0 1 00 00 0 - 0
01 A 4 0 0 00 00000001 02 - 0
01 D 1 0 0 00 00 0 0000000000000309 0
"""),
    ("a Put has other data in a lane that it doesn't write", """tltrace 2 8 UL UL UL
00 A 0 0 1 00 00000000 03 0000000000000305 0
00 D 0 0 1 00 00 0 - 0
00 A 1 0 1 00 00000000 01 0000000000000907 0
00 D 0 0 1 00 00 0 - 0
01 A 4 0 0 00 00000001 02 - 0
01 D 1 0 0 00 00 0 0000000000000307 0
"""),
    ("data are given back, and what was before is granted", """tltrace 2 16 C C UL
00 A 6 1 6 00 00000000 ffff - 0
00 D 5 0 6 00 00 0 00000000000000000000000000000005 0
00 D 5 0 6 00 00 0 00000000000000000000000000000000 0
00 D 5 0 6 00 00 0 00000000000000000000000000000000 0
00 D 5 0 6 00 00 0 00000000000000000000000000000000 0
00 E 00
00 C 7 1 6 00 00000000 00000000000000000000000000000007 0
00 C 7 1 6 00 00000000 00000000000000000000000000000000 0
00 C 7 1 6 00 00000000 00000000000000000000000000000000 0
00 C 7 1 6 00 00000000 00000000000000000000000000000000 0
00 D 6 0 6 00 00 0 - 0
01 A 6 0 6 00 00000000 ffff - 0
01 D 5 1 6 00 01 0 00000000000000000000000000000005 0
"""),
    ("a clean block is given up, and another byte is granted", """tltrace 2 16 C C UL
00 A 6 1 6 00 00000000 ffff - 0
00 D 5 0 6 00 00 0 00000000000000000000000000000005 0
00 D 5 0 6 00 00 0 00000000000000000000000000000000 0
00 D 5 0 6 00 00 0 00000000000000000000000000000000 0
00 D 5 0 6 00 00 0 00000000000000000000000000000000 0
00 E 00
00 C 6 1 6 00 00000000 - 0
00 D 6 0 6 00 00 0 - 0
01 A 6 0 6 00 00000000 ffff - 0
01 D 5 1 6 00 01 0 00000000000000000000000000000007 0
"""),
    ("a Put that is pending is granted", """tltrace 2 16 C C UL
02 A 0 0 0 00 00000000 0001 00000000000000000000000000000005 0
02 D 0 0 0 00 00 0 - 0
02 A 0 0 0 00 00000000 0001 00000000000000000000000000000007 0
00 A 6 0 6 00 00000000 ffff - 0
00 D 5 1 6 00 00 0 00000000000000000000000000000007 0
"""),
    ("a Get brings what was before a Put that was answered meanwhile", """tltrace 2 16 C C UL
02 A 0 0 0 00 00000000 0001 00000000000000000000000000000005 0
02 D 0 0 0 00 00 0 - 0
00 A 4 0 0 01 00000000 0001 - 0
02 A 0 0 0 00 00000000 0001 00000000000000000000000000000007 0
02 D 0 0 0 00 00 0 - 0
00 D 1 0 0 01 00 0 00000000000000000000000000000005 0
"""),
]

# Traces for what links drawn at random rarely come to.
DIRECTED = [
    """tltrace 2 8 C
00 A 7 1 6 00 00000000 ff - 0
00 D 4 0 6 00 00 0 - 0
00 E 00
00 B 6 2 6 00 00000000 ff - 0
00 C 5 1 6 00 00000000 0000000000000000 0
00 A 6 0 6 00 00000000 ff - 0
""",
    """tltrace 2 8 C
00 A 7 1 6 00 00000000 ff - 0
00 A 7 1 6 01 00000040 ff - 0
00 D 4 0 6 00 00 0 - 0
00 D 4 0 6 01 01 0 - 0
00 E 01
00 B 6 2 6 00 00000000 ff - 0
""",
    """tltrace 2 8 C
00 A 6 1 6 00 00000000 ff - 0
00 D 5 0 6 00 00 0 0000000000000000 0
00 D 5 0 6 00 01 0 0000000000000000 0
""",
    """tltrace 2 8 C
00 A 7 1 6 00 00000000 ff - 0
00 A 7 1 6 01 00000040 ff - 0
00 D 4 0 6 00 00 0 - 0
00 D 4 0 6 01 01 0 - 0
00 E 00
00 E 01
00 C 6 1 6 00 00000000 - 0
00 C 6 1 6 01 00000040 - 0
00 D 6 0 6 01 00 0 - 0
00 A 6 0 6 00 00000000 ff - 0
""",
    """tltrace 2 8 C
00 A 7 1 6 00 00000000 ff - 0
00 D 4 0 6 00 00 0 - 0
00 E 00
00 B 7 2 6 00 00000000 ff - 0
00 C 5 1 6 00 00000000 0000000000000000 0
""",
    """tltrace 2 8 C
00 A 7 1 6 00 00000000 ff - 0
00 D 5 0 6 00 00 0 0000000000000000 0
""",
    """tltrace 2 8 C
00 A 7 1 6 00 00000000 ff - 0
00 D 4 0 6 00 00 0 - 0
00 E 00
00 B 6 2 6 00 00000000 ff - 0
00 C 5 1 6 00 00000000 0000000000000000 0
00 B 6 2 6 00 00000000 ff - 0
""",
]
