"""Broken copies of the Rust, and of what stands beside it: what is wrong, the
file, a text that it has once, and the text in its place; for a single value, and for
the second generator on trees that are not cooked, also the stage that has to find it."""
import argparse

# Document 01: "Wrong turns seen in such code".
WRONG_TURNS = [
    (
        "ja has its full 32 bits",
        "codegen",
        "let off = Self::offset(i, target_idx)? as u32;",
        "let off = (target_idx - i - 1) as u32;",
    ),
    (
        "ports ready stays on the right of an or after X changed",
        "codegen",
        """// pre-established transport offset.
                        self.facts.ports_ready = None;""",
        "",
    ),
    (
        "the fragment field is tested on IPv6, known from the facts",
        "codegen",
        """self.push(Insn::ldx_imm(40)); // IPv6 header is always 40 bytes
                established""",
        """self.push(Insn::ldh_abs(ip4_frag_off));
                let i_frag = self.push(Insn::jset_k(0x1fff, 0xff, 0));
                p.failure.push(Patch::Jt(i_frag));
                self.push(Insn::ldx_imm(40));
                established""",
    ),
    (
        "the fragment field is tested on IPv6, in the prologue for both versions",
        "codegen",
        """self.push(Insn::ldx_imm(40)); // IPv6 header is always 40 bytes

            // Both paths""",
        """self.push(Insn::ldh_abs(ip4_frag_off));
            let i_frag = self.push(Insn::jset_k(0x1fff, 0xff, 0));
            p.failure.push(Patch::Jt(i_frag));
            self.push(Insn::ldx_imm(40));

            // Both paths""",
    ),
    (
        "tests are hoisted out of not",
        "codegen",
        "Expr::Not(_) => done.push(GuardSet::default()),",
        "Expr::Not(inner) => todo.push(Step::Visit(inner)),",
    ),
]

# Document 01: "Worthless versions".
WORTHLESS = [
    (
        "refuses all trees",
        "codegen",
        "let patches = cg.emit_expr(expr)?;",
        """let patches = cg.emit_expr(expr)?;
    if link == link {
        return Err(Error::CodegenError {
            message: "filter expression is too complex: BPF jump offset exceeds 255 instructions".into(),
        });
    }""",
    ),
    (
        "one program for all trees",
        "codegen",
        "let mut insns = cg.insns;",
        "let mut insns = cg.insns[accept_idx..].to_vec();",
    ),
    (
        "zeroes the buffer only",
        "codegen",
        "let mut insns = cg.insns;",
        """let mut insns = cg.insns;
    insns.fill(Insn { code: 0, jt: 0, jf: 0, k: 0 });""",
    ),
    (
        "tests the first condition, lets the rest through",
        "codegen",
        "let patches = cg.emit_expr(expr)?;",
        """let mut first = expr;
    while let Expr::And(left, _) | Expr::Or(left, _) | Expr::Not(left) = first {
        first = left;
    }
    let patches = cg.emit_expr(first)?;""",
    ),
    (
        "says short before a load",
        "vm",
        """let off = off as usize;
    match size {""",
        """let off = off as usize;
    let pkt = &pkt[..pkt.len().saturating_sub(1)];
    match size {""",
    ),
    (
        "invents a step: fetches a return twice",
        "vm",
        """let mut pc = 0usize;

    loop {
        let insn = *insns.get(pc)?;
        pc += 1;""",
        """let mut pc = 0usize;
    let mut again = true;

    loop {
        let insn = *insns.get(pc)?;
        if again && insn.code & 0x07 == BPF_RET {
            again = false;
            continue;
        }
        pc += 1;""",
    ),
]

# And, or, not: hoisting, facts, guards.
JOINS = [
    (
        "ports are hoisted before the ethertype",
        "codegen",
        """let common = required_guards(left, memo).intersect(required_guards(right, memo));
""",
        """let mut common = required_guards(left, memo).intersect(required_guards(right, memo));
        if let Some(set) = common.port_prereqs.take() {
            hoist_failure.extend(self.emit_port_prereqs_set(set)?.failure);
        }
""",
    ),
    (
        "the next header is not hoisted",
        "codegen",
        """if let Some(n) = common.ip6_nh {
            hoist_failure""",
        """if let Some(n) = common.ip6_nh.filter(|_| false) {
            hoist_failure""",
    ),
    (
        "RawIp hoists the ethertype too",
        "codegen",
        "if self.link.ether_proto_offset().is_some() {",
        "if self.link.net_offset() < 20 {",
    ),
    (
        "the failures of hoisted tests are forgotten",
        "codegen",
        "let failure = concat(right_p.failure, hoist_failure);",
        "let failure = concat(right_p.failure, hoist_failure[..0].to_vec());",
    ),
    (
        "an or requires what either side requires",
        "codegen",
        "_ => l.intersect(r),",
        "_ => l.union(r),",
    ),
    (
        "an and keeps the right one of two ethertypes",
        "codegen",
        "self.ethertype = self.ethertype.or(other.ethertype);",
        "self.ethertype = other.ethertype.or(self.ethertype);",
    ),
    (
        "ports of two sets are hoisted as their union",
        "codegen",
        "port_prereqs: both(self.port_prereqs, other.port_prereqs),",
        "port_prereqs: self.port_prereqs.zip(other.port_prereqs).and_then(|(a, b)| L4Set::join(a, b)),",
    ),
    (
        "after an or the left side's facts hold",
        "codegen",
        "self.facts = Facts::meet(&left_facts, &self.facts);",
        "self.facts = left_facts;",
    ),
    (
        "after an or the right side's facts hold",
        "codegen",
        "self.facts = Facts::meet(&left_facts, &self.facts);",
        "let _ = &left_facts;",
    ),
    (
        "meet keeps the left set of ports",
        "codegen",
        "(Some(x), Some(y)) => L4Set::join(x, y),",
        "(Some(x), Some(_)) => Some(x),",
    ),
    (
        "meet forgets ports of two sets",
        "codegen",
        "(Some(x), Some(y)) => L4Set::join(x, y),",
        "(Some(x), Some(y)) if x == y => Some(x),",
    ),
    (
        "not does not restore its entry facts",
        "codegen",
        "self.facts = entry_facts;",
        "let _ = &entry_facts;",
    ),
    (
        "ports ready stays after a not that changed X",
        "codegen",
        """self.facts = entry_facts;
                    if self.x_writes != x_writes_before {
                        self.facts.ports_ready = None;
                    }""",
        "self.facts = entry_facts;",
    ),
    (
        "a fact that is there is filled again",
        "codegen",
        "if self.facts.ethertype.is_none() {",
        "if self.facts.ethertype != Some(et) {",
    ),
    (
        "the ja between the sides of an or leads to the drop",
        "codegen",
        """let mut success = left_success;
                    success.push(Patch::Ja(ja_idx));""",
        """let success = left_success;
                    let mut hoist_failure = hoist_failure;
                    hoist_failure.push(Patch::Ja(ja_idx));""",
    ),
]

JUMPS = [
    (
        "jt is written to jf",
        "codegen",
        "self.insns[i].jt = Self::offset(i, target_idx)?;",
        "self.insns[i].jf = Self::offset(i, target_idx)?;",
    ),
    (
        "distances up to 256 are taken",
        "codegen",
        "if diff > 255 {",
        "if diff > 256 {",
    ),
    (
        "distances up to 254 are taken",
        "codegen",
        "if diff > 255 {",
        "if diff > 254 {",
    ),
    (
        "a distance counts from the jump itself",
        "codegen",
        "let diff = to - from - 1;",
        "let diff = to - from;",
    ),
    (
        "a far jump is met only at the end",
        "codegen",
        """// Left's failures now try the right branch.
                    self.resolve_all(left_p.failure, right_start)?;""",
        """let mut hoist_failure = hoist_failure;
                    for p in left_p.failure {
                        match p {
                            Patch::Jt(i) | Patch::Jf(i) | Patch::Ja(i)
                                if right_start - i > 256 =>
                            {
                                hoist_failure.push(p)
                            }
                            _ => self.resolve(p, right_start)?,
                        }
                    }""",
    ),
]

CONDITIONS = [
    (
        "LinuxSll's network header starts at 14",
        "codegen",
        "LinkType::LinuxSll => 16,",
        "LinkType::LinuxSll => 14,",
    ),
    (
        "LinuxSll's ethertype is at 12",
        "codegen",
        "LinkType::LinuxSll => Some(14),",
        "LinkType::LinuxSll => Some(12),",
    ),
    (
        "RawIp starts with the ethertype 0x86dd",
        "codegen",
        "ethertype: (link == LinkType::RawIp).then_some(0x0800),",
        "ethertype: (link == LinkType::RawIp).then_some(0x86dd),",
    ),
    (
        "a prefix mask is off by a bit",
        "codegen",
        "let mask = (0xffffu32 << (16 - bits)) & 0xffff;",
        "let mask = (0xffffu32 << (15 - bits)) & 0xffff;",
    ),
    (
        "IPv6's destination is at 22",
        "codegen",
        """let dst_off = base + 24;
        let segs = addr.segments();""",
        """let dst_off = base + 22;
        let segs = addr.segments();""",
    ),
    (
        "a range leaves out its low end",
        "codegen",
        "cg.push(Insn::jge_k(lo as u32, 0, 0xff));",
        "cg.push(Insn::jgt_k(lo as u32, 0, 0xff));",
    ),
    (
        "ports without a protocol take SCTP",
        "codegen",
        "None => Ok(L4Set::TcpOrUdp),",
        "None => Ok(L4Set::One(132)),",
    ),
    (
        "Num 6 is a port protocol",
        "codegen",
        "Some(Proto::Tcp) => Ok(L4Set::One(6)),",
        "Some(Proto::Tcp | Proto::Num(6)) => Ok(L4Set::One(6)),",
    ),
    (
        "a pinned protocol does not narrow the set",
        "codegen",
        """Some(n) if want.contains(n) => L4Set::One(n),
                    _ => {
                        self.push(Insn::ldb_abs(ip4_proto_off));""",
        """Some(n) if want.contains(n) => want,
                    _ => {
                        self.push(Insn::ldb_abs(ip4_proto_off));""",
    ),
    (
        "Tcp's guards have no protocol",
        "codegen",
        "g.ip4_proto = Some(6);",
        "g.ip4_proto = None;",
    ),
    (
        "broadcast looks at the source",
        "codegen",
        """let dst_off = self.net_offset() + 16;
        let q = self.check_word""",
        """let dst_off = self.net_offset() + 12;
        let q = self.check_word""",
    ),
    (
        "accept returns 65,535",
        "bpf",
        "pub const BPF_ACCEPT: u32 = 0xffff_ffff;",
        "pub const BPF_ACCEPT: u32 = 0xffff;",
    ),
]

MACHINE = [
    (
        "a left shift is not masked",
        "vm",
        "BPF_LSH => a << (v & 31),",
        "BPF_LSH => a.checked_shl(v).unwrap_or(0),",
    ),
    (
        "a right shift is masked by 63",
        "vm",
        "BPF_RSH => a >> (v & 31),",
        "BPF_RSH => a.checked_shr(v & 63).unwrap_or(0),",
    ),
    (
        "division by zero drops",
        "vm",
        """if v == 0 {
                            return None;""",
        """if v == 0 {
                            return Some(false);""",
    ),
    (
        "the frame's end is tested before the size",
        "vm",
        """BPF_B => Some(*pkt.get(off)? as u32),
        _ => None,""",
        "_ => Some(*pkt.get(off)? as u32).filter(|_| size == BPF_B),",
    ),
    (
        "size 0x18 loads a byte",
        "vm",
        """BPF_B => Some(*pkt.get(off)? as u32),
        _ => None,""",
        "_ => Some(*pkt.get(off)? as u32),",
    ),
    (
        "X + k does not wrap",
        "vm",
        "x.wrapping_add(insn.k)",
        "x.saturating_add(insn.k)",
    ),
    (
        "sums stop at the highest",
        "vm",
        "BPF_ADD => a.wrapping_add(v),",
        "BPF_ADD => a.saturating_add(v),",
    ),
    (
        "products keep 31 bits",
        "vm",
        "BPF_MUL => a.wrapping_mul(v),",
        "BPF_MUL => a.wrapping_mul(v) & 0x7fff_ffff,",
    ),
    (
        "MOD is known",
        "vm",
        "BPF_XOR => a ^ v,",
        """BPF_XOR => a ^ v,
                    0x90 if v != 0 => a % v,""",
    ),
    (
        "the X bit of a code is 0x10",
        "vm",
        "insn.code & 0x08 == BPF_X",
        "insn.code & 0x10 != 0",
    ),
    (
        "jgt is jge",
        "vm",
        "BPF_JGT => a > v,",
        "BPF_JGT => a >= v,",
    ),
    (
        "ja's distance has 16 bits",
        "vm",
        "pc = pc.wrapping_add(insn.k as usize);",
        "pc = pc.wrapping_add(insn.k as u16 as usize);",
    ),
    (
        "MSH goes with every size",
        "vm",
        "if size == BPF_B && mode == BPF_MSH {",
        "if mode == BPF_MSH {",
    ),
    (
        "MSH keeps the high half",
        "vm",
        "as u32 & 0xf)",
        "as u32 >> 4)",
    ),
    (
        "the high byte of a code counts",
        "vm",
        "match insn.code & 0x07 {",
        "match insn.code & 0x8007 {",
    ),
    (
        "a seventeenth scratch word",
        "vm",
        "const SCRATCH: usize = 16;",
        "const SCRATCH: usize = 17;",
    ),
    (
        "scratch words start as 1",
        "vm",
        "let mut scratch = [0u32; SCRATCH];",
        "let mut scratch = [1u32; SCRATCH];",
    ),
    (
        "a return looks at its low bits only",
        "vm",
        "return Some(retval != 0);",
        "return Some(retval & 0xffff != 0);",
    ),
    (
        "a word is little-endian",
        "vm",
        "Some(u32::from_be_bytes([b[0], b[1], b[2], b[3]]))",
        "Some(u32::from_le_bytes([b[0], b[1], b[2], b[3]]))",
    ),
]

# Document 01's own checks, which tools/oracle/answers.rs has beside the Rust.
CHECKS = [
    (
        "every other link is LinuxSll",
        "answers",
        """3 => Ok(LinkType::LinuxSll),
        _ => Err(1),""",
        "_ => Ok(LinkType::LinuxSll),",
    ),
    (
        "129 records are taken",
        "answers",
        "count > MAX_RECORDS",
        "count > MAX_RECORDS + 1",
    ),
    (
        "a file may be longer than its records",
        "answers",
        "file.len() != HEADER + RECORD * count",
        "file.len() < HEADER + RECORD * count",
    ),
    (
        "the last byte of a record is not looked at",
        "answers",
        "u.tail.contains(&i) || r[i] == 0",
        "u.tail.contains(&i) || r[i] == 0 || i == 23",
    ),
    (
        "byte 3 goes with every protocol",
        "answers",
        "u.protocol && (r[2] == 11 || r[2] == 12)",
        "u.protocol",
    ),
    (
        "Ip6Proto is not known",
        "answers",
        "r[2] <= 12 &&",
        "r[2] <= 11 &&",
    ),
    (
        "records after the tree are let through",
        "answers",
        """if open == 0 {
            return false;
        }""",
        """if open == 0 {
            return true;
        }""",
    ),
    (
        "2 comes before 1",
        "answers",
        "let link = link_of(file)?;",
        """if file.len() >= HEADER {
        records_of(file)?;
    }
    let link = link_of(file)?;""",
    ),
    (
        "4 comes before 3",
        "answers",
        """if !records.iter().all(|r| good_record(r)) {
        return Err(3);
    }
    if !one_tree(&records) {
        return Err(4);
    }""",
        """if !one_tree(&records) {
        return Err(4);
    }
    if !records.iter().all(|r| good_record(r)) {
        return Err(3);
    }""",
    ),
    (
        "the first bad record is refused before a count that is wrong",
        "answers",
        "let records = records_of(file)?;",
        """if !file[HEADER..].chunks_exact(RECORD).all(good_record) {
        return Err(3);
    }
    let records = records_of(file)?;""",
    ),
    (
        "a run tests 10 before 11",
        "answers",
        "if program.is_empty() ||",
        """if frame.len() > MAX_FRAME {
        return Err(10);
    }
    if program.is_empty() ||""",
    ),
    (
        "frames of 65,536 bytes are run",
        "answers",
        "const MAX_FRAME: usize = 65_535;",
        "const MAX_FRAME: usize = 65_536;",
    ),
    (
        "programs of 32,776 bytes are run",
        "answers",
        "const MAX_PROGRAM: usize = 32_768;",
        "const MAX_PROGRAM: usize = 32_776;",
    ),
]

# What document 01 says of the lent buffer, which builds.rs has beside the Rust.
BUFFER = [
    (
        "a buffer of exactly 8 bytes for an instruction is too short",
        "builds",
        "Ok(p) if p.len() > length => (9 << 16, &[]),",
        "Ok(p) if p.len() >= length => (9 << 16, &[]),",
    ),
    (
        "a byte less than 8 for an instruction is enough",
        "builds",
        "Ok(p) if p.len() > length => (9 << 16, &[]),",
        "Ok(p) if p.len() > length + 1 => (9 << 16, &[]),",
    ),
    (
        "the rest of the buffer stays as it was",
        "builds",
        "space.resize(MARGIN + length, 0);",
        "space.resize(MARGIN + length, if number < 65536 { STALE } else { 0 });",
    ),
    (
        "a refusal leaves the buffer as it was",
        "builds",
        "space.resize(MARGIN + length, 0);",
        "space.resize(MARGIN + length, if number < 65536 { 0 } else { STALE });",
    ),
    (
        "15 leaves the buffer as it was",
        "builds",
        "space.resize(MARGIN + length, 0);",
        "space.resize(MARGIN + length, if number == 15 << 16 { STALE } else { 0 });",
    ),
    (
        "a byte behind the buffer is zeroed",
        "builds",
        "space.resize(MARGIN + length, 0);",
        "space.resize(MARGIN + length + 1, 0);",
    ),
]

# T-05: what loads.rs and edits.rs say beside the Rust of the question (the files "questions" and
# "asking") and of the load.
ASKED = """Ok(program) => count_of(program),
        Err(n) => n << 16,"""
MOVED = "Ok(program) if count_of(program) != count =>"
ANSWERED = "builds::wanted(&Err(COUNT_MOVED), length),"
OTHERS = "_ => builds::wanted(answer, length),"
AS_IT_IS = "let there = wanted(&self.answers[now], self.count, slot.length);"


def moved_where(test):
    """19 where another test holds."""
    return f"Ok(program) if {test} =>"


def changed(answer, change):
    """What a build into a buffer leaves, with its lent bytes changed."""
    return f"""{{
            let (number, mut space) = builds::wanted({answer}, length);
            let lent = &mut space[16..16 + length];
            {change}
            (number, space)
        }}"""


LOADS = [
    (
        "a question is one off",
        "questions",
        ASKED,
        ASKED.replace("count_of(program)", "count_of(program) + 1"),
    ),
    (
        "a question answers the program's bytes",
        "questions",
        ASKED,
        ASKED.replace("count_of(program)", "program.len() as u32"),
    ),
    (
        "a question says 9",
        "questions",
        ASKED,
        ASKED.replace("count_of(program)", "SHORT_BUFFER << 16"),
    ),
    (
        "a question says 9 of over 512 instructions",
        "questions",
        ASKED,
        f"""Ok(program) if count_of(program) > 512 => SHORT_BUFFER << 16,
        {ASKED}""",
    ),
    (
        "a question does not look for 8",
        "questions",
        ASKED,
        f"""Err(8) => 257,
        {ASKED}""",
    ),
    (
        "a question says 7 for 15",
        "questions",
        ASKED,
        f"""Err(15) => 7 << 16,
        {ASKED}""",
    ),
    (
        "a question says 0 for every refusal",
        "questions",
        ASKED,
        ASKED.replace("n << 16", "n & 0"),
    ),
    (
        "a question is answered for the tree as it was asked first",
        "asking",
        "asked(&self.answers[now]), slot",
        "asked(&self.answers[AS_ASKED]), slot",
    ),
    (
        "a question zeroes the buffer that was lent last",
        "asking",
        "let here = (slot.ask(), slot.space.clone());",
        """let mut there = there;
        there.1[MARGIN..MARGIN + slot.length].fill(0);
        let here = (slot.ask(), slot.space.clone());""",
    ),
    (
        "9 comes before 19",
        "loads",
        MOVED,
        moved_where("program.len() <= length && count_of(program) != count"),
    ),
    *(
        (
            f"19 comes before {n}",
            "loads",
            MOVED,
            f"""Err({n}) => {ANSWERED}
        {MOVED}""",
        )
        for n in (1, 2, 3, 4, 5, 6, 7, 8, 15)
    ),
    (
        "19 comes before 8 where no program has the count",
        "loads",
        MOVED,
        f"""Err(8) if count > MOST as u32 => {ANSWERED}
        {MOVED}""",
    ),
    *(
        (
            f"a count is compared in {bits} bits",
            "loads",
            MOVED,
            moved_where(f"(count_of(program) ^ count) << {32 - bits} != 0"),
        )
        for bits in (8, 12, 16, 24, 31)
    ),
    (
        "a count is the most that a tree may have",
        "loads",
        MOVED,
        moved_where("count_of(program) > count"),
    ),
    (
        "a count is the least that a tree may have",
        "loads",
        MOVED,
        moved_where("count_of(program) < count"),
    ),
    (
        "a count one too high is taken",
        "loads",
        MOVED,
        moved_where("count.wrapping_sub(count_of(program)) > 1"),
    ),
    (
        "a count one too low is taken",
        "loads",
        MOVED,
        moved_where("count_of(program).wrapping_sub(count) > 1"),
    ),
    (
        "0 goes with every tree",
        "loads",
        MOVED,
        moved_where("count != 0 && count_of(program) != count"),
    ),
    (
        "4,294,967,295 goes with every tree",
        "loads",
        MOVED,
        moved_where("count != u32::MAX && count_of(program) != count"),
    ),
    (
        "every count goes with every tree",
        "loads",
        MOVED,
        moved_where("count_of(program) == 0"),
    ),
    (
        "another count is 9",
        "loads",
        ANSWERED,
        ANSWERED.replace("COUNT_MOVED", "SHORT_BUFFER"),
    ),
    (
        "19 leaves the bytes",
        "loads",
        ANSWERED,
        changed("&Err(COUNT_MOVED)", "lent.fill(0x5A);"),
    ),
    (
        "19 leaves the last byte",
        "loads",
        ANSWERED,
        changed("&Err(COUNT_MOVED)", "lent.last_mut().map(|last| *last = 0x5A);"),
    ),
    (
        "19 leaves the program",
        "loads",
        ANSWERED,
        "(COUNT_MOVED << 16, builds::wanted(answer, length).1),",
    ),
    (
        "a load into exactly enough bytes is 9",
        "loads",
        OTHERS,
        f"""Ok(p) if p.len() == length => builds::wanted(&Err(SHORT_BUFFER), length),
        {OTHERS}""",
    ),
    (
        "9 leaves what there is room for",
        "loads",
        OTHERS,
        f"""Ok(p) if p.len() > length => {changed("answer", "lent.copy_from_slice(&p[..length]);")}
        {OTHERS}""",
    ),
    (
        "a load leaves the bytes behind the program",
        "loads",
        OTHERS,
        f"""Ok(p) if p.len() < length => {changed("answer", "lent[p.len()..].fill(0x5A);")}
        {OTHERS}""",
    ),
    (
        "a load that 15 refuses leaves the bytes",
        "loads",
        OTHERS,
        f"""Err(15) => {changed("answer", "lent.fill(0x5A);")}
        {OTHERS}""",
    ),
    (
        "a load gives the tree as it was asked",
        "edits",
        AS_IT_IS,
        AS_IT_IS.replace("[now]", "[AS_ASKED]"),
    ),
    (
        "a load gives the tree as it was asked, where the count is equal",
        "edits",
        AS_IT_IS,
        f"""let equal = asked(&self.answers[now]) == self.count;
        let now = [now, AS_ASKED][equal as usize];
        {AS_IT_IS}""",
    ),
    (
        "a tree that was edited has moved, whatever its count",
        "edits",
        AS_IT_IS,
        f"""let same = self.answers[now] == self.answers[AS_ASKED];
        {AS_IT_IS.replace("self.count", "if same { self.count } else { 0 }")}""",
    ),
    (
        "a tree that was edited is loaded with its own count",
        "edits",
        AS_IT_IS,
        AS_IT_IS.replace("self.count", "asked(&self.answers[now])"),
    ),
    (
        "19 leaves the program that the buffer held",
        "edits",
        AS_IT_IS,
        f"""{AS_IT_IS}
        let there = match there.0 >> 16 {{
            19 => (there.0, slot.space.clone()),
            _ => there,
        }};""",
    ),
]

# Wrong for one value only: where a run draws from few, it never meets it.
VALUES = [
    (
        "port 5004 is 5005",
        "codegen",
        "let k = port as u32;",
        "let k = port as u32 + (port == 5004) as u32;",
        "ports",
    ),
    (
        "a range from 61,000 starts at 61,001",
        "codegen",
        "cg.push(Insn::jge_k(lo as u32, 0, 0xff));",
        "cg.push(Insn::jge_k(lo as u32 + (lo == 61_000) as u32, 0, 0xff));",
        "ports",
    ),
    (
        "a range to 1023 ends at 1022",
        "codegen",
        "cg.push(Insn::jgt_k(hi as u32, 0xff, 0));",
        "cg.push(Insn::jgt_k(hi as u32 - (hi == 1023) as u32, 0xff, 0));",
        "ports",
    ),
    (
        "host 10.20.0.5 is 10.20.0.4",
        "codegen",
        "let k = u32::from(addr);",
        "let k = u32::from(addr) - (u32::from(addr) == 0x0a14_0005) as u32;",
        "addresses",
    ),
    (
        "net 172.16.0.0 is 172.17.0.0",
        "codegen",
        "let masked = u32::from(net.addr) & mask;",
        """let masked = u32::from(net.addr) & mask;
        let masked = masked | ((u32::from(net.addr) == 0xac10_0000) as u32) << 16;""",
        "addresses",
    ),
    (
        "mask 255.255.240.0 is 255.255.224.0",
        "codegen",
        "let mask = net.mask;",
        "let mask = net.mask & !(((net.mask == 0xffff_f000) as u32) << 12);",
        "addresses",
    ),
    (
        "a segment 0xfd12 is 0xfd13",
        "codegen",
        """cg.push(Insn::ldh_abs(off + i as u32 * 2));
                let idx = cg.push(Insn::jeq_k(seg as u32, 0, 0xff));""",
        """cg.push(Insn::ldh_abs(off + i as u32 * 2));
                let seg = seg + (seg == 0xfd12) as u16;
                let idx = cg.push(Insn::jeq_k(seg as u32, 0, 0xff));""",
        "segments",
    ),
    (
        "a half 0x5e7f of an ether address is 0x5e7e",
        "codegen",
        "let half = u32::from_be_bytes([0, 0, addr.0[4], addr.0[5]]);",
        """let half = u32::from_be_bytes([0, 0, addr.0[4], addr.0[5]]);
            let half = half - (half == 0x5e7f) as u32;""",
        "segments",
    ),
    (
        "ethertype 0x88cc is 0x88cd",
        "codegen",
        "Primitive::EtherProto(et) => self.emit_ethertype(*et as u32),",
        "Primitive::EtherProto(et) => self.emit_ethertype(*et as u32 + (*et == 0x88cc) as u32),",
        "ethertypes",
    ),
    (
        "an or does not hoist ethertype 0x88e5",
        "codegen",
        "Primitive::EtherProto(et) => g.ethertype = Some(*et as u32),",
        "Primitive::EtherProto(et) => g.ethertype = Some(*et as u32).filter(|et| *et != 0x88e5),",
        "ethertypes",
    ),
    (
        "Num 47 is 46",
        "codegen",
        "Proto::Num(n) => self.emit_ip4_l4(*n),",
        "Proto::Num(n) => self.emit_ip4_l4(*n - (*n == 47) as u8),",
        "numbers",
    ),
    (
        "an IPv6 chain of 43 is 44",
        "codegen",
        "Primitive::Ip6ProtoChain(n) => self.emit_ip6_l4(*n),",
        "Primitive::Ip6ProtoChain(n) => self.emit_ip6_l4(*n + (*n == 43) as u8),",
        "numbers",
    ),
    (
        "prefix 77 is 76",
        "codegen",
        "let prefix_len = net.prefix_len;",
        "let prefix_len = net.prefix_len - (net.prefix_len == 77) as u8;",
        "numbers",
    ),
    (
        "the machine's jeq misses 5004",
        "vm",
        "BPF_JEQ => a == v,",
        "BPF_JEQ => a == v && v != 5004,",
        "ports",
    ),
]

# The reading of document 01's words, which the direct reading is compared with.
READINGS = [
    (
        "LinuxSll's ethertype is at 12",
        "meaning",
        "3 => self.h(14) == v,",
        "3 => self.h(12) == v,",
    ),
    (
        "every kind is IPv4 on RawIp",
        "meaning",
        "_ => v == IP4,",
        "_ => v != ARP,",
    ),
    (
        "Num 6 has TCP's ports",
        "meaning",
        "10 => &[132],",
        """10 => &[132],
            11 => &[6],""",
        "numbers",
    ),
    (
        "later fragments have ports",
        "meaning",
        "(set.contains(&self.b(n + 9)) && whole).then_some(x)",
        "(set.contains(&self.b(n + 9)) || whole && false).then_some(x)",
    ),
    (
        "a prefix leaves out its last bit",
        "meaning",
        "match (prefix as usize).saturating_sub(8 * byte) {",
        "match (prefix as usize).saturating_sub(8 * byte + 1) {",
    ),
    (
        "bytes past the end are ones",
        "meaning",
        "self.frame.get(at).copied().unwrap_or(0)",
        "self.frame.get(at).copied().unwrap_or(255)",
    ),
    (
        "ether hosts are false on RawIp",
        "meaning",
        "17 => self.ether_host(r),",
        "17 => self.link != 2 && self.ether_host(r),",
    ),
    (
        "the length of a sender's address is not read",
        "meaning",
        "self.h(SENDER_LENGTH) == ETHER_LENGTH && side(6)",
        "side(6)",
    ),
    (
        "the length of a sender's address is read as a byte",
        "meaning",
        "self.h(SENDER_LENGTH) == ETHER_LENGTH &&",
        "self.h(SENDER_LENGTH) % 256 == ETHER_LENGTH &&",
    ),
    (
        "the length of a sender's address may be 0x0706",
        "meaning",
        "self.h(SENDER_LENGTH) == ETHER_LENGTH &&",
        "[ETHER_LENGTH, 0x0706].contains(&self.h(SENDER_LENGTH)) &&",
        "senders",
    ),
    (
        "a cooked destination is read at 0",
        "meaning",
        "return directed(r[1], sender, || false);",
        "return directed(r[1], sender, || side(0));",
    ),
    (
        "a cooked ether host is read as the sender in every direction",
        "meaning",
        "return directed(r[1], sender, || false);",
        "return sender();",
    ),
    (
        "ether multicast is read at 0 on LinuxSll",
        "meaning",
        "19 => self.link != LINUX_SLL && self.b(0) % 2 == 1,",
        "19 => self.b(0) % 2 == 1,",
    ),
    (
        "a port is read directly wrong for 5004",
        "meaning",
        "15 => self.ports(r, a, a),",
        "15 => self.ports(r, a, a) && a != 5004,",
        "ports",
    ),
    (
        "an ethertype is read directly wrong for 0x88cc",
        "meaning",
        "18 => self.kind(a),",
        "18 => self.kind(a) && a != 0x88cc,",
        "ethertypes",
    ),
    (
        "a chain is read directly wrong for 47",
        "meaning",
        "23 => self.protocol4(r[3]),",
        "23 => self.protocol4(r[3]) != (r[3] == 47),",
        "numbers",
    ),
    (
        "prefix 77 is read directly as 76",
        "meaning",
        "14 => self.address6(r, |i| prefix_byte(r[3], i)),",
        "14 => self.address6(r, |i| prefix_byte(r[3] - (r[3] == 77) as u8, i)),",
        "numbers",
    ),
]


# T-03: the second generator, by which the builds of cooked trees are judged.
COOKED = [
    (
        "the Rust judges cooked trees",
        "answers",
        "link == LinkType::LinuxSll && records",
        "link != link && records",
    ),
    (
        "the Rust judges cooked trees without an ether host",
        "answers",
        "const ETHER_ADDRESSES: [u8; 2] = [17, 19];",
        "const ETHER_ADDRESSES: [u8; 2] = [17, 17];",
    ),
    (
        "the length of a sender's address is tested after it",
        "conditions",
        """let mut steps = equal(code::LDH, SENDER_LENGTH, ETHER_BYTES);
    steps.extend(ether_address(r, SENDER));""",
        """let mut steps = ether_address(r, SENDER);
    steps.extend(equal(code::LDH, SENDER_LENGTH, ETHER_BYTES));""",
    ),
    (
        "the length of a sender's address is at 5",
        "conditions",
        "const SENDER_LENGTH: u32 = 4;",
        "const SENDER_LENGTH: u32 = 5;",
    ),
    (
        "the length of a sender's address has to be 8",
        "conditions",
        "const ETHER_BYTES: u32 = 6;",
        "const ETHER_BYTES: u32 = 8;",
    ),
    (
        "the length of a sender's address is not tested",
        "conditions",
        "let mut steps = equal(code::LDH, SENDER_LENGTH, ETHER_BYTES);",
        "let mut steps = Vec::new();",
    ),
    (
        "the length of a sender's address is a byte",
        "conditions",
        "equal(code::LDH, SENDER_LENGTH, ETHER_BYTES)",
        "equal(code::LDB, SENDER_LENGTH + 1, ETHER_BYTES)",
    ),
    (
        "a sender's address is at 4",
        "conditions",
        "const SENDER: u32 = 6;",
        "const SENDER: u32 = 4;",
    ),
    (
        "LinuxSll takes ether multicast",
        "conditions",
        "COOKED => Err(COOKED_ADDRESS),",
        "",
    ),
    (
        "LinuxSll takes an ether host in either direction, as the sender",
        "conditions",
        "(COOKED, SOURCE) =>",
        "(COOKED, SOURCE | 0) =>",
    ),
    (
        "LinuxSll takes an ether host in both directions, as the sender",
        "conditions",
        "(COOKED, SOURCE) =>",
        "(COOKED, SOURCE | 3) =>",
    ),
    (
        "LinuxSll takes an ether destination at 0",
        "conditions",
        "(COOKED, _) =>",
        "(COOKED, 0 | 3) =>",
    ),
    (
        "LinuxSll answers 7",
        "conditions",
        "const COOKED_ADDRESS: Number = 15;",
        "const COOKED_ADDRESS: Number = 7;",
    ),
    (
        "15 is looked for before the walk",
        "second",
        "let raw = link == RAW_IP;\n    let mut generator",
        """let raw = link == RAW_IP;
    if records.iter().any(|r| matches!(rest(link, 0, r), Err(15))) {
        return Err(15);
    }
    let mut generator""",
    ),
    (
        "15 wins over an earlier 8",
        "second",
        "generator.part(0, Ends { yes, no })?;",
        """let met = generator.part(0, Ends { yes, no });
    if met == Err(8) && records.iter().any(|r| matches!(rest(link, 0, r), Err(15))) {
        return Err(15);
    }
    met?;""",
    ),
    (
        "15 gives way to a later 6",
        "second",
        "generator.part(0, Ends { yes, no })?;",
        """let met = generator.part(0, Ends { yes, no });
    if met == Err(15) && records.iter().any(|r| matches!(rest(link, 0, r), Err(6))) {
        return Err(6);
    }
    met?;""",
    ),
    (
        "a sender test makes IPv4 known",
        "second",
        "Rest::Steps(steps) => self.emit(&steps, ends.no),",
        """Rest::Steps(steps) => {
                self.emit(&steps, ends.no);
                if self.link == COOKED && r[KIND] == kind::ETHER_HOST {
                    self.known[ETHERTYPE].get_or_insert(IPV4);
                }
            }""",
    ),
    (
        "a sender test makes ports unready",
        "second",
        "Rest::Steps(steps) => self.emit(&steps, ends.no),",
        """Rest::Steps(steps) => {
                self.emit(&steps, ends.no);
                if self.link == COOKED && r[KIND] == kind::ETHER_HOST {
                    self.known[PORTS] = None;
                }
            }""",
    ),
    (
        "a half 0x5e7f of a sender's address is 0x5e7e",
        "conditions",
        "steps.extend(ether_address(r, SENDER));",
        """steps.extend(ether_address(r, SENDER));
    for step in steps.iter_mut().filter(|step| step.1 == 0x5e7f) {
        step.1 -= 1;
    }""",
        "senders",
    ),
]

# The same generator where the Rust judges it, on all other trees.
SECOND = [
    (
        "an Ethernet source wants a length too",
        "conditions",
        "(COOKED, SOURCE) =>",
        "(_, SOURCE) =>",
        "second",
    ),
    (
        "an or shares no test",
        "second",
        "self.hoist(shared(left, right), ends.no)?;",
        "let _ = (left, right);",
        "second",
    ),
    (
        "ports stay ready whatever X was written",
        "second",
        "if self.program[since..].iter().any(loads_x) {",
        "if self.program[since..].iter().any(loads_x) && self.link > COOKED {",
        "second",
    ),
    (
        "ports of TCP and SCTP have a set",
        "conditions",
        "Some(a | b).filter(|set| a == b || set & SCTP == 0)",
        "Some(a | b)",
        "second",
    ),
    (
        "a distance of 256 is taken",
        "second",
        "const LONGEST: usize = 255;",
        "const LONGEST: usize = 256;",
        "second",
    ),
    (
        "a far jump is met at the end alone",
        "second",
        """if distance > LONGEST {
                return Err(FAR_JUMP);
            }""",
        """if distance > LONGEST && label > 1 {
                self.waiting[1].push(jump);
                continue;
            }
            if distance > LONGEST {
                return Err(FAR_JUMP);
            }""",
        "second",
    ),
]


def filled(refusal, value):
    """The text of a buffer that a refusal fills with a value."""
    return f"""        let mut space = space;
        if number >> REFUSAL == {refusal} {{
            space[16..16 + length].fill({value});
        }}
        (number, space)"""


# The reader of captures, and what T-01 says of the answer and the buffer.
CAPTURES = [
    (
        "captures in little-endian are none",
        "pcap",
        "ORDERS.into_iter().find(fits)",
        "ORDERS[..1].iter().copied().find(fits)",
    ),
    (
        "the mark of nanoseconds is not known",
        "pcap",
        "MARKS.contains(&order.number(header, 0))",
        "MARKS[0] == order.number(header, 0)",
    ),
    (
        "the mark of nanoseconds is known in big-endian only",
        "pcap",
        "MARKS.contains(&order.number(header, 0))",
        "MARKS[..2 - (*order == Order::Little) as usize].contains(&order.number(header, 0))",
    ),
    (
        "the mark of modified captures is known",
        "pcap",
        "MARKS.contains(&order.number(header, 0))",
        "[MARKS[0], MARKS[1], 0xA1B2_CD34].contains(&order.number(header, 0))",
    ),
    (
        "the highest bit of a mark is not looked at",
        "pcap",
        "MARKS.contains(&order.number(header, 0))",
        "MARKS.contains(&(order.number(header, 0) | 1 << 31))",
    ),
    (
        "a file header alone is no capture",
        "pcap",
        "file.get(..FILE_HEADER)",
        "file.get(..FILE_HEADER + 1)",
    ),
    (
        "captures of another version are none",
        "pcap",
        "ORDERS.into_iter().find(fits)",
        "ORDERS.into_iter().find(fits).filter(|_| header[4..6].contains(&2))",
    ),
    (
        "the link is always read in big-endian",
        "pcap",
        "if order.number(file, LINK) != field_of(link) {",
        "if Order::Big.number(file, LINK) != field_of(link) {",
    ),
    (
        "the link has 16 bits",
        "pcap",
        "if order.number(file, LINK) != field_of(link) {",
        "if order.number(file, LINK) as u16 as u32 != field_of(link) {",
    ),
    (
        "the four highest bits of the link are not looked at",
        "pcap",
        "if order.number(file, LINK) != field_of(link) {",
        "if order.number(file, LINK) << 4 >> 4 != field_of(link) {",
    ),
    (
        "link 12 is RawIp too",
        "pcap",
        "if order.number(file, LINK) != field_of(link) {",
        "if order.number(file, LINK) != field_of(link) && (link, order.number(file, LINK)) != (2, 12) {",
    ),
    (
        "every link is taken",
        "pcap",
        "if order.number(file, LINK) != field_of(link) {",
        "if file.len() < FILE_HEADER {",
    ),
    (
        "13 comes before 12",
        "pcap",
        "let order = match order_of(file) {",
        """let same = |order: &Order| order.number(file, LINK) == field_of(link);
    if file.len() >= FILE_HEADER && !ORDERS.iter().any(same) {
        return nothing(OTHER_LINK);
    }
    let order = match order_of(file) {""",
    ),
    (
        "14 comes before 13",
        "pcap",
        "return nothing(OTHER_LINK);",
        "return nothing(frames_of(file, order).refusal.unwrap_or(OTHER_LINK));",
    ),
    (
        "12 to 14 come before the tree's own",
        "captures",
        "refusal => refused(refusal),",
        "refusal => refused(self.given.refusal.unwrap_or(refusal)),",
    ),
    (
        "15 comes after 12 to 14",
        "captures",
        "refusal => refused(refusal),",
        """15 => refused(self.given.refusal.unwrap_or(15)),
            refusal => refused(refusal),""",
    ),
    (
        "9 comes after 12 to 14",
        "captures",
        "refusal => refused(refusal),",
        """9 => refused(self.given.refusal.unwrap_or(9)),
            refusal => refused(refusal),""",
    ),
    (
        "the captured length is always read in little-endian",
        "pcap",
        "order.number(header, CAPTURED)",
        "Order::Little.number(header, CAPTURED)",
    ),
    (
        "the original length is taken",
        "pcap",
        "order.number(header, CAPTURED)",
        "order.number(header, CAPTURED + 4)",
    ),
    (
        "the smaller length is taken",
        "pcap",
        "order.number(header, CAPTURED)",
        "order.number(header, CAPTURED).min(order.number(header, CAPTURED + 4))",
    ),
    (
        "the captured length has 16 bits",
        "pcap",
        "order.number(header, CAPTURED) as usize",
        "order.number(header, CAPTURED) as u16 as usize",
    ),
    (
        "the captured length has 31 bits",
        "pcap",
        "order.number(header, CAPTURED) as usize",
        "(order.number(header, CAPTURED) << 1 >> 1) as usize",
    ),
    (
        "a frame may have 65,536 bytes",
        "pcap",
        "if captured > LONGEST {",
        "if captured > LONGEST + 1 {",
    ),
    (
        "a frame may have 65,534 bytes",
        "pcap",
        "if captured > LONGEST {",
        "if captured >= LONGEST {",
    ),
    (
        "a frame may have as many bytes as there are",
        "pcap",
        "if captured > LONGEST {",
        "if captured > behind.len() {",
    ),
    (
        "a frame of 0 bytes is bad",
        "pcap",
        "if captured > LONGEST {",
        "if captured == 0 || captured > LONGEST {",
    ),
    (
        "a frame over the snap length is bad",
        "pcap",
        """return nothing(OTHER_LINK);
    }
    frames_of(file, order)""",
        """return nothing(OTHER_LINK);
    }
    let (mut given, snap) = (frames_of(file, order), order.number(file, 16) as usize);
    if let Some(bad) = given.frames.iter().position(|frame| frame.len() > snap) {
        given.frames.truncate(bad);
        given.refusal = Some(CUT_FRAME);
    }
    given""",
    ),
    (
        "a frame that runs past the file is given as far as it goes",
        "pcap",
        "behind.get(..captured).ok_or(CUT_FRAME)",
        "Ok(&behind[..captured.min(behind.len())])",
    ),
    (
        "a body that lacks its last byte is given",
        "pcap",
        "behind.get(..captured).ok_or(CUT_FRAME)",
        "Some(&behind[..captured.min(behind.len())]).filter(|b| b.len() + 1 >= captured).ok_or(CUT_FRAME)",
    ),
    (
        "a rest of 15 bytes is forgiven",
        "pcap",
        "while stop < file.len() {",
        "while stop < file.len() && stop + 15 != file.len() {",
    ),
    (
        "a rest that is no frame header is forgiven",
        "pcap",
        "while stop < file.len() {",
        "while stop + 15 < file.len() {",
    ),
    (
        "the file header is skipped twice",
        "pcap",
        "(Vec::new(), FILE_HEADER)",
        "(Vec::new(), 2 * FILE_HEADER)",
    ),
    (
        "the last frame lacks its last byte",
        "pcap",
        "frames.push(frame);",
        """let last = stop + FRAME_HEADER + frame.len() == file.len();
        frames.push(&frame[..frame.len().saturating_sub(last as usize)]);""",
    ),
    (
        "a frame begins with its header",
        "pcap",
        "frames.push(frame);",
        "frames.push(&file[stop..stop + frame.len()]);",
    ),
    (
        "frame headers stand at multiples of four",
        "pcap",
        "stop += FRAME_HEADER + frame.len();",
        "stop += FRAME_HEADER + frame.len().next_multiple_of(4);",
    ),
    (
        "all frames given are counted",
        "captures",
        "        self.verdicts[ACCEPTED as usize]",
        "        self.given.frames.len() as u64",
    ),
    (
        "short frames are counted",
        "captures",
        "        self.verdicts[ACCEPTED as usize]",
        "        self.verdicts[ACCEPTED as usize] + self.verdicts[SHORT as usize]",
    ),
    (
        "a count has 16 bits",
        "captures",
        "        self.verdicts[ACCEPTED as usize]",
        "        self.verdicts[ACCEPTED as usize] as u16 as u64",
    ),
    (
        "the bad frame is counted",
        "captures",
        "refused(self.given.refusal.unwrap_or(0)) + self.kept()",
        "refused(self.given.refusal.unwrap_or(0)) + self.kept() + (self.given.refusal == Some(14)) as u64",
    ),
    (
        "14 forgets the frames before it",
        "captures",
        "refused(self.given.refusal.unwrap_or(0)) + self.kept()",
        "self.given.refusal.map_or(self.kept(), refused)",
    ),
    (
        "12 clears the buffer",
        "captures",
        "        (number, space)",
        filled(12, "0"),
    ),
    (
        "13 clears the buffer",
        "captures",
        "        (number, space)",
        filled(13, "0"),
    ),
    (
        "14 clears the buffer",
        "captures",
        "        (number, space)",
        filled(14, "0"),
    ),
    (
        "9 leaves the buffer of a count as it was",
        "captures",
        "        (number, space)",
        filled(9, "0x5A"),
    ),
    (
        "a frame of 0 bytes stands at the end",
        "pcap",
        "let bytes = file.get(at..).ok_or(CUT_FRAME)?;",
        """let bytes = file.get(at..).ok_or(CUT_FRAME)?;
    if bytes.is_empty() {
        return Ok(0);
    }""",
    ),
    (
        "no frame stands before the first",
        "pcap",
        "let bytes = file.get(at..).ok_or(CUT_FRAME)?;",
        "let bytes = file.get(at..).filter(|_| at >= FILE_HEADER).ok_or(CUT_FRAME)?;",
    ),
    (
        "a place has 32 bits",
        "pcap",
        "let bytes = file.get(at..).ok_or(CUT_FRAME)?;",
        "let bytes = file.get(at as u32 as usize..).ok_or(CUT_FRAME)?;",
    ),
]


def misread(line):
    """Another line is read where a line has a fault and the other has none."""
    return f"""let words = words_of(text).or_else(|fault| {{
        let line = String::from_utf8_lossy(text);
        words_of({line}.as_bytes()).map_err(|_| fault)
    }})?;"""


def sized_first(limit):
    """18 for all known words of a line, before 16 and 17."""
    return f"""let all: Vec<Word> = words(text).iter().filter_map(|(_, word)| known(word)).collect();
    if size(&all).{limit} > MOST {{
        return refused(TOO_LARGE);
    }}
    let words = words_of(text)?;"""


def loosest(join, other):
    """One of the joins binds more loosely than the other."""
    return f"""let outside = |at: &usize| {{
        let brackets = words[..*at].iter();
        brackets.fold(0, |n, w| n + (*w == Open) as i32 - (*w == Close) as i32) == 0
    }};
    let last = |join| (0..words.len()).rev().filter(outside).find(|at| words[*at] == join);
    let part: fn(&[Word]) -> Option<Phrase> = if last({join}).is_some() {{ phrase }} else {{ part }};
    let Some(at) = last({join}).or(last({other})) else {{"""


PORT_NUMBER = """let number = text.parse::<u16>().ok()?;
    (number.to_string() == text).then_some(Number(number))"""
ADDRESS = """let address = text.parse::<Ipv4Addr>().ok()?;
    (address.to_string() == text).then_some(Address(address.octets()))"""
SIDES_OF_A_JOIN = """let left = Box::new(phrase(&words[..at])?);
    let right = Box::new(part(&words[at + 1..])?);"""

# The second parser, and what T-04 says of the answer and the tree.
TYPING = [
    (
        "and binds tighter than or",
        "typing",
        "let Some(at) = last_join(words) else {",
        loosest("Or", "And"),
    ),
    (
        "or binds tighter than and",
        "typing",
        "let Some(at) = last_join(words) else {",
        loosest("And", "Or"),
    ),
    (
        "joins go from the right",
        "typing",
        SIDES_OF_A_JOIN,
        """let mut depth = 0;
    let at = words[..at].iter().position(|word| {
        depth += (*word == Open) as i32 - (*word == Close) as i32;
        depth == 0 && matches!(word, And | Or)
    }).unwrap_or(at);
    let left = Box::new(phrase(&words[..at])?);
    let right = Box::new(phrase(&words[at + 1..])?);""",
    ),
    (
        "the sides of a join are exchanged",
        "typing",
        SIDES_OF_A_JOIN,
        """let right = Box::new(phrase(&words[..at])?);
    let left = Box::new(part(&words[at + 1..])?);""",
    ),
    (
        "not goes over a whole join",
        "typing",
        "let Some(at) = last_join(words) else {",
        """if let [Not, rest @ ..] = words {
        return Some(Phrase::Not(Box::new(phrase(rest)?)));
    }
    let Some(at) = last_join(words) else {""",
    ),
    (
        "two nots are none",
        "typing",
        "[Not, rest @ ..] => Some(Phrase::Not(Box::new(part(rest)?))),",
        """[Not, Not, rest @ ..] => part(rest),
        [Not, rest @ ..] => Some(Phrase::Not(Box::new(part(rest)?))),""",
    ),
    (
        "and is or",
        "typing",
        """And => Phrase::And(left, right),
        _ => Phrase::Or(left, right),""",
        "_ => Phrase::Or(left, right),",
    ),
    (
        "a port's leading zero is taken",
        "typing",
        PORT_NUMBER,
        """let number = text.parse::<u16>().ok()?;
    (!text.starts_with('+')).then_some(Number(number))""",
    ),
    (
        "a port's sign is taken",
        "typing",
        "(number.to_string() == text).then_some(Number(number))",
        "(number.to_string() == text.trim_start_matches('+')).then_some(Number(number))",
    ),
    (
        "port 65,536 is taken",
        "typing",
        PORT_NUMBER,
        """let number = text.parse::<u32>().ok().filter(|n| *n <= 65_536)?;
    (number.to_string() == text).then_some(Number(number as u16))""",
    ),
    (
        "port 65,535 is not taken",
        "typing",
        "let number = text.parse::<u16>().ok()?;",
        "let number = text.parse::<u16>().ok().filter(|n| *n < 65_535)?;",
    ),
    (
        "port 0 is not taken",
        "typing",
        "let number = text.parse::<u16>().ok()?;",
        "let number = text.parse::<u16>().ok().filter(|n| *n > 0)?;",
    ),
    (
        "a port's number wraps at 2^32",
        "typing",
        PORT_NUMBER,
        """let number = text.parse::<u128>().ok()?;
    let port = u16::try_from(number as u32).ok()?;
    (number.to_string() == text).then_some(Number(port))""",
    ),
    (
        "a port's number wraps at 2^64",
        "typing",
        PORT_NUMBER,
        """let number = text.parse::<u128>().ok()?;
    let port = u16::try_from(number as u64).ok()?;
    (number.to_string() == text).then_some(Number(port))""",
    ),
    (
        "port 5004 is read as 5005",
        "typing",
        "(number.to_string() == text).then_some(Number(number))",
        "(number.to_string() == text).then_some(Number(number + (number == 5004) as u16))",
    ),
    (
        "an address's leading zero is taken",
        "typing",
        ADDRESS,
        """let parts = text.split('.').map(|part| part.parse::<u8>().ok());
    let parts: Vec<u8> = parts.collect::<Option<_>>()?;
    let address = <[u8; 4]>::try_from(parts).ok().filter(|_| !text.contains('+'))?;
    Some(Address(address))""",
    ),
    (
        "256 is taken in an address",
        "typing",
        ADDRESS,
        """let parts = text.split('.').map(|part| part.parse::<u16>().ok().filter(|n| *n <= 256));
    let parts: Vec<u16> = parts.collect::<Option<_>>()?;
    let same = parts.iter().map(u16::to_string).collect::<Vec<_>>().join(".") == text;
    let address = <[u16; 4]>::try_from(parts).ok().filter(|_| same)?;
    Some(Address(address.map(|n| n as u8)))""",
    ),
    (
        "255 is not taken at an address's end",
        "typing",
        "let address = text.parse::<Ipv4Addr>().ok()?;",
        "let address = text.parse::<Ipv4Addr>().ok().filter(|a| a.octets()[3] < 255)?;",
    ),
    (
        "an address of three parts is taken",
        "typing",
        "let address = text.parse::<Ipv4Addr>().ok()?;",
        """let four = match text.split('.').count() {
        3 => format!("{text}.0"),
        _ => text.into(),
    };
    let (address, text) = (four.parse::<Ipv4Addr>().ok()?, four);""",
    ),
    (
        "an address's last dot is taken",
        "typing",
        "let address = text.parse::<Ipv4Addr>().ok()?;",
        """let text = text.strip_suffix('.').unwrap_or(text);
    let address = text.parse::<Ipv4Addr>().ok()?;""",
    ),
    (
        "a tab is a space",
        "typing",
        "text.split(|byte| *byte == SPACE)",
        "text.split(|byte| *byte == SPACE || *byte == b'\\t')",
    ),
    (
        "a line feed is a space",
        "typing",
        "text.split(|byte| *byte == SPACE)",
        "text.split(|byte| *byte == SPACE || *byte == b'\\n')",
    ),
    (
        "a line ends at a zero byte",
        "typing",
        "text.split(|byte| *byte == SPACE)",
        "text.split(|byte| *byte == 0).next().unwrap_or(text).split(|byte| *byte == SPACE)",
    ),
    (
        "capitals are small letters",
        "typing",
        "let words = words_of(text)?;",
        misread("line.to_ascii_lowercase()"),
    ),
    (
        "brackets need no spaces",
        "typing",
        "let words = words_of(text)?;",
        misread("line.replace('(', \" ( \").replace(')', \" ) \")"),
    ),
    (
        "an empty line is taken",
        "typing",
        "let words = words_of(text)?;",
        misread("(if line.trim().is_empty() { \"ip\" } else { \"\" })"),
    ),
    (
        "a bracket may stay open",
        "typing",
        "let words = words_of(text)?;",
        misread("format!(\"{line} )\")"),
    ),
    (
        "a bracket may close nothing",
        "typing",
        "let words = words_of(text)?;",
        misread("format!(\"( {line}\")"),
    ),
    (
        "a port's direction may come first",
        "typing",
        "let words = words_of(text)?;",
        misread("line.replace(\"src tcp port\", \"tcp src port\")"),
    ),
    (
        "tcp may stand before host",
        "typing",
        "let words = words_of(text)?;",
        misread("line.replace(\"tcp host\", \"host\")"),
    ),
    (
        "host may be left out behind src",
        "typing",
        "let words = words_of(text)?;",
        misread("line.replace(\"src 1\", \"src host 1\")"),
    ),
    (
        "and may be left out",
        "typing",
        "let words = words_of(text)?;",
        misread("line.replace(\"ip ip\", \"ip and ip\")"),
    ),
    (
        "no direction can follow tcp",
        "typing",
        "matches!(word, Some(Port | Side(_))) || goes_on(word, open)",
        "matches!(word, Some(Port)) || goes_on(word, open)",
    ),
    (
        "tcp is nothing by itself",
        "typing",
        "matches!(word, Some(Port | Side(_))) || goes_on(word, open)",
        "matches!(word, Some(Port | Side(_)))",
    ),
    (
        "17 is at the word before",
        "typing",
        "return refused(UNFINISHED, pieces[i].0);",
        "return refused(UNFINISHED, pieces[i.saturating_sub(1)].0);",
    ),
    (
        "17 is one word late",
        "typing",
        "return refused(UNFINISHED, pieces[i].0);",
        "return refused(UNFINISHED, pieces.get(i + 1).map_or(text.len(), |piece| piece.0));",
    ),
    (
        "17 is at a word's end",
        "typing",
        "return refused(UNFINISHED, pieces[i].0);",
        "return refused(UNFINISHED, pieces[i].0 + pieces[i].1.len());",
    ),
    (
        "17 counts words",
        "typing",
        "return refused(UNFINISHED, pieces[i].0);",
        "return refused(UNFINISHED, i);",
    ),
    (
        "17 has 16 bits for its place",
        "typing",
        "return refused(UNFINISHED, pieces[i].0);",
        "return refused(UNFINISHED, pieces[i].0 as u16 as usize);",
    ),
    (
        "the end is behind the last word",
        "typing",
        "return refused(UNFINISHED, text.len());",
        "return refused(UNFINISHED, pieces.last().map_or(0, |(place, piece)| place + piece.len()));",
    ),
    (
        "the end is the last word",
        "typing",
        "return refused(UNFINISHED, text.len());",
        "return refused(UNFINISHED, pieces.last().map_or(text.len(), |(place, _)| *place));",
    ),
    (
        "a number that cannot follow is 16",
        "typing",
        "return refused(UNFINISHED, pieces[i].0);",
        """let value = matches!(read[i], Address(_) | Number(_));
        return refused(if value { UNKNOWN_WORD } else { UNFINISHED }, pieces[i].0);""",
    ),
    (
        "a number or an address too large is 17",
        "typing",
        "return refused(UNKNOWN_WORD, *place);",
        """let digits = pieces[read.len()].1.iter().all(|b| b.is_ascii_digit() || *b == b'.');
        return refused(if digits { UNFINISHED } else { UNKNOWN_WORD }, *place);""",
    ),
    (
        "17 precedes 16 at one place",
        "typing",
        "return refused(UNKNOWN_WORD, *place);",
        """let whole = can_follow(&read, open[read.len()], Some(And));
        return refused(if whole { UNFINISHED } else { UNKNOWN_WORD }, *place);""",
    ),
    (
        "16 comes before an earlier 17",
        "typing",
        "let open = open_before(&read);",
        """if let Some((place, _)) = pieces.get(read.len()) {
        return Err(Refusal { number: UNKNOWN_WORD, place: *place });
    }
    let open = open_before(&read);""",
    ),
    (
        "18 by records comes before 16 and 17",
        "typing",
        "let words = words_of(text)?;",
        sized_first("records"),
    ),
    (
        "18 by brackets comes before 16 and 17",
        "typing",
        "let words = words_of(text)?;",
        sized_first("brackets"),
    ),
    (
        "18 is at the line's end",
        "typing",
        "return refused(TOO_LARGE);",
        "return Err(Refusal { number: TOO_LARGE, place: text.len() });",
    ),
    (
        "129 records are taken",
        "typing",
        "size.records > MOST",
        "size.records > MOST + 1",
    ),
    (
        "128 records are not taken",
        "typing",
        "size.records > MOST",
        "size.records >= MOST",
    ),
    (
        "129 open brackets are taken",
        "typing",
        "size.brackets > MOST",
        "size.brackets > MOST + 1",
    ),
    (
        "128 open brackets are not taken",
        "typing",
        "size.brackets > MOST",
        "size.brackets >= MOST",
    ),
    (
        "all brackets count, not those open at once",
        "typing",
        "open_before(words).into_iter().max().unwrap_or(0)",
        "words.iter().filter(|word| **word == Open).count()",
    ),
    (
        "brackets are records",
        "typing",
        "And | Or | Not | Protocol(_) | Address(_) | Number(_) => true,",
        "And | Or | Not | Protocol(_) | Address(_) | Number(_) | Open => true,",
    ),
    (
        "the link is asked after the line",
        "typing",
        "if !matches!(link, ETHERNET | RAW_IP | LINUX_SLL) {",
        "if words_of(text).is_ok() && !matches!(link, ETHERNET | RAW_IP | LINUX_SLL) {",
    ),
    (
        "link 0 is taken",
        "typing",
        "if !matches!(link, ETHERNET | RAW_IP | LINUX_SLL) {",
        "if link > LINUX_SLL {",
    ),
    (
        "link 4 is taken",
        "typing",
        "if !matches!(link, ETHERNET | RAW_IP | LINUX_SLL) {",
        "if !matches!(link, 1..=4) {",
    ),
    (
        "link 129 is taken",
        "typing",
        "if !matches!(link, ETHERNET | RAW_IP | LINUX_SLL) {",
        "if !matches!(link & 127, ETHERNET | RAW_IP | LINUX_SLL) {",
    ),
    (
        "the link is not written",
        "typing",
        "file[LINK] = link;",
        "",
    ),
    (
        "the count is little-endian",
        "typing",
        "(count as u16).to_be_bytes()",
        "(count as u16).to_le_bytes()",
    ),
    (
        "no direction is source",
        "typing",
        "_ => (EITHER, rest),",
        "_ => (SOURCE, rest),",
    ),
    (
        "no direction is both",
        "typing",
        "_ => (EITHER, rest),",
        "_ => (3, rest),",
    ),
    (
        "src and dst are exchanged",
        "typing",
        "[Side(side), ref rest @ ..] => (side, rest),",
        "[Side(side), ref rest @ ..] => (3 - side, rest),",
    ),
    (
        "a port's protocol is not written",
        "typing",
        "&[PORT, side, protocol]",
        "&[PORT, side, NONE]",
    ),
    (
        "a protocol is not written",
        "typing",
        "record[2] = protocol;",
        "",
    ),
    (
        "a port is little-endian",
        "typing",
        "&port.to_be_bytes()",
        "&port.to_le_bytes()",
    ),
    (
        "a port's range ends at it",
        "typing",
        "record[4..6].copy_from_slice(&port.to_be_bytes());",
        """record[4..6].copy_from_slice(&port.to_be_bytes());
            record[6..8].copy_from_slice(&port.to_be_bytes());""",
    ),
    (
        "a host is a net with a full mask",
        "typing",
        "record[8..12].copy_from_slice(&address);",
        """record[0] = 13;
            record[8..12].copy_from_slice(&address);
            record[12..16].fill(0xFF);""",
    ),
    (
        "sctp is 9",
        "typing",
        "(\"sctp\", Transport(SCTP)),",
        "(\"sctp\", Transport(9)),",
    ),
    (
        "a file leaves the bytes behind it",
        "typing",
        "tree.resize(TREE, 0);",
        "tree.resize(TREE, if number >> REFUSAL == 0 { 0x5A } else { 0 });",
    ),
    (
        "a refusal leaves the bytes",
        "typing",
        "tree.resize(TREE, 0);",
        "tree.resize(TREE, if number >> REFUSAL == 0 { 0 } else { 0x5A });",
    ),
    (
        "18 leaves the bytes",
        "typing",
        "tree.resize(TREE, 0);",
        "tree.resize(TREE, if number >> REFUSAL == 18 { 0x5A } else { 0 });",
    ),
    (
        "the answer is the count of records",
        "typing",
        "(file.len() as u64, file)",
        "((file.len() / RECORD) as u64, file)",
    ),
    (
        "a line with tcp is true of IPv6",
        "saying",
        "TCP => ipv4(TCP_NUMBER),",
        "TCP => ipv4(TCP_NUMBER) || self.ethertype() == IPV6_TYPE && self.byte(self.net(6)) == TCP_NUMBER,",
    ),
    (
        "a line with a port is true of SCTP",
        "saying",
        "_ => number == TCP_NUMBER || number == UDP_NUMBER,",
        "_ => [TCP_NUMBER, UDP_NUMBER, SCTP_NUMBER].contains(&number),",
    ),
    (
        "a line with a port is false of IPv6",
        "saying",
        "IPV6_TYPE => Some((self.byte(self.net(6)), self.net(IPV6_HEADER))),",
        "",
    ),
    (
        "a line with a port is true of a later fragment",
        "saying",
        "IPV4_TYPE if self.half(self.net(6)) & FRAGMENT == 0 => {",
        "IPV4_TYPE => {",
    ),
    (
        "a line with a host is true of ARP",
        "saying",
        "(self.ethertype() == IPV4_TYPE).then(|| [at(12), at(16)])",
        """match self.ethertype() {
            IPV4_TYPE => Some([at(12), at(16)]),
            ARP_TYPE => Some([at(14), at(24)]),
            _ => None,
        }""",
    ),
    (
        "a line with no direction is true of both sides alone",
        "saying",
        "_ => source == value || destination == value,",
        "_ => source == value && destination == value,",
    ),
    (
        "a line's src is true of the destination",
        "saying",
        "SOURCE => source == value,",
        "SOURCE => destination == value,",
    ),
    (
        "a line's or is true of both alone",
        "saying",
        "Phrase::Or(left, right) => left.holds(seen) || right.holds(seen),",
        "Phrase::Or(left, right) => left.holds(seen) != right.holds(seen),",
    ),
    (
        "a line with ip6 is true on RawIp",
        "saying",
        "IP6 => self.ethertype() == IPV6_TYPE,",
        "IP6 => self.ethertype() == IPV6_TYPE || self.link == RAW_IP && self.byte(0) >> 4 == 6,",
    ),
]

GROUPS = [
    ("wrong turns", WRONG_TURNS),
    ("worthless versions", WORTHLESS),
    ("joins", JOINS),
    ("jumps", JUMPS),
    ("conditions", CONDITIONS),
    ("cooked trees", COOKED),
    ("second generator", SECOND),
    ("machine", MACHINE),
    ("checks", CHECKS),
    ("buffer", BUFFER),
    ("questions and loads", LOADS),
    ("single values", VALUES),
    ("readings", READINGS),
    ("captures", CAPTURES),
    ("typing", TYPING),
]


def named(word):
    """The groups, each with those of its variants whose name, or its own, has the word."""
    kept = [(group, [v for v in variants if word in v[0] or word in group]) for group, variants in GROUPS]
    return [(group, variants) for group, variants in kept if variants]


def part_of_a_name(word):
    """The word, for a command: it has to choose something."""
    if not named(word):
        raise argparse.ArgumentTypeError(f"no variant's name has the word {word}")
    return word
