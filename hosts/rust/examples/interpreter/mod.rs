//! The nine kinds of instructions that hosts/example/buoyancy.s has, over any machine. Each costs a cycle.

/// What an instruction needs of a machine.
pub trait Core {
    /// What a refused call answers.
    type Refusal;

    fn pc(&self) -> u64;
    fn set_pc(&mut self, pc: u64);
    fn register(&self, i: usize) -> u64;
    fn set_register(&mut self, i: usize, value: u64);
    fn cycles(&self) -> u64;
    fn set_cycles(&mut self, cycles: u64);
    fn max_cycles(&self) -> u64;
    fn fetch(&mut self, addr: u64) -> Result<u32, Self::Refusal>;
    fn load64(&mut self, addr: u64) -> Result<u64, Self::Refusal>;
    fn store64(&mut self, addr: u64, value: u64) -> Result<(), Self::Refusal>;
}

/// Why a machine runs no further.
#[derive(Debug, PartialEq)]
pub enum End<R> {
    /// The next instruction would pass the maximum of cycles: it is not run.
    Spent,
    /// The program said that it is done.
    Ecall,
    /// An instruction of another kind, and where.
    Unknown(u32, u64),
    /// A refused call, of the instruction at this address.
    Refused(R, u64),
}

/// Runs instructions until there is an end.
pub fn run<C: Core>(core: &mut C) -> End<C::Refusal> {
    loop {
        if core.cycles() >= core.max_cycles() {
            return End::Spent;
        }
        if let Err(end) = step(core) {
            return end;
        }
    }
}

fn step<C: Core>(core: &mut C) -> Result<(), End<C::Refusal>> {
    let pc = core.pc();
    let refused = |refusal| End::Refused(refusal, pc);
    let word = core.fetch(pc).map_err(refused)?;
    let field = |low: u32, bits: u32| (word >> low & ((1 << bits) - 1)) as usize;
    let (opcode, rd, kind, rs1, rs2) = (field(0, 7), field(7, 5), field(12, 3), field(15, 5), field(20, 5));
    let (a, b) = (core.register(rs1), core.register(rs2));
    let mut next = pc.wrapping_add(4);
    match (opcode, kind, field(25, 7)) {
        // beq
        (0x63, 0, _) => {
            if a == b {
                next = pc.wrapping_add(signed(&[(31, 1), (7, 1), (25, 6), (8, 4)], word) << 1);
            }
        }
        // ld
        (0x03, 3, _) => {
            let value = core.load64(a.wrapping_add(signed(&[(20, 12)], word))).map_err(refused)?;
            set(core, rd, value);
        }
        // sd
        (0x23, 3, _) => {
            core.store64(a.wrapping_add(signed(&[(25, 7), (7, 5)], word)), b).map_err(refused)?;
        }
        // addi
        (0x13, 0, _) => set(core, rd, a.wrapping_add(signed(&[(20, 12)], word))),
        // srli, by up to 63
        (0x13, 5, 0 | 1) => set(core, rd, a >> field(20, 6)),
        // add, sub
        (0x33, 0, 0x00) => set(core, rd, a.wrapping_add(b)),
        (0x33, 0, 0x20) => set(core, rd, a.wrapping_sub(b)),
        // jal
        (0x6f, _, _) => {
            set(core, rd, next);
            next = pc.wrapping_add(signed(&[(31, 1), (12, 8), (20, 1), (21, 10)], word) << 1);
        }
        // ecall
        _ if word == 0x73 => {
            finish(core, next);
            return Err(End::Ecall);
        }
        _ => return Err(End::Unknown(word, pc)),
    }
    finish(core, next);
    Ok(())
}

/// The instruction is run: the next one, and a cycle more.
fn finish<C: Core>(core: &mut C, next: u64) {
    core.set_pc(next);
    core.set_cycles(core.cycles() + 1);
}

/// Register 0 stays 0.
fn set<C: Core>(core: &mut C, rd: usize, value: u64) {
    if rd != 0 {
        core.set_register(rd, value);
    }
}

/// A signed number whose bits stand in a word in parts, the highest first: each part's lowest bit, and its bits.
fn signed(parts: &[(u32, u32)], word: u32) -> u64 {
    let (mut value, mut length) = (0u64, 0);
    for (low, bits) in parts {
        value = value << bits | u64::from(word >> low & ((1 << bits) - 1));
        length += bits;
    }
    ((value << (64 - length)) as i64 >> (64 - length)) as u64
}
