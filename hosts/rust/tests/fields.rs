//! What is a field here is held to the archive's functions, on many inputs.

#[allow(dead_code, unsafe_code)]
#[path = "../src/archive.rs"]
mod archive;
mod seeded;

use archive::{
    MachineAnswer, Tracked, Value, machine_commit_pc, machine_cycles, machine_max_cycles, machine_pc, machine_register,
    machine_set_cycles, machine_set_max_cycles, machine_set_register, machine_update_pc, machine_version,
};
use latchpebble::{LoadingAction, Machine, RISCV_PAGESIZE};
use seeded::Seeded;

const STEPS: usize = 20_000;
const PAGES: usize = 8;
const SIZE: u64 = PAGES as u64 * RISCV_PAGESIZE;
const SEED: u64 = 3;

/// A machine as the archive's caller keeps it.
struct Plain {
    slots: [u16; PAGES],
    flags: [u8; PAGES],
    records: [u64; 3 * PAGES],
    numbers: archive::Machine,
}

impl Plain {
    fn fresh(version: u32, max_cycles: u64) -> Plain {
        let (mut slots, mut flags, mut records) = ([0; PAGES], [0; PAGES], [0; 3 * PAGES]);
        let lent = archive::Lent { slots: &mut slots, flags: &mut flags, area: &mut [] };
        let tracked = Tracked { lent, records: &mut records };
        let MachineAnswer { number, machine } = archive::machine_fresh(tracked, SIZE, version, max_cycles);
        assert_eq!(number, 0);
        Plain { slots, flags, records, numbers: machine }
    }

    fn tracked(&mut self) -> Tracked<'_> {
        let lent = archive::Lent { slots: &mut self.slots, flags: &mut self.flags, area: &mut [] };
        Tracked { lent, records: &mut self.records }
    }
}

/// Numbers that are small, large or anything.
fn number(seeded: &mut Seeded) -> u64 {
    let word = seeded.word();
    seeded.one_of(&[word % 40, word, u64::MAX - word % 40])
}

fn answered<T>(number: u32, value: T) -> Result<T, u32> {
    if number == 0 { Ok(value) } else { Err(number) }
}

#[test]
fn fields_are_as_the_archives() {
    let mut seeded = Seeded(SEED);
    for version in [0, 1, 2, u32::MAX] {
        let maximum = number(&mut seeded);
        let mut machine = Machine::with_slots(version, maximum, SIZE, 0).unwrap();
        let mut plain = Plain::fresh(version, maximum).numbers;
        let (mut done, mut refused) = (0, 0);
        for _ in 0..STEPS {
            let (x, i) = (number(&mut seeded), number(&mut seeded));
            match seeded.below(6) {
                0 => {
                    machine.update_pc(x);
                    plain = machine_update_pc(plain, x);
                }
                1 => {
                    machine.commit_pc();
                    plain = machine_commit_pc(plain);
                }
                2 => {
                    machine.set_cycles(x);
                    plain = machine_set_cycles(plain, x);
                }
                3 => {
                    machine.set_max_cycles(x);
                    plain = machine_set_max_cycles(plain, x);
                }
                4 => {
                    let ours = machine.set_register(i as usize, x).map_err(|error| error.number());
                    let MachineAnswer { number, machine } = machine_set_register(plain, i, x);
                    plain = machine;
                    assert_eq!(ours, answered(number, ()));
                    if ours.is_ok() { done += 1 } else { refused += 1 }
                }
                _ => {
                    let ours = machine.register(i as usize).map_err(|error| error.number());
                    let Value { number, value } = machine_register(plain, i);
                    assert_eq!(ours, answered(number, value));
                }
            }
            assert_eq!(machine.pc(), machine_pc(plain));
            assert_eq!(machine.cycles(), machine_cycles(plain));
            assert_eq!(machine.max_cycles(), machine_max_cycles(plain));
            assert_eq!(machine.version(), machine_version(plain));
            assert_eq!(*machine.registers(), plain.registers);
        }
        assert!(done > 500 && refused > 500);
    }
}

/// Actions are handed over one by one here, and all at once there.
#[test]
fn mark_program_is_as_the_archives() {
    let mut seeded = Seeded(SEED);
    let (mut done, mut refused) = (0, 0);
    for _ in 0..STEPS {
        let mut machine = Machine::with_slots(1, 0, SIZE, 0).unwrap();
        let mut plain = Plain::fresh(1, 0);
        let actions: Vec<LoadingAction> = (0..seeded.below(5)).map(|_| action(&mut seeded)).collect();
        let (id, wide) = (seeded.word(), seeded.word());
        let offset = seeded.one_of(&[0, 0, 0, 5, wide]);
        let numbers: Vec<u64> = actions
            .iter()
            .flat_map(|a| [a.addr, a.size, a.flags.into(), a.source.start, a.source.end, a.offset_from_addr])
            .collect();
        let ours = machine.mark_program(&actions, id, offset).map_err(|error| error.number());
        let memory = plain.numbers.memory;
        let number = archive::mark_program(plain.tracked(), &numbers, memory, id, offset);
        assert_eq!(ours, answered(number, ()));
        if ours.is_ok() {
            done += 1
        } else {
            refused += 1
        }
        for page in 0..PAGES as u64 {
            let archive::Recorded { number, tracked, id, offset, flag } =
                archive::page_record(plain.tracked(), memory, page);
            let ours = machine.page_record(page).unwrap().map(|r| (r.id, r.offset, u32::from(r.flag)));
            assert_eq!((number, ours), (0, (tracked == 1).then_some((id, offset, flag))));
        }
    }
    assert!(done > 500 && refused > 500);
}

/// Mostly one that tracks pages of the machine.
fn action(seeded: &mut Seeded) -> LoadingAction {
    let addr = seeded.below(PAGES as u64 + 1) * RISCV_PAGESIZE;
    let size = seeded.below(4) * RISCV_PAGESIZE;
    let (start, lead) = (seeded.below(100), seeded.one_of(&[0, 0, 1, 5_000]));
    let wide = seeded.word();
    let end = seeded.one_of(&[start + size, start + size, start + size / 2, 0, wide]);
    LoadingAction { addr, size, flags: seeded.word() as u8, source: start..end, offset_from_addr: lead }
}
