//! A machine that is stopped and resumed on others: all later answers are equal, snapshots too.

mod seeded;

use latchpebble::{
    Error, FLAG_DIRTY, FLAG_EXECUTABLE, FLAG_FREEZED, LoadingAction, Machine, RISCV_PAGESIZE, Snapshot, Sources,
};
use seeded::Seeded;

const PAGE: u64 = RISCV_PAGESIZE;
const PAGES: u64 = 12;
const SIZE: u64 = PAGES * PAGE;
const VERSION: u32 = 1;
const SEEDS: u64 = 60;
/// Calls before each stop, and after the last one.
const CALLS: usize = 150;
/// The items: a program of whole pages, readings, and a few bytes.
const ITEMS: [(u64, usize); 3] = [(1, 4 * PAGE as usize), (7, 10_000), (u64::MAX, 20)];

fn sources(seeded: &mut Seeded) -> Sources {
    let mut sources = Sources::new();
    for (id, length) in ITEMS {
        sources.add(id, &seeded.bytes(length));
    }
    sources
}

fn machine(max_cycles: u64) -> Machine {
    Machine::new(VERSION, max_cycles, SIZE).unwrap()
}

/// Mostly in the memory, often at a page's end.
fn address(seeded: &mut Seeded) -> u64 {
    let (page, near, word) = (seeded.below(PAGES + 1) * PAGE, seeded.below(9), seeded.word());
    seeded.one_of(&[page + near, (page + PAGE - near) % SIZE, word % SIZE, word % SIZE, SIZE - near, word])
}

fn size(seeded: &mut Seeded) -> u64 {
    let word = seeded.word();
    seeded.one_of(&[0, 1, 8, word % 100, word % 9_000, PAGE, 2 * PAGE, word % (2 * SIZE)])
}

/// One call that keeps a machine sound; its answer.
fn careful(seeded: &mut Seeded, machine: &mut Machine, sources: &Sources) -> String {
    let (addr, value, length) = (address(seeded), seeded.word(), size(seeded));
    let page = seeded.below(PAGES + 1);
    match seeded.below(18) {
        0 => format!("{:?}", machine.memory_mut().store8(addr, value)),
        1 => format!("{:?}", machine.memory_mut().store16(addr, value)),
        2 => format!("{:?}", machine.memory_mut().store32(addr, value)),
        3 => format!("{:?}", machine.memory_mut().store64(addr, value)),
        4 => format!("{:?}", machine.memory_mut().store_byte(addr, length, value as u8)),
        5 => {
            let bytes = seeded.bytes((length % 9_000) as usize);
            format!("{:?}", machine.memory_mut().store_bytes(addr, &bytes))
        }
        6..=8 => {
            let (id, longest) = seeded.one_of(&ITEMS);
            let offset = seeded.below(longest as u64 + 2);
            let place = address(seeded);
            format!("{:?}", machine.context_store_bytes(sources, addr, id, offset, length, place))
        }
        9 => load_program(seeded, machine, sources, page),
        10 => {
            // of one page: refused before or after, not in between
            let flags = seeded.one_of(&[0, 0, FLAG_EXECUTABLE, FLAG_FREEZED, 8]);
            let source = seeded.bytes(100);
            let lead = seeded.below(PAGE + 2);
            format!("{:?}", machine.memory_mut().init_pages(page * PAGE, PAGE, flags, &source, lead))
        }
        11 => format!("{:?}", machine.untrack_pages(addr, length)),
        12 => {
            machine.memory_mut().set_lr(value);
            format!("{:?}", machine.set_register(seeded.below(34) as usize, value))
        }
        13 => {
            machine.update_pc(value);
            machine.commit_pc();
            machine.set_cycles(value % 1_000);
            machine.set_max_cycles(value);
            format!("{:?}", machine)
        }
        14 => format!("{:?}", machine.memory_mut().set_flag(page, FLAG_DIRTY)),
        15 => format!("{:?}", (machine.memory().load64(addr), machine.memory().execute_load32(addr))),
        16 => {
            let mut out = vec![0xee; (length % 9_000) as usize];
            let answer = (machine.memory().load_bytes(addr, &mut out), machine.memory().load_c_string(addr, &mut out));
            format!("{answer:?} {out:?}")
        }
        _ => format!("{:?}", (machine.page_record(page), machine.memory().fetch_flag(page), machine.memory().lr())),
    }
}

/// Pages of the program item, and where they come from.
fn load_program(seeded: &mut Seeded, machine: &mut Machine, sources: &Sources, page: u64) -> String {
    let (id, length) = ITEMS[0];
    let start = seeded.below(length as u64 - PAGE);
    let flags = seeded.one_of(&[FLAG_EXECUTABLE | FLAG_FREEZED, FLAG_FREEZED, 0]);
    let (program, _) = sources.load_data(id, start, PAGE).unwrap();
    let loaded = machine.memory_mut().init_pages(page * PAGE, PAGE, flags, program, 0);
    let source = start..start + PAGE;
    let action = LoadingAction { addr: page * PAGE, size: PAGE, flags, source, offset_from_addr: 0 };
    let marked = loaded.and_then(|()| machine.mark_program(&[action], id, 0));
    format!("{marked:?}")
}

/// One call of any kind, but a direct clear of the dirty flag and a fresh machine.
fn any(seeded: &mut Seeded, machine: &mut Machine, sources: &Sources, older: &Snapshot) -> String {
    let (addr, value, length, page) = (address(seeded), seeded.word(), size(seeded), seeded.below(PAGES + 1));
    match seeded.below(12) {
        0 => format!("{:?}", machine.memory_mut().set_flag(page, value as u8)),
        1 => format!("{:?}", machine.memory_mut().clear_flag(page, value as u8 & !FLAG_DIRTY)),
        2 => format!("{:?}", machine.track_pages(addr, length, seeded.one_of(&ITEMS).0, value % 10_000)),
        3 => {
            let bytes = seeded.bytes((length % 9_000) as usize);
            format!("{:?}", machine.memory_mut().inner_mut().store_bytes(addr, &bytes))
        }
        4 => {
            let flags = value as u8;
            format!("{:?}", machine.memory_mut().init_pages(page * PAGE, 3 * PAGE, flags, &[1; 5_000], length % PAGE))
        }
        5 if seeded.below(4) == 0 => format!("{:?}", machine.resume(sources, older)),
        6 => format!("{:?}", stop(machine).map(|snapshot| (snapshot.records().to_vec(), snapshot.pages().to_vec()))),
        7 => {
            let source = value % 50..value % 50 + length;
            let action = LoadingAction { addr, size: length, flags: 0, source, offset_from_addr: value % 9 };
            format!("{:?}", machine.mark_program(&[action], 1, 0))
        }
        _ => careful(seeded, machine, sources),
    }
}

fn stop(machine: &Machine) -> Result<Snapshot, Error> {
    let mut snapshot = Snapshot::for_pages(PAGES);
    machine.make_snapshot(&mut snapshot).map(|()| snapshot)
}

/// A fresh machine that goes on where another one was stopped.
fn resumed(stopped: &Machine, sources: &Sources) -> Machine {
    let snapshot = stop(stopped).unwrap();
    let mut machine = machine(0);
    let files = Snapshot::from_files(snapshot.records(), snapshot.pages());
    assert_eq!(machine.resume(sources, &files), Ok(()));
    machine
}

/// Each machine is asked the same and answers the same: whether it is done.
fn together(machines: &mut [Machine], seeded: &mut Seeded, call: impl Fn(&mut Seeded, &mut Machine) -> String) -> bool {
    let before = seeded.clone();
    let answers: Vec<String> = machines
        .iter_mut()
        .map(|machine| {
            *seeded = before.clone();
            call(seeded, machine)
        })
        .collect();
    answers.iter().for_each(|answer| assert_eq!(*answer, answers[0]));
    !answers[0].contains("Err")
}

/// All that a caller can see.
fn everything(machine: &Machine) -> (String, Vec<u8>) {
    let mut bytes = vec![0; SIZE as usize];
    machine.memory().load_bytes(0, &mut bytes).unwrap();
    let pages: Vec<_> =
        (0..PAGES).map(|page| (machine.memory().fetch_flag(page).unwrap(), machine.page_record(page))).collect();
    (format!("{machine:?} {pages:?}"), bytes)
}

#[test]
fn later_answers_are_equal() {
    let (mut done, mut refused) = (0, 0);
    for seed in 0..SEEDS {
        let seeded = &mut Seeded(seed);
        let sources = sources(seeded);
        let mut machines = vec![machine(1_000)];
        let mut count = |was_done| if was_done { done += 1 } else { refused += 1 };
        // each machine that was resumed is stopped in its turn
        for _ in 0..3 {
            for _ in 0..CALLS {
                count(together(&mut machines, seeded, |seeded, machine| careful(seeded, machine, &sources)));
            }
            let last = machines.last().unwrap();
            machines.push(resumed(last, &sources));
            for machine in &machines {
                assert_eq!(everything(machine), everything(&machines[0]));
            }
        }
        let older = stop(&machines[0]).unwrap();
        for _ in 0..CALLS {
            count(together(&mut machines, seeded, |seeded, machine| any(seeded, machine, &sources, &older)));
        }
        for machine in &machines {
            assert_eq!(everything(machine), everything(&machines[0]));
        }
    }
    // both kinds of answers are many
    assert!(done > 10_000 && refused > 10_000, "{done} done, {refused} refused");
}

/// The comparison sees a machine that is not as the first: version two of the mission's history.
#[test]
fn a_lost_change_is_seen() {
    let seeded = &mut Seeded(0);
    let sources = sources(seeded);
    let mut first = machine(0);
    first.context_store_bytes(&sources, 0, 7, 0, PAGE, PAGE).unwrap();
    let reading = first.memory().load8(5).unwrap();
    first.memory_mut().store8(5, reading + 1).unwrap();
    first.memory_mut().clear_flag(0, FLAG_DIRTY).unwrap();
    assert_ne!(everything(&resumed(&first, &sources)), everything(&first));
}
