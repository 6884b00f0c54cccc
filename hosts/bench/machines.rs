//! A machine's own calls. The Rust's are reads and writes of a field, and each is a call here; the port's take the
//! machine by value, and those that change it hand it back whole.

use crate::archive::{self, MachineAnswer, Value};
use crate::rounds::{CALLS, Cases, calls_of, race};
use crate::sides::{HeldSources, PAGE, PAGES, Port, held, new_machine};
use ckb_vm::machine::{CoreMachine, SupportMachine};
use std::hint::black_box;
use upstream::Core;

const REGISTERS: u64 = archive::REGISTERS as u64;
const FRESH: [usize; 3] = [4, 64, PAGES];
const FRESH_MACHINE: &str = "machine fresh";

fn same(core: &Core, port: &Port) {
    let machine = port.machine;
    assert!(core.registers() == machine.registers, "the registers differ");
    assert!(*core.pc() == machine.pc, "the pc differs");
    let numbers = (core.version(), core.cycles(), core.max_cycles());
    assert!(numbers == (machine.version, machine.cycles, machine.max_cycles), "the version or the cycles differ");
}

pub fn time(cases: &Cases) {
    let sources = HeldSources::new(0, PAGE);
    let (core, port) = (held(new_machine(PAGES, sources).0), Port::new(PAGES));
    let calls = calls_of(8);
    cases.race(
        "machine set_register",
        Some(8),
        calls,
        |i| upstream::set_register(core, (i % REGISTERS) as usize, i),
        |i| {
            let MachineAnswer { number, machine } = archive::machine_set_register(port.machine, i % REGISTERS, i);
            port.machine = machine;
            number
        },
    );
    cases.race(
        "machine register",
        Some(8),
        calls,
        |i| upstream::register(core, (i % REGISTERS) as usize),
        |i| archive::machine_register(port.machine, i % REGISTERS),
    );
    macro_rules! changes {
        ($($call:ident $function:ident($($times:literal)?);)*) => {
            $(cases.race(
                concat!("machine ", stringify!($call)),
                Some(8),
                calls,
                |_i| upstream::$call(core $(, $times * _i)?),
                |_i| port.change(|machine| archive::$function(machine $(, $times * _i)?)),
            );)*
        };
    }
    macro_rules! reads {
        ($($call:ident $function:ident;)*) => {
            $(cases.race(
                concat!("machine ", stringify!($call)),
                None,
                calls,
                |_| u64::from(upstream::$call(core)),
                |_| u64::from(archive::$function(port.machine)),
            );)*
        };
    }
    changes! {
        update_pc machine_update_pc(4);
        commit_pc machine_commit_pc();
        set_cycles machine_set_cycles(2);
        set_max_cycles machine_set_max_cycles(3);
    }
    reads! {
        pc machine_pc;
        version machine_version;
        cycles machine_cycles;
        max_cycles machine_max_cycles;
    }
    same(core, port);

    for pages in FRESH {
        if cases.wants(CALLS, FRESH_MACHINE) {
            let times = fresh(FRESH_MACHINE, Port::new(pages)).map(Some);
            cases.say_call(FRESH_MACHINE, Some(pages * PAGE), times, &[]);
        }
    }
}

/// A fresh machine with nothing tracked, of as many pages as this one.
pub fn fresh(case: &str, port: &mut Port) -> [f64; 2] {
    let (pages, sources) = (black_box(port.flags.len()), HeldSources::new(0, PAGE));
    race(
        case,
        calls_of(4 * pages),
        |_| u64::from(black_box(&new_machine(pages, sources)).0.version()),
        |_| {
            let number = port.fresh();
            Value { number, value: port.machine.version.into() }
        },
    )
}
