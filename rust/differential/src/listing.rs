//! The lists: what is wrong with them, what each holds, how they are laid, and
//! the choice among them.

use crate::guarded::Guarded;
use crate::same::{lists, node, wrapped_node, Input};
use crate::Compared;
use differential::list_fault;
use generator::{
    address, any_eight_lists, bad_list, block, edition, good_list, settings, EightLists, Random,
};
use mant::raw;
use reference::{holds, Choice, Settings};

/// Compares the fault of the lists in a block, and what each of them holds.
pub fn compare(random: &mut Random) -> Compared {
    let block = match random.one_in(4) {
        true => some_bad(random).block(),
        false => block(random),
    };
    let input = Input {
        bytes: &[],
        rest: &block,
    };
    let eight = block.lists();
    let wanted = list_fault(reference::list_fault(&eight));
    input.same("list fault", raw::list_fault(&block.0), wanted)?;
    for list in eight.in_order() {
        let near = list.get(random.below(list.len().max(1))).copied();
        let near = near.unwrap_or(0);
        for address in [
            address(random),
            random.word(),
            near,
            near.wrapping_add(1),
            near.wrapping_sub(1),
        ] {
            let library = mant::list_holds(list, address);
            let what = format!("list holds {address}");
            input.same(&what, library, holds(list, address))?;
        }
    }
    Ok(())
}

/// Eight lists, about half of them bad.
fn some_bad(random: &mut Random) -> EightLists {
    EightLists(std::array::from_fn(|_| match random.flag() {
        true => good_list(random),
        false => bad_list(random),
    }))
}

/// Compares eight lists of any length laid into a block: its words, those behind
/// the values, which stay as they were, and those around it.
pub fn compare_laying(random: &mut Random) -> Compared {
    let eight = match random.one_in(4) {
        true => some_bad(random),
        false => any_eight_lists(random),
    };
    let input = Input {
        bytes: &[],
        rest: &eight,
    };
    let any = |random: &mut Random, count| (0..count).map(|_| random.word()).collect();
    let mut library = Guarded::any(random, raw::LIST_WORDS, any);
    let mut reference = library.clone();
    let laid = eight.lists().laid();
    reference.change()[..laid.len()].copy_from_slice(&laid);
    let block = library.change().try_into().map_err(|_| "not a block")?;
    let fault = raw::lay_eight(block, eight.lists().in_order());
    let wanted = list_fault(reference::list_fault(&eight.lists()));
    input.same("fault of laying", fault, wanted)?;
    input.same("block", library.all(), reference.all())?;
    let again = raw::list_fault(library.elements());
    input.same("fault of the block", again, wanted)?;
    let wrapped = match lists(&eight.lists()) {
        Ok(safe) => {
            input.same("wrapped block", safe.words(), &laid[..])?;
            list_fault(None)
        }
        Err(fault) => raw::ListFault {
            number: fault.refusal.number(),
            list: fault.list as u8,
        },
    };
    input.same("wrapped fault", wrapped, wanted)
}

/// Compares a node that changes over.
pub fn compare_choosing(random: &mut Random) -> Compared {
    let settings = Settings {
        edition: edition(random),
        ..settings(random)
    };
    let at = node(random, &settings);
    let (any, byte) = (random.draw(), u64::from(random.byte()));
    let number = random.pick(&[0, 1, 1, 2, 2, 3, byte, 257, 65_538, (1 << 32) + 1, any]);
    let (choice, wrapped) = match number {
        1 => (Choice::First, mant::Choice::First),
        2 => (Choice::Second, mant::Choice::Second),
        _ => (Choice::None, mant::Choice::None),
    };
    let input = Input {
        bytes: &[],
        rest: &(at, number),
    };
    let wanted = settings.changed_over(choice);
    let library = raw::change_over(at, number);
    input.same(
        "change over",
        library,
        differential::node(&wanted, raw::NO_LIST),
    )?;
    let safe = wrapped_node(&settings).change_over(wrapped);
    input.same("wrapped change over", safe, wrapped_node(&wanted))
}
