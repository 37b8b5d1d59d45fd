//! What the archive makes of a value that it has rewritten.

use second::rewrite::Chosen;
use second::typecode::STRING;
use second::value::{self, Accepted, Input, Item, Lent, LONGEST_VALUE, RUN};

use crate::archive;
use crate::lent::LentOutput;

/// What is wrong with a result that can be read: it is not wholly used, or has
/// not the value's items and visits or the octets of its texts and runs, or is not
/// rewritten to the value as it was, gaps zeroed.
pub fn unlike_value(seed: u64, input: Input, chosen: Chosen, result: &[u8]) -> Option<String> {
    if result.len() > LONGEST_VALUE {
        return None;
    }
    let first = match value::read(input, LONGEST_VALUE) {
        Ok(accepted) => accepted,
        Err(refused) => return Some(format!("second reads the value with {}", refused.number)),
    };
    let again = Input {
        value: Lent {
            octets: result,
            little: chosen.is_little(),
        },
        start: chosen.start,
        ..input
    };
    let back = Chosen {
        little: Some(input.value.little),
        start: input.start,
    };
    let zeroed = first.gaps_zeroed(input.value.octets);
    read_otherwise(again, input.value.octets, &first)
        .or_else(|| rewritten_otherwise(seed, again, back, &zeroed))
}

/// In what the archive reads a result other than the value of these octets.
fn read_otherwise(again: Input, octets: &[u8], first: &Accepted) -> Option<String> {
    let Accepted { visits, items, .. } = first;
    let mut table = vec![0; 3 * items.len()];
    let (mut numbers, mut found_visits) = ([0; 2], 0);
    let number = archive::value(again, &mut table, &mut numbers, &mut found_visits);
    let found = (number, numbers, found_visits);
    let whole = [again.value.octets.len() as u64, items.len() as u64];
    if found != (0, whole, *visits) {
        let expected = (0, whole, visits);
        return Some(format!("the result reads as {found:?}, not {expected:?}"));
    }
    let unlike = table.chunks_exact(3).zip(items).position(|(row, item)| {
        let (kind, place, content) = (row[0], row[1] as usize, row[2]);
        (kind, content) != (item.kind.into(), item.content)
            || counted(item, place, again.value.octets) != counted(item, item.place, octets)
    });
    unlike.map(|index| format!("item {index} of the result is another"))
}

/// The octets of an item at a place, if it is a text or a run.
fn counted<'a>(item: &Item, place: usize, octets: &'a [u8]) -> Option<&'a [u8]> {
    match item.kind {
        STRING | RUN => octets.get(place..place + item.content as usize),
        _ => Some(&[]),
    }
}

/// In what the archive rewrites a result other than to these octets.
fn rewritten_otherwise(seed: u64, again: Input, back: Chosen, zeroed: &[u8]) -> Option<String> {
    let mut lent = LentOutput::new(seed, zeroed.len());
    let (out, count) = lent.lend();
    let number = archive::rewrite(again, back, out, count);
    let difference = match number {
        0 => lent.unlike(zeroed)?,
        refusal => format!("number {refusal}"),
    };
    Some(format!("the result rewritten back: {difference}"))
}
