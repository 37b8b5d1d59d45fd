//! Values of a real ORB rewritten, where it can be to what the ORB wrote itself.

use std::collections::BTreeMap;

use chance::Chance;
use second::rewrite::Chosen;
use second::typecode::STRING;
use second::value::{self, LONGEST_VALUE, RUN};

use crate::fill::Value;
use crate::judge::Judge;
use crate::orb_values;
use crate::rewrites::{hold_enough, hold_known, one, to_all_indices};
use crate::values::Question;

/// The least number of pairs of values that the ORB wrote and that are the same.
const ENOUGH: u64 = 1_000;

/// Judges what an ORB wrote: each value as it is, changed and cut, to every order
/// and index, and to what the ORB wrote itself where it wrote the same value more
/// than once.
pub fn judge(judge: &mut Judge) {
    let chance = &mut Chance::new(0x0_03C);
    let questions: Vec<Question> = orb_values::rows().map(|row| row.question).collect();
    for (number, question) in questions.iter().enumerate() {
        let name = format!("rewrite (of an ORB, line {number} from 0");
        one(judge, chance, &name, question);
        to_all_indices(judge, chance, &format!("{name})"), question.input());
    }
    let mut pairs = 0;
    for same in written_alike(&questions).values() {
        for from in same {
            for to in same {
                pairs += 1;
                to_the_orbs(judge, from, to);
            }
        }
    }
    let name = "pairs of an ORB's values";
    hold_enough(judge, name, pairs, ENOUGH);
}

/// What a value is made of: the kind and content of every item, and the octets of
/// texts and runs.
type Parts<'a> = Vec<(u32, u64, &'a [u8])>;

/// The questions whose values are accepted, by what these are made of.
fn written_alike(questions: &[Question]) -> BTreeMap<Parts<'_>, Vec<&Question>> {
    let mut alike: BTreeMap<Parts, Vec<&Question>> = BTreeMap::new();
    for question in questions {
        if let Ok(accepted) = value::read(question.input(), LONGEST_VALUE) {
            let parts = accepted.items.iter().map(|item| {
                let octets = match item.kind {
                    STRING | RUN => &question.value.octets[item.range()][4..],
                    _ => &[],
                };
                (item.kind, item.content, octets)
            });
            alike.entry(parts.collect()).or_default().push(question);
        }
    }
    alike
}

/// Judges a value that is to become what the ORB wrote, gaps zeroed.
fn to_the_orbs(judge: &mut Judge, from: &Question, to: &Question) {
    let Value {
        octets,
        little,
        start,
        ..
    } = &to.value;
    let chosen = Chosen {
        little: Some(*little),
        start: *start,
    };
    if let Ok(accepted) = value::read(to.input(), LONGEST_VALUE) {
        let expected = accepted.gaps_zeroed(octets);
        hold_known(
            judge,
            "rewrite (to an ORB's)",
            from.input(),
            chosen,
            &expected,
        );
    }
}
