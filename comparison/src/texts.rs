//! Which text a seed and an index give.

use crate::damage;
use crate::generate::Maker;
use crate::limits;
use crate::models;
use crate::opb_damage;
use crate::opb_limits;
use crate::pair::Pair;
use crate::pol_limits;
use crate::pols;
use crate::random::Random;

/// Kinds of texts and of pairs, for counting.
pub const KINDS: [&str; 17] = [
    "proofs", "chains", "refutations", "faults", "statements", "long proofs", "damaged", "raw bytes", "limits", "models",
    "damaged OPB texts", "damaged proofs behind them", "raw OPB texts", "limits of both", "pol lines", "limits of pol lines",
    "greatest values",
];

/// One index in so many has a pair.
const PAIRS: u64 = 4;

const PROOF: usize = 0;
const CHAIN: usize = 1;
const REFUTATION: usize = 2;
const FAULTS: usize = 3;
const STATEMENTS: usize = 4;
const LONG: usize = 5;
const DAMAGED: usize = 6;
const RAW: usize = 7;
pub const LIMIT: usize = 8;
const MODEL: usize = 9;
const DAMAGED_OPB: usize = 10;
const DAMAGED_BEHIND: usize = 11;
const RAW_OPB: usize = 12;
pub const OPB_LIMIT: usize = 13;
const POL: usize = 14;
pub const POL_LIMIT: usize = 15;
const GREATEST: usize = 16;

/// What an index has, and its kind: a text, or a pair of texts.
pub fn text(seed: u64, index: u64) -> (usize, Pair) {
    let mut random = Random::new(seed, index);
    if index % PAIRS == PAIRS - 1 {
        return pair(&mut random);
    }
    let kind = match random.below(1000) {
        0..=249 => PROOF,
        250..=369 => CHAIN,
        370..=419 => GREATEST,
        420..=469 => REFUTATION,
        470..=539 => FAULTS,
        540..=599 => STATEMENTS,
        600..=603 => LONG,
        604..=783 => POL,
        784..=967 => DAMAGED,
        968..=995 => RAW,
        996 | 997 => LIMIT,
        _ => POL_LIMIT,
    };
    (kind, Pair::alone(of_kind(kind, &mut random)))
}

/// A pair, and its kind.
fn pair(random: &mut Random) -> (usize, Pair) {
    let kind = match random.below(1000) {
        0..=559 => MODEL,
        560..=789 => DAMAGED_OPB,
        790..=889 => DAMAGED_BEHIND,
        890..=989 => RAW_OPB,
        _ => OPB_LIMIT,
    };
    let pair = match kind {
        RAW_OPB => Pair::behind(opb_damage::raw(random), if random.chance(70) { Vec::new() } else { model(random).text }),
        OPB_LIMIT => {
            let Pair { opb, text } = opb_limits::any(random);
            let opb = opb.map(|opb| if random.chance(15) { opb_damage::damaged(&opb, random) } else { opb });
            Pair { opb, text }
        }
        _ => {
            let Pair { opb, text } = model(random);
            match kind {
                DAMAGED_OPB => Pair { opb: opb.map(|opb| opb_damage::damaged(&opb, random)), text },
                DAMAGED_BEHIND => Pair { opb, text: damage::damaged(&text, random) },
                _ => Pair { opb, text },
            }
        }
    };
    (kind, pair)
}

/// An OPB text with a proof behind it.
fn model(random: &mut Random) -> Pair {
    let kind =
        *random.one(&[PROOF, PROOF, PROOF, CHAIN, REFUTATION, REFUTATION, FAULTS, STATEMENTS, POL, POL, POL, GREATEST, GREATEST]);
    let count = *random.one(&[0, 1, 1, 2, 2, 3, 4, 12]);
    let kind = if random.chance(1) { LONG } else { kind };
    let mut maker = Maker::with_names(random, &models::POOL);
    if kind == REFUTATION {
        maker.refutation();
    } else if kind == POL && maker.random.chance(30) {
        maker.pol_refutation();
    } else if kind == GREATEST {
        maker.greatest_values();
    } else {
        maker.model(count);
        fill(kind, &mut maker);
    }
    maker.pair()
}

fn of_kind(kind: usize, random: &mut Random) -> Vec<u8> {
    match kind {
        RAW => return damage::raw(random),
        LIMIT => return maybe_damaged(limits::any(random), random),
        POL_LIMIT => return maybe_damaged(pol_limits::any(random), random),
        DAMAGED => {
            let inner = *random.one(&[PROOF, PROOF, CHAIN, REFUTATION, FAULTS, STATEMENTS, POL, POL, POL, GREATEST]);
            let whole = of_kind(inner, random);
            return damage::damaged(&whole, random);
        }
        _ => (),
    }
    let mut maker = if kind == POL { Maker::with_names(random, &pols::POOL) } else { Maker::new(random) };
    fill(kind, &mut maker);
    maker.text()
}

/// Make the commands of a kind.
fn fill(kind: usize, maker: &mut Maker) {
    match kind {
        PROOF => {
            let steps = 1 + maker.random.below(4);
            maker.proof(steps, 36);
        }
        CHAIN => {
            let steps = 1 + maker.random.below(5);
            maker.chain(steps);
        }
        REFUTATION => maker.refutation(),
        FAULTS => {
            let steps = 2 + maker.random.below(4);
            maker.faults(steps);
        }
        STATEMENTS => maker.statements(),
        GREATEST => maker.greatest_values(),
        POL if maker.random.chance(12) => maker.pol_refutation(),
        POL => {
            let lines = *maker.random.one(&[1, 1, 2, 2, 3, 4, 6, 12]);
            maker.pols(lines, 25);
        }
        _ => {
            let steps = 20 + maker.random.below(100);
            maker.proof(steps, 20);
        }
    }
}

fn maybe_damaged(text: Vec<u8>, random: &mut Random) -> Vec<u8> {
    if random.chance(25) {
        damage::damaged(&text, random)
    } else {
        text
    }
}

/// A longer proof for the fixed list: short steps of several faults, near misses, and a chain that is accepted.
pub fn for_the_fixed_list(seed: u64, index: u64) -> Vec<u8> {
    let mut random = Random::new(seed, index);
    let mut maker = Maker::new(&mut random);
    maker.faults(30);
    maker.proof(44, 45);
    maker.chain(6);
    maker.text()
}

#[cfg(test)]
mod tests {
    use super::{text, KINDS};
    use crate::limits;

    #[test]
    fn a_seed_and_an_index_give_one_text() {
        assert!((0..200).all(|index| text(5, index) == text(5, index)));
        assert!((0..200).any(|index| text(5, index) != text(6, index)));
    }

    #[test]
    fn every_kind_comes() {
        let kinds: Vec<usize> = (0..5_000).map(|index| text(7, index).0).collect();
        assert!((0..KINDS.len()).all(|kind| kinds.contains(&kind)));
    }

    #[test]
    fn texts_end_at_their_limits() {
        let lengths: Vec<usize> = limits::all().iter().map(Vec::len).collect();
        assert!([32_767, 32_768, 32_769, 32_770].iter().all(|length| lengths.contains(length)));
    }
}
