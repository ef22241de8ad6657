//! Random provisioned sub-channels.

use super::Random;
use crate::provisioning::{Record, Syntax};

/// Every syntax with every seq it may have: ten kinds of sub-channel.
pub fn kinds() -> Vec<(Syntax, u8)> {
    let mut kinds = Vec::new();
    for syntax in Syntax::ALL {
        for seq in syntax.seq_values() {
            kinds.push((syntax, *seq));
        }
    }
    kinds
}

/// A record of a kind, m drawn, its ends more often.
pub fn record(random: &mut Random, cid: u8, kind: (Syntax, u8)) -> Record {
    let (syntax, seq) = kind;
    let most = syntax.most_m();
    let m = match random.below(4) {
        0 => 1,
        1 => most,
        _ => random.small(1, most),
    };
    Record {
        cid,
        syntax,
        m,
        seq,
    }
}

/// So many different CIDs from 4 to 255, rising.
pub fn cids(random: &mut Random, count: usize) -> Vec<u8> {
    let mut left: Vec<u8> = (4..=255).collect();
    let mut drawn = Vec::new();
    for _ in 0..count {
        drawn.push(left.swap_remove(random.below(left.len())));
    }
    drawn.sort_unstable();
    drawn
}

/// So many records of random kinds, CIDs rising. From ten on every kind is there.
pub fn records(random: &mut Random, count: usize) -> Vec<Record> {
    let kinds = kinds();
    let shift = random.below(kinds.len());
    let cids = cids(random, count);
    let mut records = Vec::new();
    for (index, cid) in cids.into_iter().enumerate() {
        let kind = if index < kinds.len() {
            kinds[(index + shift) % kinds.len()]
        } else {
            random.pick(&kinds)
        };
        records.push(record(random, cid, kind));
    }
    records
}

#[cfg(test)]
mod tests {
    use super::*;
    use crate::provisioning::{read_text, write_text};

    #[test]
    fn the_records_are_legal() {
        for seed in 0..50 {
            let mut random = Random::new(seed);
            let count = random.below(253);
            let records = records(&mut random, count);
            assert_eq!(records.len(), count);
            let table = read_text(&write_text(&records)).unwrap();
            assert_eq!(table.records(), records);
        }
    }
}
