//! The library with what it is lent: tables that are dirty, larger than they need be, or too small.

use crate::pair::Pair;
use crate::random::Random;
use cutting_planes::{TooSmall, NODE_WORDS, REPORT_BYTES};

/// The largest tables that are lent have so many words and bytes more than the least.
const MORE: usize = 4096;

/// One text in so many that stands alone is given behind an empty OPB text, which changes nothing.
const EMPTY_OPB: usize = 8;

/// The call of the library for a pair. A text alone has a function of its own.
fn checked<'r>(pair: &Pair, empty: bool, nodes: &mut [u32], report: &'r mut [u8]) -> Result<&'r [u8], TooSmall> {
    match &pair.opb {
        Some(opb) => cutting_planes::check_opb(opb, &pair.text, nodes, report),
        None if empty => cutting_planes::check_opb(b"", &pair.text, nodes, report),
        None => cutting_planes::check(&pair.text, nodes, report),
    }
}

/// Tables that are used again and again.
pub struct Library {
    nodes: Vec<u32>,
    report: Vec<u8>,
    dirt: Vec<u8>,
    dirty_words: Vec<u32>,
}

impl Library {
    /// Tables full of garbage.
    pub fn new(seed: u64) -> Library {
        let mut random = Random::new(seed, u64::MAX);
        let dirt: Vec<u8> = (0..REPORT_BYTES + MORE).map(|_| random.next() as u8).collect();
        let dirty_words: Vec<u32> = (0..NODE_WORDS + 2 * MORE).map(|_| random.next() as u32).collect();
        Library { nodes: vec![0; NODE_WORDS + MORE], report: dirt.clone(), dirt, dirty_words }
    }

    /// The report of a pair, with tables by chance; what the library did wrong to them as an error.
    pub fn report(&mut self, pair: &Pair, random: &mut Random) -> Result<Vec<u8>, String> {
        let words = NODE_WORDS + if random.chance(20) { random.below(MORE) } else { 0 };
        let bytes = REPORT_BYTES + if random.chance(20) { random.below(MORE) } else { 0 };
        self.dirty_nodes(random);
        let empty = random.below(EMPTY_OPB) == 0;
        let result = checked(pair, empty, &mut self.nodes[..words], &mut self.report[..bytes]);
        let report = result.map_err(|_| "length 0, with tables that are large enough".to_owned())?.to_vec();
        let untouched = self.report[report.len()..] == self.dirt[report.len()..];
        self.report[..report.len()].copy_from_slice(&self.dirt[..report.len()]);
        if !untouched {
            self.report.copy_from_slice(&self.dirt);
            return Err("bytes of the report past the returned length were written".to_owned());
        }
        Ok(report)
    }

    /// Other garbage in the node table, or what the last text has left there.
    fn dirty_nodes(&mut self, random: &mut Random) {
        let shift = random.below(MORE);
        if !random.chance(30) {
            let length = self.nodes.len();
            self.nodes.copy_from_slice(&self.dirty_words[shift..shift + length]);
        }
    }

    /// Lend a table that is too small: length 0, and nothing is written.
    pub fn too_small(&mut self, pair: &Pair, random: &mut Random) -> Result<(), String> {
        let least = |most: usize, random: &mut Random| *random.one(&[0, 1, most / 2, most - 2, most - 1]);
        let (mut words, mut bytes) = (NODE_WORDS, REPORT_BYTES);
        match random.below(3) {
            0 => words = least(words, random),
            1 => bytes = least(bytes, random),
            _ => (words, bytes) = (least(words, random), least(bytes, random)),
        }
        let length = self.nodes.len();
        self.nodes.copy_from_slice(&self.dirty_words[..length]);
        let empty = random.below(EMPTY_OPB) == 0;
        let refused = checked(pair, empty, &mut self.nodes[..words], &mut self.report[..bytes]).is_err();
        let untouched = self.nodes[..] == self.dirty_words[..length] && self.report == self.dirt;
        self.report.copy_from_slice(&self.dirt);
        match (refused, untouched) {
            (false, _) => Err(format!("a report with {words} words of nodes and {bytes} bytes of report")),
            (true, false) => Err(format!("something was written with {words} words of nodes and {bytes} bytes of report")),
            (true, true) => Ok(()),
        }
    }
}
