//! A stand-in for the library by the reference, with and without a mistake, so that it shows what the comparison finds.
//! Test code.

use super::lent::{rule, TABLES, WORDS};
use super::reference::resolved;
use super::Callee;
use crate::access::reference;
use crate::expected::{listing, parsed_with, Expected, Root, NAMES, NODES, WIDTHS};
use crate::library::{Lent, Listed, Read, Span};
use oracle::Jets;
use std::cell::RefCell;

/// What the stand-in gets wrong.
#[derive(Clone, Copy, Debug, PartialEq, Eq)]
pub enum Mistake {
    None,
    LeftChildFirst,
    PlaceAtReference,
    HoleIsUse,
    UsesInCmrLeftOut,
    LiteralCmrLost,
    ReferencesDoNotCount,
    LastExpressionCounts,
    OnlyPrimIsIllegal,
    NamesByPrefix,
    NamesBackwards,
    IllegalNameIsFound,
    RepeatedAtName,
    TypeLineIsNoName,
    WorkLeft,
    RecordLeftOnRefusal,
    WordPastTheRecords,
    ShortTableWritten,
    TypesSwapped,
    CountOfNodes,
    ErrorsOfNodesLeftOut,
    IncompleteIsMissing,
    ErrorsByPlace,
    FaultyRootLost,
    LiteralRootLost,
    TextOfNoName,
    ListedInPart,
    ByteBehindTheText,
    NoTablesWithoutRoom,
    PlaceOfTheEnd,
}

/// The stand-in with a mistake.
pub struct StandIn(pub Mistake);

/// The stand-in with this mistake, for good.
pub fn stand_in(mistake: Mistake) -> &'static dyn Callee {
    Box::leak(Box::new(StandIn(mistake)))
}

impl Callee for StandIn {
    fn read(&self, source: &[u8], jets: &[u8], tables: Lent<'_>) -> Read {
        let answer = self.answer(source, jets);
        self.write(&answer, tables).unwrap_or(Read {
            no: 1,
            ..Read::default()
        })
    }

    fn list(&self, source: &[u8], jets: &[u8], tables: Lent<'_>, out: &mut [u8]) -> Listed {
        let mut answer = self.answer(source, jets);
        let short = Expected {
            no: 1,
            ..Expected::default()
        };
        let mut text = listing(source, &answer).into_bytes();
        if self.0 == Mistake::PlaceOfTheEnd && text.ends_with(b" 0:0\n") {
            text = format!("refused {} 1:{}\n", answer.no, source.len() + 1).into_bytes();
        }
        let no_room = text.len() > out.len();
        if self.0 == Mistake::NoTablesWithoutRoom && no_room {
            answer = Expected::default();
        }
        if self.write(&answer, tables).is_none() {
            text = listing(source, &short).into_bytes();
        }
        self.put(&text, out)
    }

    fn next_root(&self, names: (&[u32], u32), nodes: (&[u32], u32), after: u32) -> u32 {
        let next = |after| reference::next_root(names.0, names.1, nodes.0, nodes.1, after);
        let mut root = next(after);
        while root != 0 && self.loses(names.0, nodes.0, root) {
            root = next(root);
        }
        root
    }

    fn name_text(&self, source: &[u8], names: (&[u32], u32), number: u32) -> Span {
        let number = match (self.0, number) {
            (Mistake::TextOfNoName, 0) => 1,
            _ => number,
        };
        reference::name_text(source.len(), names.0, names.1, number)
    }
}

/// A call, and what it answered.
struct Known {
    mistake: Mistake,
    source: Vec<u8>,
    jets: Vec<u8>,
    answer: Expected,
}

thread_local! {
    /// The last call: the comparison asks about each file several times.
    static LAST: RefCell<Option<Known>> = const { RefCell::new(None) };
}

impl StandIn {
    /// What the rules page has a call answer, with the mistake.
    fn answer(&self, source: &[u8], jets: &[u8]) -> Expected {
        let same = |known: &&Known| {
            known.mistake == self.0 && known.source == source && known.jets == jets
        };
        let known = LAST.with_borrow(|last| last.as_ref().filter(same).map(|k| k.answer.clone()));
        known.unwrap_or_else(|| {
            let answer = self.found(source, jets);
            LAST.set(Some(Known {
                mistake: self.0,
                source: source.to_vec(),
                jets: jets.to_vec(),
                answer: answer.clone(),
            }));
            answer
        })
    }

    fn found(&self, source: &[u8], jets: &[u8]) -> Expected {
        let (mut answer, _) = parsed_with(source, &Jets::new(jets));
        if answer.no == 0 {
            answer = resolved(source, &answer, self.0);
            answer.roots = self.roots(source, &answer);
        }
        answer
    }

    fn roots(&self, source: &[u8], answer: &Expected) -> Vec<Root> {
        let [names, nodes] = [NAMES, NODES].map(|t| (&answer.tables[t][..], answer.counts[t]));
        let next = |after: u32| Some(self.next_root(names, nodes, after)).filter(|&root| root != 0);
        let numbers = std::iter::successors(next(0), |&root| next(root));
        let root = |number: u32| {
            let Span { start, len } = self.name_text(source, names, number);
            let text = &source[start as usize..][..len as usize];
            Root {
                number,
                text: String::from_utf8(text.to_vec()).expect("a name"),
            }
        };
        numbers.map(root).collect()
    }

    /// Whether a root is lost, as step 3 loses it.
    fn loses(&self, names: &[u32], nodes: &[u32], root: u32) -> bool {
        let node = names[root as usize * WIDTHS[NAMES] - 1] as usize;
        let node = &nodes[(node - 1) * WIDTHS[NODES]..];
        match self.0 {
            Mistake::FaultyRootLost => node[0] <= 2,
            Mistake::LiteralRootLost => [4, 5].contains(&node[0]) && node[3].min(node[4]) == 0,
            _ => false,
        }
    }

    /// Writes an answer into the tables; its row, or None if a table is too short.
    fn write(&self, answer: &Expected, lent: Lent<'_>) -> Option<Read> {
        let mut tables = in_order(lent);
        let mut lengths = tables.iter().zip(WORDS);
        if lengths.any(|(table, words)| table.len() < words) {
            if let (Mistake::ShortTableWritten, Some(word)) = (self.0, tables[5].first_mut()) {
                *word = 0;
            }
            return None;
        }
        for (number, (table, words)) in tables.iter_mut().zip(WORDS).enumerate() {
            let records = answer.tables.get(number).map_or(&[][..], Vec::as_slice);
            table[..words].fill(0);
            table[..records.len()].copy_from_slice(records);
        }
        match self.0 {
            Mistake::WorkLeft => tables[7][0] = answer.counts[5],
            Mistake::WordPastTheRecords => {
                tables[6].last_mut().into_iter().for_each(|word| *word = 0);
            }
            Mistake::RecordLeftOnRefusal if answer.no != 0 => tables[4][0] = 1,
            _ => {}
        }
        Some(rule(answer, WORDS).row)
    }

    /// Writes a text into the output, if it has room.
    fn put(&self, text: &[u8], out: &mut [u8]) -> Listed {
        if text.len() > out.len() {
            if self.0 == Mistake::ListedInPart {
                out.copy_from_slice(&text[..out.len()]);
            }
            return Listed::default();
        }
        out[..text.len()].copy_from_slice(text);
        if let (Mistake::ByteBehindTheText, Some(byte)) = (self.0, out.get_mut(text.len())) {
            *byte = 0;
        }
        Listed {
            listed: 1,
            len: text.len(),
        }
    }
}

fn in_order(lent: Lent<'_>) -> [&mut [u32]; TABLES] {
    [
        lent.tokens,
        lent.lines,
        lent.expressions,
        lent.types,
        lent.names,
        lent.nodes,
        lent.errors,
        lent.work,
    ]
}
