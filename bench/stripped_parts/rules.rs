//! The automaton of baseline.rs as `automaton` makes it: with its moves by where they lead, and adjacent equal road letters read as one.
use crate::baseline::Automaton;
use crate::search_laws::{Labels, Move};
use std::collections::BTreeMap;

/// The letters of foot, bike and car.
const ROADS: u32 = 0b111;

/// State 4q + c is the state q of the inner automaton, where c is 0, or 1, 2 or 3 for the road letter that was read last.
pub struct Rules {
    moves: Vec<Vec<Move>>,
    accept: Vec<bool>,
}

/// The moves of a state by where they lead, with their sets of letters.
fn by_target(letters: &[Vec<u32>; 14]) -> BTreeMap<u32, u32> {
    let mut sets = BTreeMap::new();
    for (letter, states) in letters.iter().enumerate() {
        for to in states {
            *sets.entry(*to).or_insert(0) |= 1 << letter;
        }
    }
    sets
}

/// The moves of state 4q + last, where these are those of q.
fn collapsed(state: u32, inner: &BTreeMap<u32, u32>) -> Vec<Move> {
    let last = state % 4;
    let stays = (last > 0).then(|| Move { letters: 1 << (last - 1), to: state });
    let others = inner.iter().flat_map(|(&to, &letters)| {
        let by_road = (1..4).filter(move |road| *road != last).map(move |road| Move { letters: letters & 1 << (road - 1), to: 4 * to + road });
        std::iter::once(Move { letters: letters & !ROADS, to: 4 * to }).chain(by_road)
    });
    stays.into_iter().chain(others).filter(|one| one.letters != 0).collect()
}

impl Rules {
    pub fn of(automaton: Automaton) -> Rules {
        let inner: Vec<BTreeMap<u32, u32>> = automaton.moves.iter().map(by_target).collect();
        let states = 0..4 * inner.len() as u32;
        Rules { moves: states.map(|state| collapsed(state, &inner[state as usize / 4])).collect(), accept: automaton.accept }
    }
}

impl Labels for Rules {
    fn states(&self) -> u32 {
        self.moves.len() as u32
    }

    fn is_start(&self, q: u32) -> bool {
        q == 0
    }

    fn moves(&self, q: u32) -> u32 {
        self.moves[q as usize].len() as u32
    }

    fn move_at(&self, q: u32, i: u32) -> Move {
        self.moves[q as usize][i as usize]
    }

    fn accepts(&self, q: u32) -> bool {
        self.accept[q as usize / 4]
    }
}
