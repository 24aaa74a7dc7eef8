//! Queries over a region, answered in turn by the plain planner of baseline.rs and by the search of product_search without its contracts:
//! over the network, or, where a hierarchy is named, over its phase graph, with the journey unpacked. Arrivals are compared.
mod baseline;
mod hierarchy;
mod mode_network;
mod phase_graph;
mod plain_graph;
mod product_search;
mod rules;
mod search_laws;
mod shim;
mod unpack;

use baseline::{parse, read_asked, search, Automaton, Region};
use hierarchy::Hierarchy;
use mode_network::Network;
use phase_graph::{ends_in, starts_in, GraphInUse, MarkTable};
use product_search::limit::Limited;
use product_search::searching::{search_best_with, search_counted_within};
use product_search::{Machine, Question, Workspace};
use rules::Rules;
use search_laws::Time;
use shim::{AllocError, Global};
use std::time::Instant;

struct Asked {
    from: (u32, u32),
    to: (u32, u32),
    dep: u64,
    expression: String,
}

/// What is kept from query to query.
struct Room {
    workspace: Workspace,
    marks: MarkTable,
}

fn read(region: &Region, line: &str) -> Asked {
    let words: Vec<&str> = line.splitn(5, ' ').collect();
    let (dep, _) = read_asked(region, words[2], words[3], words[4]).expect("a query that is none");
    let end = |word| region.copies(word).expect("an end that is none");
    Asked { from: end(words[0]), to: end(words[1]), dep, expression: words[4].to_string() }
}

fn automaton(asked: &Asked) -> Automaton {
    Automaton::of(&parse(&asked.expression).unwrap_or_else(|e| panic!("{e}")))
}

fn by_baseline(network: &Network, asked: &Asked) -> Option<u64> {
    let automaton = automaton(asked);
    let mut arrival = None;
    search(&network.region, &automaton, asked.from, asked.dep, |v, q, t| {
        let ends = asked.to.0 <= v && v < asked.to.1 && automaton.accept[q as usize];
        arrival = ends.then_some(t);
        ends
    });
    arrival
}

/// What a query is answered over.
struct Prepared<'a> {
    graph: GraphInUse<'a>,
    machine: Machine<Rules>,
    starts: shim::Vec<u32>,
    ends: shim::Vec<u32>,
}

impl<'a> Prepared<'a> {
    fn of(network: &'a Network, hierarchy: Option<&'a Hierarchy>, room: &mut Room, asked: &Asked) -> Result<Self, AllocError> {
        let origins: Vec<u32> = (asked.from.0..asked.from.1).collect();
        let targets: Vec<u32> = (asked.to.0..asked.to.1).collect();
        Ok(Prepared {
            machine: Machine::new(Global, Rules::of(automaton(asked)))?,
            graph: GraphInUse::new(Global, &mut room.marks, network, hierarchy, &targets)?,
            starts: starts_in(Global, hierarchy, &origins)?,
            ends: ends_in(Global, hierarchy, &targets)?,
        })
    }

    fn question(&self, asked: &Asked) -> Question<'_, GraphInUse<'a>, Rules> {
        let meets_few = matches!(self.graph, GraphInUse::Phases(_));
        Question {
            graph: &self.graph,
            machine: &self.machine,
            starts: &self.starts,
            targets: &self.ends,
            dep: Time::from(asked.dep),
            bound: None,
            meets_few,
        }
    }
}

fn by_search(network: &Network, hierarchy: Option<&Hierarchy>, room: &mut Room, asked: &Asked) -> Option<u64> {
    let prepared = Prepared::of(network, hierarchy, room, asked).ok()?;
    let question = prepared.question(asked);
    let (arrival, walk) = match hierarchy {
        None => {
            let found = search_best_with(Global, &mut room.workspace, &question).ok()?;
            (found.arrival, found.walk)
        }
        Some(_) => match search_counted_within(Global, &mut room.workspace, &question, None).ok()? {
            Limited::Ended(found) => (found.arrival, found.walk),
            Limited::Stopped(_) => unreachable!(),
        },
    };
    if let (GraphInUse::Phases(phases), Some(walk)) = (&prepared.graph, &walk) {
        unpack::phase_walk::from_phases(Global, phases, walk).ok()?;
    }
    prepared.graph.give_back(&mut room.marks);
    Some(arrival? as u64)
}

/// The arrivals of all, and the seconds that they took.
fn timed(all: &[Asked], mut one: impl FnMut(&Asked) -> Option<u64>) -> (Vec<Option<u64>>, f64) {
    let start = Instant::now();
    let arrivals = all.iter().map(&mut one).collect();
    (arrivals, start.elapsed().as_secs_f64())
}

fn main() {
    let words: Vec<String> = std::env::args().skip(1).collect();
    let (region, queries, rounds, over) = match &words[..] {
        [region, queries, rounds] => (region, queries, rounds, None),
        [region, queries, rounds, over] => (region, queries, rounds, Some(over)),
        _ => panic!("REGION QUERIES ROUNDS [HIERARCHY]"),
    };
    let text = |path: &str| std::fs::read_to_string(path).unwrap_or_else(|e| panic!("{path}: {e}"));
    let network = Network::of(Region::read(&text(region)).unwrap_or_else(|e| panic!("{region}: {e}")));
    let all: Vec<Asked> = text(queries).lines().map(|line| read(&network.region, line)).collect();
    let over = over.map(|path| hierarchy::lists::read(&std::fs::read(path).unwrap_or_else(|e| panic!("{path}: {e}"))));
    let mut room = Room { workspace: Workspace::new(Global), marks: MarkTable::new(Global) };
    let (mut plain, mut stripped) = (f64::MAX, f64::MAX);
    for _ in 0..rounds.parse().expect("a number of rounds") {
        let (first, took) = timed(&all, |asked| by_baseline(&network, asked));
        plain = plain.min(took);
        let (second, took) = timed(&all, |asked| by_search(&network, over.as_ref(), &mut room, asked));
        stripped = stripped.min(took);
        assert_eq!(first, second, "the arrivals differ");
    }
    println!("plain Rust {plain:.4} s, without contracts {stripped:.4} s, ratio {:.3}", stripped / plain);
}
