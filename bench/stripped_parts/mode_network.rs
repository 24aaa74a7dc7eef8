//! The network of a region, with the rows and legs of the proved one, and what leaves a node besides its road arcs. Of a pattern only the
//! first run that one can board is ridden.
use crate::baseline::Region;
use crate::search_laws::{is_open, GivenRun, GivenRuns, GraphArc, Leg, Time, Visit, Way};
use crate::shim::{AllocError, Vec};

const DAY_MS: u64 = 86_400_000;

/// What is kept of a node, as mode_network keeps it.
#[derive(Clone, Copy)]
struct Row {
    mode: Option<u8>,
    arcs: u32,
    links: u32,
}

pub struct Network {
    rows: Vec<Row>,
    pub legs: Vec<Leg>,
    links: Vec<Leg>,
    pub region: Region,
}

/// A step of a journey, as the unpacking of a hierarchy makes them: others are left out.
pub enum Step {
    Road { to: u32 },
}

pub struct Journey {
    pub start: u32,
    pub at: Time,
    pub steps: Vec<Step>,
}

impl Network {
    pub fn of(region: Region) -> Network {
        let row = |v: usize| Row { mode: region.mode.get(v).copied(), arcs: region.arc_at[v], links: region.link_at[v] };
        let legs = |list: &[(u32, u32)]| Vec(list.iter().map(|&(to, ms)| Leg { to, ms }).collect());
        Network {
            rows: Vec((0..=region.nodes as usize).map(row).collect()),
            legs: legs(&region.arcs),
            links: legs(&region.links),
            region,
        }
    }

    pub fn known(&self) {}

    pub fn nodes(&self) -> u32 {
        self.region.nodes
    }

    pub fn letter(&self, v: u32) -> Option<u8> {
        self.rows.get(v as usize)?.mode
    }

    pub fn arcs_from(&self, v: u32) -> (u32, u32) {
        (self.rows[v as usize].arcs, self.rows[v as usize + 1].arcs)
    }

    pub fn links_from(&self, v: u32) -> (u32, u32) {
        (self.rows[v as usize].links, self.rows[v as usize + 1].links)
    }

    #[inline(never)]
    pub fn push_links_and_inner(&self, visit: Visit, given: &mut GivenRuns, ways: &mut Vec<Way>) -> Result<(), AllocError> {
        let (first_arc, past_arc) = self.arcs_from(visit.node);
        let (first, past) = self.links_from(visit.node);
        let mut place = u64::from(past_arc - first_arc);
        for link in &self.links[first as usize..past as usize] {
            ways.push(Way { place, arc: GraphArc { to: link.to, letter: None }, at: visit.at + Time::from(link.ms) })?;
            place += 1;
        }
        match self.letter(visit.node) {
            Some(letter) if is_open(visit.letters, Some(letter)) => {
                ways.push(Way { place, arc: GraphArc { to: visit.node, letter: Some(letter) }, at: visit.at })
            }
            None if visit.node < self.region.roads + self.region.stops => self.push_rides(visit, place, given, ways),
            _ => Ok(()),
        }
    }

    fn push_rides(&self, visit: Visit, first: u64, given: &mut GivenRuns, ways: &mut Vec<Way>) -> Result<(), AllocError> {
        let region = &self.region;
        let mut place = first;
        for &(line, call) in &region.boards[(visit.node - region.roads) as usize] {
            let pattern = &region.patterns[line as usize];
            if !is_open(visit.letters, Some(pattern.letter)) {
                continue;
            }
            let Some((day, trip)) = self.next_run(line, call, visit.at as u64) else { continue };
            let run = day * 1_000_000 + trip as u64;
            let past = match given.call(visit.state, line, run) {
                Some(known) if known <= call => continue,
                Some(known) => pattern.stops.len().min(known as usize + 1),
                None => pattern.stops.len(),
            };
            for later in call as usize + 1..past {
                let (stop, flags) = pattern.stops[later];
                if flags & 2 == 2 {
                    let at = Time::from(day * DAY_MS + u64::from(pattern.arr[later][trip]) * 1000);
                    ways.push(Way { place, arc: GraphArc { to: region.roads + stop, letter: Some(pattern.letter) }, at })?;
                    place += 1;
                }
            }
            given.note(GivenRun { state: visit.state, line, run, call })?;
        }
        Ok(())
    }

    /// The day and the trip of the first run of a pattern that one can board at a call from a time on.
    fn next_run(&self, line: u32, call: u32, t: u64) -> Option<(u64, usize)> {
        let pattern = &self.region.patterns[line as usize];
        let departures = &pattern.dep[call as usize];
        let runs = (0..self.region.days + 7).filter_map(|day| {
            let after = t.saturating_sub(day * DAY_MS).div_ceil(1000);
            let first = departures.partition_point(|d| u64::from(*d) < after);
            let trip = (first..departures.len()).find(|k| pattern.days[*k] >> day & 1 == 1)?;
            Some((day * DAY_MS + u64::from(departures[trip]) * 1000, day, trip))
        });
        runs.min().map(|(_, day, trip)| (day, trip))
    }
}
