//! The network as a graph, with the calls that searches and phase graphs make.
use crate::mode_network::{Network, Step};
use crate::search_laws::{is_open, moving_letters, GivenRuns, Graph, GraphArc, Steady, Time, Visit, Way};
use crate::shim::{AllocError, Vec};

#[derive(Clone, Copy)]
pub struct Plain<'a>(&'a Network);

/// A timetable, of which nothing is read here.
pub struct Timetable;

/// An arc of the plain graph, of which nothing is told here.
pub struct PlainArc;

impl Timetable {
    pub fn known(&self) {}
}

impl<'a> Plain<'a> {
    pub fn new(network: &'a Network) -> Self {
        Plain(network)
    }

    pub fn network(&self) -> &'a Network {
        self.0
    }

    pub fn timetable(&self) -> Timetable {
        Timetable
    }

    pub fn plain_arc(&self, _: u32, _: u64) -> PlainArc {
        PlainArc
    }

    #[inline(always)]
    pub fn has_none_past_roads(&self, v: u32, letters: u32) -> bool {
        let (first, past) = self.0.links_from(v);
        match self.0.letter(v) {
            Some(letter) => first == past && !is_open(letters, Some(letter)),
            None => false,
        }
    }

    pub fn push_fresh_past_roads(&self, visit: Visit, given: &mut GivenRuns, ways: &mut Vec<Way>) -> Result<(), AllocError> {
        self.0.push_links_and_inner(visit, given, ways)
    }
}

/// Links and rides are told by other code, which is left out here.
pub fn push_steps(_: &Plain<'_>, _: PlainArc, _: Time, _: &mut Vec<Step>) -> Result<(), AllocError> {
    Ok(())
}

impl Graph for Plain<'_> {
    fn nodes(&self) -> u32 {
        self.0.nodes()
    }

    fn arcs(&self, _: u32) -> u64 {
        unreachable!()
    }

    fn arc_at(&self, _: u32, _: u64) -> GraphArc {
        unreachable!()
    }

    fn arrive(&self, _: u32, _: u64, _: Time) -> Option<Time> {
        unreachable!()
    }

    #[inline(always)]
    fn steady(&self, v: u32) -> Steady<'_> {
        let (first, past) = self.0.arcs_from(v);
        Steady { legs: &self.0.legs[first as usize..past as usize], letter: self.0.letter(v) }
    }

    #[inline(always)]
    fn may_have_fresh(&self, v: u32, letters: u32, leaving: u32) -> bool {
        !self.has_none_past_roads(v, moving_letters(letters, leaving, self.0.letter(v)))
    }

    fn fresh_ways(&self, visit: Visit, given: &mut GivenRuns, ways: &mut Vec<Way>) -> Result<(), AllocError> {
        let letter = self.0.letter(visit.node);
        let letters = moving_letters(visit.letters, visit.leaving, letter);
        self.push_fresh_past_roads(Visit { letters, ..visit }, given, ways)
    }
}
