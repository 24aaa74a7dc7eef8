// A plain contraction of the road layers, to measure `check` over: nodes without links in the order of a lazy queue, whose
// key is how many shortcuts a contraction makes less how many entries it ends, and a search of at most 60 nodes for each
// way past a node. Nothing is proved of it; `check` says whether what it makes is sound. Std only:
// rustc --edition 2021 -O contraction.rs
//
//   contraction REGION KEEP > HIERARCHY        KEEP: how many of 100 road nodes stay core

use std::cmp::Reverse;
use std::collections::{BinaryHeap, HashMap};
use std::io::{BufWriter, Write};

const NONE: u32 = u32::MAX;
const SETTLED: usize = 60;

#[derive(Clone, Copy)]
struct Entry {
    to: u32,
    weight: u64,
    via: u32,
}

/// The entries from each node, and the nodes that entries lead from to each node. Contracted nodes keep theirs.
struct Graph {
    out: Vec<Vec<Entry>>,
    into: Vec<Vec<u32>>,
    contracted: Vec<bool>,
}

/// What contracting a node makes: shortcuts past it, and walks that are no longer than the way by it.
#[derive(Default)]
struct Plan {
    shortcuts: Vec<(u32, u32, u64)>,
    witnesses: Vec<Vec<u32>>,
}

impl Graph {
    fn add(&mut self, from: u32, to: u32, weight: u64, via: u32) {
        match self.out[from as usize].iter_mut().find(|e| e.to == to) {
            Some(e) if weight < e.weight => (e.weight, e.via) = (weight, via),
            Some(_) => {}
            None => {
                self.out[from as usize].push(Entry { to, weight, via });
                self.into[to as usize].push(from);
            }
        }
    }

    fn weight(&self, from: u32, to: u32) -> Option<u64> {
        self.out[from as usize].iter().find(|e| e.to == to).map(|e| e.weight)
    }

    /// The entries from a node to nodes that are not contracted.
    fn up(&self, x: u32) -> impl Iterator<Item = &Entry> + '_ {
        self.out[x as usize].iter().filter(|e| !self.contracted[e.to as usize])
    }

    /// The nodes that are not contracted and have an entry to this one.
    fn down(&self, x: u32) -> impl Iterator<Item = u32> + '_ {
        self.into[x as usize].iter().copied().filter(|u| !self.contracted[*u as usize])
    }

    /// How far nodes are from u past x, and by which node: of at most SETTLED nodes, up to this limit.
    fn reached(&self, u: u32, x: u32, limit: u64) -> HashMap<u32, (u64, u32)> {
        let mut reached = HashMap::from([(u, (0, NONE))]);
        let mut heap = BinaryHeap::from([Reverse((0, u))]);
        let mut settled = 0;
        while let Some(Reverse((d, v))) = heap.pop() {
            if reached[&v].0 < d {
                continue;
            }
            settled += 1;
            if settled > SETTLED {
                break;
            }
            for e in self.up(v).filter(|e| e.to != x && d + e.weight <= limit) {
                let t = d + e.weight;
                if reached.get(&e.to).map_or(true, |r| t < r.0) {
                    reached.insert(e.to, (t, v));
                    heap.push(Reverse((t, e.to)));
                }
            }
        }
        reached
    }

    fn plan(&self, x: u32) -> Plan {
        let mut plan = Plan::default();
        let most = self.up(x).map(|e| e.weight).max().unwrap_or(0);
        for u in self.down(x) {
            let first = self.weight(u, x).unwrap();
            let reached = self.reached(u, x, first + most);
            for e in self.up(x).filter(|e| e.to != u) {
                let limit = first + e.weight;
                if self.weight(u, e.to).is_some_and(|w| w <= limit) {
                    continue;
                }
                if reached.get(&e.to).is_some_and(|r| r.0 <= limit) {
                    let mut walk = vec![e.to];
                    while walk[walk.len() - 1] != u {
                        walk.push(reached[&walk[walk.len() - 1]].1);
                    }
                    walk.reverse();
                    plan.witnesses.push(walk);
                } else {
                    plan.shortcuts.push((u, e.to, limit));
                }
            }
        }
        plan
    }

    /// Twice the entries that contracting a node adds, and how many nodes below it were contracted one after the other.
    fn key(&self, x: u32, plan: &Plan, depth: &[i64]) -> i64 {
        let ended = self.up(x).count() + self.down(x).count();
        2 * (plan.shortcuts.len() as i64 - ended as i64) + depth[x as usize]
    }
}

fn main() -> std::io::Result<()> {
    let words: Vec<String> = std::env::args().collect();
    let keep: usize = words[2].parse().unwrap();
    let region = std::fs::read_to_string(&words[1])?;
    let numbers = |l: &str| -> Vec<u64> { l.split(' ').skip(1).map(|w| w.parse().unwrap()).collect() };
    let roads = region.lines().filter(|l| l.starts_with("node ")).count();
    let mut graph = Graph { out: vec![vec![]; roads], into: vec![vec![]; roads], contracted: vec![false; roads] };
    let mut free = vec![true; roads];
    for line in region.lines() {
        if line.starts_with("arc ") {
            let arc = numbers(line);
            graph.add(arc[0] as u32, arc[1] as u32, arc[2], NONE);
        } else if line.starts_with("link ") {
            for end in &numbers(line)[..2] {
                free.get_mut(*end as usize).map(|f| *f = false);
            }
        }
    }
    let mut depth = vec![0; roads];
    let free: Vec<u32> = (0..roads as u32).filter(|x| free[*x as usize]).collect();
    let mut queue: BinaryHeap<_> = free.iter().map(|x| Reverse((graph.key(*x, &graph.plan(*x), &depth), *x))).collect();
    let wanted = free.len().saturating_sub(roads * keep / 100);
    let (mut order, mut witnesses) = (vec![], vec![]);
    while order.len() < wanted {
        let Some(Reverse((_, x))) = queue.pop() else { break };
        let plan = graph.plan(x);
        let key = graph.key(x, &plan, &depth);
        if queue.peek().is_some_and(|Reverse((least, _))| key > *least) {
            queue.push(Reverse((key, x)));
            continue;
        }
        for (u, v, weight) in plan.shortcuts {
            graph.add(u, v, weight, x);
        }
        witnesses.extend(plan.witnesses.into_iter().map(|walk| (x, walk)));
        graph.contracted[x as usize] = true;
        order.push(x);
        let above: Vec<u32> = graph.down(x).chain(graph.up(x).map(|e| e.to)).collect();
        for v in above {
            depth[v as usize] = depth[v as usize].max(depth[x as usize] + 1);
        }
    }
    witnesses.sort_by_key(|(x, walk)| (*x, walk[0], walk[walk.len() - 1]));
    for list in &mut graph.out {
        list.sort_by_key(|e| e.to);
    }
    let entries: usize = graph.out.iter().map(Vec::len).sum();
    let mut out = BufWriter::new(std::io::stdout().lock());
    out.write_all(b"MPHIER01")?;
    for count in [order.len(), entries, witnesses.len()] {
        out.write_all(&(count as u64).to_be_bytes())?;
    }
    for x in &order {
        out.write_all(&x.to_be_bytes())?;
    }
    for (from, list) in graph.out.iter().enumerate() {
        for e in list {
            out.write_all(&(from as u32).to_be_bytes())?;
            out.write_all(&e.to.to_be_bytes())?;
            out.write_all(&e.weight.to_be_bytes())?;
            out.write_all(&e.via.to_be_bytes())?;
        }
    }
    for (x, walk) in &witnesses {
        out.write_all(&x.to_be_bytes())?;
        out.write_all(&(walk.len() as u64).to_be_bytes())?;
        for v in walk {
            out.write_all(&v.to_be_bytes())?;
        }
    }
    out.flush()?;
    eprintln!("{} nodes contracted, {entries} entries, {} witnesses", order.len(), witnesses.len());
    Ok(())
}
