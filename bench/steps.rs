//! How many steps a solve takes, beside the bound that is proved, and beside an engine that searches anew for each unit.
//!
//!     rustc -O -o steps bench/steps.rs && ./steps SITE..
//!
//! A model of `split_graph` and `flow_engine` in plain Rust, since the count of `Steps` has no bytes and no command can print it: the same arcs in
//! the same order, the same searches and ways, a step where the crates have one. It proves nothing, and nothing depends on it. For each site text
//! and each of the levels Apprentice, Journeyer and Master it prints a line: accounts served; phases and the layer of the last one; the steps of
//! the solve, the bound, and their part of it; then the looks of the engine that searches anew and how many times those of the phases (what is
//! read in the end left aside) they are; and both engines' milliseconds of the processor. Then a line with the milliseconds of the three solves in phases, what is
//! read in the end included.

use std::collections::HashMap;
use std::ffi::c_long;

unsafe extern "C" {
    fn clock() -> c_long;
}

/// The milliseconds of the processor that this program has taken, as C's `clock` tells them.
fn processor_time() -> f64 {
    unsafe { clock() as f64 / 1000.0 }
}

/// A site, its certificates in rows by giver.
struct Site {
    caps: Vec<u32>,
    seeds: Vec<bool>,
    starts: Vec<usize>,
    takers: Vec<usize>,
    grades: Vec<u8>,
}

impl Site {
    /// Reads a site text whose levels are those of a table of four.
    fn read(text: &str) -> Site {
        let mut caps = vec![];
        let mut names = HashMap::new();
        let mut seeds = vec![];
        let mut certs = vec![];
        for line in text.lines() {
            let words: Vec<&str> = line.split(' ').collect();
            match words[0] {
                "caps" if words[1] == "default" => caps = vec![800, 200, 50, 12, 4, 2, 1],
                "caps" => caps = words[1..].iter().map(|entry| entry.parse().unwrap()).collect(),
                "account" => {
                    names.insert(words[1], seeds.len());
                    seeds.push(false);
                }
                "seed" => seeds[names[words[1]]] = true,
                "cert" => {
                    let grade = 1 + ["Apprentice", "Journeyer", "Master"].iter().position(|level| *level == words[3]).unwrap();
                    certs.push((names[words[1]], names[words[2]], grade as u8));
                }
                _ => {}
            }
        }
        certs.sort();
        let starts = (0..=seeds.len()).map(|giver| certs.partition_point(|cert| cert.0 < giver)).collect();
        let takers = certs.iter().map(|cert| cert.1).collect();
        let grades = certs.iter().map(|cert| cert.2).collect();
        Site { caps, seeds, starts, takers, grades }
    }

    /// The capacity of each account at a level.
    fn capacities(&self, level: u8) -> Vec<u32> {
        let entry = |distance: usize| self.caps[distance.min(self.caps.len() - 1)];
        let mut capacities = vec![0; self.seeds.len()];
        let mut waiting: Vec<(usize, usize)> = (0..self.seeds.len()).filter(|account| self.seeds[*account]).map(|account| (account, 1)).collect();
        for &(account, _) in &waiting {
            capacities[account] = entry(1);
        }
        let mut at = 0;
        while at < waiting.len() {
            let (giver, distance) = waiting[at];
            at += 1;
            for cert in self.starts[giver]..self.starts[giver + 1] {
                let taker = self.takers[cert];
                if self.grades[cert] >= level && capacities[taker] == 0 {
                    capacities[taker] = entry(distance + 1);
                    waiting.push((taker, distance + 1));
                }
            }
        }
        capacities
    }
}

const SUPERSINK: u32 = 0;
const SOURCE: u32 = 1;
const UNBOUNDED: u32 = u32::MAX;
const UNREACHED: u32 = u32::MAX;

/// The account of which this is the first half.
fn entered_account(node: u32) -> bool {
    node >= 3 && node % 2 == 1
}

#[derive(Clone, Copy)]
struct Arc {
    head: u32,
    twin: u32,
}

#[derive(Clone)]
struct Network {
    first: Vec<u32>,
    arcs: Vec<Arc>,
    rests: Vec<u32>,
    looks: u64,
}

impl Network {
    fn load(site: &Site, level: u8, capacities: &[u32]) -> Network {
        let accounts = site.seeds.len();
        let (in_half, out_half) = (|account: usize| 2 * account as u32 + 3, |account: usize| 2 * account as u32 + 4);
        let mut list = vec![(SOURCE, 2, site.caps[0].saturating_sub(1))];
        for account in 0..accounts {
            list.push((in_half(account), out_half(account), capacities[account].saturating_sub(1)));
            list.push((in_half(account), SUPERSINK, 1));
        }
        list.extend((0..accounts).filter(|account| site.seeds[*account]).map(|account| (2, in_half(account), UNBOUNDED)));
        for giver in 0..accounts {
            for cert in site.starts[giver]..site.starts[giver + 1] {
                let rest = if site.grades[cert] >= level { UNBOUNDED } else { 0 };
                list.push((out_half(giver), in_half(site.takers[cert]), rest));
            }
        }
        let mut first = vec![0; 2 * accounts + 4];
        for (from, to, _) in &list {
            first[*from as usize + 1] += 1;
            first[*to as usize + 1] += 1;
        }
        for node in 1..first.len() {
            first[node] += first[node - 1];
        }
        let mut next = first.clone();
        let mut arcs = vec![Arc { head: 0, twin: 0 }; 2 * list.len()];
        let mut rests = vec![0; 2 * list.len()];
        for (from, to, rest) in list {
            let (there, back) = (next[from as usize], next[to as usize]);
            arcs[there as usize] = Arc { head: to, twin: back };
            arcs[back as usize] = Arc { head: from, twin: there };
            rests[there as usize] = rest;
            next[from as usize] += 1;
            next[to as usize] += 1;
        }
        Network { first, arcs, rests, looks: 0 }
    }

    fn look(&mut self, arc: u32) -> (bool, u32) {
        self.looks += 1;
        (self.rests[arc as usize] > 0, self.arcs[arc as usize].head)
    }

    fn push(&mut self, arc: u32) {
        self.rests[arc as usize] -= 1;
        self.rests[self.arcs[arc as usize].twin as usize] += 1;
    }

    /// Reads the units along edges off the arcs that lead back out of first halves, and whom the flow serves.
    fn read(&mut self, units: &mut [u32], served: &mut [bool]) {
        units.fill(0);
        self.looks += units.len() as u64;
        for account in 0..served.len() {
            let node = 2 * account + 3;
            for arc in self.first[node] + 2..self.first[node + 1] {
                if self.rests[arc as usize] > 0 {
                    units[self.arcs[arc as usize].twin as usize] = self.rests[arc as usize];
                }
            }
        }
        for account in 0..served.len() {
            served[account] = !self.look(self.first[2 * account + 3] + 1).0;
        }
    }

    /// The arc from a node to the supersink, if a unit can be moved along it.
    fn ending(&mut self, node: u32) -> Option<u32> {
        if !entered_account(node) {
            return None;
        }
        let arc = self.first[node as usize] + 1;
        self.look(arc).0.then_some(arc)
    }
}

/// The engine in phases.
struct Search {
    nodes: Vec<u32>,
    layer: Vec<u32>,
    cursor: Vec<u32>,
}

impl Search {
    fn look(&mut self, network: &mut Network, arc: u32, layer: u32) -> Option<u32> {
        let (passable, head) = network.look(arc);
        if !passable || self.layer[head as usize] != UNREACHED {
            return None;
        }
        if let Some(end) = network.ending(head) {
            return Some(end);
        }
        self.layer[head as usize] = layer;
        self.cursor[head as usize] = network.first[head as usize];
        self.nodes.push(head);
        None
    }

    fn find(&mut self, network: &mut Network) -> Option<u32> {
        for node in self.nodes.drain(..) {
            self.layer[node as usize] = UNREACHED;
        }
        self.layer[SOURCE as usize] = 0;
        self.cursor[SOURCE as usize] = network.first[SOURCE as usize];
        self.nodes.push(SOURCE);
        let mut at = 0;
        while at < self.nodes.len() {
            let node = self.nodes[at] as usize;
            let next = self.layer[node] + 1;
            for arc in network.first[node]..network.first[node + 1] {
                if self.look(network, arc, next).is_some() {
                    return Some(next);
                }
            }
            at += 1;
        }
        None
    }

    fn find_way(&mut self, network: &mut Network, deep: u32, way: &mut Vec<u32>) -> Option<u32> {
        way.clear();
        way.push(SOURCE);
        while let Some(&node) = way.last() {
            let to = network.first[node as usize + 1];
            let next = way.len() as u32;
            let mut head_on = None;
            while head_on.is_none() && self.cursor[node as usize] < to {
                let arc = self.cursor[node as usize];
                if next == deep {
                    if let Some(end) = self.look(network, arc, deep) {
                        return Some(end);
                    }
                } else {
                    let (passable, head) = network.look(arc);
                    if passable && self.layer[head as usize] == next {
                        head_on = Some(head);
                        continue;
                    }
                }
                self.cursor[node as usize] += 1;
            }
            if let Some(head) = head_on {
                way.push(head);
                continue;
            }
            way.pop();
            if let Some(&before) = way.last() {
                self.cursor[before as usize] += 1;
            }
        }
        None
    }
}

/// Sends all units phase by phase: how many, in how many phases, and the last one's deepest layer.
fn in_phases(network: &mut Network) -> (u64, u64, u32) {
    let nodes = network.first.len() - 1;
    let mut search = Search { nodes: vec![], layer: vec![UNREACHED; nodes], cursor: vec![0; nodes] };
    let mut way = vec![];
    let (mut sent, mut phases, mut deepest) = (0, 0, 0);
    while let Some(deep) = search.find(network) {
        (phases, deepest) = (phases + 1, deep);
        while let Some(end) = search.find_way(network, deep, &mut way) {
            network.push(end);
            for node in way.iter().rev() {
                network.push(search.cursor[*node as usize]);
            }
            sent += 1;
        }
    }
    (sent, phases, deepest)
}

/// Sends all units, with a search for each: it ends at the first unserved account, and looks last at the arcs that give units back.
fn anew(network: &mut Network) -> u64 {
    let nodes = network.first.len() - 1;
    let mut places: Vec<(u32, u32, usize)> = vec![];
    let mut seen = vec![false; nodes];
    let mut sent = 0;
    loop {
        for (node, _, _) in places.drain(..) {
            seen[node as usize] = false;
        }
        places.push((SOURCE, 0, 0));
        seen[SOURCE as usize] = true;
        let (mut ahead, mut behind, mut found) = (0, 0, None);
        while found.is_none() && behind < places.len() {
            let is_ahead = ahead < places.len();
            let at = if is_ahead { ahead } else { behind };
            let node = places[at].0 as usize;
            let (from, to) = (network.first[node], network.first[node + 1]);
            let middle = if node % 2 == 1 { (from + 2).min(to) } else { to };
            for arc in if is_ahead { from..middle } else { middle..to } {
                let (passable, head) = network.look(arc);
                if passable && !seen[head as usize] {
                    seen[head as usize] = true;
                    places.push((head, arc, at));
                    if let Some(end) = network.ending(head) {
                        found = Some((places.len() - 1, end));
                        break;
                    }
                }
            }
            if is_ahead {
                ahead += 1;
            } else {
                behind += 1;
            }
        }
        let Some((mut at, end)) = found else {
            return sent;
        };
        network.push(end);
        while at != 0 {
            network.push(places[at].1);
            at = places[at].2;
        }
        sent += 1;
    }
}

fn main() {
    for path in std::env::args().skip(1) {
        let site = Site::read(&std::fs::read_to_string(&path).unwrap());
        let mut solves = 0.0;
        let mut units = vec![];
        let mut is_served = vec![true; site.seeds.len()];
        for (level, name) in [(1, "Apprentice"), (2, "Journeyer"), (3, "Master")] {
            let capacities = site.capacities(level);
            let loaded = Network::load(&site, level, &capacities);
            let accounts = site.seeds.len() as u64;
            let arcs = loaded.arcs.len() as u64;
            let all = u64::from(site.caps[0]) + 2 * capacities.iter().map(|cap| u64::from(*cap)).sum::<u64>();

            let mut network = loaded.clone();
            units.resize(network.arcs.len(), 1);
            let begun = processor_time();
            let (served, phases, deepest) = in_phases(&mut network);
            let time = processor_time() - begun;
            let looks = network.looks;
            network.read(&mut units, &mut is_served);
            solves += processor_time() - begun;
            let steps = network.looks;
            assert_eq!(is_served.iter().filter(|is| **is).count() as u64, served);

            let mut searched = loaded;
            let begun = processor_time();
            assert_eq!(anew(&mut searched), served);
            let time_anew = processor_time() - begun;

            let few = (1..=2000).map(|d| d + all / d + 1).min().unwrap().min(served + 1);
            let bound = 3 * arcs * (few + 1) + served * (2 * accounts + 4);
            println!(
                "  {name:<10} served {served:>5}  phases {phases:>3} to layer {deepest:>3}  steps {steps:>9} of {bound:>14} ({:.4})  anew {:>11} looks, {:>8.1} times  {:>7.1} ms, anew {:>7.1} ms, {:>6.1} times",
                steps as f64 / bound as f64,
                searched.looks,
                searched.looks as f64 / looks as f64,
                time,
                time_anew,
                time_anew / time,
            );
        }
        println!("  three solves in phases {solves:.1} ms");
    }
}
