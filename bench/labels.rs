// Networks whose useful labels are many, or whose extensions are, and two searches for these labels in plain Rust, to compare
// times and labels with the proved program.
//
//   labels write FAMILY NUMBERS..          writes the text of an instance of the family
//   labels all-wait | one-waits REPEAT     searches the instance of its input, one commodity after the other, as often as REPEAT
//                                          says, and prints what it found
//
// `all-wait` lets each extension of a label wait, and runs through all labels of a node to see whether one dominates.
// `one-waits` lets a label wait by its next needed arc alone, and keeps the labels of a node in blocks under keys.

use std::alloc::{GlobalAlloc, Layout, System};
use std::cmp::Reverse;
use std::collections::BinaryHeap;
use std::env;
use std::io::{self, BufRead, Write};
use std::sync::atomic::{AtomicUsize, Ordering::Relaxed};

/// The greatest number of labels of a commodity.
const MOST: usize = 65_536;

/// What the allocator gave and did not get back, now and at most. The old and the new room of a list that grows both count.
struct Counted;

static NOW: AtomicUsize = AtomicUsize::new(0);
static PEAK: AtomicUsize = AtomicUsize::new(0);

unsafe impl GlobalAlloc for Counted {
    unsafe fn alloc(&self, layout: Layout) -> *mut u8 {
        PEAK.fetch_max(NOW.fetch_add(layout.size(), Relaxed) + layout.size(), Relaxed);
        unsafe { System.alloc(layout) }
    }

    unsafe fn dealloc(&self, place: *mut u8, layout: Layout) {
        NOW.fetch_sub(layout.size(), Relaxed);
        unsafe { System.dealloc(place, layout) }
    }
}

#[global_allocator]
static ALLOCATOR: Counted = Counted;

#[derive(Clone, Copy)]
struct Arc {
    tail: u32,
    head: u32,
    cost: u64,
    // The number of its toll, where it is a toll arc.
    toll: Option<u32>,
}

#[derive(Default)]
struct Network {
    nodes: u32,
    arcs: Vec<Arc>,
    pairs: Vec<(u32, u32)>,
    tolls: u32,
}

impl Network {
    fn node(&mut self) -> u32 {
        self.nodes += 1;
        self.nodes - 1
    }

    fn free(&mut self, tail: u32, head: u32, cost: u64) {
        self.arcs.push(Arc { tail, head, cost, toll: None });
    }

    fn toll(&mut self, tail: u32, head: u32, cost: u64) {
        self.arcs.push(Arc { tail, head, cost, toll: Some(self.tolls) });
        self.tolls += 1;
    }

    // Links from the last node on, each a toll-free arc of this cost beside a toll arc of cost 0, and the node at their end.
    fn chain(&mut self, links: u64, cost: u64) -> u32 {
        let mut end = self.nodes - 1;
        for _ in 0..links {
            let next = self.node();
            self.free(end, next, cost);
            self.toll(end, next, 0);
            end = next;
        }
        end
    }

    fn leaving(&self) -> Vec<Vec<u32>> {
        let mut leaving = vec![Vec::new(); self.nodes as usize];
        for (number, arc) in self.arcs.iter().enumerate() {
            leaving[arc.tail as usize].push(number as u32);
        }
        leaving
    }

    fn print(&self) -> io::Result<()> {
        let mut out = io::stdout().lock();
        writeln!(out, "npp 1")?;
        for node in 0..self.nodes {
            writeln!(out, "node n{node}")?;
        }
        for arc in &self.arcs {
            let word = if arc.toll.is_some() { "toll" } else { "free" };
            writeln!(out, "{word} n{} n{} {}", arc.tail, arc.head, arc.cost)?;
        }
        for (origin, destination) in &self.pairs {
            writeln!(out, "pair n{origin} n{destination} 1")?;
        }
        Ok(())
    }

    fn read() -> Network {
        let mut network = Network::default();
        for line in io::stdin().lock().lines() {
            let line = line.unwrap();
            let words: Vec<&str> = line.split_whitespace().collect();
            let number = |at: usize| words[at].trim_start_matches('n').parse::<u32>().unwrap();
            match words[0] {
                "node" => network.nodes += 1,
                "free" => network.free(number(1), number(2), u64::from(number(3))),
                "toll" => network.toll(number(1), number(2), u64::from(number(3))),
                "pair" => network.pairs.push((number(1), number(2))),
                _ => {}
            }
        }
        network
    }
}

// Numbers that look random, the same on each run.
struct Random(u64);

impl Random {
    fn below(&mut self, end: u64) -> u64 {
        self.0 = self.0.wrapping_mul(6_364_136_223_846_793_005).wrapping_add(1_442_695_040_888_963_407);
        (self.0 >> 33) % end
    }
}

// Links whose toll-free arcs cost so much, then so many toll-free arcs from their end to one more node: the cost of the first,
// and how much dearer each next is.
fn last_arcs(links: u64, link: u64, last: u64, cost: i64, rise: i64) -> Network {
    let mut net = Network::default();
    net.node();
    let end = net.chain(links, link);
    let destination = net.node();
    for at in 0..last as i64 {
        net.free(end, destination, (cost + at * rise) as u64);
    }
    net.pairs.push((0, destination));
    net
}

// Three layers of parallel toll arcs beside one dear toll-free arc. They cost 1, or up to `most`.
fn layers(width: u64, most: u64, seed: u64) -> Network {
    let mut random = Random(seed);
    let mut net = Network::default();
    let mut end = net.node();
    for _ in 0..3 {
        let next = net.node();
        for _ in 0..width {
            net.toll(end, next, 1 + random.below(most));
        }
        end = next;
    }
    net.free(0, end, 1_000_000);
    net.pairs.push((0, end));
    net
}

// Three layers of parallel toll arcs, and then one toll arc beside a walk of two that costs less.
fn layers_and_two_ways(width: u64) -> Network {
    let mut net = layers(width, 1, 1);
    net.arcs.pop();
    net.pairs.clear();
    let end = net.nodes - 1;
    let (middle, destination) = (net.node(), net.node());
    net.toll(end, destination, 1);
    net.toll(end, middle, 0);
    net.toll(middle, destination, 0);
    net.free(0, destination, 1_000_000);
    net.pairs.push((0, destination));
    net
}

// Links, and then toll arcs in a row that each walk takes.
fn forced(links: u64, tolls: u64) -> Network {
    let mut net = Network::default();
    net.node();
    let mut end = net.chain(links, 1);
    for _ in 0..tolls {
        let next = net.node();
        net.toll(end, next, 0);
        end = next;
    }
    net.free(0, end, 1_000_000);
    net.pairs.push((0, end));
    net
}

// Links, and then parallel toll arcs beside a toll-free walk of two arcs that costs as much.
fn in_vain(links: u64, tolls: u64) -> Network {
    let mut net = Network::default();
    net.node();
    let end = net.chain(links, 1);
    let (middle, destination) = (net.node(), net.node());
    for _ in 0..tolls {
        net.toll(end, destination, 1);
    }
    net.free(end, middle, 0);
    net.free(middle, destination, 1);
    net.pairs.push((0, destination));
    net
}

// Links with a toll arc to the destination, and from their end arcs to so many heads. Each head has a toll-free arc from the
// origin too, which costs no more and yet comes after all labels of the links; a second toll arc leads on from the heads.
fn late_fan(links: u64, heads: u64) -> Network {
    let mut net = Network::default();
    net.node();
    let end = net.chain(links, 1);
    let (gate, destination) = (net.node(), net.node());
    net.toll(end, destination, 0);
    for _ in 0..heads {
        let head = net.node();
        net.free(end, head, links + 1);
        net.free(0, head, links + 1);
        net.free(head, gate, 0);
    }
    net.toll(gate, destination, 0);
    net.free(0, destination, 1_000_000);
    net.pairs.push((0, destination));
    net
}

// A square of nodes with toll-free arcs to the right and down, of cost 1 to `most`; so many of them, drawn at random, have a
// toll arc beside them that costs less.
fn grid(side: u64, tolls: u64, most: u64, seed: u64) -> Network {
    let mut random = Random(seed);
    let mut net = Network::default();
    net.nodes = (side * side) as u32;
    for place in 0..side * side {
        let (row, column) = (place / side, place % side);
        if column + 1 < side {
            net.free(place as u32, place as u32 + 1, 1 + random.below(most));
        }
        if row + 1 < side {
            net.free(place as u32, (place + side) as u32, 1 + random.below(most));
        }
    }
    let mut places: Vec<usize> = (0..net.arcs.len()).collect();
    for _ in 0..tolls {
        let arc = net.arcs[places.swap_remove(random.below(places.len() as u64) as usize)];
        net.toll(arc.tail, arc.head, random.below(arc.cost));
    }
    net.pairs.push((0, net.nodes - 1));
    net
}

// A row of nodes with arcs drawn at random, each to one of the next `reach` nodes: toll-free ones of cost 1 to 1,000, and toll
// arcs of cost 0 to 100. Only toll arcs lead to the last node, where all commodities end, but for a dear toll-free arc from each
// origin. The origins are drawn from the first so many nodes.
fn random(arcs: u64, tolls: u64, reach: u64, pairs: u64, origins: u64, seed: u64) -> Network {
    let mut random = Random(seed);
    let mut net = Network { nodes: 1_000, ..Network::default() };
    for number in 0..arcs - pairs {
        let tail = random.below(998);
        let head = (tail + 1 + random.below(reach)).min(998) as u32;
        if number < 4 {
            net.toll(998 - number as u32, 999, random.below(101));
        } else if number < tolls {
            net.toll(tail as u32, head, random.below(101));
        } else {
            net.free(tail as u32, head, 1 + random.below(1_000));
        }
    }
    for _ in 0..pairs {
        let origin = random.below(origins) as u32;
        net.free(origin, 999, 1_000_000);
        net.pairs.push((origin, 999));
    }
    net
}

fn family(name: &str, n: &[i64]) -> Network {
    let at = |place: usize| n[place] as u64;
    match name {
        "chain" => {
            let mut net = Network::default();
            net.node();
            let end = net.chain(at(0), 1);
            net.pairs.push((0, end));
            net
        }
        "last-arcs" => last_arcs(at(0), at(1), at(2), n[3], n[4]),
        "layers" => layers(at(0), at(1), at(2)),
        "layers-and-two-ways" => layers_and_two_ways(at(0)),
        "forced" => forced(at(0), at(1)),
        "in-vain" => in_vain(at(0), at(1)),
        "late-fan" => late_fan(at(0), at(1)),
        "grid" => grid(at(0), at(1), at(2), at(3)),
        "random" => random(at(0), at(1), at(2), at(3), at(4), at(5)),
        _ => panic!("no such family"),
    }
}

// The least cost from each node to the destination, after Dijkstra (1959).
fn distances(net: &Network, destination: u32, with_tolls: bool) -> Vec<Option<u64>> {
    let mut entering = vec![Vec::new(); net.nodes as usize];
    for arc in &net.arcs {
        if with_tolls || arc.toll.is_none() {
            entering[arc.head as usize].push(*arc);
        }
    }
    let mut least = vec![None; net.nodes as usize];
    let mut queue = BinaryHeap::from([Reverse((0, destination))]);
    while let Some(Reverse((cost, node))) = queue.pop() {
        if least[node as usize].is_some() {
            continue;
        }
        least[node as usize] = Some(cost);
        for arc in &entering[node as usize] {
            if least[arc.tail as usize].is_none() {
                queue.push(Reverse((cost + arc.cost, arc.tail)));
            }
        }
    }
    least
}

#[derive(Clone, Copy)]
struct Label {
    node: u32,
    tolls: u128,
    cost: u64,
    // Its last arc, and the number of the label before it: a path is read off them.
    #[allow(dead_code)]
    last: u32,
    #[allow(dead_code)]
    parent: u32,
}

// The order in which labels are taken.
#[derive(Clone, Copy, PartialEq, Eq, PartialOrd, Ord)]
struct Pending {
    bound: u64,
    size: u32,
    cost: u64,
    node: u32,
    set: u128,
    parent: u32,
    arc: u32,
    left: usize,
}

// A commodity's search: what it stands on, and how many extensions it made.
struct Search<'a> {
    net: &'a Network,
    onward: &'a [Option<u64>],
    free: u64,
    labels: Vec<Label>,
    pending: BinaryHeap<Reverse<Pending>>,
    extensions: u64,
}

impl Search<'_> {
    // The extension of a label by an arc, where it can win.
    fn extension(&mut self, number: u32, arc: u32, left: usize) -> Option<Pending> {
        self.extensions += 1;
        let (from, x) = (self.labels[number as usize], self.net.arcs[arc as usize]);
        let (cost, onward) = (from.cost + x.cost, self.onward[x.head as usize]?);
        if cost + onward >= self.free {
            return None;
        }
        let set = x.toll.map_or(from.tolls, |toll| from.tolls | 1 << toll);
        let size = set.count_ones();
        Some(Pending { bound: cost + onward, size, cost, node: x.head, set, parent: number, arc, left })
    }

    fn take(&mut self, p: Pending) -> u32 {
        self.labels.push(Label { node: p.node, tolls: p.set, cost: p.cost, last: p.arc, parent: p.parent });
        self.labels.len() as u32 - 1
    }
}

fn start<'a>(net: &'a Network, onward: &'a [Option<u64>], free: u64, origin: u32) -> Search<'a> {
    let mut search = Search { net, onward, free, labels: Vec::new(), pending: BinaryHeap::new(), extensions: 0 };
    if onward[origin as usize].is_some_and(|least| least < free) {
        search.labels.push(Label { node: origin, tolls: 0, cost: 0, last: 0, parent: 0 });
    }
    search
}

// Each extension waits, and the labels of a node are a list. None where there are too many labels.
fn all_wait(search: &mut Search, leaving: &[Vec<u32>]) -> Option<()> {
    let mut by_node: Vec<Vec<(u128, u64)>> = vec![Vec::new(); search.net.nodes as usize];
    let mut next = search.labels.len().checked_sub(1).map(|number| number as u32);
    while let Some(number) = next {
        let label = search.labels[number as usize];
        by_node[label.node as usize].push((label.tolls, label.cost));
        for arc in &leaving[label.node as usize] {
            if let Some(p) = search.extension(number, *arc, 0) {
                search.pending.push(Reverse(p));
            }
        }
        next = None;
        while let Some(Reverse(p)) = search.pending.pop() {
            if !by_node[p.node as usize].iter().any(|(set, cost)| set & !p.set == 0 && *cost <= p.cost) {
                if search.labels.len() == MOST {
                    return None;
                }
                next = Some(search.take(p));
                break;
            }
        }
    }
    Some(())
}

// Pairs of a set and a cost whose sets all have the tolls of a key.
struct Block {
    key: u128,
    pairs: Vec<(u128, u64)>,
}

fn dominates(blocks: &[Block], set: u128, cost: u64) -> bool {
    let of_block = |b: &Block| b.key & !set == 0 && b.pairs.iter().any(|p| p.1 <= cost && p.0 & !set == 0);
    blocks.iter().rev().any(of_block)
}

fn put(blocks: &mut Vec<Block>, set: u128, cost: u64) {
    let Some(at) = blocks.iter().rposition(|block| block.key & !set == 0) else {
        blocks.push(Block { key: 0, pairs: vec![(set, cost)] });
        return;
    };
    let block = &mut blocks[at];
    if let Some(pair) = block.pairs.iter_mut().find(|pair| pair.0 == set) {
        pair.1 = pair.1.min(cost);
        return;
    }
    block.pairs.push((set, cost));
    let size = block.pairs.len();
    if size == 65 || (size > 64 && size.is_power_of_two()) {
        split(blocks, at);
    }
}

// The pairs that have the toll which parts them most evenly move to a new last block, where at least 4 are on either side.
fn split(blocks: &mut Vec<Block>, at: usize) {
    let block = &mut blocks[at];
    let (some, all) = block.pairs.iter().fold((0, u128::MAX), |(some, all), pair| (some | pair.0, all & pair.0));
    let even = |toll: u32| {
        let with = block.pairs.iter().filter(|pair| pair.0 >> toll & 1 == 1).count();
        (with.min(block.pairs.len() - with), Reverse(toll))
    };
    let most = (0..128).filter(|toll| (some & !all) >> toll & 1 == 1).map(even).max();
    let Some((4.., Reverse(toll))) = most else {
        return;
    };
    let (pairs, without) = block.pairs.iter().partition(|pair| pair.0 >> toll & 1 == 1);
    block.pairs = without;
    let key = block.key | 1 << toll;
    blocks.push(Block { key, pairs });
}

// The arcs of a node by which its labels have to be extended, as they are tried.
fn needed(search: &Search, leaving: &[u32]) -> Vec<u32> {
    let arcs = &search.net.arcs;
    let onward = |arc: &u32| search.onward[arcs[*arc as usize].head as usize].map(|more| arcs[*arc as usize].cost + more);
    let spares = |by: &u32, arc: &u32| {
        let (b, x) = (arcs[*by as usize], arcs[*arc as usize]);
        b.toll.is_none() && b.head == x.head && (b.cost < x.cost || b.cost == x.cost && (x.toll.is_some() || by < arc))
    };
    let mut cheapest: std::collections::HashMap<u32, u32> = std::collections::HashMap::new();
    for arc in leaving {
        let x = arcs[*arc as usize];
        if x.toll.is_none() && !cheapest.get(&x.head).is_some_and(|by| spares(by, arc)) {
            cheapest.insert(x.head, *arc);
        }
    }
    let is_needed = |arc: &&u32| {
        let x = arcs[**arc as usize];
        x.head != x.tail
            && !cheapest.get(&x.head).is_some_and(|by| spares(by, arc))
            && onward(arc).is_some_and(|least| least < search.free)
    };
    let mut needed: Vec<u32> = leaving.iter().filter(is_needed).copied().collect();
    needed.sort_by_key(|arc| {
        let x = arcs[*arc as usize];
        (onward(arc), x.toll.is_some(), x.cost, x.head, *arc)
    });
    needed
}

// Lets the label wait by the first of its last arcs, as many as are left, whose extension can win and is not dominated.
fn advance(search: &mut Search, needed: &[Vec<u32>], table: &[Vec<Block>], number: u32, left: usize) {
    let from = search.labels[number as usize];
    let ways = &needed[from.node as usize];
    for rest in (1..=left).rev() {
        let arc = ways[ways.len() - rest];
        let x = search.net.arcs[arc as usize];
        if x.toll.is_some_and(|toll| from.tolls >> toll & 1 == 1) {
            continue;
        }
        let Some(p) = search.extension(number, arc, rest) else {
            return;
        };
        if !dominates(&table[p.node as usize], p.set, p.cost) {
            search.pending.push(Reverse(p));
            return;
        }
    }
}

// A label waits by its next needed arc, and the labels of a node are in blocks. None where there are too many labels.
fn one_waits(search: &mut Search, leaving: &[Vec<u32>]) -> Option<()> {
    let Some(first) = search.labels.first().copied() else {
        return Some(());
    };
    let needed: Vec<Vec<u32>> = leaving.iter().map(|arcs| needed(search, arcs)).collect();
    let mut table: Vec<Vec<Block>> = Vec::new();
    table.resize_with(search.net.nodes as usize, Vec::new);
    put(&mut table[first.node as usize], 0, 0);
    advance(search, &needed, &table, 0, needed[first.node as usize].len());
    while let Some(Reverse(p)) = search.pending.pop() {
        if dominates(&table[p.node as usize], p.set, p.cost) {
            advance(search, &needed, &table, p.parent, p.left - 1);
            continue;
        }
        if search.labels.len() == MOST {
            return None;
        }
        let number = search.take(p);
        put(&mut table[p.node as usize], p.set, p.cost);
        advance(search, &needed, &table, p.parent, p.left - 1);
        advance(search, &needed, &table, number, needed[p.node as usize].len());
    }
    Some(())
}

// What a search of all commodities found, up to the first that has too many labels.
#[derive(Default)]
struct Found {
    labels: usize,
    paths: usize,
    extensions: u64,
    sum: u128,
    refused: bool,
}

fn searched(net: &Network, leaving: &[Vec<u32>], one: bool) -> Found {
    let mut found = Found::default();
    for (origin, destination) in &net.pairs {
        let onward = distances(net, *destination, true);
        let free = distances(net, *destination, false)[*origin as usize].unwrap();
        let mut search = start(net, &onward, free, *origin);
        let kept = if one { one_waits(&mut search, leaving) } else { all_wait(&mut search, leaving) };
        found.labels += search.labels.len();
        found.extensions += search.extensions;
        found.paths += 1 + search.labels.iter().filter(|label| label.node == *destination).count();
        for (number, label) in search.labels.iter().enumerate() {
            let mixed = label.tolls ^ u128::from(label.cost) << 64 ^ u128::from(label.node) << 32 ^ u128::from(label.last);
            found.sum = found.sum.wrapping_add(mixed.wrapping_mul(number as u128 * 2 + 1));
        }
        if kept.is_none() {
            found.refused = true;
            break;
        }
    }
    found
}

fn main() -> io::Result<()> {
    let words: Vec<String> = env::args().collect();
    if words[1] == "write" {
        let numbers: Vec<i64> = words[3..].iter().map(|word| word.parse().unwrap()).collect();
        return family(&words[2], &numbers).print();
    }
    let net = Network::read();
    let leaving = net.leaving();
    let repeat: u32 = words[2].parse().unwrap();
    let before = NOW.load(Relaxed);
    PEAK.store(before, Relaxed);
    let mut found = Found::default();
    for _ in 0..repeat {
        found = searched(&net, &leaving, words[1] == "one-waits");
    }
    let end = if found.refused { "refused" } else { "found" };
    let Found { labels, paths, extensions, sum, .. } = found;
    let peak = (PEAK.load(Relaxed) - before) as f64 / 1e6;
    println!("{end} {labels} labels {paths} paths {extensions} extensions {peak:.1} MB sum {sum:x}");
    Ok(())
}
