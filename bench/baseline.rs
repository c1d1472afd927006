//! A straightforward placer of the same lists, to compare cost with. It follows the rules of document 01 and, above the spot, of document
//! 02, L2, by the same method: decide a corner, carry the decision on, walk the sites in list order, bisect for the side. Usage:
//!     baseline place [above] [SIDE] < LIST   writes the sheet, with four corners or 1 and 2, at the side found or at this one
//!     baseline list KIND N                   writes a list: random, grid, row, diagonal, antidiagonal, packed, jitter
use std::io::{self, Read, Write};

const FREE: i64 = 20_001;
const DIRECTIONS: [(i64, i64); 4] = [(1, 1), (-1, 1), (-1, -1), (1, -1)];

/// Which corners count: of all four those that are not crowded, or 1 and 2, crowded or not.
#[derive(Clone, Copy)]
enum Way {
    Usual,
    Above,
}

#[derive(Clone)]
struct Site {
    name: String,
    x: i64,
    y: i64,
}

#[derive(Clone)]
struct State {
    open: Vec<[bool; 4]>,
    decided: Vec<Option<usize>>,
}

fn overlap(h: i64, d: i64, a: i64, e: i64, b: i64) -> bool {
    if d == e {
        h > 2 * (a - b).abs()
    } else {
        let gap = if d == 1 { b - a } else { a - b };
        gap >= 0 && h > gap
    }
}

fn meet(h: i64, s: &Site, c: usize, t: &Site, e: usize) -> bool {
    let (dx, dy) = DIRECTIONS[c];
    let (ex, ey) = DIRECTIONS[e];
    overlap(h, dx, s.x, ex, t.x) && overlap(h, dy, s.y, ey, t.y)
}

fn crowded(h: i64, sites: &[Site], i: usize, c: usize) -> bool {
    let (dx, dy) = DIRECTIONS[c];
    sites.iter().enumerate().any(|(j, t)| {
        let a = dx * (t.x - sites[i].x);
        let b = dy * (t.y - sites[i].y);
        j != i && a >= 0 && b >= 0 && a.max(b) < h
    })
}

// Whether a corner counts before any corner is decided.
fn is_open(way: Way, h: i64, sites: &[Site], i: usize, c: usize) -> bool {
    match way {
        Way::Usual => !crowded(h, sites, i, c),
        Way::Above => c < 2,
    }
}

fn try_corner(h: i64, sites: &[Site], state: &State, i: usize, c: usize) -> Option<State> {
    let mut next = state.clone();
    next.open[i] = [false; 4];
    next.open[i][c] = true;
    next.decided[i] = Some(c);
    let mut waiting = vec![i];
    while let Some(k) = waiting.pop() {
        let kept = next.decided[k].unwrap();
        for j in 0..sites.len() {
            if j == k {
                continue;
            }
            let mut lost = false;
            for e in 0..4 {
                if next.open[j][e] && meet(h, &sites[k], kept, &sites[j], e) {
                    next.open[j][e] = false;
                    lost = true;
                }
            }
            if lost {
                let left: Vec<usize> = (0..4).filter(|&e| next.open[j][e]).collect();
                if left.is_empty() {
                    return None;
                }
                if left.len() == 1 && next.decided[j].is_none() {
                    next.decided[j] = Some(left[0]);
                    waiting.push(j);
                }
            }
        }
    }
    Some(next)
}

fn choose(way: Way, h: i64, sites: &[Site]) -> Option<Vec<usize>> {
    let n = sites.len();
    let mut open = vec![[false; 4]; n];
    for i in 0..n {
        for c in 0..4 {
            open[i][c] = is_open(way, h, sites, i, c);
        }
    }
    let mut state = State { open, decided: vec![None; n] };
    for i in 0..n {
        if state.decided[i].is_none() {
            let found = (0..4).filter(|&c| state.open[i][c]).find_map(|c| try_corner(h, sites, &state, i, c));
            state = found?;
        }
    }
    Some(state.decided.iter().map(|c| c.unwrap()).collect())
}

fn place(way: Way, sites: &[Site]) -> (Option<i64>, Vec<usize>) {
    if let Some(corners) = choose(way, FREE, sites) {
        return (None, corners);
    }
    let (mut low, mut high) = (1, FREE);
    let mut best = vec![0; sites.len()];
    while low + 1 < high {
        let middle = (low + high) / 2;
        match choose(way, middle, sites) {
            Some(corners) => {
                best = corners;
                low = middle;
            }
            None => high = middle,
        }
    }
    (Some(low), best)
}

fn sheet_with(sites: &[Site], side: Option<i64>, corners: Vec<usize>) -> String {
    let mut text = match side {
        Some(h) => format!("side\t{}\n", h),
        None => String::from("side\tfree\n"),
    };
    for (s, c) in sites.iter().zip(corners) {
        text.push_str(&format!("{}\t{}\t{}\t{}\n", s.name, s.x, s.y, c + 1));
    }
    text
}

fn sheet(way: Way, sites: &[Site]) -> String {
    let (side, corners) = place(way, sites);
    sheet_with(sites, side, corners)
}

// The sheet at a given side, from 1 to 20,000 or free, or its refusal.
fn sheet_at(way: Way, sites: &[Site], word: &str) -> String {
    let side = word.parse().ok();
    match choose(way, side.unwrap_or(FREE), sites) {
        Some(corners) => sheet_with(sites, side, corners),
        None => String::from("refused\t12\n"),
    }
}

fn read_list() -> Vec<Site> {
    let mut text = String::new();
    io::stdin().read_to_string(&mut text).unwrap();
    let mut sites: Vec<Site> = Vec::new();
    for line in text.lines() {
        let fields: Vec<&str> = line.split('\t').collect();
        let site = Site { name: fields[0].to_string(), x: fields[1].parse().unwrap(), y: fields[2].parse().unwrap() };
        assert!(sites.iter().all(|s| s.name != site.name && (s.x, s.y) != (site.x, site.y)));
        sites.push(site);
    }
    sites
}

/// A list of n different places of one kind; the numbers come from a fixed linear congruence.
fn make_list(kind: &str, n: usize) -> String {
    let mut seed: u64 = 20_251_115;
    let mut random = |below: u64| {
        seed = seed.wrapping_mul(6_364_136_223_846_793_005).wrapping_add(1_442_695_040_888_963_407);
        ((seed >> 33) % below) as i64
    };
    let mut places: Vec<(i64, i64)> = Vec::new();
    let mut i = 0;
    while places.len() < n {
        let k = i as i64;
        i += 1;
        let place = match kind {
            "random" => (random(10_001), random(10_001)),
            "grid" => (250 * (k % 16), 500 * (k / 16)),
            "row" => (40 * k, 5_000),
            "diagonal" => (40 * k, 40 * k),
            "antidiagonal" => (40 * k, 10_000 - 40 * k),
            "packed" => (random(40), random(40)),
            "jitter" => (600 * (k % 16) + random(101), 600 * (k / 16) + random(101)),
            _ => panic!("no such kind of list"),
        };
        if !places.contains(&place) {
            places.push(place);
        }
    }
    places.iter().enumerate().map(|(i, (x, y))| format!("S{}\t{}\t{}\n", i, x, y)).collect()
}

fn main() {
    let words: Vec<String> = std::env::args().collect();
    let words: Vec<&str> = words.iter().skip(1).map(|w| w.as_str()).collect();
    let text = match words[..] {
        ["place"] => sheet(Way::Usual, &read_list()),
        ["place", "above"] => sheet(Way::Above, &read_list()),
        ["place", side] => sheet_at(Way::Usual, &read_list(), side),
        ["place", "above", side] => sheet_at(Way::Above, &read_list(), side),
        ["list", kind, n] => make_list(kind, n.parse().unwrap()),
        _ => panic!("usage: baseline place [above] [SIDE] < LIST, or baseline list KIND N"),
    };
    io::stdout().write_all(text.as_bytes()).unwrap();
}
