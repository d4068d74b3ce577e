//! The rules 3 to 8 by the same brute force as `check`, in plain Rust, to compare speeds.
//! Build with `rustc -O`. Reads a map as text (see docs/MODEL.md), checks it a given number of times
//! and prints the time of one check.
use std::io::Read;
use std::time::Instant;

const NONE: u32 = u32::MAX;

#[derive(Clone, Copy)]
struct Point {
    x: f64,
    y: f64,
}

struct Map {
    shelf: Vec<Point>,
    out: Vec<u32>,
    halves: Vec<[u32; 4]>,
    adjacent: Vec<u32>,
}

impl Map {
    fn place(&self, v: u32) -> (i64, i64) {
        let p = self.shelf[v as usize];
        (p.x as u16 as i64, p.y as u16 as i64)
    }

    fn next(&self, h: u32) -> u32 {
        self.halves[h as usize][0]
    }

    fn prev(&self, h: u32) -> u32 {
        self.halves[h as usize][1]
    }

    fn face(&self, h: u32) -> u32 {
        self.halves[h as usize][2]
    }

    fn origin(&self, h: u32) -> u32 {
        self.halves[h as usize][3]
    }
}

fn side(a: (i64, i64), b: (i64, i64), q: (i64, i64)) -> i64 {
    (b.0 - a.0) * (q.1 - a.1) - (b.1 - a.1) * (q.0 - a.0)
}

fn dot(o: (i64, i64), a: (i64, i64), b: (i64, i64)) -> i64 {
    (a.0 - o.0) * (b.0 - o.0) + (a.1 - o.1) * (b.1 - o.1)
}

fn incircle(a: (i64, i64), b: (i64, i64), c: (i64, i64), d: (i64, i64)) -> i64 {
    let (px, py) = (a.0 - d.0, a.1 - d.1);
    let (qx, qy) = (b.0 - d.0, b.1 - d.1);
    let (rx, ry) = (c.0 - d.0, c.1 - d.1);
    let (pz, qz, rz) = (px * px + py * py, qx * qx + qy * qy, rx * rx + ry * ry);
    px * (qy * rz - qz * ry) - py * (qx * rz - qz * rx) + pz * (qx * ry - qy * rx)
}

fn reaches(step: impl Fn(u32) -> u32, bound: usize, start: u32, goal: u32) -> bool {
    let mut at = start;
    for _ in 0..bound {
        if at == goal {
            return true;
        }
        at = step(at);
    }
    false
}

fn sound(m: &Map) -> bool {
    let (n, h2, f) = (m.shelf.len() as u32, m.halves.len() as u32, m.adjacent.len() as u32);
    let e = h2 / 2;
    let named = |l: u32| l == NONE || l < h2;
    (0..n).all(|v| named(m.out[v as usize]))
        && (0..h2).all(|h| m.next(h) < h2 && m.prev(h) < h2 && m.face(h) < f && m.origin(h) < n)
        && (0..f).all(|k| named(m.adjacent[k as usize]))
        && (0..n).all(|v| (m.out[v as usize] != NONE) == (n >= 2))
        && (0..f).all(|k| (m.adjacent[k as usize] != NONE) == (n >= 2))
        && (0..h2).all(|h| m.prev(m.next(h)) == h && m.next(m.prev(h)) == h)
        && (0..h2).all(|h| m.face(m.next(h)) == m.face(h))
        && (0..h2).all(|h| m.origin(h ^ 1) == m.origin(m.next(h)))
        && (0..n).all(|v| m.origin(m.out[v as usize]) == v)
        && (0..h2).all(|h| reaches(|a| m.prev(a) ^ 1, h2 as usize, m.out[m.origin(h) as usize], h))
        && (0..f).all(|k| m.face(m.adjacent[k as usize]) == k)
        && (0..h2).all(|h| reaches(|a| m.next(a), h2 as usize, m.adjacent[m.face(h) as usize], h))
        && (0..e).all(|k| f <= 1 || m.face(2 * k) != m.face(2 * k + 1))
        && (0..e).all(|k| m.origin(2 * k) != m.origin(2 * k + 1))
        && n + f == e + 2
        && (1..f).all(|k| {
            let a = m.adjacent[k as usize];
            let b = m.next(a);
            let c = m.next(b);
            let [p, q, r] = [a, b, c].map(|h| m.place(m.origin(h)));
            b != a && m.next(c) == a && side(p, q, r) > 0
        })
        && (0..e).all(|k| m.place(m.origin(2 * k)) != m.place(m.origin(2 * k + 1)))
        && (0..e).all(|k| {
            let (a, b) = (m.origin(2 * k), m.origin(2 * k + 1));
            (k + 1..e).all(|l| {
                let (c, d) = (m.origin(2 * l), m.origin(2 * l + 1));
                !(a == c && b == d || a == d && b == c)
            })
        })
        && (0..e).all(|k| {
            let (from, to) = (m.origin(2 * k), m.origin(2 * k + 1));
            let (a, b) = (m.place(from), m.place(to));
            (0..n).all(|v| {
                let q = m.place(v);
                !(side(a, b, q) == 0 && dot(q, a, b) <= 0) || v == from || v == to
            })
        })
        && (0..h2).filter(|&h| m.face(h) == 0).all(|h| {
            let (a, b) = (m.place(m.origin(h)), m.place(m.origin(h ^ 1)));
            (0..n).all(|v| side(a, b, m.place(v)) <= 0)
        })
        && (1..f).all(|k| {
            let a = m.adjacent[k as usize];
            let b = m.next(a);
            let c = m.next(b);
            let [p, q, r] = [a, b, c].map(|h| m.place(m.origin(h)));
            (0..n).all(|v| incircle(p, q, r, m.place(v)) <= 0)
        })
}

fn main() {
    let times: u32 = std::env::args().nth(1).and_then(|s| s.parse().ok()).unwrap_or(1);
    let mut text = String::new();
    std::io::stdin().read_to_string(&mut text).expect("text");
    let mut words = text.split_whitespace().map(|w| if w == "-" { NONE } else { w.parse::<u32>().expect("number") });
    let mut take = || words.next().expect("a number");
    let (n, e, f) = (take(), take(), take());
    let shelf = (0..n).map(|_| Point { x: take() as f64, y: take() as f64 }).collect();
    let out = (0..n).map(|_| take()).collect();
    let halves = (0..2 * e).map(|_| [take(), take(), take(), take()]).collect();
    let adjacent = (0..f).map(|_| take()).collect();
    let map = Map { shelf, out, halves, adjacent };
    let start = Instant::now();
    let mut good = true;
    for _ in 0..times {
        good &= sound(std::hint::black_box(&map));
    }
    let each = start.elapsed().as_secs_f64() / times as f64;
    println!("sound: {good}, one check: {:.1} ms, {:.0} ns an entry", each * 1e3, each * 1e9 / n as f64);
}
