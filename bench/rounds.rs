// An independent reckoning of what crates/timing prints, by another way: the answers are found by the textbook climb
// (l := C + floor(S(l) / m), from l = C), the choice of lc by sorting. It also counts the rounds of both climbs.
// A range is open if tasks can be taken away one by one, any that passes below all that are left, highest-numbered first;
// the ends of a grown range are sought digit by digit.
//   rustc -O -o /tmp/rounds bench/rounds.rs && /tmp/rounds 20
struct Row { c: u64, t: u64, d: u64 }
struct Numbers(u32);

impl Numbers {
    fn below(&mut self, limit: u32) -> u32 {
        self.0 = self.0.wrapping_mul(1_664_525).wrapping_add(1_013_904_223);
        if limit == 0 { 0 } else { self.0 / 2048 % limit }
    }
}

fn work(r: &Row, q: u64) -> u64 { q / r.t * r.c + r.c.min(q % r.t) }

// The loads before the cap that make up S(l): by deadline windows, all carried, or the best m - 1 carried.
fn held(test: &str, m: u64, rows: &[Row], e: &[u64], i: usize, above: &[usize], l: u64) -> Vec<u64> {
    let cap = l - rows[i].c + 1;
    match test {
        "da" => above.iter().map(|&j| work(&rows[j], l + rows[j].d - rows[j].c)).collect(),
        "rta" => above.iter().map(|&j| work(&rows[j], l + e[j] - rows[j].c)).collect(),
        _ => {
            let carried: Vec<u64> = above.iter().map(|&j| work(&rows[j], l + e[j] - rows[j].c)).collect();
            let mut plain: Vec<u64> = above.iter().map(|&j| work(&rows[j], l)).collect();
            let mut best: Vec<usize> = (0..above.len()).collect();
            best.sort_by_key(|&j| std::cmp::Reverse(carried[j].min(cap) - plain[j].min(cap)));
            for &j in best.iter().take(m as usize - 1) {
                if carried[j].min(cap) > plain[j].min(cap) { plain[j] = carried[j]; }
            }
            plain
        }
    }
}

fn sum(h: &[u64], cap: u64) -> u64 { h.iter().map(|x| x.min(&cap)).sum() }

// The answer (0 for late), and the rounds of the textbook climb.
fn textbook(test: &str, m: u64, rows: &[Row], e: &[u64], i: usize, above: &[usize]) -> (u64, u64) {
    let own = &rows[i];
    if test == "da" {
        let s = sum(&held(test, m, rows, e, i, above, own.d), own.d - own.c + 1);
        let b = own.c + s / m;
        return (if b <= own.d { b } else { 0 }, 1);
    }
    let (mut l, mut rounds) = (own.c, 0);
    while l <= own.d {
        rounds += 1;
        let next = own.c + sum(&held(test, m, rows, e, i, above, l), l - own.c + 1) / m;
        if next <= l { return (l, rounds); }
        l = next;
    }
    (0, rounds)
}

// The rounds of the climb that skips.
fn skipping(test: &str, m: u64, rows: &[Row], e: &[u64], i: usize, above: &[usize]) -> u64 {
    let own = &rows[i];
    if test == "da" { return 1; }
    let (mut y, mut rounds) = (1, 0);
    while y <= own.d - own.c + 1 {
        rounds += 1;
        let h = held(test, m, rows, e, i, above, own.c + y - 1);
        let s = sum(&h, y);
        if s < m * y { break; }
        let over: Vec<u64> = h.iter().copied().filter(|x| *x > y).collect();
        let rest: u64 = h.iter().filter(|x| **x <= y).sum();
        let k = over.len() as u64;
        let jump = if k >= m { over.iter().min().unwrap() + 1 } else if k == 0 { rest / m + 1 } else { (rest / (m - k) + 1).min(over.iter().min().unwrap() + 1) };
        y = (s / m + 1).max(jump);
    }
    rounds
}

fn open(test: &str, m: u64, rows: &[Row], low: &[u64], high: &[u64]) -> bool {
    let mut left: Vec<usize> = (0..rows.len()).collect();
    while let Some(at) = (0..left.len()).rev().find(|&at| {
        let above: Vec<usize> = left.iter().copied().filter(|&j| j != left[at]).collect();
        let bound = textbook(test, m, rows, low, left[at], &above).0;
        bound != 0 && bound <= high[left[at]]
    }) {
        left.remove(at);
    }
    left.is_empty()
}

// How far an end can go: the greatest step up to the span at which the range is closed.
fn farthest(span: u64, closed: impl Fn(u64) -> bool) -> u64 {
    let (mut by, mut digit) = (0, 1 << 20);
    while digit > 0 {
        if by + digit <= span && closed(by + digit) { by += digit; }
        digit /= 2;
    }
    by
}

fn grow(test: &str, m: u64, rows: &[Row], low: &mut Vec<u64>, high: &mut Vec<u64>) {
    if open(test, m, rows, low, high) { return; }
    for k in 0..rows.len() {
        let by = farthest(low[k] - rows[k].c, |by| { let mut to = low.clone(); to[k] -= by; !open(test, m, rows, &to, high) });
        low[k] -= by;
        let by = farthest(rows[k].d - high[k], |by| { let mut to = high.clone(); to[k] += by; !open(test, m, rows, low, &to) });
        high[k] += by;
    }
}

// A pseudo-random table and a list of estimates.
fn case(numbers: &mut Numbers, n: usize, longest: u32) -> (Vec<Row>, Vec<u64>) {
    let (mut rows, mut e) = (vec![], vec![]);
    for _ in 0..n {
        let t = numbers.below(longest) + 1;
        let d = numbers.below(t) + 1;
        let c = numbers.below(d / 4) + 1;
        e.push((c + numbers.below(d - c + 1)) as u64);
        rows.push(Row { c: c as u64, t: t as u64, d: d as u64 });
    }
    (rows, e)
}

fn main() {
    let tables: u32 = std::env::args().nth(1).and_then(|w| w.parse().ok()).unwrap_or(20);
    println!("test rows longest checksum");
    for test in ["da", "rta", "lc"] {
        for (n, longest) in [(8, 1_000), (16, 1_000), (32, 1_000), (8, 1_000_000), (16, 1_000_000), (32, 1_000_000)] {
            let (mut numbers, mut check) = (Numbers(1), 0u32);
            let (mut old, mut new, mut most_old, mut most_new, mut asked) = (0, 0, 0, 0, 0);
            for _ in 0..tables {
                let (rows, e) = case(&mut numbers, n, longest);
                for i in 0..n {
                    let above: Vec<usize> = (0..i).collect();
                    let (a, x) = textbook(test, 4, &rows, &e, i, &above);
                    let y = skipping(test, 4, &rows, &e, i, &above);
                    check = check.wrapping_mul(31).wrapping_add(a as u32);
                    asked += 1;
                    old += x;
                    new += y;
                    most_old = most_old.max(x);
                    most_new = most_new.max(y);
                }
            }
            println!("{test} {n} {longest} {check}");
            eprintln!("{test} {n} {longest}: rounds {:.1} (most {most_new}), textbook {:.1} (most {most_old})", new as f64 / asked as f64, old as f64 / asked as f64);
        }
    }
    println!("test rows longest grown");
    for test in ["da", "rta", "lc"] {
        let (mut numbers, mut check) = (Numbers(1), 0u32);
        for _ in 0..tables {
            let (rows, e) = case(&mut numbers, 20, 1_000_000);
            let mut low: Vec<u64> = rows.iter().zip(&e).map(|(r, x)| r.c + (x - r.c) / 4).collect();
            let mut high = low.clone();
            grow(test, 4, &rows, &mut low, &mut high);
            for k in 0..32 {
                for end in [&low, &high] {
                    check = check.wrapping_mul(31).wrapping_add(*end.get(k).unwrap_or(&0) as u32);
                }
            }
        }
        println!("{test} 20 1000000 {check}");
    }
}
