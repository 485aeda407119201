// The job of `mark`, written plainly: the same sheets in, the same report out, for a comparison of speed.
// It climbs as textbooks do, sorts what `lc` carries in, fills levels as Audsley's method does, and halves to grow an end.
//   rustc -O -o /tmp/mark bench/mark.rs && (cd examples/worked && /tmp/mark)
use std::fmt::Write as _;
use std::fs;
use std::process::exit;

#[derive(Clone, Copy)]
struct Row {
    c: u64,
    t: u64,
    d: u64,
}

struct Test {
    kind: String,
    m: u64,
    overhead: u64,
}

struct Fault {
    number: u32,
    sheet: u32,
    line: usize,
    field: usize,
}

fn work(r: Row, q: u64) -> u64 {
    q / r.t * r.c + r.c.min(q % r.t)
}

impl Test {
    fn load(&self, rows: &[Row], e: &[u64], i: usize, above: &[bool], l: u64, deadlines: bool) -> u64 {
        let cap = l - rows[i].c + 1;
        let (mut plain, mut extras) = (0, Vec::new());
        for j in (0..rows.len()).filter(|&j| above[j]) {
            let estimate = if deadlines { rows[j].d } else { e[j] };
            let carried = work(rows[j], l + estimate - rows[j].c).min(cap);
            if self.kind == "lc" {
                let own = work(rows[j], l).min(cap);
                plain += own;
                extras.push(carried - own);
            } else {
                plain += carried;
            }
        }
        extras.sort_unstable_by(|a, b| b.cmp(a));
        plain + extras.iter().take(self.m as usize - 1).sum::<u64>()
    }

    fn bound(&self, rows: &[Row], e: &[u64], i: usize, above: &[bool]) -> Option<u64> {
        let Row { c, d, .. } = rows[i];
        if self.kind == "da" {
            let bound = c + self.load(rows, e, i, above, d, true) / self.m;
            return (bound <= d).then_some(bound);
        }
        let mut l = c;
        while l <= d {
            let next = c + self.load(rows, e, i, above, l, false) / self.m;
            if next <= l {
                return Some(l);
            }
            l = next;
        }
        None
    }

    fn ask(&self, rows: &[Row], e: &[u64], i: usize, above: &[bool]) -> Option<u64> {
        let bound = self.bound(rows, e, i, above)? + self.overhead;
        (bound <= rows[i].d).then_some(bound)
    }

    fn assign(&self, rows: &[Row], lows: &[u64], highs: &[u64]) -> Option<Vec<usize>> {
        let mut left = vec![true; rows.len()];
        let mut order = vec![0; rows.len()];
        for level in (0..rows.len()).rev() {
            let task = (0..rows.len()).find(|&k| {
                if !left[k] {
                    return false;
                }
                let mut above = left.clone();
                above[k] = false;
                self.ask(rows, lows, k, &above).is_some_and(|b| b <= highs[k])
            })?;
            left[task] = false;
            order[level] = task;
        }
        Some(order)
    }

    fn grow(&self, rows: &[Row], range: &(Vec<u64>, Vec<u64>)) -> (Vec<u64>, Vec<u64>) {
        let (mut lows, mut highs) = range.clone();
        for k in 0..rows.len() {
            let (mut least, mut most) = (rows[k].c, lows[k]);
            while least < most {
                let middle = (least + most) / 2;
                lows[k] = middle;
                if self.assign(rows, &lows, &highs).is_none() { most = middle } else { least = middle + 1 }
            }
            lows[k] = most;
            let (mut least, mut most) = (highs[k], rows[k].d);
            while least < most {
                let middle = (least + most).div_ceil(2);
                highs[k] = middle;
                if self.assign(rows, &lows, &highs).is_none() { least = middle } else { most = middle - 1 }
            }
            highs[k] = least;
        }
        (lows, highs)
    }
}

struct Search {
    verdict: &'static str,
    ranges: usize,
    steps: usize,
    found: Option<(Vec<usize>, Vec<u64>)>,
}

fn search(test: &Test, rows: &[Row], slots: usize) -> Search {
    let all = (rows.iter().map(|r| r.c).collect::<Vec<_>>(), rows.iter().map(|r| r.d).collect::<Vec<_>>());
    let (mut pending, mut ranges, mut steps) = (vec![all], 0, 0);
    loop {
        steps += 1;
        let Some(taken) = pending.last().cloned() else {
            return Search { verdict: "none", ranges, steps, found: None };
        };
        let stopped = Search { verdict: "stopped", ranges, steps, found: None };
        if test.assign(rows, &taken.0, &taken.1).is_none() {
            if ranges == slots {
                return stopped;
            }
            test.grow(rows, &taken);
            ranges += 1;
            pending.pop();
            continue;
        }
        if let Some(order) = test.assign(rows, &taken.0, &taken.0) {
            return Search { verdict: "found", ranges, steps, found: Some((order, taken.0)) };
        }
        let (_, bound) = test.grow(rows, &(taken.0.clone(), taken.0.clone()));
        let mut cut = taken.1.clone();
        let mut pieces = Vec::new();
        for k in 0..rows.len() {
            if bound[k] < taken.1[k] {
                let mut lows = taken.0.clone();
                lows[k] = bound[k] + 1;
                pieces.push((lows, cut.clone()));
            }
            cut[k] = bound[k].min(taken.1[k]);
        }
        if ranges == slots || pending.len() - 1 + pieces.len() > slots {
            return stopped;
        }
        ranges += 1;
        pending.pop();
        pending.extend(pieces);
    }
}

struct Sheet<'a> {
    number: u32,
    names: Vec<&'a str>,
    lines: Vec<Vec<&'a str>>,
}

fn is_name(field: &str) -> bool {
    (1..=16).contains(&field.len()) && field.bytes().all(|b| b.is_ascii_lowercase() || b.is_ascii_digit() || b == b'-')
}

fn is_number(field: &str) -> bool {
    let digits = !field.is_empty() && field.bytes().all(|b| b.is_ascii_digit());
    digits && (field == "0" || !field.starts_with('0')) && field.len() <= 7 && field.parse::<u64>().is_ok_and(|n| n <= 1_000_000)
}

fn read<'a>(number: u32, text: &'a str, wanted: &[&str], most: usize) -> Result<Sheet<'a>, Fault> {
    let fault = |question, line, field| Fault { number: question, sheet: number, line, field };
    let Some(body) = text.strip_suffix('\n').filter(|_| text.len() <= 4096) else {
        return Err(fault(1, 0, 0));
    };
    let lines: Vec<Vec<&str>> = body.split('\n').map(|line| line.split(' ').collect()).collect();
    let names = lines[0].clone();
    if names.len() != wanted.len() || !wanted.iter().all(|name| names.contains(name)) {
        return Err(fault(2, 1, 0));
    }
    for (place, line) in lines.iter().enumerate().skip(1) {
        if line.len() != names.len() {
            return Err(fault(3, place + 1, 0));
        }
        for (at, field) in line.iter().enumerate() {
            let fits = if ["task", "test"].contains(&names[at]) { is_name(field) } else { is_number(field) };
            if !fits {
                return Err(fault(4, place + 1, at + 1));
            }
        }
    }
    match lines.len() - 1 {
        0 => Err(fault(5, 1, 0)),
        n if n > most => Err(fault(5, most + 2, 0)),
        _ => Ok(Sheet { number, names, lines: lines[1..].to_vec() }),
    }
}

impl<'a> Sheet<'a> {
    fn at(&self, name: &str) -> usize {
        self.names.iter().position(|n| *n == name).unwrap()
    }

    fn field(&self, line: usize, name: &str) -> &'a str {
        self.lines[line][self.at(name)]
    }

    fn value(&self, line: usize, name: &str) -> u64 {
        self.field(line, name).parse().unwrap()
    }

    fn fault(&self, question: u32, line: usize, field: Option<&str>) -> Fault {
        Fault { number: question, sheet: self.number, line: line + 2, field: field.map_or(0, |name| self.at(name) + 1) }
    }
}

fn mark(texts: [&str; 3]) -> Result<String, Fault> {
    let board = read(1, texts[0], &["processors", "overhead", "test"], 1)?;
    let tasks = read(2, texts[1], &["task", "wcet", "period", "deadline"], 32)?;
    let answer = read(3, texts[2], &["task", "estimate"], 32)?;
    let test = Test { kind: board.field(0, "test").to_string(), m: board.value(0, "processors"), overhead: board.value(0, "overhead") };
    let mut bad: Vec<&str> = Vec::new();
    if !(1..=16).contains(&test.m) {
        bad.push("processors");
    }
    if !["da", "rta", "lc"].contains(&test.kind.as_str()) {
        bad.push("test");
    }
    if let Some(name) = bad.iter().min_by_key(|name| board.at(name)) {
        return Err(board.fault(12, 0, Some(name)));
    }
    let names: Vec<&str> = (0..tasks.lines.len()).map(|k| tasks.field(k, "task")).collect();
    let answered: Vec<&str> = (0..answer.lines.len()).map(|k| answer.field(k, "task")).collect();
    for k in 0..names.len() {
        if names[..k].contains(&names[k]) {
            return Err(tasks.fault(6, k, Some("task")));
        }
    }
    let mut order = Vec::new();
    for k in 0..answered.len() {
        match names.iter().position(|name| *name == answered[k]) {
            Some(row) if !answered[..k].contains(&answered[k]) => order.push(row),
            _ => return Err(answer.fault(7, k, Some("task"))),
        }
    }
    if let Some(k) = (0..names.len()).find(|&k| !answered.contains(&names[k])) {
        return Err(tasks.fault(8, k, None));
    }
    let mut rows = Vec::new();
    for k in 0..names.len() {
        let row = Row { c: tasks.value(k, "wcet"), t: tasks.value(k, "period"), d: tasks.value(k, "deadline") };
        if !(1 <= row.c && row.c <= row.d && row.d <= row.t) {
            return Err(tasks.fault(11, k, None));
        }
        rows.push(row);
    }
    let mut estimates = vec![0; rows.len()];
    for (k, &row) in order.iter().enumerate() {
        estimates[row] = answer.value(k, "estimate");
        if !(rows[row].c..=rows[row].d).contains(&estimates[row]) {
            return Err(answer.fault(17, k, Some("estimate")));
        }
    }
    let found = search(&test, &rows, 96);
    let mut out = String::new();
    writeln!(out, "verdict ranges steps\n{} {} {}\nlevel task estimate", found.verdict, found.ranges, found.steps).unwrap();
    if let Some((order, lows)) = found.found {
        for (level, &row) in order.iter().enumerate() {
            writeln!(out, "{} {} {}", level + 1, names[row], lows[row]).unwrap();
        }
    }
    out.push_str("answer task bound\n");
    let mut above = vec![false; rows.len()];
    for &row in &order {
        let bound = test.ask(&rows, &estimates, row, &above);
        if !bound.is_some_and(|b| b <= estimates[row]) {
            let shown = bound.map_or("late".to_string(), |b| b.to_string());
            writeln!(out, "fails {} {shown}", names[row]).unwrap();
            return Ok(out);
        }
        above[row] = true;
    }
    out.push_str("passes - 0\n");
    Ok(out)
}

fn main() {
    let text = |name| fs::read(name).ok().and_then(|bytes| String::from_utf8(bytes).ok()).unwrap_or_default();
    let (board, tasks, answer) = (text("board.txt"), text("tasks.txt"), text("answer.txt"));
    match mark([&board, &tasks, &answer]) {
        Ok(report) => print!("{report}"),
        Err(Fault { number, sheet, line, field }) => {
            println!("fault sheet line field\n{number} {sheet} {line} {field}");
            exit(1);
        }
    }
}
