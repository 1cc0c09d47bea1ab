// What crates/timing does, in plain Rust: the same table, the same searches with the same rounds, the same output.
use std::env;
use std::time::Instant;

const ROWS: u32 = 256;
const HORIZON: u32 = 1_000_000;

// A cyclic message of one to 32 frame lengths.
struct Row {
    period: u32,
    deadline: u32,
    size: u32,
    // The largest sums of 0 to size successive frame lengths, going round.
    most: [u32; 33],
}

impl Row {
    fn new(period: u32, payloads: &[u32], deadline: u32) -> Row {
        let size = payloads.len();
        let lengths: Vec<u32> = payloads.iter().map(|n| 55 + 10 * n).collect();
        let mut most = [0; 33];
        for k in 1..=size {
            let runs = (0..size).map(|p| lengths.iter().cycle().skip(p).take(k).sum());
            most[k] = runs.max().unwrap_or(0);
        }
        Row {
            period,
            deadline,
            size: size as u32,
            most,
        }
    }

    fn count(&self, x: u32) -> u32 {
        x.div_ceil(self.period)
    }

    fn work(&self, k: u32) -> u32 {
        k / self.size * self.most[self.size as usize] + self.most[(k % self.size) as usize]
    }

    fn load(&self, t: u32) -> u32 {
        self.work(self.count(t))
    }
}

enum Outcome {
    Ok { bound: u32, rounds: u32 },
    Late { bound: u32, rounds: u32 },
    None { rounds: u32 },
}

// Where the search ended, if it did, and how many evaluations it made.
fn search(start: u32, curve: impl Fn(u32) -> u32) -> (Option<u32>, u32) {
    let mut value = start;
    let mut rounds = 0;
    loop {
        let answer = curve(value);
        rounds += 1;
        if answer > HORIZON {
            return (None, rounds);
        }
        if answer == value {
            return (Some(value), rounds);
        }
        value = answer;
    }
}

fn add_loads(held: u32, rows: &[Row], t: u32) -> u32 {
    let mut sum = held;
    for row in rows {
        if sum > HORIZON {
            break;
        }
        sum += row.load(t);
    }
    sum
}

fn respond(rows: &[Row], place: usize) -> Outcome {
    let above = &rows[..place];
    let own = &rows[place];
    let below = &rows[place + 1..];
    let blocking = below.iter().map(|row| row.work(1)).max().unwrap_or(0);
    let busy = |t| add_loads(blocking + own.load(t), above, t);
    let (end, mut rounds) = search(blocking + own.work(1), busy);
    let Some(end) = end else {
        return Outcome::None { rounds };
    };
    let mut bound = 0;
    let mut start = blocking;
    for q in 0..own.count(end) {
        let earlier = own.work(q);
        let step = own.work(q + 1) - earlier;
        let delay = |w| add_loads(blocking + earlier, above, w + 1);
        let (delayed, more) = search(start, delay);
        rounds += more;
        start = delayed.unwrap_or(0) + step;
        bound = bound.max(start.saturating_sub(q * own.period));
    }
    if bound <= own.deadline {
        Outcome::Ok { bound, rounds }
    } else {
        Outcome::Late { bound, rounds }
    }
}

fn row(i: u32, turn: u32) -> Row {
    let payloads = [0, 3, 6, 9].map(|more| (5 * i + more) % 9);
    let period = 5_000 + 260 * i;
    Row::new(period, &payloads[..1 + i as usize % 4], period + turn)
}

// A number for the verdict, the bound and the round count, added up.
fn total(outcome: Outcome) -> u64 {
    let (verdict, bound, rounds) = match outcome {
        Outcome::Ok { bound, rounds } => (1, bound, rounds),
        Outcome::Late { bound, rounds } => (2, bound, rounds),
        Outcome::None { rounds } => (3, 0, rounds),
    };
    verdict + u64::from(bound) + u64::from(rounds)
}

// The totals of all rows, added up.
fn answers(rows: &[Row]) -> u64 {
    (0..rows.len())
        .map(|place| total(respond(rows, place)))
        .sum()
}

fn main() {
    let turns: u32 = match env::args().nth(1) {
        Some(word) => word.parse().expect("a number of turns"),
        None => 0,
    };
    let table = |turn| -> Vec<Row> { (0..ROWS).map(|i| row(i, turn)).collect() };
    let mut sum = answers(&table(0));
    let mut shortest = None;
    for turn in 0..turns {
        let rows = table(turn);
        let begin = Instant::now();
        sum += answers(&rows);
        let time = begin.elapsed().as_nanos();
        shortest = Some(shortest.map_or(time, |best: u128| best.min(time)));
    }
    println!("{sum}");
    if let Some(nanos) = shortest {
        println!("{nanos}");
    }
}
