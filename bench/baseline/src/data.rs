//! The inputs of the measurements, the same for both programs. src/main.rt of crate bench has the
//! format.
use std::fs;

/// A small generator of numbers, so that the inputs are the same each time.
struct Numbers(u64);

impl Numbers {
    fn below(&mut self, n: u64) -> u64 {
        self.0 = self
            .0
            .wrapping_mul(6364136223846793005)
            .wrapping_add(1442695040888963407);
        (self.0 >> 33) % n
    }
}

fn line(fields: &[String]) -> String {
    fields.join("\t") + "\n"
}

/// 16 rules under which every event is an activation that stays open: of the comparisons, the last
/// alone does not hold in the cycle below.
fn worst_rules(correlation: &str) -> String {
    format!("1\t1\t1\t0\t-\t-\t{correlation}\n").repeat(16)
}

fn worst_cycle() -> String {
    (0..256).map(|t| format!("{t}\t1\t5\t5\t5\t5\n")).collect()
}

fn comparison(x: &mut Numbers, reading: u64, correlation: bool) -> String {
    let operator = ["=", "!", "<", "l", ">", "g"][x.below(6) as usize];
    let k = x.below(60) as i64 - 10;
    if correlation && x.below(2) == 0 {
        return format!("{reading}{operator}@{}:{k}", x.below(4) + 1);
    }
    format!("{reading}{operator}{k}")
}

/// No comparison, one or two.
fn condition(x: &mut Numbers, correlation: bool) -> String {
    let first = x.below(2) + 1;
    let second = x.below(2) + 3;
    match x.below(3) {
        0 => "-".to_string(),
        1 => comparison(x, first, correlation),
        _ => comparison(x, first, correlation) + "," + &comparison(x, second, correlation),
    }
}

/// Rules of all templates over eight activities, with windows and conditions.
fn rules(x: &mut Numbers, count: u64) -> String {
    let rule = |k: u64| {
        let from = x.below(3) * 100;
        let until = if x.below(4) == 0 {
            "-".to_string()
        } else {
            (from + 200 + x.below(2000)).to_string()
        };
        let head = [k % 12 + 1, x.below(8) + 1, x.below(8) + 1, from].map(|v| v.to_string());
        let tail = [until, condition(x, false), condition(x, true)];
        line(&[&head[..], &tail[..]].concat())
    };
    (0..count).map(rule).collect()
}

/// Rules about the cycle that stay open: three for want of such a reading, the last for want of
/// such an activity.
fn overall_rules() -> String {
    [
        "13\t1\t2\t0\t-\t1=1000\t-\n",
        "14\t3\t3\t0\t-\t2>200\t-\n",
        "15\t5\t6\t0\t-\t3<-50\t-\n",
        "16\t7\t9\t0\t-\t-\t-\n",
    ]
    .concat()
}

fn reading(x: &mut Numbers) -> String {
    match x.below(3) {
        0 => "-".to_string(),
        _ => (x.below(109) as i64 - 9).to_string(),
    }
}

/// Events of eight activities, a quarter of a second apart on the average.
fn cycle(x: &mut Numbers, events: u64) -> String {
    let mut time = 0;
    let event = |_| {
        time += x.below(500);
        let head = [time, x.below(8) + 1].map(|v| v.to_string());
        let readings = [reading(x), reading(x), reading(x), reading(x)];
        line(&[&head[..], &readings[..]].concat())
    };
    (0..events).map(event).collect()
}

fn blank_cycle(x: &mut Numbers) -> String {
    (0..256)
        .map(|p| format!("{}\t{}\t7\t-\t-\t-\n", p * 250, x.below(9) + 1))
        .collect()
}

fn long_cycle(x: &mut Numbers) -> String {
    let mut long = || x.below(1 << 31) as i64 - (1 << 30);
    (0..256u64)
        .map(|p| {
            format!(
                "{}\t37\t{}\t{}\t{}\t{}\n",
                p * 5000000,
                long(),
                long(),
                long(),
                long()
            )
        })
        .collect()
}

/// One line whose time has so many digits. It is outside its range, so that the rest is not read.
fn digits_cycle(digits: usize) -> String {
    "9".repeat(digits) + "\t1\t-\t-\t-\t-\n"
}

/// 60 cycles of 10 to 50 events.
fn many_cycles(x: &mut Numbers) -> Vec<String> {
    (0..60)
        .map(|_| {
            let events = 10 + x.below(41);
            cycle(x, events)
        })
        .collect()
}

/// The two texts of a data set: the rules, and the cycles.
fn texts(name: &str) -> (String, Vec<String>) {
    let x = &mut Numbers(5);
    match name {
        "worst" => (worst_rules("1=@1:1"), vec![worst_cycle()]),
        "worst4" => (
            worst_rules("1=@1:0,2=@2:0,3=@3:0,4=@4:1"),
            vec![worst_cycle()],
        ),
        "band" => (
            worst_rules("1g@1:-9,1l@1:9,1!@1:3,1=@1:1"),
            vec![worst_cycle()],
        ),
        "typical" => (rules(x, 16), vec![cycle(x, 256)]),
        "overall" => (overall_rules() + &rules(x, 12), vec![cycle(x, 256)]),
        "blank" => (String::new(), vec![blank_cycle(x)]),
        "long" => (String::new(), vec![long_cycle(x)]),
        "digits10" => (String::new(), vec![digits_cycle(10)]),
        "digits1000" => (String::new(), vec![digits_cycle(1000)]),
        "many10" => (rules(x, 10), many_cycles(x)),
        "many16" => (rules(x, 16), many_cycles(x)),
        _ => (
            overall_rules() + &rules(x, 8),
            vec![cycle(x, 20), cycle(x, 12)],
        ),
    }
}

/// The input that runs the workload `letter` on a data set, `turns` times.
pub fn input(letter: &str, turns: &str, name: &str) -> String {
    let (rules, cycles) = texts(name);
    let mut out = format!(
        "{letter}\t{turns}\t{}\t{}\n{rules}",
        cycles.len(),
        rules.len()
    );
    for c in &cycles {
        out += &format!("{}\n{c}", c.len());
    }
    out
}

/// Writes the rules and the first cycle of a data set as the files that `report` reads.
pub fn write_files(name: &str) {
    let (rules, cycles) = texts(name);
    fs::write("rules.tsv", rules).unwrap();
    fs::write("cycle.tsv", &cycles[0]).unwrap();
}

/// How many rule-events one turn of `n` judges.
pub fn rule_events(name: &str) -> usize {
    let (rules, cycles) = texts(name);
    let events: usize = cycles.iter().map(|c| c.lines().count()).sum();
    rules.lines().count() * events
}
