//! The listing of document 01: its two texts, what is printed for them, and its
//! rules and events.

use crate::model::{Comparison, Event, Operator, Rule, Standing};
use crate::record::{grown, place, Record};

pub const RULES: &str = "2\t1\t2\t0\t500\t-\t-\n6\t3\t2\t0\t-\t-\t1=@1:0\n";
pub const CYCLE: &str = "0\t1\t7\t-\t-\t-\n400\t2\t7\t-\t-\t-\n400\t3\t7\t-\t-\t-\n\
    900\t3\t7\t-\t-\t-\n1000\t1\t7\t-\t-\t-\n1500\t2\t7\t-\t-\t-\n";
pub const PRINTED: &str = "1\t1\tF\t2\n1\t5\tV\t0\ntotal\t1\t2\t1\t1\n\
    2\t3\tF\t2\n2\t4\tV\t0\ntotal\t2\t2\t1\t1\n";

pub fn rules() -> Vec<Rule> {
    let same = Comparison::with_activation(1, Operator::Equal, 1, 0);
    vec![
        Rule::new(2, 1, 2, 0, Some(500)),
        Rule::new(6, 3, 2, 0, None).with_correlation(vec![same]),
    ]
}

pub fn events() -> Vec<Event> {
    let events = [(0, 1), (400, 2), (400, 3), (900, 3), (1000, 1), (1500, 2)];
    let events = events.map(|(time, activity)| Event::new(time, activity).with_reading(1, 7));
    events.to_vec()
}

/// Its run with each cause of 11 alone.
pub fn with_causes() -> Vec<Record> {
    let run = grown(&rules(), &events());
    let caused = CAUSES.iter().map(|change| {
        let mut run = run.clone();
        change(&mut run);
        run.count_totals();
        run
    });
    let miscounted = (0..2).flat_map(|slot| (0..4).map(move |place| (slot, place)));
    let miscounted = miscounted.map(|(slot, place)| {
        let mut run = run.clone();
        let number = run.totals[slot].numbers()[place];
        run.totals[slot] = run.totals[slot].with_number(place, number + 1);
        run
    });
    caused.chain(miscounted).collect()
}

/// Changes, each of which is a cause of 11 also if the totals fit the standings.
const CAUSES: [fn(&mut Record); 12] = [
    |run| run.standings[place(1, 1)] = Standing::Fulfilled(7),
    |run| run.standings[place(2, 6)] = Standing::Violated(65_535),
    |run| run.standings[place(1, 7)] = Standing::Open,
    |run| run.standings[place(2, 256)] = Standing::Fulfilled(0),
    |run| {
        run.closed = true;
        run.standings[place(1, 5)] = Standing::Open;
    },
    |run| run.table.count = 17,
    |run| run.table.rules[0].end = Some(0),
    |run| run.table.rules[1].correlation.count = 5,
    |run| run.count = 257,
    |run| run.count = (1 << 32) + 6,
    |run| run.events[0].time = 401,
    |run| run.events[3].activity = 65,
];
