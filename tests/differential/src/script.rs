//! Scripts for `probe`, each step with what the evaluator expects of it.

use crate::answer::Answer;
use crate::command::{buffer_of, cell_at_0, Command};
use crate::expected::Expected;
use evaluator::bands::{conditions, is_band};
use evaluator::notices::Call;
use evaluator::slots::{COMPARISON_SLOTS, RULE_SLOTS};
use evaluator::{absorb, notebook_record, place, print_texts, read_cycle, read_rules, start};
use evaluator::{write_cycle_of, write_report_of, write_rules_of};
use evaluator::{Comparison, ConditionSlot, Event, Operator, Record, Refusal};
use evaluator::{Rule, RuleSlot, Standing, TableRecord, Tally, Text, Totals};

/// A command and what it has to answer, if it answers.
#[derive(Debug, Clone)]
pub struct Step {
    pub command: Command,
    pub expected: Option<Expected>,
}

/// A script that begins with a run of its own, so that what was done before it
/// does not matter.
#[derive(Debug, Clone)]
pub struct Case {
    pub kind: &'static str,
    pub seed: u64,
    pub steps: Vec<Step>,
    /// How many of the runs in it are refused with 11 for their totals alone.
    pub miscounted: usize,
    /// How many conditions the valid tables in it have.
    pub conditions: usize,
    /// How many of these compare a reading more than once.
    pub bands: usize,
}

impl Case {
    pub fn new(kind: &'static str, seed: u64) -> Case {
        Case {
            kind,
            seed,
            steps: Vec::new(),
            miscounted: 0,
            conditions: 0,
            bands: 0,
        }
    }

    /// Counts the conditions of valid rules.
    pub fn count_conditions(&mut self, rules: &[Rule]) {
        for condition in rules.iter().flat_map(conditions) {
            self.conditions += 1;
            self.bands += usize::from(is_band(condition));
        }
    }

    /// The bytes of all commands.
    pub fn script(&self) -> Vec<u8> {
        let mut script = Vec::new();
        for step in &self.steps {
            step.command.encode(&mut script);
        }
        script
    }

    /// A command without an answer.
    pub fn send(&mut self, command: Command) {
        self.steps.push(Step {
            command,
            expected: None,
        });
    }

    /// A command with an answer.
    pub fn ask(&mut self, command: Command, expected: Expected) {
        self.steps.push(Step {
            command,
            expected: Some(expected),
        });
    }

    /// Makes the run the one that start gives for a table without rules.
    pub fn fresh(&mut self) {
        self.send(Command::NewTable { count: 0 });
        self.ask(Command::Start, Expected::Answer(Answer::plain(Ok(()))));
    }

    /// Makes the table under construction this one, slot by slot.
    pub fn load_table(&mut self, table: &TableRecord) {
        self.count_conditions(&table.rules().unwrap_or_default());
        self.send(Command::NewTable { count: table.count });
        for (slot, rule) in (0..).zip(&table.rules) {
            self.load_rule(slot, rule);
        }
    }

    /// What a new table has already is left out.
    fn load_rule(&mut self, slot: u8, rule: &RuleSlot) {
        let window = (rule.a, rule.end);
        if (rule.code, rule.activation, rule.target, window) != (0, 0, 0, (0, None)) {
            self.send(Command::SetRule {
                slot,
                code: rule.code,
                activation: rule.activation,
                target: rule.target,
                a: rule.a,
                end: rule.end,
            });
        }
        self.load_condition(slot, false, &rule.activation_condition);
        self.load_condition(slot, true, &rule.correlation);
    }

    fn load_condition(&mut self, slot: u8, correlation: bool, condition: &ConditionSlot) {
        let count = condition.count;
        if count != 0 {
            self.send(Command::SetComparisonCount {
                slot,
                correlation,
                count,
            });
        }
        let unset = Comparison::with_constant(0, Operator::Equal, 0);
        for (place, comparison) in (0..).zip(condition.comparisons) {
            if comparison != unset {
                self.send(Command::SetComparison {
                    slot,
                    correlation,
                    place,
                    comparison,
                });
            }
        }
    }

    /// Makes the run this one, field by field. What a fresh run has already is
    /// left out, but for the totals.
    pub fn load_run(&mut self, run: &Record) {
        self.miscounted += usize::from(is_miscounted(run));
        self.fresh();
        self.load_table(&run.table);
        self.send(Command::SetTable);
        self.send(Command::SetEventCount { count: run.count });
        self.send(Command::SetClosed { closed: run.closed });
        if run.clock != 0 {
            self.send(Command::SetClock { clock: run.clock });
        }
        for (slot, event) in (0..).zip(&run.events) {
            if *event != Event::new(0, 1) {
                let event = *event;
                self.send(Command::SetEvent { slot, event });
            }
        }
        let cells = (0..).zip(&run.standings);
        let at_0 = (1..)
            .zip(&run.overall)
            .map(|(rule, s)| (cell_at_0(rule), s));
        for (cell, standing) in cells.chain(at_0) {
            if *standing != Standing::Idle {
                let standing = *standing;
                self.send(Command::SetStanding { cell, standing });
            }
        }
        for (slot, totals) in (0..).zip(run.totals) {
            let numbers = totals.numbers().map(u32::from);
            self.send(Command::SetTotals { slot, numbers });
        }
    }
}

/// Whether the run is refused with 11, and not if its totals are counted anew.
fn is_miscounted(run: &Record) -> bool {
    // No run has a rule 0, so that it is the check alone that matters.
    let is_refused = |run: &Record| run.totals(0) == Err(Refusal::plain(11));
    let mut counted = run.clone();
    counted.count_totals();
    is_refused(run) && !is_refused(&counted)
}

/// The table that `t` makes: "all 16 rule slots with code 0, activities 0,
/// window 0 to no end, and two conditions with count 0 whose four comparisons
/// are reading 0, `=`, constant 0".
pub fn new_table(count: u64) -> TableRecord {
    let unset = Comparison::with_constant(0, Operator::Equal, 0);
    let condition = ConditionSlot {
        count: 0,
        comparisons: [unset; COMPARISON_SLOTS],
    };
    let rule = RuleSlot {
        code: 0,
        activation: 0,
        target: 0,
        a: 0,
        end: None,
        activation_condition: condition,
        correlation: condition,
    };
    TableRecord {
        count,
        rules: [rule; RULE_SLOTS],
    }
}

/// A table of these rules. What no rule uses is as in a new table.
pub fn table_of(rules: &[Rule]) -> TableRecord {
    let mut table = new_table(rules.len() as u64);
    for (slot, rule) in table.rules.iter_mut().zip(rules) {
        let unset = *slot;
        *slot = RuleSlot::of(rule);
        let conditions = [&mut slot.activation_condition, &mut slot.correlation];
        for condition in conditions {
            let used = usize::from(condition.count);
            condition.comparisons[used..].copy_from_slice(&unset.correlation.comparisons[used..]);
        }
    }
    table
}

/// A case together with the evaluator's table under construction, run and tally.
/// Each call is made on both, and the evaluator's answer is the expected one.
pub struct Session {
    pub case: Case,
    pub table: TableRecord,
    pub run: Record,
    pub tally: Tally,
}

impl Session {
    /// A session on a run as it is handed in.
    pub fn on(kind: &'static str, seed: u64, run: Record) -> Session {
        let mut case = Case::new(kind, seed);
        case.load_run(&run);
        Session {
            case,
            table: run.table.clone(),
            run,
            tally: Tally::default(),
        }
    }

    /// A session without a command: the table and the run are those that a script
    /// begins with.
    pub fn at_the_beginning(kind: &'static str, seed: u64) -> Session {
        let table = new_table(0);
        Session {
            case: Case::new(kind, seed),
            run: start(&table).expect("a valid table"),
            table,
            tally: Tally::default(),
        }
    }

    /// A session on the run that start gives for a valid table.
    pub fn started(kind: &'static str, seed: u64, table: &TableRecord) -> Session {
        let run = start(table).expect("a valid table");
        let mut case = Case::new(kind, seed);
        case.load_table(table);
        case.ask(Command::Start, Expected::Answer(Answer::plain(Ok(()))));
        Session {
            case,
            table: table.clone(),
            run,
            tally: Tally::default(),
        }
    }

    fn ask(&mut self, command: Command, answer: Answer) {
        self.case.ask(command, Expected::Answer(answer));
    }

    /// Makes the run and the table under construction these.
    pub fn load_run(&mut self, run: Record) {
        self.case.load_run(&run);
        self.table = run.table.clone();
        self.run = run;
    }

    /// Makes the table under construction this one.
    pub fn load_table(&mut self, table: &TableRecord) {
        self.case.load_table(table);
        self.table = table.clone();
    }

    /// The run's table becomes the table under construction.
    pub fn set_table(&mut self) {
        self.case.send(Command::SetTable);
        self.run.table = self.table.clone();
    }

    /// The stored totals of a slot become the low 16 bits of these numbers; a slot
    /// that does not exist is left out.
    pub fn set_totals(&mut self, slot: u8, numbers: [u32; 4]) {
        self.case.send(Command::SetTotals { slot, numbers });
        if let Some(totals) = self.run.totals.get_mut(usize::from(slot)) {
            *totals = Totals::with_numbers(numbers.map(|number| number as u16));
        }
    }

    /// The kept time becomes this one.
    pub fn set_clock(&mut self, clock: u32) {
        self.case.send(Command::SetClock { clock });
        self.run.clock = clock;
    }

    /// Start from a table; an accepted one becomes the run.
    pub fn start(&mut self, table: &TableRecord) -> Result<(), Refusal> {
        self.load_table(table);
        let answer = start(table).map(|run| self.run = run);
        self.ask(Command::Start, Answer::plain(answer));
        answer
    }

    pub fn take(&mut self, event: Event) -> Result<(), Refusal> {
        let (run, answer) = self.run.clone().take(event);
        self.run = run;
        self.ask(Command::Take(event), Answer::plain(answer));
        answer
    }

    pub fn notice(&mut self, time: u64) -> Result<(), Refusal> {
        let (run, answer) = self.run.clone().notice(time);
        self.run = run;
        self.ask(Command::Notice { time }, Answer::plain(answer));
        answer
    }

    /// A take or a notice.
    pub fn call(&mut self, call: Call) -> Result<(), Refusal> {
        match call {
            Call::Take(event) => self.take(event),
            Call::Notice(time) => self.notice(time),
        }
    }

    pub fn close(&mut self) -> Result<(), Refusal> {
        let (run, answer) = self.run.clone().close();
        self.run = run;
        self.ask(Command::Close, Answer::plain(answer));
        answer
    }

    pub fn standing(&mut self, rule: u32, position: u32) -> Result<Standing, Refusal> {
        let answer = self.run.standing(u64::from(rule), u64::from(position));
        let command = Command::Standing { rule, position };
        self.ask(command, Answer::standing(answer));
        answer
    }

    pub fn totals(&mut self, rule: u64) -> Result<(), Refusal> {
        let answer = self.run.totals(rule);
        self.ask(Command::Totals { rule }, Answer::totals(answer));
        answer.map(|_| ())
    }

    /// The totals of every rule.
    pub fn all_totals(&mut self) {
        for rule in 1..=self.run.table.count {
            self.totals(rule).expect("totals of a rule");
        }
    }

    pub fn set_tally(&mut self, tally: Tally) {
        self.tally = tally;
        self.case.send(Command::SetTally(tally));
    }

    pub fn absorb(&mut self, rule: u64) -> Result<(), Refusal> {
        let answer = absorb(&self.run, rule, &mut self.tally);
        self.ask(Command::Absorb { rule }, Answer::plain(answer));
        let expected = Expected::Tally(self.tally);
        self.case.ask(Command::DumpTally, expected);
        answer
    }

    /// Reads a rules text; an accepted table becomes the table under
    /// construction. Its slots past the counts are free.
    pub fn read_rules(&mut self, text: Vec<u8>) -> Result<(), Refusal> {
        let answer = read_rules(&text).map(|rules| self.table = table_of(&rules));
        self.ask(Command::ReadRules(text), Answer::plain(answer));
        answer
    }

    /// Reads a cycle text; an accepted one gives the run its events. The slots
    /// past the count are free.
    pub fn read_cycle(&mut self, text: Vec<u8>) -> Result<(), Refusal> {
        let answer = read_cycle(&text).map(|events| {
            self.run.count = events.len() as u64;
            self.run.events[..events.len()].copy_from_slice(&events);
        });
        self.ask(Command::ReadCycle(text), Answer::plain(answer));
        answer
    }

    /// Writes the rules of the table under construction into n bytes.
    pub fn write_rules(&mut self, n: u64) -> Result<usize, Refusal> {
        let mut buffer = buffer_of(n);
        let answer = write_rules_of(&self.table, &mut buffer);
        self.ask_written(Command::WriteRules { n }, answer, buffer);
        answer
    }

    /// Writes the events of the run into n bytes.
    pub fn write_cycle(&mut self, n: u64) -> Result<usize, Refusal> {
        let mut buffer = buffer_of(n);
        let answer = write_cycle_of(&self.run, &mut buffer);
        self.ask_written(Command::WriteCycle { n }, answer, buffer);
        answer
    }

    /// Writes the report of the run into n bytes.
    pub fn write_report(&mut self, n: u64) -> Result<usize, Refusal> {
        let mut buffer = buffer_of(n);
        let answer = write_report_of(&self.run, &mut buffer);
        self.ask_written(Command::WriteReport { n }, answer, buffer);
        answer
    }

    /// Prints two texts into a buffer of `room` bytes.
    pub fn print_texts(
        &mut self,
        rules: Vec<u8>,
        cycle: Vec<u8>,
        room: u32,
    ) -> Result<usize, Refusal> {
        let mut buffer = buffer_of(u64::from(room));
        let answer = print_texts(&rules, &cycle, &mut buffer);
        let command = Command::PrintTexts { rules, cycle, room };
        self.ask_written(command, answer, buffer);
        answer
    }

    fn ask_written(&mut self, command: Command, answer: Result<usize, Refusal>, buffer: Vec<u8>) {
        let answer = Answer::written(answer);
        self.case.ask(command, Expected::Written { answer, buffer });
    }

    /// The notebook reading of two texts; an accepted run becomes the run.
    pub fn notebook(&mut self, rules: Vec<u8>, cycle: Vec<u8>) -> Result<(), (Text, Refusal)> {
        let answer = notebook_record(&rules, &cycle).map(|run| self.run = run);
        let command = Command::Notebook { rules, cycle };
        self.ask(command, Answer::notebook(answer));
        answer
    }

    /// The standings of each rule at the taken positions.
    pub fn rows(&self) -> Vec<Vec<Standing>> {
        let row = |rule| {
            let first = place(rule, 1);
            self.run.standings[first..first + self.run.count as usize].to_vec()
        };
        (1..=self.run.table.count as usize).map(row).collect()
    }

    /// The template codes of the table's rules.
    fn codes(&self) -> Vec<u8> {
        let rules = &self.run.table.rules;
        let used = self.run.table.count.min(RULE_SLOTS as u64) as usize;
        rules[..used].iter().map(|rule| rule.code).collect()
    }

    /// Whether a rule of the table has position 0.
    pub fn has_position_0(&self, rule: u64) -> bool {
        let codes = self.codes();
        let found = (1..).zip(codes).find(|(number, _)| *number == rule);
        found.is_some_and(|(_, code)| (13..=16).contains(&code))
    }

    /// Compares every standing of the rules at the taken positions, position 0 of
    /// the rules 13 to 16 among them.
    pub fn compare_standings(&mut self) {
        let codes = self.codes();
        let rows = self.rows();
        let asks_for_0 = codes.iter().any(|code| *code >= 13);
        let expected = Expected::Standings { codes, rows };
        self.case.ask(Command::DumpStandings, expected);
        if asks_for_0 {
            self.compare_position_0();
        }
    }

    /// Compares position 0 of the rules 13 to 16.
    fn compare_position_0(&mut self) {
        let cells = (1..).zip(self.run.overall);
        let cells = cells.map(|(rule, cell)| self.has_position_0(rule).then_some(cell));
        let expected = Expected::Overall {
            cells: cells.collect(),
            codes: self.codes(),
        };
        self.case.ask(Command::DumpOverall, expected);
    }

    /// Compares position 0 of every rule slot.
    pub fn compare_every_0(&mut self) {
        let expected = Expected::Overall {
            cells: self.run.overall.map(Some).to_vec(),
            codes: self.codes(),
        };
        self.case.ask(Command::DumpOverall, expected);
    }

    /// Compares what document 01 fixes of a run of the notebook.
    pub fn compare_notebook_run(&mut self) {
        let expected = Expected::NotebookRun(Box::new(self.run.clone()));
        self.case.ask(Command::DumpRun, expected);
    }

    /// Compares the whole run.
    pub fn compare_run(&mut self) {
        let expected = Expected::Run(Box::new(self.run.clone()));
        self.case.ask(Command::DumpRun, expected);
    }
}
