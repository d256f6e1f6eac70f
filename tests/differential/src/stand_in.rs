//! A stand-in for `probe`: its commands, answered by the evaluator, rightly or
//! with a mistake. It shows that the comparison finds what it has to find.

use crate::command::{kind_and_target, COMMAND_BYTES};
use crate::probe::{Answers, Program};
use crate::script::new_table;
use evaluator::slots::{EVENT_SLOTS, RULE_SLOTS};
use evaluator::{absorb, notebook_record, place, read_cycle, read_rules, start, verdicts};
use evaluator::{Comparison, ConditionSlot, Event, Operator, Record, Reference, Refusal};
use evaluator::{RuleSlot, Standing, TableRecord, Tally, Text, Totals};

mod bands;
mod notices;
mod numbers;
mod overall;
mod printed;
mod targets;
mod totals;
mod written;

use written::Source;

/// A mistake to be found.
#[derive(Debug, Clone, Copy, PartialEq, Eq)]
pub enum Mistake {
    None,
    /// Every activation is judged as if the cycle were finished.
    NeverOpen,
    /// A take judges decided standings anew.
    JudgesAnew,
    /// A take names the earliest eligible position.
    NamesTheEarliest,
    /// A take names the latest eligible position.
    NamesTheLatest,
    /// A take looks after the activation first.
    PrefersTheOneAfter,
    /// A take clears the rows of rules that the table does not have.
    ClearsRows,
    /// A refused take puts its event in the next slot.
    KeepsRefused,
    /// Close turns every open standing into violated.
    ClosesToViolated,
    /// Totals leave the open ones out of the activations.
    TotalsWithoutOpen,
    /// Numbers of rules and positions are cut to 8 bits.
    CutsNumbers,
    /// A closed run is refused with 9 before its record is checked.
    ClosedFirst,
    /// Lines count from 0.
    LinesFromZero,
    /// A rules text loses its last comparisons.
    DropsComparisons,
    /// A cycle text has 0 for a blank.
    ReadsBlanksAsZero,
    /// The value of a number goes round at 2^32.
    CountsIn32Bits,
    /// The value of a number goes round at 2^64.
    CountsIn64Bits,
    /// Of a number the first ten digits are read.
    ReadsTenDigits,
    /// A number of 20 digits and more is not of the form.
    MalformsLongNumbers,
    /// The notebook names the position after the target.
    NamesTheNext,
    /// The notebook names the earliest eligible position.
    ReadsTheEarliest,
    /// The notebook names the latest eligible position.
    ReadsTheLatest,
    /// A refused absorb has counted the cycle.
    CountsRefused,
    /// Bytes beyond a written text become 0.
    ZeroesTheRest,
    /// -2147483648 is written as -2147483647.
    ChangesTheLeast,
    /// A writer answers the size of the buffer.
    AnswersTheRoom,
    /// A buffer that is just as long as the text is refused with 15.
    RefusesTheExactLength,
    /// The events of a closed run are refused with 9.
    RefusesClosed,
    /// An empty buffer is refused with 15 before 11 is looked for.
    ShortFirst,
    /// 15 comes with line 0.
    ShortWithLine,
    /// A writer has filled the buffer when it refuses with 15.
    WritesRefused,
    /// Events are written whatever the standings are.
    WritesUncheckedStandings,
    /// The rules of the run are written, not those under construction.
    WritesTheRunsRules,
    /// The byte after a written text becomes 0.
    EndsWithZero,
    /// A report has F for V and V for F.
    SwapsVerdicts,
    /// An activation is printed with the target of the one below it.
    PrintsTheNextTarget,
    /// A print of two texts names the earliest eligible position.
    PrintsTheEarliest,
    /// The total of a rule is printed above its activations.
    PrintsTotalsFirst,
    /// A rule without activations has no total.
    LeavesOutIdleRules,
    /// A refused line names the other text.
    NamesTheOtherText,
    /// An open activation is printed as V.
    PrintsOpenAsViolated,
    /// A printed total counts the decided activations alone.
    PrintsTotalsWithoutOpen,
    /// The report of a run that is not closed is refused with 9.
    ReportsClosedAlone,
    /// A report is printed whatever the standings past the count are.
    ReportsUncheckedStandings,
    /// A text above 32768 bytes is printed as a file of that size is.
    PrintsLargeTextsAs13,
    /// A print of two texts leaves the notebook's run.
    PrintsIntoTheRun,
    /// Start leaves position 0 idle.
    StartsIdle,
    /// At position 0 the window runs from time 0.
    WindowFromTimeZero,
    /// At position 0 the window runs from the first event of the activation activity.
    WindowFromTheActivation,
    /// At position 0 the window runs from the last event.
    WindowFromTheLast,
    /// An event of the target activity fits an existence.
    CountsTheTargetOf13,
    /// An exclusive choice with one side seen is violated while it is open.
    ViolatesOneSided,
    /// An exclusive choice with one side seen is fulfilled while it is open.
    FulfilsOneSided,
    /// An exclusive choice with both sides seen has target 0.
    NamesNoneOfBoth,
    /// The latest event that fits is named at position 0.
    NamesTheLatestFit,
    /// An absence is open until close.
    DecidesAbsenceAtClose,
    /// Close turns an open position 0 into violated.
    ClosesOverallToViolated,
    /// A take clears position 0 of the rules 1 to 12.
    ResetsPositionZero,
    /// A record is refused with 11 if position 0 of a rule 1 to 12 is not idle.
    ChecksEveryZero,
    /// Totals count position 0 of the rules 1 to 12.
    CountsEveryZero,
    /// Standing and totals let a rule 13 to 16 be idle at position 0.
    AllowsIdleAtZero,
    /// Standing and totals let a rule 13 to 16 stand at events.
    AllowsStandingsAtEvents,
    /// Standing and totals let a target at position 0 be above the event count.
    AllowsFarTargetsAtZero,
    /// Standing and totals let position 0 be open in a closed run.
    AllowsOpenAtZero,
    /// 16 is looked for before 6.
    MisfitBeforeWindow,
    /// A correlation is no cause of 16, nor of 11 in a table.
    AllowsCorrelation,
    /// Equal activities are a cause of 16 under 13.
    RefusesEqualUnder13,
    /// The notebook leaves position 0 idle.
    ReadsIdleAtZero,
    /// Position 0 is not printed.
    PrintsNoZero,
    /// Start stores no totals, though position 0 is judged.
    StartsWithNoTotals,
    /// A take counts the totals before it judges.
    CountsBeforeJudging,
    /// A take adds to the totals what it does to a run that was grown.
    CountsByDifference,
    /// Close leaves the totals as they were.
    ClosesWithOldTotals,
    /// The notebook stores no totals.
    ReadsNoTotals,
    /// Take and close clear the totals of unused slots.
    ClearsUnusedTotals,
    /// A refused take or close stores the right totals.
    CorrectsRefused,
    /// A record is refused with 11 if the totals of an unused slot are not 0.
    ChecksUnusedTotals,
    /// Of the stored totals the check looks at the activations alone.
    ChecksActivationsAlone,
    /// A closed run is refused with 9 before its totals are looked at.
    ClosedBeforeTotals,
    /// A take does not look at the stored totals.
    TakesMiscounted,
    /// Close does not look at the stored totals.
    ClosesMiscounted,
    /// Standing does not look at the stored totals.
    ShowsMiscounted,
    /// Totals does not look at the stored ones, and counts.
    AnswersMiscounted,
    /// The tally does not look at the stored totals.
    AbsorbsMiscounted,
    /// The writer of events does not look at the stored totals.
    WritesMiscounted,
    /// The report does not look at the stored totals.
    ReportsMiscounted,
    /// Each comparison is judged by itself when it is asked whether a target can
    /// still come.
    JudgesEachAlone,
    /// Of the comparisons of a reading the first one alone is looked at.
    LooksAtTheFirstAlone,
    /// Of the comparisons of a reading the last one alone is looked at.
    LooksAtTheLastAlone,
    /// A record is refused with 11 if a condition compares a reading again.
    RefusesBandsInRecords,
    /// A text is refused with 5 if a condition compares a reading again.
    RefusesBandsInTexts,
    /// The fifth comparison of a text and those after it are dropped.
    DropsTheFifth,
    /// 17 is looked for before the comparisons of a condition are read.
    CountsCommasFirst,
    /// 17 is looked for when all comparisons of a line are read.
    CountsCommasLast,
    /// 6 is looked for before 17.
    FifthAfterTheWindow,
    /// A take ends windows by the last notice alone.
    JudgesByTheClockAlone,
    /// A take is refused with 7 below the last event alone.
    TakesBelowNotices,
    /// A notice is refused with 7 below the last event alone.
    NoticesBelowNotices,
    /// A notice is refused with 7 below the last notice alone.
    NoticesBelowEvents,
    /// A notice is kept and decides nothing.
    NoticesDecideNothing,
    /// A notice does not judge position 0.
    NoticesLeavePositionZero,
    /// Before the first event a notice does not judge position 0.
    IgnoresNoticesWithoutEvents,
    /// A notice leaves the totals as they were.
    NoticesKeepTotals,
    /// A notice judges decided standings anew.
    NoticesJudgeAnew,
    /// A notice is an event between the neighbours of a chain.
    NoticesEndChains,
    /// A notice is put in the next event slot.
    NoticesFillASlot,
    /// A notice does not look at the stored totals.
    NoticesMiscounted,
    /// The time of a refused notice is kept.
    KeepsRefusedNotices,
    /// A notice on a run with 256 events is refused with 8.
    RefusesNoticesWhenFull,
    /// A notice at the time of the last event or notice is refused with 7.
    RefusesEqualNotices,
    /// 7 of a notice comes without a line.
    FallsWithoutLine,
    /// Of a notice's time the low 32 bits are kept, and 3 does not occur.
    CutsNotices,
    /// Of a notice's time the low 32 bits are compared for 7, and 3 comes after it.
    CutsBeforeComparing,
    /// A notice on a closed run is refused with 3 before 9.
    RangeBeforeClosed,
    /// A notice on a closed run is refused with 9 before its record is checked.
    ClosedBeforeNotices,
    /// A take makes its event's time the kept one.
    TakesSetTheClock,
    /// A take makes the kept time 0.
    TakesResetTheClock,
    /// Close makes the kept time 0.
    ClosesWithClockZero,
    /// Close violates what is open if a notice came after the last event.
    ClosesByTheClock,
    /// Start keeps the time of the run before it.
    StartsWithOldClock,
    /// The notebook keeps the time of the run before it.
    ReadsWithOldClock,
    /// A closed record is refused with 11 if its kept time is above its last event.
    ChecksTheClock,
    /// The last four bytes of the answers are missing.
    EndsEarly,
}

impl Mistake {
    pub const ALL: [Mistake; 122] = [
        Mistake::NeverOpen,
        Mistake::JudgesAnew,
        Mistake::NamesTheEarliest,
        Mistake::NamesTheLatest,
        Mistake::PrefersTheOneAfter,
        Mistake::ClearsRows,
        Mistake::KeepsRefused,
        Mistake::ClosesToViolated,
        Mistake::TotalsWithoutOpen,
        Mistake::CutsNumbers,
        Mistake::ClosedFirst,
        Mistake::LinesFromZero,
        Mistake::DropsComparisons,
        Mistake::ReadsBlanksAsZero,
        Mistake::CountsIn32Bits,
        Mistake::CountsIn64Bits,
        Mistake::ReadsTenDigits,
        Mistake::MalformsLongNumbers,
        Mistake::NamesTheNext,
        Mistake::ReadsTheEarliest,
        Mistake::ReadsTheLatest,
        Mistake::CountsRefused,
        Mistake::ZeroesTheRest,
        Mistake::ChangesTheLeast,
        Mistake::AnswersTheRoom,
        Mistake::RefusesTheExactLength,
        Mistake::RefusesClosed,
        Mistake::ShortFirst,
        Mistake::ShortWithLine,
        Mistake::WritesRefused,
        Mistake::WritesUncheckedStandings,
        Mistake::WritesTheRunsRules,
        Mistake::EndsWithZero,
        Mistake::SwapsVerdicts,
        Mistake::PrintsTheNextTarget,
        Mistake::PrintsTheEarliest,
        Mistake::PrintsTotalsFirst,
        Mistake::LeavesOutIdleRules,
        Mistake::NamesTheOtherText,
        Mistake::PrintsOpenAsViolated,
        Mistake::PrintsTotalsWithoutOpen,
        Mistake::ReportsClosedAlone,
        Mistake::ReportsUncheckedStandings,
        Mistake::PrintsLargeTextsAs13,
        Mistake::PrintsIntoTheRun,
        Mistake::StartsIdle,
        Mistake::WindowFromTimeZero,
        Mistake::WindowFromTheActivation,
        Mistake::WindowFromTheLast,
        Mistake::CountsTheTargetOf13,
        Mistake::ViolatesOneSided,
        Mistake::FulfilsOneSided,
        Mistake::NamesNoneOfBoth,
        Mistake::NamesTheLatestFit,
        Mistake::DecidesAbsenceAtClose,
        Mistake::ClosesOverallToViolated,
        Mistake::ResetsPositionZero,
        Mistake::ChecksEveryZero,
        Mistake::CountsEveryZero,
        Mistake::AllowsIdleAtZero,
        Mistake::AllowsStandingsAtEvents,
        Mistake::AllowsFarTargetsAtZero,
        Mistake::AllowsOpenAtZero,
        Mistake::MisfitBeforeWindow,
        Mistake::AllowsCorrelation,
        Mistake::RefusesEqualUnder13,
        Mistake::ReadsIdleAtZero,
        Mistake::PrintsNoZero,
        Mistake::StartsWithNoTotals,
        Mistake::CountsBeforeJudging,
        Mistake::CountsByDifference,
        Mistake::ClosesWithOldTotals,
        Mistake::ReadsNoTotals,
        Mistake::ClearsUnusedTotals,
        Mistake::CorrectsRefused,
        Mistake::ChecksUnusedTotals,
        Mistake::ChecksActivationsAlone,
        Mistake::ClosedBeforeTotals,
        Mistake::TakesMiscounted,
        Mistake::ClosesMiscounted,
        Mistake::ShowsMiscounted,
        Mistake::AnswersMiscounted,
        Mistake::AbsorbsMiscounted,
        Mistake::WritesMiscounted,
        Mistake::ReportsMiscounted,
        Mistake::JudgesEachAlone,
        Mistake::LooksAtTheFirstAlone,
        Mistake::LooksAtTheLastAlone,
        Mistake::RefusesBandsInRecords,
        Mistake::RefusesBandsInTexts,
        Mistake::DropsTheFifth,
        Mistake::CountsCommasFirst,
        Mistake::CountsCommasLast,
        Mistake::FifthAfterTheWindow,
        Mistake::JudgesByTheClockAlone,
        Mistake::TakesBelowNotices,
        Mistake::NoticesBelowNotices,
        Mistake::NoticesBelowEvents,
        Mistake::NoticesDecideNothing,
        Mistake::NoticesLeavePositionZero,
        Mistake::IgnoresNoticesWithoutEvents,
        Mistake::NoticesKeepTotals,
        Mistake::NoticesJudgeAnew,
        Mistake::NoticesEndChains,
        Mistake::NoticesFillASlot,
        Mistake::NoticesMiscounted,
        Mistake::KeepsRefusedNotices,
        Mistake::RefusesNoticesWhenFull,
        Mistake::RefusesEqualNotices,
        Mistake::FallsWithoutLine,
        Mistake::CutsNotices,
        Mistake::CutsBeforeComparing,
        Mistake::RangeBeforeClosed,
        Mistake::ClosedBeforeNotices,
        Mistake::TakesSetTheClock,
        Mistake::TakesResetTheClock,
        Mistake::ClosesWithClockZero,
        Mistake::ClosesByTheClock,
        Mistake::StartsWithOldClock,
        Mistake::ReadsWithOldClock,
        Mistake::ChecksTheClock,
        Mistake::EndsEarly,
    ];
}

pub struct StandIn {
    pub mistake: Mistake,
}

impl Program for StandIn {
    fn answers(&self, script: &[u8]) -> Answers {
        let mut state = State::new(self.mistake);
        let mut rest = script;
        while rest.len() >= COMMAND_BYTES {
            let (command, after) = rest.split_at(COMMAND_BYTES);
            rest = state.run(&Read(command), after);
        }
        if self.mistake == Mistake::EndsEarly {
            state.answers.truncate(state.answers.len().max(4) - 4);
        }
        Answers {
            bytes: state.answers,
            bad_end: None,
        }
    }
}

/// The fields of a command.
struct Read<'a>(&'a [u8]);

impl Read<'_> {
    fn b(&self, number: usize) -> u8 {
        self.0[number]
    }

    fn u32(&self, at: usize) -> u32 {
        u32::from_le_bytes(self.0[at..at + 4].try_into().expect("4 bytes"))
    }

    fn p(&self) -> u32 {
        self.u32(8)
    }

    fn q(&self) -> u32 {
        self.u32(12)
    }

    fn n(&self) -> u64 {
        u64::from(self.p()) | u64::from(self.q()) << 32
    }

    fn r(&self, number: usize) -> u32 {
        self.u32(12 + 4 * number)
    }

    fn event(&self) -> Event {
        let mut event = Event::new(self.q(), self.b(1));
        for (index, reading) in event.readings.iter_mut().enumerate() {
            let blank = self.b(2) >> index & 1 == 1;
            *reading = (!blank).then_some(self.r(index + 1) as i32);
        }
        event
    }

    fn standing(&self) -> Standing {
        let target = self.q() as u16;
        match self.b(1) {
            0 => Standing::Idle,
            1 => Standing::Open,
            2 => Standing::Fulfilled(target),
            _ => Standing::Violated(target),
        }
    }

    fn totals(&self) -> Totals {
        Totals::with_numbers([1, 2, 3, 4].map(|number| self.r(number) as u16))
    }

    fn comparison(&self) -> Comparison {
        let plus = self.r(1) as i32;
        Comparison {
            reading: self.b(4),
            operator: Operator::ALL[usize::from(self.b(5))],
            reference: match self.b(6) {
                0 => Reference::Constant(plus),
                _ => Reference::Activation {
                    reading: self.b(7),
                    plus,
                },
            },
        }
    }
}

struct State {
    mistake: Mistake,
    table: TableRecord,
    run: Record,
    tally: Tally,
    answers: Vec<u8>,
}

impl State {
    fn new(mistake: Mistake) -> State {
        let table = new_table(0);
        State {
            mistake,
            run: start(&table).expect("a valid table"),
            table,
            tally: Tally::default(),
            answers: Vec::new(),
        }
    }

    fn has(&self, mistake: Mistake) -> bool {
        self.mistake == mistake
    }

    /// Runs a command and gives back what comes after it and its texts.
    fn run<'a>(&mut self, read: &Read, after: &'a [u8]) -> &'a [u8] {
        match read.b(0) {
            b'R' | b'Y' => {
                let (text, rest) = after.split_at(read.n() as usize);
                self.read_text(read.b(0), text);
                rest
            }
            b'N' | b'p' => {
                let (rules, rest) = after.split_at(read.p() as usize);
                let (cycle, rest) = rest.split_at(read.q() as usize);
                match read.b(0) {
                    b'N' => self.notebook(rules, cycle),
                    _ => self.print(rules, cycle, read.r(1)),
                }
                rest
            }
            b't' | b'r' | b'n' | b'c' => {
                self.set_table(read);
                after
            }
            b'T' | b'C' | b'F' | b'E' | b'S' | b'O' | b'K' | b'A' => {
                self.set_field(read);
                after
            }
            b'd' | b'z' | b'D' | b'B' => {
                self.dump(read.b(0));
                after
            }
            _ => {
                self.call(read);
                after
            }
        }
    }

    fn set_table(&mut self, read: &Read) {
        if read.b(0) == b't' {
            self.table = new_table(read.n());
            return;
        }
        let rule = &mut self.table.rules[usize::from(read.b(1))];
        if read.b(0) == b'r' {
            let end = (read.b(5) != 0).then_some(read.q());
            *rule = RuleSlot {
                code: read.b(2),
                activation: read.b(3),
                target: read.b(4),
                a: read.p(),
                end,
                ..*rule
            };
            return;
        }
        let condition = match read.b(2) {
            0 => &mut rule.activation_condition,
            _ => &mut rule.correlation,
        };
        match read.b(0) {
            b'n' => condition.count = read.b(3),
            _ => condition.comparisons[usize::from(read.b(3))] = read.comparison(),
        }
    }

    fn set_field(&mut self, read: &Read) {
        let at = read.p() as usize;
        match read.b(0) {
            b'T' => self.run.table = self.table.clone(),
            b'C' => self.run.count = read.n(),
            b'F' => self.run.closed = read.b(1) != 0,
            b'K' => self.run.clock = read.p(),
            b'E' => self.run.events[at] = read.event(),
            b'S' if at >= RULE_SLOTS * EVENT_SLOTS => {
                self.run.overall[at - RULE_SLOTS * EVENT_SLOTS] = read.standing();
            }
            b'S' => self.run.standings[at] = read.standing(),
            b'O' => {
                if let Some(totals) = self.run.totals.get_mut(usize::from(read.b(1))) {
                    *totals = read.totals();
                }
            }
            _ => {
                self.tally = Tally {
                    cycles: read.r(1),
                    activations: read.r(2),
                    fulfilled: read.r(3),
                    violated: read.r(4),
                }
            }
        }
    }

    /// Adds the 16 bytes of an answer.
    fn answer(&mut self, refusal: Option<Refusal>, rest: [u8; 12]) {
        let mut head = [0; 4];
        if let Some(Refusal { number, line }) = refusal {
            head[0] = number;
            if let Some(line) = line {
                let less = usize::from(self.has(Mistake::LinesFromZero));
                let line = line.saturating_sub(less) as u16;
                head[1] = 1;
                head[2..].copy_from_slice(&line.to_le_bytes());
            }
        }
        self.answers.extend(head);
        self.answers.extend(rest);
    }

    fn call(&mut self, read: &Read) {
        let refuses = self.refuses_zeros()
            || self.refuses_unused_totals()
            || self.refuses_bands(&self.run.table)
            || self.refuses_clock();
        if b"ekxgob".contains(&read.b(0)) && refuses {
            return self.answer(Some(Refusal::plain(11)), [0; 12]);
        }
        match read.b(0) {
            b's' => {
                let answer = self.started().map(|run| self.run = run);
                self.answer(answer.err(), [0; 12]);
            }
            b'e' => self.take(read.event()),
            b'k' => self.notice(read.n()),
            b'x' => self.close(),
            b'g' => self.standing(u64::from(read.p()), u64::from(read.q())),
            b'o' => self.totals(read.n()),
            b'b' => {
                let answer = absorb(&self.seen_by(b'b'), read.n(), &mut self.tally);
                if answer.is_err() && self.has(Mistake::CountsRefused) {
                    self.tally.cycles = self.tally.cycles.saturating_add(1);
                }
                self.answer(answer.err(), [0; 12]);
            }
            b'w' => self.write(Source::Rules, read.n()),
            b'W' => self.write(Source::Cycle, read.n()),
            b'v' => self.write(Source::Report, read.n()),
            other => panic!("{} is no command", char::from(other)),
        }
    }

    fn take(&mut self, event: Event) {
        if self.run.closed && self.has(Mistake::ClosedFirst) {
            return self.answer(Some(Refusal::plain(9)), [0; 12]);
        }
        let mut seen = self.seen_by_take();
        seen.table = self.judged_table(&self.run.table);
        let (mut run, answer) = seen.take(event);
        run.table = self.run.table.clone();
        self.change_clock(&mut run, event, answer.is_ok());
        let count = run.count as usize;
        if answer.is_err() && self.has(Mistake::KeepsRefused) && count < EVENT_SLOTS {
            run.events[count] = event;
        }
        match answer {
            Ok(()) => {
                self.change_taken(&mut run);
                self.change_awaited(&mut run);
                self.change_lapsed(&mut run);
                self.change_targets(&mut run);
                self.change_position_0(&mut run);
                self.change_totals(b'e', &mut run);
            }
            Err(_) => self.change_refused_totals(&mut run),
        }
        self.run = run;
        self.answer(answer.err(), [0; 12]);
    }

    fn change_taken(&self, run: &mut Record) {
        let rules = run.table.rules().expect("a valid table");
        let events = &run.events[..run.count as usize];
        if self.has(Mistake::ClearsRows) {
            run.standings[rules.len() * EVENT_SLOTS..].fill(Standing::Idle);
        }
        for (index, rule) in rules.iter().enumerate() {
            let first = place(index + 1, 1);
            let row = &mut run.standings[first..first + events.len()];
            if self.has(Mistake::NeverOpen) {
                row.copy_from_slice(&verdicts(rule, events));
            }
            if self.has(Mistake::JudgesAnew) {
                row.copy_from_slice(&evaluator::standings(rule, events));
            }
        }
    }

    fn close(&mut self) {
        let before = self.run.clone();
        let (mut run, answer) = self.seen_by(b'x').close();
        if answer.is_ok() && self.has(Mistake::ClosesToViolated) {
            let used = run.table.count as usize * EVENT_SLOTS;
            for (new, old) in run.standings[..used].iter_mut().zip(&before.standings) {
                if *old == Standing::Open {
                    *new = Standing::Violated(0);
                }
            }
        }
        match answer {
            Ok(()) => {
                self.change_closed_0(&mut run);
                self.change_closed_clock(&mut run);
                self.change_totals(b'x', &mut run);
            }
            Err(_) => self.change_refused_totals(&mut run),
        }
        self.run = run;
        self.answer(answer.err(), [0; 12]);
    }

    fn number(&self, number: u64) -> u64 {
        match self.has(Mistake::CutsNumbers) {
            true => number & 255,
            false => number,
        }
    }

    fn standing(&mut self, rule: u64, position: u64) {
        let run = self.run_as_checked(b'g');
        let answer = run.standing(self.number(rule), self.number(position));
        let mut rest = [0; 12];
        if let Ok(standing) = answer {
            let (kind, target) = kind_and_target(standing);
            rest[0] = kind;
            rest[2..4].copy_from_slice(&target.to_le_bytes());
        }
        self.answer(answer.err(), rest);
    }

    fn totals(&mut self, rule: u64) {
        let answer = self.run_as_checked(b'o').totals(self.number(rule));
        let mut rest = [0; 12];
        if let Ok(mut totals) = answer {
            if self.has(Mistake::TotalsWithoutOpen) {
                totals.activations -= totals.open;
            }
            self.add_zero(self.number(rule), &mut totals);
            rest[4..].copy_from_slice(&totals_bytes(totals));
        }
        self.answer(answer.err(), rest);
    }

    fn read_text(&mut self, letter: u8, text: &[u8]) {
        let text = &self.misread(text)[..];
        if letter == b'R' {
            let read = self.mistaken_rules(text, read_rules(text));
            let read = self.miscounted_rules(text, read);
            let answer = read.map(|mut rules| {
                if self.has(Mistake::DropsComparisons) {
                    for rule in &mut rules {
                        rule.correlation.pop();
                    }
                }
                self.table = TableRecord::of(&rules);
            });
            return self.answer(answer.err(), [0; 12]);
        }
        let answer = read_cycle(text).map(|mut events| {
            if self.has(Mistake::ReadsBlanksAsZero) {
                let readings = events.iter_mut().flat_map(|event| &mut event.readings);
                readings.for_each(|reading| *reading = Some(reading.unwrap_or(0)));
            }
            self.run.count = events.len() as u64;
            self.run.events[..events.len()].copy_from_slice(&events);
        });
        self.answer(answer.err(), [0; 12]);
    }

    fn notebook(&mut self, rules: &[u8], cycle: &[u8]) {
        let mut rest = [0; 12];
        let refusal = match notebook_record(&self.misread(rules), &self.misread(cycle)) {
            Ok(mut run) => {
                if self.has(Mistake::NamesTheNext) {
                    run.standings.iter_mut().for_each(name_next);
                }
                self.change_read_targets(&mut run);
                if self.has(Mistake::ReadsIdleAtZero) {
                    run.overall.fill(Standing::Idle);
                }
                if self.has(Mistake::ReadsWithOldClock) {
                    run.clock = self.run.clock;
                }
                self.change_totals(b'N', &mut run);
                self.run = run;
                None
            }
            Err((text, refusal)) => {
                rest[1] = if text == Text::Rules { 1 } else { 2 };
                Some(refusal)
            }
        };
        self.answer(refusal, rest);
    }

    fn dump(&mut self, letter: u8) {
        match letter {
            b'd' => {
                for rule in 1..=self.run.table.count.min(16) as usize {
                    for position in 1..=self.run.count.min(256) as usize {
                        let standing = self.run.standings[place(rule, position)];
                        self.answers.extend(standing_bytes(standing));
                    }
                }
            }
            b'z' => {
                let cells = self.run.overall.map(standing_bytes);
                self.answers.extend(cells.concat());
            }
            b'D' => self.answers.extend(run_bytes(&self.run)),
            _ => {
                let tally = self.tally;
                let four = [
                    tally.cycles,
                    tally.activations,
                    tally.fulfilled,
                    tally.violated,
                ];
                self.answers
                    .extend(four.iter().flat_map(|n| n.to_le_bytes()));
            }
        }
    }
}

fn name_next(standing: &mut Standing) {
    *standing = match *standing {
        Standing::Fulfilled(target @ 1..) => Standing::Fulfilled(target + 1),
        other => other,
    };
}

fn standing_bytes(standing: Standing) -> [u8; 4] {
    let (kind, target) = kind_and_target(standing);
    let [low, high] = target.to_le_bytes();
    [kind, 0, low, high]
}

fn run_bytes(run: &Record) -> Vec<u8> {
    let mut bytes = vec![u8::from(run.closed), 0, 0, 0];
    bytes.extend(run.clock.to_le_bytes());
    bytes.extend(run.count.to_le_bytes());
    bytes.extend(run.table.count.to_le_bytes());
    for rule in &run.table.rules[..RULE_SLOTS] {
        let ends = u8::from(rule.end.is_some());
        bytes.extend([rule.code, rule.activation, rule.target, ends]);
        bytes.extend(rule.a.to_le_bytes());
        bytes.extend(rule.end.unwrap_or(0).to_le_bytes());
        bytes.extend(condition_bytes(&rule.activation_condition));
        bytes.extend(condition_bytes(&rule.correlation));
    }
    for event in &run.events {
        let blank = |index: usize| u8::from(event.readings[index].is_none()) << index;
        let blanks = (0..4).map(blank).sum();
        bytes.extend(event.time.to_le_bytes());
        bytes.extend([event.activity, blanks, 0, 0]);
        for reading in event.readings {
            bytes.extend(reading.unwrap_or(0).to_le_bytes());
        }
    }
    for standing in run.standings.iter().chain(&run.overall) {
        bytes.extend(standing_bytes(*standing));
    }
    bytes.extend(run.totals.map(totals_bytes).concat());
    bytes
}

fn totals_bytes(totals: Totals) -> [u8; 8] {
    let bytes = totals.numbers().map(u16::to_le_bytes).concat();
    bytes.try_into().expect("four numbers of 16 bits")
}

fn condition_bytes(condition: &ConditionSlot) -> Vec<u8> {
    let mut bytes = vec![condition.count, 0, 0, 0];
    for comparison in condition.comparisons {
        let operator = Operator::ALL
            .iter()
            .position(|known| *known == comparison.operator)
            .expect("a known operator") as u8;
        let (kind, g, k) = match comparison.reference {
            Reference::Constant(k) => (0, 0, k),
            Reference::Activation { reading, plus } => (1, reading, plus),
        };
        bytes.extend([comparison.reading, operator, kind, g]);
        bytes.extend(k.to_le_bytes());
    }
    bytes
}
