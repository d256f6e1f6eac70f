//! The comparison itself: it agrees with the evaluator behind `probe`'s
//! commands, and each kind of cases finds the mistakes that are put there.

use differential::cases::{bands, causes, crowded, notebook, notices, overall, printed};
use differential::cases::{records, reported, running, tally, texts, written};
use differential::compare::compare;
use differential::script::Case;
use differential::stand_in::{Mistake, StandIn};
use std::collections::BTreeSet;

fn running_cases() -> Vec<Case> {
    (1..=60).map(running::case).collect()
}

fn crowded_cases() -> Vec<Case> {
    (1..=20).map(crowded::case).collect()
}

fn crowded_stale_cases() -> Vec<Case> {
    (1..=20).map(crowded::stale_case).collect()
}

fn bands_cases() -> Vec<Case> {
    (1..=30).map(bands::case).collect()
}

fn bands_stale_cases() -> Vec<Case> {
    (1..=30).map(bands::stale_case).collect()
}

fn overall_cases() -> Vec<Case> {
    (1..=60).map(overall::case).collect()
}

fn overall_stale_cases() -> Vec<Case> {
    (1..=60).map(overall::stale_case).collect()
}

fn overall_cause_cases() -> Vec<Case> {
    let causes = (0..).zip(causes::overall_causes(true)).step_by(5);
    let causes = causes.map(|(number, (_, run))| records::cause_case(number, run));
    let allowed = (0..).zip(causes::overall_allowed(false)).step_by(2);
    let allowed = allowed.map(|(number, (_, run))| records::allowed_case(number, run));
    causes.chain(allowed).collect()
}

fn misfit_cases() -> Vec<Case> {
    let texts = (1..).zip(texts::misfit_texts());
    texts
        .map(|(number, text)| texts::rules_text_case(number, text))
        .collect()
}

fn fifth_cases() -> Vec<Case> {
    let texts = (1..).zip(texts::fifth_texts()).step_by(5);
    texts
        .map(|(number, text)| texts::rules_text_case(number, text))
        .collect()
}

fn notices_cases() -> Vec<Case> {
    (1..=60).map(notices::case).collect()
}

fn notices_stale_cases() -> Vec<Case> {
    (1..=100).map(notices::stale_case).collect()
}

fn notices_full_cases() -> Vec<Case> {
    vec![notices::full_case(1)]
}

fn kept_time_cases() -> Vec<Case> {
    let kept = [causes::kept_times(false), causes::kept_times(true)].concat();
    let kept = (0..).zip(kept);
    kept.map(|(number, (_, run))| records::allowed_case(number, run))
        .collect()
}

fn record_cases() -> Vec<Case> {
    (1..=80).map(records::case).collect()
}

fn stale_cases() -> Vec<Case> {
    (1..=40).map(records::stale_case).collect()
}

fn cause_cases() -> Vec<Case> {
    let causes = (0..).zip(causes::causes(true)).step_by(9);
    let causes = causes.map(|(number, (_, run))| records::cause_case(number, run));
    let allowed = (0..).zip(causes::allowed(false)).step_by(9);
    let allowed = allowed.map(|(number, (_, run))| records::allowed_case(number, run));
    causes.chain(allowed).collect()
}

fn totals_cases() -> Vec<Case> {
    let causes = [causes::miscounted(false), causes::miscounted(true)].concat();
    let causes = (0..).zip(causes).step_by(5);
    let causes = causes.map(|(number, (_, run))| records::cause_case(number, run));
    let allowed = (0..).zip(causes::unread_totals(false)).step_by(5);
    let allowed = allowed.map(|(number, (_, run))| records::allowed_case(number, run));
    causes.chain(allowed).collect()
}

fn rules_cases() -> Vec<Case> {
    (1..=100).map(texts::rules_case).collect()
}

fn cycle_cases() -> Vec<Case> {
    (1..=100).map(texts::cycle_case).collect()
}

fn pair_cases() -> Vec<Case> {
    (1..=120).map(texts::pair_case).collect()
}

fn long_number_cases() -> Vec<Case> {
    (1..=150).map(texts::long_case).collect()
}

fn notebook_cases() -> Vec<Case> {
    (1..=40).map(notebook::case).collect()
}

fn tally_cases() -> Vec<Case> {
    (1..=100).map(tally::case).collect()
}

fn written_cases() -> Vec<Case> {
    (1..=60).map(written::case).collect()
}

fn written_grown_cases() -> Vec<Case> {
    (1..=20).map(written::grown_case).collect()
}

fn written_again_cases() -> Vec<Case> {
    (1..=40).map(written::again_case).collect()
}

fn written_cause_cases() -> Vec<Case> {
    let causes = (0..).zip(causes::causes(true)).step_by(9);
    let causes = causes.map(|(number, (_, run))| written::cause_case(number, run));
    let allowed = (0..).zip(causes::allowed(true)).step_by(9);
    let allowed = allowed.map(|(number, (_, run))| written::allowed_case(number, run));
    causes.chain(allowed).collect()
}

fn reported_cases() -> Vec<Case> {
    (1..=60).map(reported::case).collect()
}

fn reported_grown_cases() -> Vec<Case> {
    (1..=20).map(reported::grown_case).collect()
}

fn reported_cause_cases() -> Vec<Case> {
    let causes = (0..).zip(causes::causes(true)).step_by(9);
    let causes = causes.map(|(number, (_, run))| reported::cause_case(number, run));
    let allowed = (0..).zip(causes::allowed(false)).step_by(9);
    let allowed = allowed.map(|(number, (_, run))| reported::allowed_case(number, run));
    causes.chain(allowed).collect()
}

fn printed_cases() -> Vec<Case> {
    (1..=200).map(printed::case).collect()
}

fn all_cases() -> Vec<Case> {
    [
        running_cases(),
        crowded_cases(),
        crowded_stale_cases(),
        bands_cases(),
        bands_stale_cases(),
        overall_cases(),
        overall_stale_cases(),
        overall_cause_cases(),
        notices_cases(),
        notices_stale_cases(),
        notices_full_cases(),
        kept_time_cases(),
        misfit_cases(),
        fifth_cases(),
        record_cases(),
        stale_cases(),
        cause_cases(),
        totals_cases(),
        rules_cases(),
        cycle_cases(),
        pair_cases(),
        long_number_cases(),
        notebook_cases(),
        tally_cases(),
        written_cases(),
        written_grown_cases(),
        written_again_cases(),
        written_cause_cases(),
        reported_cases(),
        reported_grown_cases(),
        reported_cause_cases(),
        printed_cases(),
    ]
    .concat()
}

#[test]
fn the_evaluator_agrees_with_itself() {
    let program = StandIn {
        mistake: Mistake::None,
    };
    let counts = compare(&program, all_cases());
    let counts = counts.unwrap_or_else(|difference| panic!("{difference}"));
    assert!(counts.cases > 900, "{counts}");
    for letter in "sekxgobRYNwWvp".chars() {
        let accepted = counts.answered(letter, 0);
        assert!(accepted > 0 && counts.calls(letter) > accepted, "{letter}");
    }
    assert!(counts.dumps('z') > 300, "{counts}");
    assert!(counts.miscounted > 100, "{counts}");
}

/// A mistake, and the cases that have to find it.
type Finder = (Mistake, fn() -> Vec<Case>);

const FINDERS: [Finder; 241] = [
    (Mistake::NeverOpen, running_cases),
    (Mistake::JudgesAnew, stale_cases),
    (Mistake::JudgesAnew, crowded_stale_cases),
    (Mistake::NamesTheEarliest, crowded_cases),
    (Mistake::NamesTheEarliest, crowded_stale_cases),
    (Mistake::NamesTheLatest, crowded_stale_cases),
    (Mistake::PrefersTheOneAfter, crowded_stale_cases),
    (Mistake::ClearsRows, record_cases),
    (Mistake::KeepsRefused, running_cases),
    (Mistake::ClosesToViolated, running_cases),
    (Mistake::ClosesToViolated, stale_cases),
    (Mistake::TotalsWithoutOpen, running_cases),
    (Mistake::CutsNumbers, cause_cases),
    (Mistake::ClosedFirst, cause_cases),
    (Mistake::LinesFromZero, rules_cases),
    (Mistake::LinesFromZero, pair_cases),
    (Mistake::DropsComparisons, rules_cases),
    (Mistake::ReadsBlanksAsZero, cycle_cases),
    (Mistake::CountsIn32Bits, long_number_cases),
    (Mistake::CountsIn64Bits, long_number_cases),
    (Mistake::ReadsTenDigits, long_number_cases),
    (Mistake::MalformsLongNumbers, long_number_cases),
    (Mistake::NamesTheNext, pair_cases),
    (Mistake::NamesTheNext, notebook_cases),
    (Mistake::ReadsTheEarliest, crowded_cases),
    (Mistake::ReadsTheLatest, crowded_cases),
    (Mistake::CountsRefused, tally_cases),
    (Mistake::ZeroesTheRest, written_cases),
    (Mistake::ZeroesTheRest, written_grown_cases),
    (Mistake::ZeroesTheRest, written_again_cases),
    (Mistake::ChangesTheLeast, written_cases),
    (Mistake::ChangesTheLeast, written_again_cases),
    (Mistake::AnswersTheRoom, written_cases),
    (Mistake::RefusesTheExactLength, written_cases),
    (Mistake::RefusesTheExactLength, written_again_cases),
    (Mistake::RefusesClosed, written_cases),
    (Mistake::RefusesClosed, written_grown_cases),
    (Mistake::RefusesClosed, written_again_cases),
    (Mistake::ShortFirst, written_cases),
    (Mistake::ShortFirst, written_cause_cases),
    (Mistake::ShortWithLine, written_cases),
    (Mistake::WritesRefused, written_cases),
    (Mistake::WritesRefused, written_again_cases),
    (Mistake::WritesUncheckedStandings, written_cases),
    (Mistake::WritesUncheckedStandings, written_cause_cases),
    (Mistake::WritesTheRunsRules, written_cases),
    (Mistake::ZeroesTheRest, reported_cases),
    (Mistake::ZeroesTheRest, printed_cases),
    (Mistake::AnswersTheRoom, reported_cases),
    (Mistake::AnswersTheRoom, printed_cases),
    (Mistake::RefusesTheExactLength, reported_cases),
    (Mistake::RefusesTheExactLength, printed_cases),
    (Mistake::ShortFirst, reported_cases),
    (Mistake::ShortFirst, reported_cause_cases),
    (Mistake::ShortWithLine, reported_cases),
    (Mistake::ShortWithLine, printed_cases),
    (Mistake::WritesRefused, reported_cases),
    (Mistake::WritesRefused, printed_cases),
    (Mistake::EndsWithZero, written_cases),
    (Mistake::EndsWithZero, reported_cases),
    (Mistake::EndsWithZero, printed_cases),
    (Mistake::SwapsVerdicts, reported_cases),
    (Mistake::SwapsVerdicts, printed_cases),
    (Mistake::PrintsTheNextTarget, reported_cases),
    (Mistake::PrintsTheNextTarget, printed_cases),
    (Mistake::PrintsTheEarliest, crowded_cases),
    (Mistake::PrintsTotalsFirst, reported_cases),
    (Mistake::PrintsTotalsFirst, printed_cases),
    (Mistake::LeavesOutIdleRules, reported_cases),
    (Mistake::LeavesOutIdleRules, printed_cases),
    (Mistake::NamesTheOtherText, printed_cases),
    (Mistake::PrintsOpenAsViolated, reported_cases),
    (Mistake::PrintsOpenAsViolated, reported_grown_cases),
    (Mistake::PrintsTotalsWithoutOpen, reported_cases),
    (Mistake::PrintsTotalsWithoutOpen, reported_grown_cases),
    (Mistake::ReportsClosedAlone, reported_cases),
    (Mistake::ReportsUncheckedStandings, reported_cause_cases),
    (Mistake::PrintsLargeTextsAs13, printed_cases),
    (Mistake::PrintsIntoTheRun, printed_cases),
    (Mistake::StartsIdle, overall_cases),
    (Mistake::StartsIdle, running_cases),
    (Mistake::StartsIdle, notebook_cases),
    (Mistake::WindowFromTimeZero, overall_cases),
    (Mistake::WindowFromTimeZero, overall_stale_cases),
    (Mistake::WindowFromTimeZero, running_cases),
    (Mistake::WindowFromTheActivation, overall_cases),
    (Mistake::WindowFromTheActivation, overall_stale_cases),
    (Mistake::WindowFromTheLast, overall_cases),
    (Mistake::WindowFromTheLast, overall_stale_cases),
    (Mistake::CountsTheTargetOf13, overall_cases),
    (Mistake::CountsTheTargetOf13, overall_stale_cases),
    (Mistake::ViolatesOneSided, overall_cases),
    (Mistake::ViolatesOneSided, overall_stale_cases),
    (Mistake::FulfilsOneSided, overall_cases),
    (Mistake::FulfilsOneSided, overall_stale_cases),
    (Mistake::NamesNoneOfBoth, overall_cases),
    (Mistake::NamesNoneOfBoth, overall_stale_cases),
    (Mistake::NamesTheLatestFit, overall_stale_cases),
    (Mistake::DecidesAbsenceAtClose, overall_cases),
    (Mistake::DecidesAbsenceAtClose, overall_stale_cases),
    (Mistake::DecidesAbsenceAtClose, running_cases),
    (Mistake::ClosesOverallToViolated, overall_cases),
    (Mistake::ClosesOverallToViolated, overall_stale_cases),
    (Mistake::ClosesOverallToViolated, running_cases),
    (Mistake::ResetsPositionZero, overall_stale_cases),
    (Mistake::ResetsPositionZero, stale_cases),
    (Mistake::ChecksEveryZero, overall_stale_cases),
    (Mistake::ChecksEveryZero, overall_cause_cases),
    (Mistake::CountsEveryZero, overall_stale_cases),
    (Mistake::CountsEveryZero, overall_cause_cases),
    (Mistake::AllowsIdleAtZero, overall_cause_cases),
    (Mistake::AllowsStandingsAtEvents, overall_cause_cases),
    (Mistake::AllowsFarTargetsAtZero, overall_cause_cases),
    (Mistake::AllowsOpenAtZero, overall_cause_cases),
    (Mistake::MisfitBeforeWindow, misfit_cases),
    (Mistake::AllowsCorrelation, misfit_cases),
    (Mistake::AllowsCorrelation, overall_cause_cases),
    (Mistake::RefusesEqualUnder13, misfit_cases),
    (Mistake::ReadsIdleAtZero, overall_cases),
    (Mistake::ReadsIdleAtZero, pair_cases),
    (Mistake::PrintsNoZero, overall_cases),
    (Mistake::PrintsNoZero, printed_cases),
    (Mistake::PrintsNoZero, reported_cases),
    (Mistake::StartsWithNoTotals, overall_cases),
    (Mistake::StartsWithNoTotals, running_cases),
    (Mistake::StartsWithNoTotals, notebook_cases),
    (Mistake::CountsBeforeJudging, running_cases),
    (Mistake::CountsBeforeJudging, overall_cases),
    (Mistake::CountsBeforeJudging, stale_cases),
    (Mistake::CountsByDifference, stale_cases),
    (Mistake::CountsByDifference, crowded_stale_cases),
    (Mistake::ClosesWithOldTotals, running_cases),
    (Mistake::ClosesWithOldTotals, overall_cases),
    (Mistake::ClosesWithOldTotals, stale_cases),
    (Mistake::ClosesWithOldTotals, notebook_cases),
    (Mistake::ReadsNoTotals, pair_cases),
    (Mistake::ReadsNoTotals, overall_cases),
    (Mistake::ReadsNoTotals, notebook_cases),
    (Mistake::ClearsUnusedTotals, totals_cases),
    (Mistake::ClearsUnusedTotals, record_cases),
    (Mistake::CorrectsRefused, totals_cases),
    (Mistake::CorrectsRefused, record_cases),
    (Mistake::ChecksUnusedTotals, totals_cases),
    (Mistake::ChecksUnusedTotals, record_cases),
    (Mistake::ChecksActivationsAlone, totals_cases),
    (Mistake::ChecksActivationsAlone, record_cases),
    (Mistake::ChecksActivationsAlone, tally_cases),
    (Mistake::ChecksActivationsAlone, written_cause_cases),
    (Mistake::ChecksActivationsAlone, reported_cause_cases),
    (Mistake::ClosedBeforeTotals, totals_cases),
    (Mistake::TakesMiscounted, totals_cases),
    (Mistake::TakesMiscounted, record_cases),
    (Mistake::ClosesMiscounted, totals_cases),
    (Mistake::ShowsMiscounted, totals_cases),
    (Mistake::AnswersMiscounted, totals_cases),
    (Mistake::AbsorbsMiscounted, totals_cases),
    (Mistake::AbsorbsMiscounted, tally_cases),
    (Mistake::WritesMiscounted, written_cause_cases),
    (Mistake::WritesMiscounted, written_cases),
    (Mistake::ReportsMiscounted, reported_cause_cases),
    (Mistake::ReportsMiscounted, reported_cases),
    (Mistake::JudgesEachAlone, bands_cases),
    (Mistake::JudgesEachAlone, bands_stale_cases),
    (Mistake::JudgesEachAlone, running_cases),
    (Mistake::JudgesEachAlone, overall_cases),
    (Mistake::LooksAtTheFirstAlone, bands_cases),
    (Mistake::LooksAtTheFirstAlone, bands_stale_cases),
    (Mistake::LooksAtTheFirstAlone, running_cases),
    (Mistake::LooksAtTheLastAlone, bands_cases),
    (Mistake::LooksAtTheLastAlone, bands_stale_cases),
    (Mistake::LooksAtTheLastAlone, running_cases),
    (Mistake::RefusesBandsInRecords, cause_cases),
    (Mistake::RefusesBandsInRecords, bands_cases),
    (Mistake::RefusesBandsInRecords, record_cases),
    (Mistake::RefusesBandsInTexts, rules_cases),
    (Mistake::RefusesBandsInTexts, fifth_cases),
    (Mistake::DropsTheFifth, rules_cases),
    (Mistake::DropsTheFifth, fifth_cases),
    (Mistake::CountsCommasFirst, rules_cases),
    (Mistake::CountsCommasFirst, fifth_cases),
    (Mistake::CountsCommasLast, fifth_cases),
    (Mistake::FifthAfterTheWindow, fifth_cases),
    (Mistake::JudgesByTheClockAlone, notices_cases),
    (Mistake::JudgesByTheClockAlone, running_cases),
    (Mistake::JudgesByTheClockAlone, stale_cases),
    (Mistake::TakesBelowNotices, notices_cases),
    (Mistake::TakesBelowNotices, notices_stale_cases),
    (Mistake::NoticesBelowNotices, notices_cases),
    (Mistake::NoticesBelowNotices, notices_stale_cases),
    (Mistake::NoticesBelowEvents, notices_cases),
    (Mistake::NoticesBelowEvents, notices_stale_cases),
    (Mistake::NoticesDecideNothing, notices_cases),
    (Mistake::NoticesDecideNothing, notices_stale_cases),
    (Mistake::NoticesLeavePositionZero, notices_cases),
    (Mistake::NoticesLeavePositionZero, notices_stale_cases),
    (Mistake::IgnoresNoticesWithoutEvents, notices_cases),
    (Mistake::NoticesKeepTotals, notices_cases),
    (Mistake::NoticesKeepTotals, notices_stale_cases),
    (Mistake::NoticesJudgeAnew, notices_stale_cases),
    (Mistake::NoticesEndChains, notices_cases),
    (Mistake::NoticesEndChains, notices_stale_cases),
    (Mistake::NoticesFillASlot, notices_cases),
    (Mistake::NoticesFillASlot, notices_stale_cases),
    (Mistake::NoticesMiscounted, totals_cases),
    (Mistake::NoticesMiscounted, record_cases),
    (Mistake::KeepsRefusedNotices, notices_cases),
    (Mistake::KeepsRefusedNotices, notices_stale_cases),
    (Mistake::KeepsRefusedNotices, cause_cases),
    (Mistake::RefusesNoticesWhenFull, notices_full_cases),
    (Mistake::RefusesEqualNotices, notices_cases),
    (Mistake::RefusesEqualNotices, notices_stale_cases),
    (Mistake::RefusesEqualNotices, cause_cases),
    (Mistake::FallsWithoutLine, notices_cases),
    (Mistake::FallsWithoutLine, notices_stale_cases),
    (Mistake::FallsWithoutLine, cause_cases),
    (Mistake::CutsNotices, notices_cases),
    (Mistake::CutsNotices, notices_stale_cases),
    (Mistake::CutsNotices, cause_cases),
    (Mistake::CutsBeforeComparing, notices_cases),
    (Mistake::CutsBeforeComparing, notices_stale_cases),
    (Mistake::CutsBeforeComparing, cause_cases),
    (Mistake::RangeBeforeClosed, notices_cases),
    (Mistake::ClosedBeforeNotices, cause_cases),
    (Mistake::ClosedBeforeNotices, totals_cases),
    (Mistake::TakesSetTheClock, notices_cases),
    (Mistake::TakesSetTheClock, notices_stale_cases),
    (Mistake::TakesSetTheClock, record_cases),
    (Mistake::TakesResetTheClock, notices_cases),
    (Mistake::TakesResetTheClock, notices_stale_cases),
    (Mistake::TakesResetTheClock, stale_cases),
    (Mistake::ClosesWithClockZero, notices_cases),
    (Mistake::ClosesWithClockZero, stale_cases),
    (Mistake::ClosesWithClockZero, record_cases),
    (Mistake::ClosesByTheClock, notices_cases),
    (Mistake::StartsWithOldClock, notices_cases),
    (Mistake::StartsWithOldClock, record_cases),
    (Mistake::ReadsWithOldClock, notices_cases),
    (Mistake::ChecksTheClock, notices_cases),
    (Mistake::ChecksTheClock, record_cases),
    (Mistake::ChecksTheClock, kept_time_cases),
    (Mistake::EndsEarly, running_cases),
];

#[test]
fn every_mistake_is_found() {
    for (mistake, cases) in FINDERS {
        let found = compare(&StandIn { mistake }, cases());
        let difference = found.err();
        let difference = difference.unwrap_or_else(|| panic!("{mistake:?} is not found"));
        let shown = difference.to_string();
        let head = format!("{}, seed {}: ", difference.kind, difference.seed);
        assert!(shown.starts_with(&head), "{shown}");
        assert!(shown.contains("\nexpected: ") && shown.contains("\nfound: "));
    }
    let tried: BTreeSet<String> = FINDERS.iter().map(|(m, _)| format!("{m:?}")).collect();
    assert_eq!(tried.len(), Mistake::ALL.len());
}
