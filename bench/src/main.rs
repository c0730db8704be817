//! bench [ROUNDS] [--goals]: times ours and the Rust on the same inputs, in one process, prints the median ratios and
//! judges the goals by them. With --goals a goal that is missed makes the exit status 1.
//! bench count CASE CALLS: makes our calls of a case alone, so that another program can count their instructions.

mod cases;
mod crafts;
mod lists;
mod measure;
mod replays;
mod searches;
mod texts;
mod trees;

use cases::Case;
use measure::Figure;
use std::process::ExitCode;

const ROUNDS: usize = 25;
const MUST_MEET_GOALS: &str = "--goals";
/// The most that a solution on all records may take, in scans of them.
const SCANS_OF_A_SOLUTION: f64 = 1.5;
/// How many times as fast as the Rust a search shall be.
const SEARCH_GOAL: f64 = 2.0;

fn main() -> ExitCode {
    let words: Vec<String> = std::env::args().skip(1).collect();
    if words.first().map_or(false, |word| word == "count") {
        count(&words[1], number(&words[2]));
        return ExitCode::SUCCESS;
    }
    let must_meet = words.iter().any(|word| word == MUST_MEET_GOALS);
    let mut others = words.iter().filter(|word| *word != MUST_MEET_GOALS);
    let met = time(others.next().map_or(ROUNDS, |word| number(word)));
    ExitCode::from(u8::from(must_meet && !met))
}

fn number(word: &str) -> usize {
    word.parse().expect("a number")
}

fn count(name: &str, calls: usize) {
    let cases = cases::all();
    cases.iter().find(|case| case.name() == name).expect("a case").call(calls);
}

/// Prints the figures and the goals, and answers whether all are met.
fn time(rounds: usize) -> bool {
    println!("{:<48} {:>12} {:>12} {:>9}", "", "ours, ns", "Rust, ns", "ratio");
    let cases: Vec<(Case, Figure)> =
        cases::all().into_iter().map(|case| (case, printed(case.measure(rounds)))).collect();
    let searches: Vec<Figure> =
        searches::measure(rounds, &crafts::searched()).into_iter().map(printed).collect();
    for figure in searches::measure(rounds, &crafts::searched_besides()) {
        println!("{figure}");
    }
    let trees = trees::measure(rounds);
    for figure in &trees.figures {
        println!("{figure}");
    }
    let mut met = true;
    for (case, figure) in &cases {
        met &= case.goal.map_or(true, |goal| judge_ratio(&figure.name, goal, figure.ratio));
    }
    for figure in &searches {
        met &= judge_ratio(&figure.name, SEARCH_GOAL, figure.ratio);
    }
    let slowest = cases.iter().map(|(_, figure)| figure).min_by(|a, b| a.ratio.total_cmp(&b.ratio));
    met &= judge_ratio("every replay and text", 1.0, slowest.expect("a case").ratio);
    met & judge_solution(trees.scans_of_a_solution)
}

fn printed(figure: Figure) -> Figure {
    println!("{figure}");
    figure
}

fn judge_ratio(what: &str, goal: f64, ratio: f64) -> bool {
    let met = ratio >= goal;
    println!("goal, {what} at least {goal} times as fast: {}, {ratio:.2}", words_of(met));
    met
}

fn judge_solution(scans: f64) -> bool {
    let met = scans <= SCANS_OF_A_SOLUTION;
    let word = words_of(met);
    println!("goal, solution at most {SCANS_OF_A_SOLUTION} times the scan: {word}, {scans:.2}");
    met
}

fn words_of(met: bool) -> &'static str {
    if met {
        "met"
    } else {
        "not met"
    }
}
