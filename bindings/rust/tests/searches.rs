//! Searches: what is found, each refusal at its boundary, and what the records and the room hold then.

use brothlantern::search::{
    logarithms, search, Found, Progress, SearchOptions, Stopped, LOGARITHMS,
};
use brothlantern::tree::{solution, Node, Solution};
use brothlantern::{replay, Context, Mode, Refusal};

/// The next numbers after 1, 16 and 17, and the least above 0.
const ABOVE_ONE: f32 = 1.0 + f32::EPSILON;
const ABOVE_SIXTEEN: f32 = 16.0 + 16.0 * f32::EPSILON;
const ABOVE_SEVENTEEN: f32 = 17.0 + 16.0 * f32::EPSILON;
const LEAST: f32 = 1e-45;

/// How far each iteration comes: the first stores 5 0 0, the second 0 5 0, and the third 0 below the second's first record.
const AFTER: [Progress; 4] = [
    Progress { iterations: 0, records: 1, draws: 0 },
    Progress { iterations: 1, records: 4, draws: 3 },
    Progress { iterations: 2, records: 7, draws: 6 },
    Progress { iterations: 3, records: 8, draws: 7 },
];

/// Of a craft with the moves 0 and 5. Each draw is 0 and so picks the highest.
struct Asked {
    context: Context,
    options: SearchOptions,
    logs: Vec<f32>,
    draws: Vec<u8>,
    records: usize,
    room: usize,
}

fn asked() -> Asked {
    Asked {
        context: Context {
            player_job_level: 50,
            recipe_job_level: 50,
            base_progress_factor: 100,
            base_quality_factor: 100,
            step_max: 8,
            progress_target: 200,
            starting_quality: 0,
            quality_target: 0,
            durability_max: 40,
            cp_max: 100,
            is_expert: false,
            action_pool: 0b10_0001,
            player_is_specialist: false,
            use_manipulation: false,
            use_delineation: false,
        },
        options: SearchOptions { iterations: 3, ..SearchOptions::default() },
        logs: logarithms().to_vec(),
        draws: vec![0; 7],
        records: 8,
        room: 2,
    }
}

fn spare() -> Node {
    Node { parent: 9, action: 99, visits: -8.0, ..Node::default() }
}

impl Asked {
    fn search(&self) -> (Result<Found, Stopped>, [Node; 9], [u8; 3]) {
        let mut nodes = [spare(); 9];
        let mut room = [7; 3];
        let (lent, out) = (&mut nodes[..self.records], &mut room[..self.room]);
        let answer = search(&self.context, &self.options, &self.logs, &self.draws, lent, out);
        (answer, nodes, room)
    }

    /// Finds what it finds with as much of all as it takes, or more.
    fn assert_whole(&self) {
        let (answer, nodes, room) = self.search();
        let found = answer.unwrap();
        assert_eq!((found.progress, found.path, found.node), (AFTER[3], 2, 7));
        assert_eq!((room, nodes[8]), ([0, 0, 7], spare()));
    }

    /// After so many iterations, which stand.
    fn assert_stopped(&self, refusal: Refusal, iterations: usize) {
        let (answer, nodes, room) = self.search();
        let progress = AFTER[iterations];
        assert_eq!((answer, room), (Err(Stopped { refusal, progress }), [7; 3]));
        let options = SearchOptions { iterations: progress.iterations, ..self.options };
        let (_, fewer, _) = Asked { options, ..asked() }.search();
        assert_eq!(nodes, fewer);
    }

    /// Before any work.
    fn assert_refused(&self, refusal: Refusal) {
        let stopped = Stopped { refusal, progress: Progress::default() };
        assert_eq!(self.search(), (Err(stopped), [spare(); 9], [7; 3]));
    }
}

#[test]
fn finds() {
    let asked = asked();
    let (answer, nodes, room) = asked.search();
    let found = answer.unwrap();
    assert_eq!((found.progress, found.path, found.node), (AFTER[3], 2, 7));
    assert_eq!(room, [0, 0, 7]);
    assert_eq!(replay(&asked.context, Mode::Plain, &room[..2]).unwrap().state, found.state);
    let root = Node { action: 31, visits: 3.0, score_sum: 1.625, max_score: 0.625, ..nodes[0] };
    assert_eq!((nodes[0], nodes[0].unused, nodes[8]), (root, 0, spare()));
    let mut path = [0; 8];
    assert_eq!(solution(&nodes, 8, &mut path), Ok(Solution { length: 2, node: 7 }));
}

#[test]
fn finds_nothing_in_no_iteration() {
    let mut none = asked();
    none.options.iterations = 0;
    let found = none.search().0.unwrap();
    assert_eq!((found.progress, found.path, found.node), (AFTER[0], 0, 0));
    assert_eq!((found.state.step, found.state.last_action), (1, None));
}

#[test]
fn reads_no_more_than_it_uses() {
    let mut more = asked();
    more.draws.extend([255; 9]);
    more.logs.push(f32::NAN);
    (more.records, more.room) = (9, 3);
    more.assert_whole();
}

#[test]
fn has_a_default() {
    let mut most = asked();
    most.options = SearchOptions::default();
    assert_eq!(most.search().0.unwrap().progress.iterations, 4_096);
}

#[test]
fn stops_for_draws() {
    for (draws, iterations) in [(6, 2), (5, 1), (3, 1), (2, 0), (0, 0)] {
        Asked { draws: vec![0; draws], ..asked() }.assert_stopped(Refusal::NoDraw, iterations);
    }
    // each is how many moves there are
    for (place, draw, iterations) in [(6, 1, 2), (4, 2, 1), (3, 1, 1), (0, 2, 0)] {
        let mut high = asked();
        high.draws[place] = draw;
        high.assert_stopped(Refusal::DrawTooHigh, iterations);
        high.draws.truncate(place);
        high.assert_stopped(Refusal::NoDraw, iterations);
    }
}

#[test]
fn stops_for_room() {
    for (records, needed, iterations) in [(7, 8, 2), (6, 7, 1), (4, 7, 1), (3, 4, 0), (1, 4, 0)] {
        Asked { records, ..asked() }.assert_stopped(Refusal::NoRoom { needed }, iterations);
    }
    Asked { room: 1, ..asked() }.assert_stopped(Refusal::NoRoom { needed: 2 }, 3);
    // the draw comes first
    Asked { records: 7, draws: vec![0; 6], ..asked() }.assert_stopped(Refusal::NoDraw, 2);
    Asked { records: 7, draws: vec![0, 0, 0, 0, 0, 0, 1], ..asked() }
        .assert_stopped(Refusal::DrawTooHigh, 2);
}

#[test]
fn refuses_before_any_work() {
    let mut wrong = Asked { records: 0, ..asked() };
    wrong.assert_refused(Refusal::NoRoom { needed: 1 });
    wrong.context.step_max = 0;
    wrong.assert_refused(Refusal::BadSearch);
    wrong.context.action_pool = 1 << 31;
    wrong.assert_refused(Refusal::OutsideLimits { place: 11 });
    wrong.context.durability_max = 98;
    wrong.assert_refused(Refusal::OutsideLimits { place: 8 });
}

/// Of a float, from 0 to the most; above it comes the next.
fn assert_limits(most: f32, above: f32, with: impl Fn(f32) -> Asked) {
    for right in [0.0, -0.0, most] {
        with(right).assert_whole();
    }
    for wrong in [above, -LEAST, f32::NAN] {
        with(wrong).assert_refused(Refusal::BadSearch);
    }
}

#[test]
fn has_options_within_limits() {
    let usual = asked().options;
    let of = |options| Asked { options, ..asked() };
    of(SearchOptions { iterations: 4_097, ..usual }).assert_refused(Refusal::BadSearch);
    let threshold =
        |score_storage_threshold| of(SearchOptions { score_storage_threshold, ..usual });
    threshold(f32::NAN).assert_refused(Refusal::BadSearch);
    threshold(f32::NEG_INFINITY).assert_whole();
    assert_limits(1.0, ABOVE_ONE, |max_score_weighting_constant| {
        of(SearchOptions { max_score_weighting_constant, ..usual })
    });
    assert_limits(16.0, ABOVE_SIXTEEN, |exploration_constant| {
        of(SearchOptions { exploration_constant, ..usual })
    });
}

#[test]
fn has_logarithms_within_limits() {
    assert_limits(17.0, ABOVE_SEVENTEEN, |last| {
        let mut table = asked();
        table.logs[LOGARITHMS - 1] = last;
        table
    });
    let mut short = asked();
    short.logs.truncate(LOGARITHMS - 1);
    short.assert_refused(Refusal::BadSearch);
}

#[test]
fn says_why_it_stopped() {
    let stopped = Stopped { refusal: Refusal::NoDraw, progress: AFTER[2] };
    assert_eq!(stopped.to_string(), "the draws are used up, after 2 iterations");
    let refusals = [Refusal::NoDraw, Refusal::DrawTooHigh, Refusal::BadSearch];
    assert_eq!(refusals.map(Refusal::number), [19, 20, 21]);
}
