//! Many stores and lists of random lines, library and model compared call by call.

use crate::generate::{Lines, Theme};
use crate::mutate::mutate;
use crate::setups::{generous_setup, good_setup, odd_setup};
use crate::states::scramble;
use crate::stories::tell;
use crate::tally::Tally;
use crate::twin::{Bench, Twin};

/// Wrong setups compared before each list.
const ODD_SETUPS: usize = 20;

/// Runs stories and random lists until so many lines are compared, then checks the table of pairs.
pub fn random(seed: u64, lines: u64) -> Tally {
    let mut bench = Bench::new(seed);
    for _ in 0..3 {
        tell(&mut bench);
    }
    let mut done = 0;
    while done < lines {
        for _ in 0..ODD_SETUPS {
            let text = odd_setup(&mut bench.rng);
            Twin::set_up(&mut bench, &text);
        }
        let length = bench.rng.within(100, 700) as u64;
        list(&mut bench, length.min(lines - done));
        done += length;
    }
    bench.table.check(&mut bench.tally);
    bench.tally
}

/// One store and a list of lines of one theme.
fn list(bench: &mut Bench, length: u64) {
    let theme = Theme::any(&mut bench.rng);
    let generous = matches!(theme, Theme::Repository | Theme::DirectoryCommits) || bench.rng.percent(20);
    let text = if generous { generous_setup(&mut bench.rng) } else { good_setup(&mut bench.rng) };
    let Some(mut twin) = Twin::set_up(bench, &text) else { return };
    if bench.rng.percent(if generous { 30 } else { 60 }) {
        let mut state = twin.model.clone();
        scramble(&mut bench.rng, &mut state);
        twin.patch(bench, |model| *model = state);
    }
    for _ in 0..length {
        let mut line = Lines::new(&mut bench.rng, &twin.model, theme).line();
        if bench.rng.percent(8) {
            line = mutate(&mut bench.rng, &line);
        }
        twin.run(bench, &line);
        if bench.rng.below(300) == 0 {
            twin.check_listing(bench);
        }
    }
    twin.check_listing(bench);
}
