//! What the arguments ask for.

use std::ops::RangeInclusive;
use zaghdurem_host::scale::Scale;

pub const USAGE: &str = "usage: compare [quick] [--seed N | --seeds FROM..TO] [--count N]; FROM and TO are both compared
       compare --files N [--seed N]";

/// One run with all its lines, one for each seed of a range with a line each, or so many different files through the reader.
#[derive(Debug)]
pub enum Asked {
    One(Scale),
    Each(Scale, RangeInclusive<u64>),
    Files { seed: u64, files: usize },
}

/// Reads the arguments; what is said about wrong ones is the error.
pub fn asked(mut arguments: impl Iterator<Item = String>) -> Result<Asked, String> {
    let (mut quick, mut seed, mut seeds) = (false, None, None);
    let (mut count, mut files) = (None, None);
    while let Some(argument) = arguments.next() {
        match argument.as_str() {
            "quick" => quick = true,
            "--seed" => seed = Some(number(&argument, arguments.next())?),
            "--seeds" => seeds = Some(range(&argument, arguments.next())?),
            "--count" => count = Some(number(&argument, arguments.next())? as usize),
            "--files" => files = Some(number(&argument, arguments.next())? as usize),
            other => return Err(format!("not understood: {other}")),
        }
    }
    if let Some(files) = files {
        if quick || seeds.is_some() || count.is_some() {
            return Err("--files goes with --seed alone".to_owned());
        }
        let seed = seed.unwrap_or(1);
        return Ok(Asked::Files { seed, files });
    }
    let usual = if quick {
        Scale::QUICK_COUNT
    } else {
        Scale::FULL_COUNT
    };
    let count = count.unwrap_or(usual);
    let scale = |seed| Scale { quick, seed, count };
    match (seed, seeds) {
        (Some(_), Some(_)) => Err("--seed and --seeds do not go together".to_owned()),
        (None, Some(seeds)) => Ok(Asked::Each(scale(*seeds.start()), seeds)),
        (seed, None) => Ok(Asked::One(scale(seed.unwrap_or(1)))),
    }
}

/// The seeds of a range, its last one among them.
fn range(option: &str, value: Option<String>) -> Result<RangeInclusive<u64>, String> {
    let text = value.ok_or_else(|| format!("{option} needs a range"))?;
    let ends = text.split_once("..");
    let ends = ends.and_then(|(from, to)| Some((from.parse().ok()?, to.parse().ok()?)));
    match ends {
        Some((from, to)) if from <= to => Ok(from..=to),
        Some(_) => Err(format!("{option} needs a range that rises, not {text}")),
        None => Err(format!("{option} needs a range as 1..5, not {text}")),
    }
}

fn number(option: &str, value: Option<String>) -> Result<u64, String> {
    let text = value.ok_or_else(|| format!("{option} needs a number"))?;
    text.parse()
        .map_err(|_| format!("{option} needs a number, not {text}"))
}

#[cfg(test)]
mod tests {
    use super::*;

    fn of(arguments: &str) -> Result<Asked, String> {
        asked(arguments.split_whitespace().map(str::to_owned))
    }

    #[test]
    fn one_seed_or_a_range_of_them() {
        let Ok(Asked::One(scale)) = of("--seed 7") else {
            panic!("one seed");
        };
        assert_eq!(
            (scale.quick, scale.seed, scale.count),
            (false, 7, Scale::FULL_COUNT)
        );
        let Ok(Asked::Each(scale, seeds)) = of("quick --seeds 3..5 --count 9") else {
            panic!("a range");
        };
        assert_eq!((scale.quick, scale.count, seeds), (true, 9, 3..=5));
        assert!(matches!(of(""), Ok(Asked::One(Scale { seed: 1, .. }))));
        let files = of("--seed 3 --files 9");
        assert!(matches!(files, Ok(Asked::Files { seed: 3, files: 9 })));
    }

    #[test]
    fn wrong_arguments_are_told() {
        for wrong in [
            "fast",
            "--seed",
            "--seed x",
            "--seeds",
            "--seeds 3",
            "--seeds 3..x",
            "--seeds 5..3",
            "--seed 1 --seeds 1..2",
            "--files",
            "quick --files 9",
            "--files 9 --seeds 1..2",
            "--files 9 --count 1",
        ] {
            assert!(of(wrong).is_err(), "{wrong}");
        }
    }
}
