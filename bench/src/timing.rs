//! Times of several sides, taken in turn: each round runs every side once, so that what slows the machine for a while
//! slows all of them.
use std::time::{Duration, Instant};

/// Something to time: a name, the work, and the blocks that it goes over.
pub struct Side<'a> {
    name: String,
    blocks: usize,
    work: Box<dyn FnMut() + 'a>,
}

impl<'a> Side<'a> {
    pub fn new(name: &str, blocks: usize, work: impl FnMut() + 'a) -> Side<'a> {
        Side {
            name: name.to_string(),
            blocks,
            work: Box::new(work),
        }
    }
}

/// Nanoseconds a block.
pub struct Time {
    pub name: String,
    pub best: f64,
    pub median: f64,
}

/// The times of all sides, and the number of rounds: as many as go into this duration, but five at least.
pub fn take(sides: &mut [Side], duration: Duration) -> (Vec<Time>, usize) {
    let mut taken: Vec<Vec<f64>> = vec![Vec::new(); sides.len()];
    let (start, mut rounds) = (Instant::now(), 0);
    while rounds < 5 || start.elapsed() < duration {
        for (side, taken) in sides.iter_mut().zip(&mut taken) {
            let begun = Instant::now();
            (side.work)();
            taken.push(begun.elapsed().as_nanos() as f64 / side.blocks as f64);
        }
        rounds += 1;
    }
    let times = sides
        .iter()
        .zip(taken)
        .map(|(side, taken)| summary(&side.name, taken));
    (times.collect(), rounds)
}

/// The work of the side of this name, so many times.
pub fn repeat(sides: &mut [Side], name: &str, count: usize) -> Result<(), String> {
    let found = sides.iter_mut().find(|side| side.name == name);
    let side = found.ok_or("no side has this name")?;
    for _ in 0..count {
        (side.work)();
    }
    Ok(())
}

fn summary(name: &str, mut taken: Vec<f64>) -> Time {
    taken.sort_by(f64::total_cmp);
    Time {
        name: name.to_string(),
        best: taken[0],
        median: taken[taken.len() / 2],
    }
}

/// The best time of the side of this name.
pub fn best(times: &[Time], name: &str) -> f64 {
    times
        .iter()
        .find(|time| time.name == name)
        .map_or(f64::NAN, |time| time.best)
}
