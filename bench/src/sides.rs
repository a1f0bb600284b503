//! All that is timed.
use crate::inputs::{Given, Samples};
use crate::jobs::{DENSE, LIBRARY, PLAIN};
use crate::timing::Side;
use crate::{doubles, jpeg};
use std::hint::black_box;

/// The library and plain Rust, job by job, the dense passes and doubles over the blocks given, and libjpeg-turbo over
/// those of 8 bits.
pub fn all<'a>(given: &'a Given, small: &'a Given) -> Vec<Side<'a>> {
    let pairs = LIBRARY.sides(given).into_iter().zip(PLAIN.sides(given));
    let mut sides: Vec<Side> = pairs.flat_map(|(one, other)| [one, other]).collect();
    sides.extend(DENSE.sides(given));
    sides.extend(of_doubles(&given.blocks));
    sides.extend(of_jpeg(&small.blocks));
    sides
}

fn of_doubles(blocks: &[Samples]) -> Vec<Side<'_>> {
    let sets: Vec<_> = blocks.iter().map(doubles::forward).collect();
    let forward = move || {
        for samples in blocks {
            black_box(doubles::forward(black_box(samples)));
        }
    };
    let forward_and_round = move || {
        for samples in blocks {
            black_box(doubles::round(&doubles::forward(black_box(samples))));
        }
    };
    let back = move || {
        for eighths in &sets {
            black_box(doubles::back(black_box(eighths)));
        }
    };
    vec![
        Side::new("doubles: forward", blocks.len(), forward),
        Side::new(
            "doubles: forward and round",
            blocks.len(),
            forward_and_round,
        ),
        Side::new("doubles: back", blocks.len(), back),
    ]
}

/// Forward of each version of libjpeg-turbo. It works in place, so that the copy of a block counts.
fn of_jpeg(blocks: &[Samples]) -> Vec<Side<'_>> {
    let side = |(name, version)| {
        let blocks: Vec<_> = blocks
            .iter()
            .map(|samples| jpeg::Block(samples.map(|x| x as i16)))
            .collect();
        Side::new(
            &format!("libjpeg-turbo, {name}: forward"),
            blocks.len(),
            move || {
                for samples in &blocks {
                    let mut block = *black_box(samples);
                    jpeg::forward(version, &mut block);
                    black_box(&block);
                }
            },
        )
    };
    jpeg::versions().into_iter().map(side).collect()
}
