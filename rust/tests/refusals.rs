//! Every refusal of the library, provoked through each function that has it, comes as its case of `Refusal`, with its
//! number and its place, and leaves every slice as it was.
use weld_dct::*;

const SAMPLE_HEAD: u32 = 0x1000_4001;
const SAMPLE: u32 = 0x2000_0000;
const COEFFICIENT: u32 = 0x3000_0000;
const COEFFICIENT_HEAD: u32 = 0x4000_4001;
const END: u32 = 0xF000_0001;

/// A sheet of one block, all 0.
fn zeros(head: u32, body: u32) -> Vec<u32> {
    let mut words = vec![body; sheet_words(1)];
    words[0] = head;
    words[65] = END;
    words
}

/// Such a sheet of samples.
fn one_block() -> Vec<u32> {
    zeros(SAMPLE_HEAD, SAMPLE)
}

/// A word of a sample.
fn sample_word(x: i32) -> u32 {
    SAMPLE | x as u32 & 0x0FFF_FFFF
}

/// A sample in range, for each n from 0 to 63.
fn any_sample(n: i32) -> i32 {
    n * n * 1021 % (HIGHEST_SAMPLE - LOWEST_SAMPLE + 1) + LOWEST_SAMPLE
}

/// A word of a coefficient.
fn coefficient_word(y: i32) -> u32 {
    COEFFICIENT | y as u32 & 0x0FFF_FFFF
}

/// A refusal, and the number and place that it has.
type Expected = (Refusal, u32, usize);

/// The refusal is the expected one, and has this number and place.
fn refused<T: std::fmt::Debug + PartialEq>(
    came: Result<T, Refusal>,
    (expected, number, place): Expected,
) {
    assert_eq!(came, Err(expected));
    assert_eq!((expected.number(), expected.place()), (number, place));
    assert_eq!(expected.to_string(), format!("refused {number} at {place}"));
}

/// A job that writes one buffer refuses so, and leaves one of this length as it was.
fn refuses(job: impl FnOnce(&mut [i32]) -> Result<(), Refusal>, length: usize, expected: Expected) {
    let mut left = vec![7; length];
    refused(job(&mut left), expected);
    assert_eq!(left, vec![7; length]);
}

/// Forward does.
fn forward_refuses(samples: &[i32], length: usize, expected: Expected) {
    refuses(|left| forward(samples, left), length, expected);
}

/// Back does.
fn back_refuses(elements: &[i32], length: usize, expected: Expected) {
    refuses(|left| back(elements, left), length, expected);
}

/// Round at a width, or reorient by an orientation.
type ByNumber = fn(&[i32], u32, &mut [i32]) -> Result<(), Refusal>;

/// Such a job does.
fn set_refuses(job: ByNumber, elements: &[i32], by: u32, length: usize, expected: Expected) {
    refuses(|left| job(elements, by, left), length, expected);
}

/// Quantize, or dequantize.
type BySteps = fn(&[i32], &[u32], &mut [i32]) -> Result<(), Refusal>;

/// Such a job does.
fn steps_refuse(job: BySteps, numbers: &[i32], steps: &[u32], length: usize, expected: Expected) {
    refuses(|left| job(numbers, steps, left), length, expected);
}

/// The bits of a float that is no number, and has others once anything is worked out with it.
const NO_NUMBER: u32 = 0x7F80_0007;

/// To floats does.
fn floats_refuse(coefficients: &[i32], length: usize, expected: Expected) {
    let mut left = vec![f32::from_bits(NO_NUMBER); length];
    refused(to_floats(coefficients, &mut left), expected);
    assert!(left.iter().all(|x| x.to_bits() == NO_NUMBER));
}

/// Sheet refuses so at the width b, and leaves buffers of these lengths as they were.
fn sheet_refuses(words: &[u32], b: u32, lengths: (usize, usize), expected: Expected) {
    let (mut scratch, mut output) = (vec![7; lengths.0], vec![7; lengths.1]);
    refused(sheet(words, b, &mut scratch, &mut output), expected);
    assert_eq!((scratch, output), (vec![7; lengths.0], vec![7; lengths.1]));
}

/// Lengths of elements and of samples or coefficients of which one is wrong, or both.
const WRONG_LENGTHS: [(usize, usize); 7] = [
    (0, 0),
    (0, 64),
    (511, 64),
    (513, 64),
    (512, 0),
    (512, 63),
    (512, 65),
];

#[test]
fn forward_names_lengths_then_the_first_sample() {
    let mut samples = vec![0; PLACES];
    (samples[63], samples[5]) = (LOWEST_SAMPLE - 1, HIGHEST_SAMPLE + 1);
    forward_refuses(&samples, COMPONENTS, (Refusal::Sample(5), 2, 5));
    samples[5] = HIGHEST_SAMPLE;
    forward_refuses(&samples, COMPONENTS, (Refusal::Sample(63), 2, 63));
    for (m, n) in WRONG_LENGTHS {
        forward_refuses(&vec![i32::MIN; n], m, (Refusal::Lengths, 1, 0));
    }
}

#[test]
fn back_names_lengths_then_magnitudes_then_no_block() {
    let mut elements = vec![0; COMPONENTS];
    elements[0] = 1;
    back_refuses(&elements, PLACES, (Refusal::NoBlock, 5, 0));
    elements[511] = i32::MIN;
    back_refuses(&elements, PLACES, (Refusal::Magnitudes(63), 4, 63));
    for (n, m) in WRONG_LENGTHS {
        back_refuses(&vec![i32::MIN; n], m, (Refusal::Lengths, 1, 0));
    }
}

#[test]
fn round_names_lengths_then_width_then_magnitudes() {
    let mut elements = vec![0; COMPONENTS];
    (elements[16], elements[17]) = (MAGNITUDES_LIMIT as i32, -1);
    for b in WIDTHS {
        set_refuses(round, &elements, b, PLACES, (Refusal::Magnitudes(2), 4, 2));
    }
    for b in [0, 10, 12, 19, 21, 25, 27, u32::MAX] {
        set_refuses(round, &elements, b, PLACES, (Refusal::Width, 3, 0));
    }
    for (n, m) in WRONG_LENGTHS {
        set_refuses(round, &vec![i32::MIN; n], 12, m, (Refusal::Lengths, 1, 0));
    }
}

/// Numbers that are no orientations; in fewer bits they are.
const NO_ORIENTATIONS: [u32; 7] = [8, 9, 15, 16, 256, 1 << 31, u32::MAX];

#[test]
fn reorient_names_lengths_then_orientation_then_magnitudes() {
    let mut elements = vec![0; COMPONENTS];
    (elements[16], elements[17]) = (MAGNITUDES_LIMIT as i32, -1);
    elements[511] = i32::MIN;
    for o in 0..ORIENTATIONS {
        set_refuses(reorient, &elements, o, 512, (Refusal::Magnitudes(2), 4, 2));
    }
    for o in NO_ORIENTATIONS {
        set_refuses(reorient, &elements, o, 512, (Refusal::Orientation, 9, 0));
    }
    for wrong in [0, 64, 511, 513] {
        for (n, m) in [(wrong, 512), (512, wrong), (wrong, wrong)] {
            set_refuses(reorient, &vec![i32::MIN; n], 8, m, (Refusal::Lengths, 1, 0));
        }
    }
}

#[test]
fn compose_names_what_is_no_orientation() {
    for orientation in NO_ORIENTATIONS {
        for other in [0, 7, orientation] {
            for (first, second) in [(orientation, other), (other, orientation)] {
                let came = compose_orientations(first, second);
                refused(came, (Refusal::Orientation, 9, 0));
            }
        }
    }
}

#[test]
fn quantize_and_dequantize_name_lengths_then_step_then_coefficient() {
    let jobs: [(BySteps, i32); 2] = [
        (quantize, COEFFICIENT_LIMIT),
        (dequantize, DEQUANTIZED_LIMIT / 8), // by the step 1
    ];
    for (job, most) in jobs {
        let (mut numbers, mut steps) = (vec![most; PLACES], vec![1; PLACES]);
        (numbers[40], numbers[63]) = (-most - 1, i32::MIN);
        let expected = (Refusal::Coefficient(40), 11, 40);
        steps_refuse(job, &numbers, &steps, 64, expected);
        numbers[40] = -most;
        let expected = (Refusal::Coefficient(63), 11, 63);
        steps_refuse(job, &numbers, &steps, 64, expected);
        (steps[5], steps[62]) = (STEP_LIMIT + 1, 0);
        steps_refuse(job, &numbers, &steps, 64, (Refusal::Step(5), 10, 5));
        steps[5] = STEP_LIMIT;
        steps_refuse(job, &numbers, &steps, 64, (Refusal::Step(62), 10, 62));
        for wrong in [0, 63, 65, 512] {
            for (n, k, m) in [(wrong, 64, 64), (64, wrong, 64), (64, 64, wrong)] {
                let (numbers, steps) = (vec![i32::MIN; n], vec![0; k]);
                steps_refuse(job, &numbers, &steps, m, (Refusal::Lengths, 1, 0));
            }
        }
    }
}

#[test]
fn to_floats_and_summary_name_lengths_then_the_first_coefficient() {
    let most = COEFFICIENT_LIMIT;
    for p in 0..PLACES {
        let mut coefficients = [-most; PLACES];
        for beyond in [i32::MIN, i32::MAX, most + 1, -most - 1] {
            (coefficients[63], coefficients[p]) = (i32::MIN, beyond);
            let expected = (Refusal::Coefficient(p), 11, p);
            floats_refuse(&coefficients, 64, expected);
            refused(summary(&coefficients), expected);
        }
    }
    for wrong in [0, 63, 65, 512] {
        for (n, m) in [(wrong, 64), (64, wrong), (wrong, wrong)] {
            floats_refuse(&vec![i32::MIN; n], m, (Refusal::Lengths, 1, 0));
        }
        refused(summary(&vec![i32::MIN; wrong]), (Refusal::Lengths, 1, 0));
    }
}

#[test]
fn sheet_range_names_head_then_count_then_the_first_faulty_word() {
    let mut words = zeros(COEFFICIENT_HEAD, COEFFICIENT);
    refused(sheet_range(&[]), (Refusal::Head, 6, 0));
    refused(sheet_range(&one_block()), (Refusal::Head, 6, 0));
    for head in [SAMPLE_HEAD, 0x4000_0001, 0x4000_4000, 0x4000_4081] {
        refused(sheet_range(&[head]), (Refusal::Head, 6, 0));
    }
    refused(sheet_range(&words[..65]), (Refusal::Words(65), 7, 65));
    let longer = [words.as_slice(), &[0]].concat();
    refused(sheet_range(&longer), (Refusal::Words(67), 7, 67));
    words[65] = END + 1;
    refused(sheet_range(&words), (Refusal::End(65), 8, 65));
    words[65] = COEFFICIENT;
    refused(sheet_range(&words), (Refusal::Words(65), 7, 65));
    words[64] = coefficient_word(-COEFFICIENT_LIMIT - 1);
    refused(sheet_range(&words), (Refusal::Coefficient(64), 11, 64));
    words[63] = coefficient_word(COEFFICIENT_LIMIT + 1);
    refused(sheet_range(&words), (Refusal::Coefficient(63), 11, 63));
    words[40] = SAMPLE | 0x0040_0000; // of another kind, and beyond the limit
    refused(sheet_range(&words), (Refusal::Words(40), 7, 40));
}

#[test]
fn sheet_names_width_then_head_then_count_then_lengths() {
    let words = one_block();
    sheet_refuses(&[], 12, (0, 0), (Refusal::Width, 3, 0));
    sheet_refuses(&[], 26, (0, 0), (Refusal::Head, 6, 0));
    for head in [0x2000_4001, 0x1000_0001, 0x1000_4000, 0x1000_4081] {
        sheet_refuses(&[head], 26, (0, 0), (Refusal::Head, 6, 0));
    }
    sheet_refuses(&words[..65], 26, (0, 0), (Refusal::Words(65), 7, 65));
    sheet_refuses(
        &[words.as_slice(), &[0]].concat(),
        26,
        (0, 0),
        (Refusal::Words(67), 7, 67),
    );
    let mut faulty = words;
    faulty[1] = 0;
    for lengths in [(511, 66), (513, 66), (0, 66), (512, 65), (512, 0)] {
        sheet_refuses(&faulty, 26, lengths, (Refusal::Lengths, 1, 0));
    }
}

#[test]
fn sheet_names_the_first_faulty_word() {
    let mut words = one_block();
    words[65] = END + 1;
    sheet_refuses(&words, 11, (512, 66), (Refusal::End(65), 8, 65));
    words[65] = SAMPLE;
    sheet_refuses(&words, 11, (512, 66), (Refusal::Words(65), 7, 65));
    words[64] = sample_word(LOWEST_SAMPLE - 1);
    sheet_refuses(&words, 11, (512, 66), (Refusal::Sample(64), 2, 64));
    words[40] = coefficient_word(HIGHEST_SAMPLE + 1); // of another kind, and out of range
    sheet_refuses(&words, 11, (512, 66), (Refusal::Words(40), 7, 40));
}

/// Elements that are 0, but for u_0 at (0,0).
fn u_0(component: i32) -> [i32; COMPONENTS] {
    let mut elements = [0; COMPONENTS];
    elements[0] = component;
    elements
}

/// 01's examples, as changed by request 6, and both ends of its range.
#[test]
fn forward_and_back_have_samples_of_16_bits() {
    for sample in [2047, -2048, 2048, -2049, 32_767, -32_768] {
        let (mut elements, mut again) = ([0; COMPONENTS], [0; PLACES]);
        assert_eq!(forward(&[sample; PLACES], &mut elements), Ok(()));
        assert_eq!(elements, u_0(128 * sample));
        assert_eq!(back(&elements, &mut again), Ok(()));
        assert_eq!(again, [sample; PLACES]);
    }
    for sample in [32_768, -32_769] {
        forward_refuses(&[sample; PLACES], 512, (Refusal::Sample(0), 2, 0));
    }
    for component in [262_145, 4_194_304] {
        back_refuses(&u_0(component), PLACES, (Refusal::NoBlock, 5, 0));
    }
    for component in [4_194_305, -4_194_305] {
        back_refuses(&u_0(component), PLACES, (Refusal::Magnitudes(0), 4, 0));
    }
}

/// 01's examples, as changed by request 6, and both ends of what round accepts.
#[test]
fn round_has_elements_of_samples_of_16_bits() {
    for b in WIDTHS {
        for (component, coefficient) in [
            (262_144, 131_072),
            (262_145, 131_073),
            (4_194_304, 2_097_152),
            (-4_194_304, -2_097_152),
        ] {
            let mut coefficients = [0; PLACES];
            assert_eq!(round(&u_0(component), b, &mut coefficients), Ok(()));
            assert_eq!(coefficients[0], coefficient);
        }
        for component in [4_194_305, -4_194_305] {
            let expected = (Refusal::Magnitudes(0), 4, 0);
            set_refuses(round, &u_0(component), b, PLACES, expected);
        }
    }
}

/// What sheet returns of so many words, with samples of this sum.
fn transformed(words: usize, sum: i64) -> Result<Transformed, Refusal> {
    Ok(Transformed {
        words,
        sample_sum: sum,
        first_sum: sum,
    })
}

#[test]
fn accepted_calls_write_what_they_promise_and_no_more() {
    let mut samples: Vec<i32> = (0..64).map(any_sample).collect();
    (samples[0], samples[63]) = (LOWEST_SAMPLE, HIGHEST_SAMPLE);
    let mut words = one_block();
    for (word, sample) in words[1..].iter_mut().zip(&samples) {
        *word = sample_word(*sample);
    }
    let (mut elements, mut again) = ([0; COMPONENTS], [0; PLACES]);
    assert_eq!(forward(&samples, &mut elements), Ok(()));
    assert_eq!(back(&elements, &mut again), Ok(()));
    assert_eq!(samples, again);
    let accepted = transformed(66, samples.into_iter().map(i64::from).sum());
    for b in WIDTHS {
        let (mut coefficients, mut scratch, mut output) = ([0; PLACES], [0; COMPONENTS], [7; 68]);
        assert_eq!(round(&elements, b, &mut coefficients), Ok(()));
        assert_eq!(sheet(&words, b, &mut scratch, &mut output), accepted);
        let made = coefficients.map(coefficient_word);
        assert_eq!(scratch, elements);
        assert_eq!(
            output[..],
            [&[COEFFICIENT_HEAD], &made[..], &[END, 7, 7]].concat()
        );
    }
}

#[test]
fn the_two_sums_of_a_sheet_are_those_of_its_samples() {
    let (lowest, highest) = (LOWEST_SAMPLE, HIGHEST_SAMPLE);
    for (blocks, in_turn, sum) in [
        (1, [1, 1], 64),
        (1, [-1, 0], -32),
        (2, [0, 0], 0),
        (2, [highest, -highest], 0),
        (3, [-7, 5], -192),
        (3, [7, -5], 192),
        (128, [-2048, -2048], -16_777_216),
        (128, [2047, 2047], 16_769_024),
        (128, [lowest, highest], -4096),
        (128, [lowest, lowest], -268_435_456),
        (128, [highest, highest], 268_427_264),
    ] {
        let body = in_turn.map(sample_word).repeat(32 * blocks as usize);
        let (head, end) = (SAMPLE_HEAD - 1 + blocks, END - 1 + blocks);
        let words = [&[head], &body[..], &[end]].concat();
        for b in WIDTHS {
            let (mut scratch, mut output) = ([0; COMPONENTS], vec![0; words.len()]);
            let came = sheet(&words, b, &mut scratch, &mut output);
            assert_eq!(came, transformed(words.len(), sum));
        }
    }
}

/// A block in another orientation.
fn reoriented(samples: &[i32], orientation: u32) -> Vec<i32> {
    let mut rows: Vec<Vec<i32>> = samples.chunks(8).map(<[i32]>::to_vec).collect();
    if orientation >= 4 {
        let column = |j| rows.iter().map(|row: &Vec<i32>| row[j]).collect();
        rows = (0..8).map(column).collect();
    }
    if [1, 3].contains(&(orientation % 4)) {
        rows.iter_mut().for_each(|row| row.reverse());
    }
    if [2, 3].contains(&(orientation % 4)) {
        rows.reverse();
    }
    rows.concat()
}

/// What reorient writes for a set that it accepts.
fn reoriented_set(elements: &[i32], orientation: u32) -> Vec<i32> {
    let mut output = vec![7; COMPONENTS];
    assert_eq!(reorient(elements, orientation, &mut output), Ok(()));
    output
}

#[test]
fn a_blocks_reoriented_elements_are_those_of_the_reoriented_block() {
    let samples: Vec<i32> = (0..64).map(any_sample).collect();
    let elements = |samples: &[i32]| {
        let mut elements = vec![0; COMPONENTS];
        assert_eq!(forward(samples, &mut elements), Ok(()));
        elements
    };
    for orientation in 0..ORIENTATIONS {
        let output = reoriented_set(&elements(&samples), orientation);
        assert_eq!(output, elements(&reoriented(&samples, orientation)));
    }
}

#[test]
fn one_orientation_followed_by_another_is_the_composed_one() {
    let numbered: Vec<i32> = (0..64).collect();
    let most = MAGNITUDES_LIMIT as i32 / 8;
    let set: Vec<i32> = (0..512).map(|n| n * n * 31 % (2 * most) - most).collect(); // no block's
    for (first, second) in (0..64).map(|n| (n / 8, n % 8)) {
        let composed = compose_orientations(first, second).unwrap();
        assert_eq!(
            reoriented(&reoriented(&numbered, first), second),
            reoriented(&numbered, composed)
        );
        assert_eq!(
            reoriented_set(&reoriented_set(&set, first), second),
            reoriented_set(&set, composed)
        );
    }
}

/// What quantize or dequantize writes for numbers that it accepts.
fn by_steps(job: BySteps, numbers: &[i32], steps: &[u32]) -> Vec<i32> {
    let mut left = vec![7; PLACES];
    assert_eq!(job(numbers, steps, &mut left), Ok(()));
    left
}

#[test]
fn what_is_quantized_comes_back_within_four_steps() {
    let steps: Vec<u32> = (1..=64).collect();
    let divisors = by_steps(dequantize, &[1; PLACES], &steps); // 8 times the step of each place
    let in_zigzag = [0, 1, 8, 16, 9, 2, 3, 63];
    assert_eq!(
        in_zigzag.map(|p| divisors[p] / 8),
        [1, 2, 3, 4, 5, 6, 7, 64]
    );
    let coefficients: Vec<i32> = (0..64).map(|n| n * n * 2113 - COEFFICIENT_LIMIT).collect();
    let quantized = by_steps(quantize, &coefficients, &steps);
    let again = by_steps(dequantize, &quantized, &steps);
    for p in 0..PLACES {
        assert_eq!(again[p], quantized[p] * divisors[p]);
        assert!((again[p] - coefficients[p]).abs() <= divisors[p] / 2);
    }
}

/// The floats of a block that is accepted; the numbers about them stay as they were.
fn floats_of(coefficients: &[i32]) -> Vec<f32> {
    let mut left = vec![f32::from_bits(NO_NUMBER); PLACES + 2];
    assert_eq!(to_floats(coefficients, &mut left[1..65]), Ok(()));
    assert_eq!([left[0], left[65]].map(f32::to_bits), [NO_NUMBER; 2]);
    left[1..65].to_vec()
}

/// A float is y over the divisor; zero is plus zero.
fn is_exact(x: f32, y: i32, divisor: i32) -> bool {
    f64::from(x) * f64::from(divisor) == f64::from(y) && (y != 0 || x.to_bits() == 0)
}

#[test]
fn floats_are_exactly_the_eighths_over_8() {
    let most = COEFFICIENT_LIMIT;
    let all: Vec<i32> = [-most, most, 0, 1, -1, 237, -237]
        .into_iter()
        .chain((0..57).map(|n| n * n * 2579 - most))
        .collect();
    for (x, y) in floats_of(&all).into_iter().zip(&all) {
        assert!(is_exact(x, *y, 8), "{x} is not {y} / 8");
    }
}

#[test]
fn a_block_is_flat_or_has_a_largest_other_coefficient() {
    for y in [0, 1, -1, 64, -96, COEFFICIENT_LIMIT, -COEFFICIENT_LIMIT] {
        let mut coefficients = [0; PLACES];
        coefficients[0] = y;
        let Ok(Summary::Flat { mean }) = summary(&coefficients) else {
            panic!("{y} alone at index 0 is not flat");
        };
        assert!(is_exact(mean, y, 64));
        for p in 1..PLACES {
            let (one, other) = if p % 2 == 0 { (-2, 2) } else { (2, -2) };
            coefficients[1..].fill(1);
            (coefficients[63], coefficients[p]) = (other, one);
            let Ok(Summary::Textured { mean, largest }) = summary(&coefficients) else {
                panic!("{one} at index {p} is flat");
            };
            assert!(is_exact(mean, y, 64) && is_exact(largest, one, 8));
        }
    }
}

#[test]
fn the_range_of_a_sheet_goes_over_all_its_blocks() {
    for (low, high) in [(3, 90), (-90, -3), (-5, 70), (0, 8), (-8, 0), (0, 0)] {
        for (first, last) in [(low, high), (high, low)] {
            let mut words = vec![coefficient_word((low + high) / 2); sheet_words(2)];
            (words[0], words[129]) = (COEFFICIENT_HEAD + 1, END + 1);
            (words[1], words[128]) = (coefficient_word(first), coefficient_word(last));
            let Range { lowest, highest } = sheet_range(&words).unwrap();
            assert!(is_exact(lowest, low, 8) && is_exact(highest, high, 8));
        }
    }
}

#[test]
fn the_range_of_what_sheet_writes_is_that_of_its_floats() {
    let mut words = one_block();
    for (n, word) in (0..64).zip(&mut words[1..]) {
        *word = sample_word(any_sample(n));
    }
    let (mut scratch, mut output, mut coefficients) = ([0; COMPONENTS], [0; 66], [0; PLACES]);
    assert!(sheet(&words, 26, &mut scratch, &mut output).is_ok());
    assert_eq!(round(&scratch, 26, &mut coefficients), Ok(()));
    let floats = floats_of(&coefficients);
    let lowest = floats.iter().copied().fold(f32::INFINITY, f32::min);
    let highest = floats.iter().copied().fold(-f32::INFINITY, f32::max);
    assert_eq!(sheet_range(&output), Ok(Range { lowest, highest }));
}

#[test]
fn the_words_of_a_sheet_do_not_overflow() {
    assert_eq!((sheet_words(0), sheet_words(BLOCKS_LIMIT)), (2, 8194));
    assert_eq!(sheet_words(usize::MAX), usize::MAX);
}
