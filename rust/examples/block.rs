//! Takes a block forward, rounds it and takes it back, and shows how a refusal comes. examples/block.c does the same.
use weld_dct::{back, forward, round, Refusal, COMPONENTS, HIGHEST_SAMPLE, PLACES};

fn main() -> Result<(), Refusal> {
    // A slope with a curve in it: the sample of row i, column j is 40·i² - 25·i·j - 300.
    let mut samples = [0; PLACES];
    for (n, sample) in (0..).zip(&mut samples) {
        let (i, j) = (n / 8, n % 8);
        *sample = 40 * i * i - 25 * i * j - 300;
    }

    let mut elements = [0; COMPONENTS];
    forward(&samples, &mut elements)?;
    print_numbers("element (0,0):", &elements[..8]);
    print_numbers("element (1,1):", &elements[72..80]);

    let mut coefficients = [0; PLACES];
    round(&elements, 26, &mut coefficients)?;
    print_numbers(
        "coefficients (0,0) to (0,7), in eighths:",
        &coefficients[..8],
    );

    let mut again = [0; PLACES];
    back(&elements, &mut again)?;
    println!(
        "the same block again: {}",
        if again == samples { "yes" } else { "no" }
    );

    elements[0] += 1;
    if let Err(refusal) = back(&elements, &mut again) {
        println!("one more in the first component: {refusal}");
    }
    samples[9] = HIGHEST_SAMPLE + 1;
    match forward(&samples, &mut elements) {
        Err(Refusal::Sample(index)) => println!("sample {index} is out of range"),
        other => other?,
    }
    Ok(())
}

fn print_numbers(what: &str, numbers: &[i32]) {
    let listed: Vec<String> = numbers.iter().map(i32::to_string).collect();
    println!("{what} {}", listed.join(" "));
}
