//! Two event lists: good ones, damaged ones, and what is no list at all.

use std::path::Path;

use ::lists::with_trailer;
use random::Random;
use reference::limits::LONGEST_LIST;

use crate::Program;

const PAIRS: usize = 250;

pub fn all(program: &Program) -> Result<(), String> {
    refusals(program)?;
    let mut random = Random::from_seed(3);
    let mut pairs = pairs::built(&mut random);
    pairs.extend((0..PAIRS - pairs.len()).map(|_| pairs::drawn(&mut random)));
    for (number, mut pair) in pairs.into_iter().enumerate() {
        if number % 10 == 9 {
            pairs::damage(&mut random, &mut pair);
        }
        compares(program, &pair.first, &pair.second)?;
    }
    println!("{PAIRS} pairs of lists compared");
    Ok(())
}

/// The program prints for two files what is expected here.
fn compares(program: &Program, first: &[u8], second: &[u8]) -> Result<(), String> {
    let (one, two) = (program.write("first", first)?, program.write("second", second)?);
    program.prints(&[&one, &two], &judge::compare_text(first, second))
}

/// Arguments and files that cannot be used.
fn refusals(program: &Program) -> Result<(), String> {
    const USAGE: &str = "usage: compare FIRST SECOND\n";
    let one = with_trailer(&[], &[(1, 1)], 2);
    let list: &Path = &program.write("list", &one)?;
    let missing: &Path = &program.scratch.join("missing");
    let folder: &Path = &program.scratch;
    program.prints(&[], USAGE)?;
    program.prints(&[list], USAGE)?;
    program.prints(&[list, list, list], USAGE)?;
    program.prints(&[missing, missing], "refused first file\n")?;
    program.prints(&[list, missing], "refused second file\n")?;
    program.prints(&[folder, missing], "refused first file\n")?;
    program.prints(&[folder, list], "refused first file\n")?;
    program.prints(&[list, folder], "refused second file\n")?;
    program.prints(&[list, list], "same\nwrites 0 0\nagrees\n")?;
    let long = [vec![0; LONGEST_LIST + 1 - one.len()], one.clone()].concat();
    compares(program, &one, &long)?;
    compares(program, &long, &one)
}
