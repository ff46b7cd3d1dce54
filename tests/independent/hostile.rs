//! Hostile jobs in any number: built, forged, spliced, damaged and random.

use crate::files::{any_file, valid_params};
use crate::job::{self, HEADER};
use crate::random_scripts::any_params_not_valid;
use crate::rng::Rng;

/// The seeds of so many jobs; equal seeds give equal ones, and fewer are the
/// first of more.
pub fn job_seeds(seed: u64, count: usize) -> impl Iterator<Item = u64> {
    let mut rng = Rng::new(seed);
    (0..count).map(move |_| rng.next())
}

/// The job of a seed. Most files are short.
pub fn job(seed: u64) -> Vec<u8> {
    let mut rng = Rng::new(seed);
    let context = rng.digest();
    let (n, most_queries) = match rng.below(400) {
        0 => (rng.between(8, 12), 64),
        1 | 2 => (rng.between(13, 20), 8),
        _ => (rng.between(2, 7), rng.weighted(&[(3, 2), (4, 6), (3, 24)])),
    };
    let file_params = valid_params(&mut rng, n, most_queries);
    let file = any_file(&mut rng, file_params, &context);
    let params = match rng.below(40) {
        0 => any_params_not_valid(&mut rng),
        1 => valid_params(&mut rng, n, most_queries),
        _ => file_params,
    };
    let mut job = job::job(params, &context, &file);
    match rng.below(100) {
        0 => job.truncate(rng.below(HEADER)),
        1 => rng.fill(&mut job),
        2 => job[rng.below(HEADER)] ^= 1 << rng.below(8),
        _ => {}
    }
    job
}

#[cfg(test)]
mod tests {
    use super::*;

    #[test]
    fn jobs_repeat_and_get_every_number() {
        let seeds: Vec<u64> = job_seeds(1, 3000).collect();
        assert!(job_seeds(1, 20).eq(seeds[..20].iter().copied()));
        let jobs: Vec<Vec<u8>> = seeds.iter().map(|&seed| job(seed)).collect();
        assert_eq!(job(seeds[7]), jobs[7]);
        let mut numbers: Vec<u8> = jobs.iter().map(|job| job::answer(job).number).collect();
        numbers.sort();
        numbers.dedup();
        assert_eq!(numbers, [1, 10, 12, 20, 21, 22, 23, 24, 25, 26, 27]);
    }
}
