//! The benchmark's baseline gives what the second rater gives, so that the times are of the same
//! work.

use retro_tests::generator::Random;
use retro_tests::held_calls::Call;
use retro_tests::samples::{largest, largest_of_edition_2};
use retro_tests::{second_rater, straightforward};

/// Holds the straightforward rater to the second rater on one file. Gives the answer.
fn compare(file: &[u8], room: usize) -> u32 {
    let mut premiums = vec![0xee; room];
    let given = straightforward::rate(file, &mut premiums);
    let mut expected = vec![0xee; room];
    match second_rater::rate(file, room) {
        Err(question) => {
            assert_eq!(given, Err(question));
            assert_eq!(premiums, expected);
            question
        }
        Ok(rated) => {
            let given = given.unwrap();
            assert_eq!(given.risks, rated.risks);
            assert_eq!(i128::from(given.basic), rated.basic);
            assert_eq!(u128::from(given.excess), rated.excess);
            assert_eq!(u128::from(given.billed), rated.billed);
            for (four, &premium) in expected.chunks_exact_mut(4).zip(&rated.premiums) {
                four.copy_from_slice(&u32::try_from(premium).unwrap().to_be_bytes());
            }
            assert_eq!(premiums, expected);
            0
        }
    }
}

#[test]
fn generated_files() {
    let mut random = Random::new(1_966);
    let mut given = [0; 20];
    for _ in 0..20_000 {
        let file = random.file();
        let n = file.get(14..16).map_or(0, |two| {
            usize::from(two[0] & 1) * 128 + usize::from(two[1] / 2)
        });
        let room = random.one_of(&[4 * n, 4 * n + 3, (4 * n).saturating_sub(1)]);
        given[compare(&file, room) as usize] += 1;
    }
    for &answer in Call::Rate.answers() {
        assert!(given[answer as usize] >= 20, "{answer}: {given:?}");
    }
}

#[test]
fn the_largest_files_and_their_prefixes() {
    for file in [largest().file(), largest_of_edition_2().file()] {
        assert_eq!(compare(&file, 1_020), 0);
        for len in (0..40).chain((40..file.len()).step_by(991)) {
            assert_eq!(compare(&file[..len], 1_020), if len < 16 { 1 } else { 8 });
        }
    }
}
