//! Read of what Write gives, and Write of what Read gives.

use retro_tests::generator::{set, Random, EDITION};
use retro_tests::samples::{
    four_risks, largest, one_claim_of_one, rated_groups_of_edition_2, ten_risks, Sample, AMPLE,
};
use retro_tests::second_rater::{read, Group};

fn there_and_back(sample: &Sample) {
    let values = sample.values();
    let (risks, claims) = (values.counts.len(), values.claims.len());
    let width = if sample.edition() == 2 { 21 } else { 20 };
    let bits = 128 + 6 * risks + width * claims;
    let length = bits / 8 + usize::from(bits % 8 != 0);

    let file = values.written(length).unwrap();
    assert_eq!(file.len(), length);
    assert_eq!(values.written(length - 1), Err(13));

    let group = read(&file, risks, claims, claims).unwrap();
    assert_eq!(
        group,
        Group {
            edition: sample.edition(),
            header: sample.header,
            counts: values.counts,
            claims: values.claims,
            joined: values.joined,
        }
    );

    assert_eq!(Sample::of(&group).values().written(AMPLE), Ok(file));
}

#[test]
fn known_groups() {
    for sample in [four_risks(), ten_risks(), one_claim_of_one(3), largest()] {
        there_and_back(&sample);
        there_and_back(&sample.in_edition_2(&[]));
    }
    for sample in rated_groups_of_edition_2() {
        there_and_back(&sample);
    }
}

#[test]
fn largest_files() {
    // 128 + 255 × 6 + 16,065 × 20 bits, and 16,065 bits more in edition 2.
    assert_eq!(largest().file().len(), 40_370);
    assert_eq!(rated_groups_of_edition_2()[3].file().len(), 42_378);
}

#[test]
fn random_groups() {
    let mut random = Random::new(0x5eed_0003);
    for _ in 0..1_000 {
        there_and_back(&random.group());
    }
}

#[test]
fn accepted_bytes_are_written_again_the_same() {
    // Bytes that Read accepts and Write did not make: a good header, then
    // random bits for the claims of up to three risks, of any length that fits.
    let mut random = Random::new(0x5eed_0004);
    let mut accepted = [0; 2];
    for _ in 0..4_000 {
        let n = random.between(1, 3) as usize;
        let edition = random.between(1, 2);
        let mut bytes = one_claim_of_one(n).file()[..16].to_vec();
        set(&mut bytes, EDITION, edition);
        bytes.extend((0..600).map(|_| random.word() as u8));
        let mut place = 128;
        for _ in 0..n {
            let mut count = 0;
            for k in place..place + 6 {
                count = 2 * count + usize::from(bytes[k / 8] >> (7 - k % 8) & 1);
            }
            place += 6;
            if edition == 2 && count > 0 {
                // the first claim opens an accident
                bytes[place / 8] &= !(0x80 >> (place % 8));
            }
            place += if edition == 2 { 21 } else { 20 } * count;
        }
        bytes.truncate(place / 8 + usize::from(place % 8 != 0));
        for k in place..8 * bytes.len() {
            bytes[k / 8] &= !(0x80 >> (k % 8));
        }
        let group = read(&bytes, AMPLE, AMPLE, AMPLE).unwrap();
        assert_eq!(group.edition, edition);
        assert_eq!(Sample::of(&group).values().written(AMPLE), Ok(bytes));
        accepted[edition as usize - 1] += 1;
    }
    assert!(accepted.iter().all(|&times| times > 1_900), "{accepted:?}");
}
