//! The balance statement, compared over whole numbers with every premium
//! times 10,000,000 × n.

use retro_tests::generator::Random;
use retro_tests::samples::{rated_groups, rated_groups_of_edition_2, Sample, AMPLE};
use retro_tests::second_rater::{rate, Rated};

/// SL and each K of a group, from its values by steps 1 to 3.
fn losses(sample: &Sample) -> (i128, Vec<i128>) {
    let header = &sample.header;
    let n = sample.risks.len() as i128;
    let mut sum_total = 0i128;
    let mut limited = Vec::new();
    for accidents in sample.accidents() {
        let mut sum = 0i128;
        for accident in accidents {
            sum_total += i128::from(accident);
            sum += i128::from(match header.loss_limit {
                0 => accident,
                limit => accident.min(limit.into()),
            });
        }
        limited.push(sum);
    }
    let sum_limited: i128 = limited.iter().sum();
    let dollars = |mark: u32| match header.mark_kind {
        0 => i128::from(mark) * i128::from(header.standard_premium) / 1_000,
        _ => i128::from(mark) * sum_limited / (1_000 * n),
    };
    let (maximum, minimum) = (dollars(header.maximum_mark), dollars(header.minimum_mark));
    let ratable = limited
        .iter()
        .map(|&a| a.max(minimum).min(maximum))
        .collect();
    (sum_total, ratable)
}

/// The three parts of the statement for one group that is not refused.
fn check(sample: &Sample, rated: &Rated, random: &mut Random) {
    let header = &sample.header;
    let n = sample.risks.len() as i128;
    let e = i128::from(header.expense);
    let c = i128::from(header.conversion);
    let t = i128::from(header.tax);
    let (sum_total, ratable) = losses(sample);
    let q = rated.excess as i128;
    let total = |basic: i128| -> i128 { ratable.iter().map(|k| t * (basic + q + n * c * k)).sum() };
    let due = 1_000 * n * t * (n * e + sum_total);

    // The unrounded premiums add to taxes on the expense provisions and losses.
    assert_eq!(total(rated.basic), due);

    // No other basic premium does so with the same loss marks.
    let mut others = vec![
        0,
        -1,
        -rated.basic,
        i128::from(i64::MAX),
        i128::from(i64::MIN),
    ];
    for step in [1, 2, 999, 1_000, 1_000 * n] {
        others.push(rated.basic + step);
        others.push(rated.basic - step);
    }
    for _ in 0..5 {
        others.push(i128::from(random.word() as i64));
    }
    for other in others {
        assert_eq!(total(other) - due, n * t * (other - rated.basic));
        if other != rated.basic {
            assert_ne!(total(other), due);
        }
    }

    // The sum billed is that of the n premiums, each one a number of 32 bits,
    // and half a dollar per risk is the most that rounding can do.
    assert_eq!(rated.premiums.len() as i128, n);
    let billed: i128 = rated
        .premiums
        .iter()
        .map(|&premium| i128::from(u32::try_from(premium).unwrap()))
        .sum();
    assert_eq!(billed, rated.billed as i128);
    assert!((billed * 10_000_000 * n - due).abs() <= 5_000_000 * n * n);

    // Each premium by itself is the nearest dollar, an exact half upward.
    for (k, premium) in ratable.iter().zip(&rated.premiums) {
        let exact = t * (rated.basic + q + n * c * k);
        let rest = exact - *premium as i128 * 10_000_000 * n;
        assert!(-5_000_000 * n <= rest && rest < 5_000_000 * n);
    }

    // The lines and the premiums are the same numbers.
    for (k, line) in rated.lines.iter().enumerate() {
        assert_eq!(line.premium, rated.premiums[k]);
        assert_eq!(line.ratable as i128, ratable[k]);
    }
}

#[test]
fn known_groups_balance() {
    let mut random = Random::new(0x5eed_0005);
    for sample in rated_groups()
        .into_iter()
        .chain(rated_groups_of_edition_2())
    {
        let rated = rate(&sample.file(), AMPLE).unwrap();
        check(&sample, &rated, &mut random);
    }
}

#[test]
fn random_groups_balance() {
    let mut random = Random::new(0x5eed_0006);
    let mut accepted = [0; 2];
    let mut refused = [0; 16];
    let mut cut_off = 0;
    for _ in 0..6_000 {
        let sample = random.group();
        match rate(&sample.file(), 4 * sample.risks.len()) {
            Ok(rated) => {
                check(&sample, &rated, &mut random);
                accepted[sample.edition() as usize - 1] += 1;
                cut_off += u32::from(sample.edition() == 2 && rated.excess > 0);
            }
            Err(k) => refused[k as usize] += 1,
        }
    }
    // Enough groups of each outcome in either edition, accidents that the limit
    // cuts among them, and no refusal but the two that remain.
    for accepted in accepted {
        assert!(accepted > 800, "only {accepted} accepted");
    }
    assert!(cut_off > 300, "only {cut_off} with an accident cut");
    for k in [10, 12] {
        assert!(refused[k] > 50, "refused {k} only {} times", refused[k]);
    }
    assert_eq!(accepted[0] + accepted[1] + refused[10] + refused[12], 6_000);
}
