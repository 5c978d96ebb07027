//! A straightforward rater for Rate alone, with 64-bit arithmetic, of either edition: the
//! benchmark's baseline.

#![forbid(unsafe_code)]

const MOST_RISKS: usize = 255;

/// What Rate gives beside the premiums. The tuned rater in C gives the same struct.
#[repr(C)]
#[derive(Clone, Copy, Debug, PartialEq, Eq)]
pub struct Rated {
    /// n, the number of risks.
    pub risks: u32,
    /// M, the balanced basic of the group in thousandths of a dollar.
    pub basic: u64,
    /// Q, the excess loss charge of the group in thousandths of a dollar.
    pub excess: u64,
    /// The sum of the billed premiums.
    pub billed: u64,
}

/// Takes fields of bits one after another, most significant bit first.
struct BitReader<'a> {
    bytes: &'a [u8],
    at: usize,
}

/// A risk of edition 2.
struct Risk {
    /// L, the sum of claims.
    total: u64,
    /// A, the sum of accidents, each cut to the limit.
    limited: u64,
    /// Whether the first claim has its bit set.
    first_joined: bool,
}

impl BitReader<'_> {
    /// The next field, of 1 to 32 bits. Bits past the end are 0.
    #[inline]
    fn take(&mut self, width: u32) -> u64 {
        let first = self.at / 8;
        let word = match self.bytes.get(first..first + 8) {
            Some(eight) => u64::from_be_bytes(eight.try_into().expect("eight bytes")),
            None => self.last_word(first),
        };
        let value = (word << (self.at % 8)) >> (64 - width);
        self.at += width as usize;
        value
    }

    /// The eight bytes from `first` on where the file ends among them.
    fn last_word(&self, first: usize) -> u64 {
        let rest = self.bytes.get(first..).unwrap_or(&[]);
        let mut eight = [0; 8];
        eight[..rest.len()].copy_from_slice(rest);
        u64::from_be_bytes(eight)
    }

    /// The next risk's claims in edition 2, each with its bit before it.
    fn accidents(&mut self, count: u64, limit: u64) -> Risk {
        let mut risk = Risk {
            total: 0,
            limited: 0,
            first_joined: false,
        };
        // the sum of the accident that the claim before belongs to
        let mut accident = 0;
        for k in 0..count {
            let both = self.take(21);
            let (joined, claim) = (both >> 20 == 1, both & 0xf_ffff);
            risk.total += claim;
            risk.first_joined |= joined && k == 0;
            if !joined {
                risk.limited += accident.min(limit);
                accident = 0;
            }
            accident += claim;
        }
        risk.limited += accident.min(limit);
        risk
    }

    /// Bits between the place and the end; negative where the place is past it.
    fn left(&self) -> i64 {
        8 * self.bytes.len() as i64 - self.at as i64
    }
}

/// Rates the file and writes each billed premium as 32 bits, most significant first; or gives the
/// number of the first question answered No, with the buffer as it was.
pub fn rate(file: &[u8], premiums: &mut [u8]) -> Result<Rated, u32> {
    if file.len() < 16 {
        return Err(1);
    }
    let mut reader = BitReader { bytes: file, at: 0 };
    let edition = reader.take(4);
    let loss_limit = reader.take(20);
    let standard_premium = reader.take(22);
    let expense = reader.take(20);
    let conversion = reader.take(11);
    let tax = reader.take(15);
    let entry_ratios = reader.take(1) == 1;
    let maximum_mark = reader.take(13);
    let minimum_mark = reader.take(13);
    let risks = reader.take(8);
    let spare = reader.take(1);
    if !(1..=2).contains(&edition) || spare != 0 {
        return Err(2);
    }
    if standard_premium < 1 {
        return Err(3);
    }
    if !(1_000..=2_000).contains(&conversion) {
        return Err(4);
    }
    if !(10_000..=20_000).contains(&tax) {
        return Err(5);
    }
    if maximum_mark > 6_000 || minimum_mark > 6_000 {
        return Err(6);
    }
    if minimum_mark > maximum_mark {
        return Err(18);
    }
    if risks < 1 {
        return Err(7);
    }

    // one walk over the claims: the limited losses of each risk, and the sums of the group
    let limit = if loss_limit == 0 {
        u64::MAX
    } else {
        loss_limit
    };
    let width = if edition == 2 { 21 } else { 20 };
    let mut limited = [0u64; MOST_RISKS];
    let limited = &mut limited[..risks as usize];
    let mut sum_total = 0;
    let mut first_joined = false;
    for limited in limited.iter_mut() {
        let count = reader.take(6);
        if reader.left() < width * count as i64 {
            return Err(8);
        }
        *limited = if edition == 2 {
            let risk = reader.accidents(count, limit);
            sum_total += risk.total;
            first_joined |= risk.first_joined;
            risk.limited
        } else {
            let mut sum = 0;
            for _ in 0..count {
                let claim = reader.take(20);
                sum_total += claim;
                sum += claim.min(limit);
            }
            sum
        };
    }
    let fill = reader.left();
    if !(0..8).contains(&fill) {
        return Err(8);
    }
    if fill > 0 && reader.take(fill as u32) != 0 {
        return Err(9);
    }
    if first_joined {
        return Err(19);
    }
    let sum_limited: u64 = limited.iter().sum();
    if sum_limited < 1 {
        return Err(10);
    }

    let dollars = |mark: u64| {
        if entry_ratios {
            mark * sum_limited / (1_000 * risks)
        } else {
            mark * standard_premium / 1_000
        }
    };
    let maximum = dollars(maximum_mark);
    let minimum = dollars(minimum_mark);
    let above: u64 = limited.iter().map(|a| a.saturating_sub(maximum)).sum();
    let below: u64 = limited.iter().map(|a| minimum.saturating_sub(*a)).sum();
    let added = 1_000 * risks * expense + conversion * above;
    let taken = (conversion - 1_000) * sum_total + conversion * below;
    let basic = added.checked_sub(taken).ok_or(12u32)?;
    if premiums.len() < 4 * risks as usize {
        return Err(13);
    }

    let excess = conversion * (sum_total - sum_limited);
    let divisor = 10_000_000 * risks;
    let mut billed = 0;
    for (a, four) in limited.iter().zip(premiums.chunks_exact_mut(4)) {
        let ratable = (*a).max(minimum).min(maximum);
        let unrounded = tax * (basic + excess + risks * conversion * ratable);
        let premium = (unrounded + divisor / 2) / divisor;
        four.copy_from_slice(&(premium as u32).to_be_bytes());
        billed += premium;
    }
    Ok(Rated {
        risks: risks as u32,
        basic,
        excess,
        billed,
    })
}
