//! The groups of document 01, the schedule and the accidents of document 02, and other known
//! groups.

use crate::generator::{bits, set, MAXIMUM_MARK, MINIMUM_MARK};
use crate::second_rater::{self, Group, Header, Layer};
use std::ops::Range;

/// A buffer's length that is enough for every call.
pub const AMPLE: usize = 1 << 20;

/// A group as plain values: the header and the claims of each risk, and in edition 2 their bits.
#[derive(Clone, Debug, PartialEq, Eq)]
pub struct Sample {
    pub header: Header,
    pub risks: Vec<Vec<u32>>,
    /// In edition 2 the bits of each risk's claims, 1 where a claim belongs to the accident of the
    /// claim before it. Edition 1 has none.
    pub joined: Option<Vec<Vec<u8>>>,
}

impl Sample {
    /// The sample of a group as Read gives it.
    pub fn of(group: &Group) -> Sample {
        let joined = by_risk(&group.counts, &group.joined);
        Sample {
            header: group.header,
            risks: by_risk(&group.counts, &group.claims),
            joined: (group.edition == 2).then_some(joined),
        }
    }

    pub fn edition(&self) -> u32 {
        match self.joined {
            None => 1,
            Some(_) => 2,
        }
    }

    pub fn counts(&self) -> Vec<u8> {
        self.risks.iter().map(|claims| claims.len() as u8).collect()
    }

    pub fn claims(&self) -> Vec<u32> {
        self.risks.concat()
    }

    /// The bits of all claims, 0 in edition 1.
    pub fn joined(&self) -> Vec<u8> {
        match &self.joined {
            None => vec![0; self.claims().len()],
            Some(joined) => joined.concat(),
        }
    }

    /// The sums of each risk's accidents in file order.
    pub fn accidents(&self) -> Vec<Vec<u64>> {
        let joined = by_risk(&self.counts(), &self.joined());
        accidents(&self.risks, &joined)
    }

    /// What Write is given.
    pub fn values(&self) -> Values {
        Values {
            edition: self.edition(),
            header: self.header,
            counts: self.counts(),
            claims: self.claims(),
            joined: self.joined(),
        }
    }

    /// The group file. The group must have passed the questions of Write.
    pub fn file(&self) -> Vec<u8> {
        self.values().written(AMPLE).unwrap()
    }

    /// The same claims in edition 2, where these belong to the accident of the claim before: by the
    /// risk and the claim in it, both counted from 0.
    pub fn in_edition_2(&self, joined: &[(usize, usize)]) -> Sample {
        let mut bits: Vec<Vec<u8>> = self.risks.iter().map(|risk| vec![0; risk.len()]).collect();
        for &(risk, claim) in joined {
            bits[risk][claim] = 1;
        }
        Sample {
            joined: Some(bits),
            ..self.clone()
        }
    }

    /// The same group with these marks.
    pub fn with_marks(&self, maximum_mark: u32, minimum_mark: u32) -> Sample {
        let mut sample = self.clone();
        sample.header.maximum_mark = maximum_mark;
        sample.header.minimum_mark = minimum_mark;
        sample
    }

    /// The group file where Write may refuse the marks: that of marks of 0, in which they are then
    /// set. The rest of the group must have passed the questions of Write.
    pub fn file_of_any_marks(&self) -> Vec<u8> {
        let mut file = self.with_marks(0, 0).file();
        set(&mut file, MAXIMUM_MARK, self.header.maximum_mark);
        set(&mut file, MINIMUM_MARK, self.header.minimum_mark);
        file
    }
}

/// The entries of a list over all claims, risk by risk.
fn by_risk<T: Copy>(counts: &[u8], mut entries: &[T]) -> Vec<Vec<T>> {
    let mut risks = Vec::new();
    for &count in counts {
        let (risk, others) = entries.split_at(count.into());
        risks.push(risk.to_vec());
        entries = others;
    }
    risks
}

/// Where the accidents of a risk lie among its claims, by their bits.
pub fn ranges(joined: &[u8]) -> Vec<Range<usize>> {
    let mut ranges: Vec<Range<usize>> = Vec::new();
    for (k, &bit) in joined.iter().enumerate() {
        match ranges.last_mut() {
            Some(last) if bit == 1 => last.end = k + 1,
            _ => ranges.push(k..k + 1),
        }
    }
    ranges
}

/// The sums of each risk's accidents, by the bits of its claims.
pub fn accidents(risks: &[Vec<u32>], joined: &[Vec<u8>]) -> Vec<Vec<u64>> {
    let of_risk = |(claims, joined): (&Vec<u32>, &Vec<u8>)| {
        let sum = |accident: Range<usize>| claims[accident].iter().copied().map(u64::from).sum();
        ranges(joined).into_iter().map(sum).collect()
    };
    risks.iter().zip(joined).map(of_risk).collect()
}

/// What Write is given, sound or not.
#[derive(Clone, Debug, PartialEq, Eq)]
pub struct Values {
    pub edition: u32,
    pub header: Header,
    pub counts: Vec<u8>,
    pub claims: Vec<u32>,
    pub joined: Vec<u8>,
}

impl Values {
    /// Values of edition 1, with a 0 for each claim.
    pub fn of_edition_1(header: &Header, counts: &[u8], claims: &[u32]) -> Values {
        Values {
            edition: 1,
            header: *header,
            counts: counts.to_vec(),
            claims: claims.to_vec(),
            joined: vec![0; claims.len()],
        }
    }

    /// What the second rater's Write gives with so many bytes of room.
    pub fn written(&self, room: usize) -> Result<Vec<u8>, u32> {
        let Values {
            edition,
            header,
            counts,
            claims,
            joined,
        } = self;
        second_rater::write(*edition, header, counts, claims, joined, room)
    }

    /// The length in bytes of the file of these values, were they all to fit.
    pub fn length(&self) -> usize {
        bits(self.edition, self.counts.len(), self.claims.len()).div_ceil(8)
    }
}

/// What the document prints for its four-risk group.
pub const FOUR_RISKS_PRINTED: &str = "group 4 6700000 3300000 33600\n\
     1 0 0 2000 4935\n\
     2 4000 4000 4000 7245\n\
     3 7000 5000 5000 8400\n\
     4 13000 12000 9000 13020\n";

/// The four-risk group of the document.
pub fn four_risks() -> Sample {
    Sample {
        header: Header {
            loss_limit: 5_000,
            standard_premium: 10_000,
            expense: 2_000,
            conversion: 1_100,
            tax: 10_500,
            mark_kind: 0,
            maximum_mark: 900,
            minimum_mark: 200,
        },
        risks: vec![
            vec![],
            vec![3_000, 1_000],
            vec![7_000],
            vec![5_000, 6_000, 2_000],
        ],
        joined: None,
    }
}

/// Document 02's scaffold: 3,000 and 4,000 in one accident, which the limit of 5,000 cuts, a risk
/// without claims, and 1,000 and 4,000 in one accident with 3,000 beside it, which it does not cut.
/// The header is that of the four-risk group, and the file has five fill bits.
pub fn scaffold() -> Sample {
    let claims = Sample {
        risks: vec![vec![3_000, 4_000], vec![], vec![1_000, 4_000, 3_000]],
        ..four_risks()
    };
    claims.in_edition_2(&[(0, 1), (2, 1)])
}

/// What is printed for the scaffold: M is 6,000,000 − 100 × 15,000 − 1,100 × 2,000, Q is 1,100
/// times the 2,000 cut off, and the sum billed is 1.05 × (6,000 + 15,000).
pub const SCAFFOLD_PRINTED: &str = "group 3 2300000 2200000 22050\n\
     1 7000 5000 5000 7350\n\
     2 0 0 2000 3885\n\
     3 8000 8000 8000 10815\n";

/// The scaffold's file by hand: 128 bits of header, then 6 bits for each count and 21 for each
/// claim, of which the first is its bit.
pub const SCAFFOLD_FILE: [u8; 32] = [
    0x20, 0x13, 0x88, // edition 2, loss limit 5,000
    0x00, 0x9c, 0x40, 0x01, 0xf4, 0x22, 0x62, 0x90, 0x40, 0xe1, 0x01, 0x90,
    0x06, // P to spare
    0x08, 0x01, 0x77, 0x10, 0x0f, 0xa0, // 2 claims: 0 and 3,000, 1 and 4,000
    0x00, // no claims; the first two bits of the next count
    0x30, 0x01, 0xf4, 0x40, 0x3e, 0x80, // 3 claims: 0 and 1,000, 1 and 4,000
    0x01, 0x77, 0x00, // of which the last begins two bits before: 0 and 3,000; five fill bits
];

/// The four-risk group's file in edition 2, with no bit set.
pub const FOUR_RISKS_FILE_OF_EDITION_2: [u8; 35] = [
    0x20, 0x13, 0x88, // edition 2, loss limit 5,000
    0x00, 0x9c, 0x40, 0x01, 0xf4, 0x22, 0x62, 0x90, 0x40, 0xe1, 0x01, 0x90,
    0x08, // P to spare
    0x00, // no claims; the first two bits of the next count
    0x20, 0x05, 0xdc, 0x00, 0x0f,
    0xa0, // 2 claims: 3,000 and 1,000; two bits of the next count
    0x10, 0x0d, 0xac, // 1 claim: 7,000, of which the last bit follows
    0x06, 0x01, 0x38, 0x80, 0x0b, 0xb8, 0x00, 0x1f, 0x40, // 3 claims: 5,000, 6,000 and 2,000
];

/// Claims of 3,000 and 4,000 with a limit of 5,000: in one accident, in two, in one with 1,000
/// beside it, and the 4,000 with 1,000 in one with the 3,000 beside it. The header is that of the
/// four-risk group, and the file has six fill bits.
pub fn accidents_cut() -> Sample {
    let claims = Sample {
        risks: vec![
            vec![3_000, 4_000],
            vec![3_000, 4_000],
            vec![3_000, 4_000, 1_000],
            vec![1_000, 4_000, 3_000],
        ],
        ..four_risks()
    };
    claims.in_edition_2(&[(0, 1), (2, 1), (3, 1)])
}

/// One claim of 1 in all: e 0, c 1.000, T 1.0000, no limit, entry marks 1.000
/// and 0. The document leaves P and the risk with the claim open; P is 1 here
/// and the first risk has the claim.
pub fn one_claim_of_one(n: usize) -> Sample {
    let mut risks = vec![vec![]; n];
    risks[0].push(1);
    Sample {
        header: Header {
            loss_limit: 0,
            standard_premium: 1,
            expense: 0,
            conversion: 1_000,
            tax: 10_000,
            mark_kind: 1,
            maximum_mark: 1_000,
            minimum_mark: 0,
        },
        risks,
        joined: None,
    }
}

/// A group of one risk with this P. Its marks are entry ratios, so P changes no
/// premium: M is 0, K is 1, and 1 dollar is billed.
pub fn one_risk(standard_premium: u32) -> Sample {
    let mut sample = one_claim_of_one(1);
    sample.header.standard_premium = standard_premium;
    sample
}

/// Two risks of 10: e 0, T 1.0000, no limit, entry marks 6.000 and 0. The
/// document leaves P open; P is 1 here.
pub fn two_risks_of_ten(conversion: u32) -> Sample {
    Sample {
        header: Header {
            loss_limit: 0,
            standard_premium: 1,
            expense: 0,
            conversion,
            tax: 10_000,
            mark_kind: 1,
            maximum_mark: 6_000,
            minimum_mark: 0,
        },
        risks: vec![vec![10], vec![10]],
        joined: None,
    }
}

/// Loss ratio marks 0.900 and 0.950 with c 1.000, which job 2 of document 02
/// refuses: no `file`, but a `file_of_any_marks`. Document 01 leaves the rest
/// open; here e is 0, T 1.0000, no limit, and one risk has one claim of 10.
pub fn crossed_marks(standard_premium: u32) -> Sample {
    Sample {
        header: Header {
            loss_limit: 0,
            standard_premium,
            expense: 0,
            conversion: 1_000,
            tax: 10_000,
            mark_kind: 0,
            maximum_mark: 900,
            minimum_mark: 950,
        },
        risks: vec![vec![10]],
        joined: None,
    }
}

/// The ten risks of document 001, whose losses are in its section E: P 10,000, e 0.358 of it (0.958
/// less expected losses of 0.600), c 1.300, loss ratio marks 0.900 and 0.200, without limit. The
/// premiums there are before taxes, so T is 1.0000.
pub fn ten_risks() -> Sample {
    let claims = [
        1_000, 2_000, 4_000, 6_000, 6_000, 6_000, 6_000, 8_000, 10_000, 11_000,
    ];
    Sample {
        header: Header {
            loss_limit: 0,
            standard_premium: 10_000,
            expense: 3_580,
            conversion: 1_300,
            tax: 10_000,
            mark_kind: 0,
            maximum_mark: 900,
            minimum_mark: 200,
        },
        risks: claims.iter().map(|&claim| vec![claim]).collect(),
        joined: None,
    }
}

/// The largest group: 255 risks with 63 claims of the largest value each, no
/// limit, both marks 0 and every other value at its upper end.
pub fn largest() -> Sample {
    Sample {
        header: Header {
            loss_limit: 0,
            standard_premium: (1 << 22) - 1,
            expense: (1 << 20) - 1,
            conversion: 2_000,
            tax: 20_000,
            mark_kind: 0,
            maximum_mark: 0,
            minimum_mark: 0,
        },
        risks: vec![vec![(1 << 20) - 1; 63]; 255],
        joined: None,
    }
}

/// The largest group in edition 2, whose file is the largest. Each risk has accidents of one, two
/// and three claims in turn, 32 in all, and each of them is cut to a limit of one claim.
pub fn largest_of_edition_2() -> Sample {
    let mut sample = largest();
    sample.header.loss_limit = (1 << 20) - 1;
    let joined = |claim: &usize| matches!(claim % 6, 2 | 4 | 5);
    let joined = (0..63).filter(joined);
    let of_all = (0..255).flat_map(|risk| joined.clone().map(move |claim| (risk, claim)));
    sample.in_edition_2(&of_all.collect::<Vec<_>>())
}

/// Known groups of edition 1 that are rated: the papers' cases and the largest group.
pub fn rated_groups() -> [Sample; 6] {
    [
        four_risks(),
        ten_risks(),
        one_claim_of_one(3),
        one_claim_of_one(2),
        two_risks_of_ten(1_000),
        largest(),
    ]
}

/// Known groups of edition 2 that are rated: document 02's accidents, the four-risk group with each
/// claim an accident of its own, and the largest group.
pub fn rated_groups_of_edition_2() -> [Sample; 4] {
    [
        scaffold(),
        accidents_cut(),
        four_risks().in_edition_2(&[]),
        largest_of_edition_2(),
    ]
}

/// A schedule from its rows of width and rate.
pub fn schedule(rows: [(u32, u32); 4]) -> [Layer; 4] {
    rows.map(|(width, rate)| Layer { width, rate })
}

/// The stock schedule of 1986 in document 001, which document 02 uses.
pub fn stock() -> [Layer; 4] {
    schedule([(5_000, 0), (95_000, 109), (400_000, 126), (0, 144)])
}

/// Schedules that fail none of their questions, 16, 16, 17, and both.
pub fn schedules() -> [[Layer; 4]; 5] {
    [
        stock(),
        schedule([(5_000, 0), (95_000, 109), (400_000, 126), (0, 1_001)]),
        schedule([(5_000, 1_001), (95_000, 109), (400_000, 126), (0, 144)]),
        schedule([(0, 0), (95_000, 109), (400_000, 126), (0, 144)]),
        schedule([(5_000, 0), (95_000, 109), (0, u32::MAX), (0, 144)]),
    ]
}

/// Maximum and minimum premiums, in this order: of a group with losses they fail no question, 23,
/// 22, 22 where 23 would follow, and 22 by the most.
pub fn bounds() -> [(u32, u32); 5] {
    [
        (u32::MAX, 0),
        (0, 0),
        (u32::MAX - 1, u32::MAX),
        (0, 1),
        (0, u32::MAX),
    ]
}
