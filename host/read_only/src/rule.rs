//! How many of the weights' numbers may stand in a file.

use std::fmt;

use crate::weights::{KEPT, MIRRORED};
use crate::Found;

/// Where as many numbers stand that should not, they are of a table, which gives nearly all. Chance gives
/// a few, such as 4096 beside 0, and more in files of some megabytes.
pub const TABLE: usize = 40;

/// Where fewer of the kept numbers stand, the table has a form that is not known here, and nothing is
/// shown.
pub const SEEN: usize = 80;

/// A way to break the rule, with how many numbers it is seen by.
#[derive(Clone, Copy, Debug, PartialEq, Eq)]
pub enum Broken {
    /// Numbers of offsets −32 to −1 stand in the file.
    Mirrored(usize),
    /// Numbers of offsets 0 to 32 stand in it at two places or more.
    Twice(usize),
    /// Few numbers of offsets 0 to 32 do at all.
    Blind(usize),
}

impl fmt::Display for Broken {
    fn fmt(&self, out: &mut fmt::Formatter) -> fmt::Result {
        match self {
            Broken::Mirrored(count) => write!(
                out,
                "{count} of {MIRRORED} numbers of offsets -32 to -1 stand in it, as of a constant table"
            ),
            Broken::Twice(count) => write!(
                out,
                "{count} of {KEPT} numbers of offsets 0 to 32 stand in it more than once, as of two constant tables"
            ),
            Broken::Blind(count) => write!(
                out,
                "only {count} of {KEPT} numbers of offsets 0 to 32 were found in it: the table has a form that is not known, \
                 and could stand there twice"
            ),
        }
    }
}

/// How a file breaks the rule.
pub fn broken(found: &Found) -> Vec<Broken> {
    let &Found {
        kept,
        twice,
        mirrored,
        ..
    } = found;
    let ways = [
        (mirrored >= TABLE, Broken::Mirrored(mirrored)),
        (twice >= TABLE, Broken::Twice(twice)),
        (kept < SEEN, Broken::Blind(kept)),
    ];
    ways.into_iter()
        .filter_map(|(is, way)| is.then_some(way))
        .collect()
}

#[cfg(test)]
mod tests {
    use super::{broken, Broken};
    use crate::look_at;
    use crate::sections::{Kind, Section};
    use crate::weights::{row, Encoding};
    use reference::generator::Generator;
    use std::ops::RangeInclusive;

    /// The offsets of 64 rows and of 33.
    const WHOLE: RangeInclusive<i64> = -32..=31;
    const HALF: RangeInclusive<i64> = 0..=32;

    fn in_rows(offsets: RangeInclusive<i64>) -> Vec<u64> {
        offsets.flat_map(row).collect()
    }

    /// Rows of four numbers.
    fn padded(offsets: RangeInclusive<i64>, with: u64) -> Vec<u64> {
        let four = |q| row(q).into_iter().chain([with]);
        offsets.flat_map(four).collect()
    }

    fn in_columns(offsets: RangeInclusive<i64>) -> Vec<u64> {
        let column = |k: usize| offsets.clone().map(move |q| row(q)[k]);
        (0..3).flat_map(column).collect()
    }

    fn bytes(numbers: &[u64], encoding: Encoding) -> Vec<u8> {
        let bytes = numbers.iter().map(|&number| encoding.bytes(number));
        bytes.collect::<Vec<_>>().concat()
    }

    /// The bytes in pieces of 16, in another order.
    fn cut(bytes: &[u8]) -> Vec<u8> {
        let mut pieces: Vec<&[u8]> = bytes.chunks(16).collect();
        let mut numbers = Generator::new(3);
        pieces.sort_by_cached_key(|_| numbers.bits());
        pieces.concat()
    }

    /// How sections with these bytes break the rule.
    fn verdict(sections: &[&[u8]]) -> Vec<&'static str> {
        let section = |bytes| Section {
            name: String::new(),
            kind: Kind::ReadOnly,
            bytes,
        };
        let sections: Vec<Section> = sections.iter().map(|&bytes| section(bytes)).collect();
        let named = |way| match way {
            Broken::Mirrored(_) => "64",
            Broken::Twice(_) => "twice",
            Broken::Blind(_) => "blind",
        };
        broken(&look_at(&sections)).into_iter().map(named).collect()
    }

    #[test]
    fn sixty_four_rows_fail() {
        for encoding in Encoding::ALL {
            let whole = bytes(&in_rows(WHOLE), encoding);
            assert_eq!(verdict(&[&whole]), ["64"], "{encoding:?}");
            assert_eq!(verdict(&[&cut(&whole)]), ["64"], "{encoding:?}, cut");
            for with in [0, 1, 8192] {
                let padded = bytes(&padded(WHOLE, with), encoding);
                assert_eq!(verdict(&[&padded]), ["64"], "{encoding:?}, {with}");
            }
            // In pieces of 16 bytes, upper weights of 64 bits stand beside no neighbour.
            let pieces = cut(&bytes(&padded(WHOLE, 0), encoding));
            assert_eq!(verdict(&[&pieces])[0], "64", "{encoding:?}, padded, cut");
            let columns = bytes(&in_columns(WHOLE), encoding);
            assert_eq!(verdict(&[&columns]), ["64"], "{encoding:?}, columns");
            assert_eq!(
                verdict(&[&cut(&columns)]),
                ["64"],
                "{encoding:?}, columns, cut"
            );
        }
    }

    #[test]
    fn thirty_three_rows_pass() {
        for encoding in Encoding::ALL {
            let half = bytes(&in_rows(HALF), encoding);
            assert!(verdict(&[&half]).is_empty(), "{encoding:?}");
            assert!(verdict(&[&cut(&half)]).is_empty(), "{encoding:?}, cut");
            for with in [0, 1, 8192] {
                let padded = bytes(&padded(HALF, with), encoding);
                assert!(verdict(&[&padded]).is_empty(), "{encoding:?}, {with}");
            }
            let columns = bytes(&in_columns(HALF), encoding);
            assert!(verdict(&[&columns]).is_empty(), "{encoding:?}, columns");
            assert!(
                verdict(&[&cut(&columns)]).is_empty(),
                "{encoding:?}, columns, cut"
            );
        }
    }

    /// The kept rows and, elsewhere, those that are mirrored from them, in any order.
    #[test]
    fn mirrored_rows_beside_the_others_fail() {
        for encoding in Encoding::ALL {
            let half = bytes(&in_rows(HALF), encoding);
            let mirrored = bytes(&in_rows(-32..=-1), encoding);
            assert_eq!(verdict(&[&half, &mirrored]), ["64"], "{encoding:?}");
            let backwards: Vec<u64> = (1..=32).flat_map(|q| row(-q)).collect();
            let backwards = bytes(&backwards, encoding);
            assert_eq!(verdict(&[&half, &cut(&backwards)]), ["64"], "{encoding:?}");
            let fourteen = bytes(&in_rows(-14..=-1), encoding);
            assert_eq!(verdict(&[&half, &fourteen]), ["64"], "{encoding:?}");
            let eleven = bytes(&in_rows(-11..=-1), encoding);
            assert!(verdict(&[&half, &eleven]).is_empty(), "{encoding:?}");
        }
    }

    #[test]
    fn thirty_three_rows_twice_fail() {
        let half = in_rows(HALF);
        for one in Encoding::ALL {
            let first = bytes(&half, one);
            for other in Encoding::ALL {
                let second = bytes(&half, other);
                let cases = [
                    &[&first[..], &second].concat()[..],
                    &cut(&[&first[..], &second].concat()),
                ];
                for both in cases {
                    assert_eq!(verdict(&[both]), ["twice"], "{one:?}, {other:?}");
                }
                assert_eq!(verdict(&[&first, &second]), ["twice"], "{one:?}, {other:?}");
                let columns = bytes(&in_columns(HALF), other);
                assert_eq!(
                    verdict(&[&first, &columns]),
                    ["twice"],
                    "{one:?}, {other:?}"
                );
            }
        }
    }

    #[test]
    fn what_has_no_table_is_not_passed() {
        assert_eq!(verdict(&[]), ["blind"]);
        assert_eq!(verdict(&[&[0; 4096]]), ["blind"]);
        for encoding in Encoding::ALL {
            let part = bytes(&in_rows(0..=22), encoding);
            assert_eq!(verdict(&[&part]), ["blind"], "{encoding:?}");
            // Numbers in a form that is not looked for.
            let scaled: Vec<u64> = in_rows(WHOLE).iter().map(|number| 5 * number).collect();
            assert_eq!(
                verdict(&[&bytes(&scaled, encoding)]),
                ["blind"],
                "{encoding:?}"
            );
        }
    }

    /// Random bytes, of any value and of few values, before, after and apart from the table.
    #[test]
    fn random_bytes_beside_the_table_pass() {
        let mut numbers = Generator::new(1);
        for encoding in Encoding::ALL {
            let half = bytes(&in_rows(HALF), encoding);
            let any: Vec<u8> = (0..40_001).map(|_| numbers.bits() as u8).collect();
            let few: Vec<u8> = (0..40_001)
                .map(|_| numbers.one_of(&[0, 0, 0, 1, 4, 16, 255]) as u8)
                .collect();
            for random in [any, few] {
                let around = [&random, &half, &random].map(Vec::as_slice).concat();
                assert!(verdict(&[&around]).is_empty(), "{encoding:?}");
                assert!(verdict(&[&random, &half]).is_empty(), "{encoding:?}");
            }
        }
    }
}
