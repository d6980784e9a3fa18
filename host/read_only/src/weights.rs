//! The numbers of the table of weights, and where they stand among bytes.
//!
//! A compiler need not leave the table in one piece: it makes constants of 16 bytes of it, a linker
//! puts these in any order, and some numbers become operands in the code. So what is looked for are
//! pairs: two numbers that are neighbours in the table, along a row, from a row's end to the next
//! row's beginning, or along a column, side by side at any byte, in 16, 32 or 64 bits each and in
//! either byte order. In code they may also stand alone, in 16 or 32 bits, as the operands of two
//! instructions, one after the other, that store them, with the rest of an instruction between them.
//!
//! A pair says which two numbers it is, and so of which half, but for three:
//!
//! - 4096 beside 4096 is in both halves, as nearest and upper of offset 32 and as lower and nearest of
//!   offset −32, and counts for both;
//! - 961 beside 1024 leads from one half into the other, from a row's end and along a column: upper of
//!   −1, and lower or upper of 0;
//! - 1024 beside 961 is of the kept half alone: upper or lower of 0, and lower of 1.

use std::collections::HashMap;
use std::iter;
use std::ops::RangeInclusive;

/// The numbers of a row.
const COLUMNS: usize = 3;
/// The numbers of offsets −32 to −1, which come first: rows that are mirrored from the others.
pub const MIRRORED: usize = 32 * COLUMNS;
/// The numbers of offsets 0 to 32: rows that are kept.
pub const KEPT: usize = 33 * COLUMNS;
/// All numbers.
pub const ALL: usize = MIRRORED + KEPT;

/// The weights of the lower, the nearest and the upper node for an offset from −32 to 32.
pub fn row(q: i64) -> [u64; COLUMNS] {
    let row = [(32 - q).pow(2), 6144 - 2 * q.pow(2), (32 + q).pow(2)];
    row.map(i64::unsigned_abs)
}

/// The neighbours that come after a number, along its row or in the next, and down its column; numbers
/// are counted from the lower weight of offset −32 on.
fn neighbours(first: usize) -> [usize; 2] {
    [first + 1, first + COLUMNS]
}

/// The bytes between the operands of two instructions that store one.
const BETWEEN: RangeInclusive<usize> = 3..=12;

/// How numbers are written.
#[derive(Clone, Copy, Debug, PartialEq, Eq)]
pub struct Encoding {
    /// The bytes of a number.
    pub width: usize,
    /// Whether its low byte comes first.
    pub little: bool,
}

impl Encoding {
    /// Those that are looked for.
    pub const ALL: [Encoding; 6] = [
        Encoding::of(2, true),
        Encoding::of(4, true),
        Encoding::of(8, true),
        Encoding::of(2, false),
        Encoding::of(4, false),
        Encoding::of(8, false),
    ];

    const fn of(width: usize, little: bool) -> Self {
        Encoding { width, little }
    }

    /// A number's bytes.
    pub fn bytes(self, number: u64) -> Vec<u8> {
        if self.little {
            number.to_le_bytes()[..self.width].to_vec()
        } else {
            number.to_be_bytes()[8 - self.width..].to_vec()
        }
    }
}

/// The numbers in an encoding.
struct Encoded {
    encoding: Encoding,
    numbers: Vec<Vec<u8>>,
    by_bytes: HashMap<Vec<u8>, Vec<usize>>,
}

impl Encoded {
    fn of(encoding: Encoding) -> Self {
        let bytes = |number| encoding.bytes(number);
        let numbers: Vec<Vec<u8>> = (-32..=32).flat_map(row).map(bytes).collect();
        let mut by_bytes: HashMap<_, Vec<usize>> = HashMap::new();
        for (number, bytes) in numbers.iter().enumerate() {
            by_bytes.entry(bytes.clone()).or_default().push(number);
        }
        Encoded {
            encoding,
            numbers,
            by_bytes,
        }
    }

    /// Hands on every number that stands at some place among bytes, with the place's beginning.
    fn each(&self, bytes: &[u8], code: bool, mut stands: impl FnMut(usize, usize)) {
        let Encoding { width, little } = self.encoding;
        let operands = code && little && width <= 4;
        let is = |number: usize, at: usize| {
            let number = self.numbers.get(number);
            number.is_some_and(|number| bytes.get(at..at + width) == Some(number))
        };
        for (start, here) in bytes.windows(width).enumerate() {
            for &first in self.by_bytes.get(here).into_iter().flatten() {
                let beside = start + width;
                let apart = BETWEEN.map(|between| beside + between);
                for next in iter::once(beside).chain(apart.filter(|_| operands)) {
                    for second in neighbours(first) {
                        if is(second, next) {
                            stands(first, start);
                            stands(second, next);
                        }
                    }
                }
            }
        }
    }
}

/// The numbers in every encoding.
pub struct Numbers(Vec<Encoded>);

impl Default for Numbers {
    fn default() -> Self {
        Numbers(Encoding::ALL.map(Encoded::of).into())
    }
}

impl Numbers {
    /// For every number whether it stands nowhere, at one place, or at two or more, as 0, 1 or 2. A
    /// number stands where it is one of a pair. Places that share a byte are one: small numbers of one
    /// byte order are numbers of the other as well, some bytes before.
    pub fn places(&self, bytes: &[u8], code: bool) -> [usize; ALL] {
        // The end of the first place and the beginning of the last, of all widths.
        let mut extents = [None; ALL];
        for encoded in &self.0 {
            encoded.each(bytes, code, |number, start| {
                let (end, last) = extents[number].unwrap_or((usize::MAX, 0));
                let ends = start + encoded.encoding.width;
                extents[number] = Some((end.min(ends), last.max(start)));
            });
        }
        extents.map(|extent| extent.map_or(0, |(end, last)| 1 + usize::from(end <= last)))
    }
}

#[cfg(test)]
mod tests {
    use super::{neighbours, row, Encoded, Encoding, Numbers, ALL, KEPT, MIRRORED};
    use std::collections::{BTreeMap, HashSet};

    #[test]
    fn rows_are_the_weights() {
        for q in -32..=31 {
            let row = row(q).map(i128::from);
            assert_eq!(reference::weights(q.into()), Ok(row), "{q}");
        }
        assert_eq!(row(32), [0, 4096, 4096]);
        assert_eq!((-32..=32).flat_map(row).count(), ALL);
        assert_eq!((-32..0).flat_map(row).count(), MIRRORED);
        assert_eq!((0..=32).flat_map(row).count(), KEPT);
    }

    /// All pairs, with their bytes.
    fn pairs(encoding: Encoding) -> impl Iterator<Item = (Vec<u8>, [usize; 2])> {
        let numbers = Encoded::of(encoding).numbers;
        let pairs = (0..ALL).flat_map(|first| neighbours(first).map(|second| [first, second]));
        pairs.filter(|[_, second]| *second < ALL).map(move |pair| {
            let bytes = pair.map(|number| numbers[number].clone());
            (bytes.concat(), pair)
        })
    }

    /// The pairs that stand for more than two numbers are those named above.
    #[test]
    fn pairs_are_of_one_half() {
        let big = Encoding::of(2, false);
        let mut meanings: BTreeMap<Vec<u8>, Vec<[usize; 2]>> = BTreeMap::new();
        for (bytes, pair) in pairs(big) {
            meanings.entry(bytes).or_default().push(pair);
        }
        let place = |q: usize, column: usize| 3 * q + column;
        let [low, below, middle, above, high] = [0, 31, 32, 33, 64];
        let several: Vec<_> = meanings
            .iter()
            .filter(|(_, pairs)| pairs.len() > 1)
            .collect();
        let expected = [
            (
                [961, 1024],
                [
                    [place(below, 2), place(middle, 0)],
                    [place(below, 2), place(middle, 2)],
                ],
            ),
            (
                [1024, 961],
                [
                    [place(middle, 0), place(above, 0)],
                    [place(middle, 2), place(above, 0)],
                ],
            ),
            (
                [4096, 4096],
                [
                    [place(low, 0), place(low, 1)],
                    [place(high, 1), place(high, 2)],
                ],
            ),
        ];
        assert_eq!(several.len(), expected.len());
        for ((bytes, pairs), (values, meanings)) in several.into_iter().zip(expected) {
            let values = values.map(|value| big.bytes(value)).concat();
            assert_eq!((bytes, &pairs[..]), (&values, &meanings[..]));
        }
    }

    /// The same bytes at the same place are never of two byte orders.
    #[test]
    fn byte_orders_differ() {
        for width in [2, 4, 8] {
            let bytes = |little| -> HashSet<Vec<u8>> {
                pairs(Encoding::of(width, little))
                    .map(|(bytes, _)| bytes)
                    .collect()
            };
            assert!(bytes(true).is_disjoint(&bytes(false)), "{width}");
        }
    }

    #[test]
    fn places_are_counted() {
        let numbers = Numbers::default();
        let places = |bytes: &[u8]| counts(numbers.places(bytes, false));
        for encoding in Encoding::ALL {
            let bytes = |numbers: &[u64]| -> Vec<u8> {
                numbers
                    .iter()
                    .flat_map(|&number| encoding.bytes(number))
                    .collect()
            };
            assert_eq!(places(&[]), [0, 0]);
            assert_eq!(places(&bytes(&[6142])), [0, 0], "a number alone");
            assert_eq!(places(&bytes(&[6142, 6143])), [0, 0], "no neighbours");
            assert_eq!(places(&bytes(&[961, 6142])), [2, 0], "along a row");
            assert_eq!(places(&bytes(&[961, 6142, 1089])), [3, 0]);
            assert_eq!(places(&bytes(&[5, 961, 6142, 1089, 5])), [3, 0]);
            assert_eq!(places(&bytes(&[1089, 900])), [2, 0], "to the next row");
            assert_eq!(places(&bytes(&[6142, 6136])), [2, 0], "down a column");
            assert_eq!(places(&bytes(&[961, 6142, 7, 961, 6142, 1089])), [1, 2]);
            // Small numbers, found in both byte orders at places that share a byte.
            assert_eq!(places(&bytes(&[0, 144, 121, 100, 0])), [3, 0]);
            let odd = [&[7], &bytes(&[961, 6142])[..]].concat();
            assert_eq!(places(&odd), [2, 0], "at an odd byte");
        }
    }

    /// How many numbers stand at one place, and at two or more.
    fn counts(places: [usize; ALL]) -> [usize; 2] {
        [1, 2].map(|count| places.iter().filter(|&&here| here == count).count())
    }

    /// Operands of `movw`, `movl` and `movq` to memory, one number each.
    #[test]
    fn operands_are_counted() {
        let all = Numbers::default();
        let stores: [(&[u8], usize); 5] = [
            (&[0x66, 0xc7, 0x44, 0x24, 0x18], 2),
            (&[0x66, 0x41, 0xc7, 0x84, 0x24, 0x18, 0x02, 0x00, 0x00], 2),
            (&[0xc7, 0x47, 0x18], 4),
            (&[0x48, 0xc7, 0x44, 0x24, 0x18], 4),
            (&[0x48, 0xc7, 0x84, 0x24, 0x18, 0x02, 0x00, 0x00], 4),
        ];
        for (store, width) in stores {
            let code = |numbers: &[u64]| -> Vec<u8> {
                let stored =
                    |&number: &u64| [store, &Encoding::of(width, true).bytes(number)].concat();
                numbers.iter().flat_map(stored).collect()
            };
            let places = |numbers: &[u64]| counts(all.places(&code(numbers), true));
            assert_eq!(places(&[6142, 6143]), [0, 0], "{store:?}");
            assert_eq!(places(&[961, 6142, 1089]), [3, 0], "{store:?}");
            assert_eq!(places(&[961, 6142, 1089, 900]), [4, 0], "{store:?}");
            assert_eq!(places(&[6142, 6136, 6126]), [3, 0], "{store:?}");
            assert_eq!(
                places(&[1089, 6142, 961, 7, 1089, 6142]),
                [1, 2],
                "{store:?}"
            );
            let data = all.places(&code(&[961, 6142, 1089]), false);
            assert_eq!(counts(data), [0, 0], "{store:?}, as data");
        }
    }
}
