//! Fields of bits in bytes, most significant bit first.

/// A field: its name, its width in bits, and whether it is signed in two's complement.
#[derive(Clone, Copy, Debug, PartialEq, Eq)]
pub struct Field {
    /// The name in the documents.
    pub name: &'static str,
    /// Width in bits.
    pub bits: u32,
    /// Two's complement, or unsigned.
    pub signed: bool,
}

impl Field {
    /// An unsigned field.
    pub const fn unsigned(name: &'static str, bits: u32) -> Self {
        let signed = false;
        Field { name, bits, signed }
    }

    /// A field in two's complement.
    pub const fn signed(name: &'static str, bits: u32) -> Self {
        let signed = true;
        Field { name, bits, signed }
    }

    /// The number that the field's bits stand for.
    fn value(&self, bits: i128) -> i128 {
        let range = 1 << self.bits;
        if self.signed && bits >= range / 2 {
            bits - range
        } else {
            bits
        }
    }
}

/// Bit `index` of the bytes, the most significant bit of the first byte being bit 0.
fn bit(bytes: &[u8], index: usize) -> i128 {
    i128::from(bytes[index / 8] >> (7 - index % 8) & 1)
}

/// The numbers that the fields of a layout hold.
pub fn unpack<const N: usize>(layout: &[Field; N], bytes: &[u8]) -> [i128; N] {
    let mut start = 0;
    layout.map(|field| {
        let end = start + field.bits as usize;
        let bits = (start..end).fold(0, |bits, index| 2 * bits + bit(bytes, index));
        start = end;
        field.value(bits)
    })
}

/// Fills the bytes with the low bits of the numbers, each in the width of its field.
pub fn pack<const N: usize>(layout: &[Field; N], numbers: &[i128; N], bytes: &mut [u8]) {
    bytes.fill(0);
    let mut index = 0;
    for (field, number) in layout.iter().zip(numbers) {
        for shift in (0..field.bits).rev() {
            if number >> shift & 1 == 1 {
                bytes[index / 8] |= 0x80 >> (index % 8);
            }
            index += 1;
        }
    }
}

#[cfg(test)]
mod tests {
    use super::*;

    const LAYOUT: [Field; 3] = [
        Field::unsigned("a", 3),
        Field::signed("b", 7),
        Field::unsigned("c", 6),
    ];

    #[test]
    fn most_significant_bit_first() {
        let mut bytes = [0; 2];
        pack(&LAYOUT, &[0b101, -64, 0b000011], &mut bytes);
        assert_eq!(bytes, [0b1011_0000, 0b0000_0011]);
        assert_eq!(unpack(&LAYOUT, &bytes), [5, -64, 3]);
    }

    #[test]
    fn every_pair_of_bytes_comes_back() {
        for word in 0..=u16::MAX {
            let bytes = word.to_be_bytes();
            let mut again = [0xFF; 2];
            pack(&LAYOUT, &unpack(&LAYOUT, &bytes), &mut again);
            assert_eq!(again, bytes);
        }
    }
}
