//! Numbers in groups of seven bits: lowest first, top bit set on all but the last, shortest
//! form only.

/// Takes one number from the front of `rest`. None if it does not end, is not in its shortest
/// form, or does not fit `bits` bits.
pub fn take(rest: &mut &[u8], bits: u32) -> Option<u64> {
    let length = rest.iter().position(|byte| byte & 0x80 == 0)? + 1;
    let (number, after) = rest.split_at(length);
    // A last byte of 0 adds nothing, so without it the form would be shorter.
    if length > 1 && number[length - 1] == 0 {
        return None;
    }
    // Ten groups are 70 bits. More, in shortest form, are more than 64 bits in any case.
    if length > 10 {
        return None;
    }
    let mut value: u128 = 0;
    for (place, byte) in number.iter().enumerate() {
        value += u128::from(byte & 0x7F) << (7 * place);
    }
    if value >= 1u128 << bits {
        return None;
    }
    *rest = after;
    Some(value as u64)
}

/// Adds the shortest form of `value` to `out`.
pub fn put(out: &mut Vec<u8>, mut value: u64) {
    while value >= 0x80 {
        out.push((value & 0x7F) as u8 | 0x80);
        value >>= 7;
    }
    out.push(value as u8);
}

#[cfg(test)]
mod tests {
    use super::*;

    fn whole(bytes: &[u8], bits: u32) -> Option<u64> {
        let mut rest = bytes;
        let value = take(&mut rest, bits)?;
        assert!(rest.is_empty(), "bytes left of {bytes:02x?}");
        Some(value)
    }

    #[test]
    fn written_numbers_are_read_back() {
        for bits in [32, 48, 64] {
            for shift in 0..bits {
                for value in [1u64 << shift, (1u64 << shift) - 1, (1u64 << shift) + 1] {
                    let mut out = Vec::new();
                    put(&mut out, value);
                    assert_eq!(whole(&out, bits), Some(value), "{value} in {bits} bits");
                }
            }
        }
    }

    #[test]
    fn each_width_ends_where_it_should() {
        // (bytes, width, value)
        let cases: [(&[u8], u32, Option<u64>); 14] = [
            (&[0x00], 32, Some(0)),
            (&[0x80, 0x00], 32, None),
            (&[0x81, 0x00], 32, None),
            (&[0x80, 0x01], 32, Some(128)),
            (&[0x80], 32, None),
            (&[], 32, None),
            (&[0xFF, 0xFF, 0xFF, 0xFF, 0x0F], 32, Some(0xFFFF_FFFF)),
            (&[0x80, 0x80, 0x80, 0x80, 0x10], 32, None),
            (&[0xFF, 0xFF, 0xFF, 0xFF, 0xFF, 0xFF, 0x3F], 48, Some(0xFFFF_FFFF_FFFF)),
            (&[0x80, 0x80, 0x80, 0x80, 0x80, 0x80, 0x40], 48, None),
            (&[0xFF, 0xFF, 0xFF, 0xFF, 0xFF, 0xFF, 0xFF, 0xFF, 0xFF, 0x01], 64, Some(u64::MAX)),
            (&[0x80, 0x80, 0x80, 0x80, 0x80, 0x80, 0x80, 0x80, 0x80, 0x02], 64, None),
            (&[0x80, 0x80, 0x80, 0x80, 0x80, 0x80, 0x80, 0x80, 0x80, 0x81, 0x00], 64, None),
            (&[0x80, 0x80, 0x80, 0x80, 0x80, 0x80, 0x80, 0x80, 0x80, 0x80, 0x01], 64, None),
        ];
        for (bytes, bits, value) in cases {
            assert_eq!(whole(bytes, bits), value, "{bytes:02x?} in {bits} bits");
        }
    }
}
