//! The two status bytes that the chips of the family have.

/// The set bits of the status bytes as they are shown, counted one by one: by
/// the operation that the proved program has, a wrong one would be in both.
pub(crate) fn set_bits(shown: [u8; 2]) -> u32 {
    let mut set = 0;
    for byte in shown {
        for bit in 0..8 {
            if (byte >> bit) & 1 == 1 {
                set += 1;
            }
        }
    }
    set
}
