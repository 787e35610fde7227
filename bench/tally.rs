//! A tally bank in plain Rust: what the library's is compared with.

pub fn value(region: &[u8]) -> u32 {
    region.iter().map(|byte| byte.count_zeros()).sum()
}

pub fn raise(region: &mut [u8], to: u32) {
    let mut left = to - value(region);
    for byte in region.iter_mut() {
        let ones = byte.count_ones();
        if ones <= left {
            left -= ones;
            *byte = 0;
        } else {
            for _ in 0..left {
                *byte &= !(0x80 >> byte.leading_zeros());
            }
            return;
        }
    }
}
