//! Distances as they are in a plan's bytes, of two bytes or of four, by the plan's mark.

/// A distance of a plan's bytes. Each call is compiled for either width, so that neither
/// is asked for where a distance is read.
pub trait Distance: Copy + PartialEq {
    /// The letters of plans with such distances.
    const MARK: [u8; 4];
    const LONGEST_PLAN: usize;
    const ZERO: Self;
    /// A route without a way has this key or a greater one.
    const NO_WAY_KEY: u64;

    fn all(body: &[u8]) -> &[Self];

    fn all_mut(body: &mut [u8]) -> &mut [Self];

    fn number(self) -> u32;
}

impl Distance for [u8; 2] {
    const MARK: [u8; 4] = *b"RRP1";
    const LONGEST_PLAN: usize = 16_731;
    const ZERO: Self = [0; 2];
    const NO_WAY_KEY: u64 = 65_535 << 8;

    fn all(body: &[u8]) -> &[Self] {
        body.as_chunks().0
    }

    fn all_mut(body: &mut [u8]) -> &mut [Self] {
        body.as_chunks_mut().0
    }

    fn number(self) -> u32 {
        u16::from_le_bytes(self).into()
    }
}

impl Distance for [u8; 4] {
    const MARK: [u8; 4] = *b"RRP2";
    const LONGEST_PLAN: usize = 24_923;
    const ZERO: Self = [0; 4];
    const NO_WAY_KEY: u64 = 4_294_967_295 << 8;

    fn all(body: &[u8]) -> &[Self] {
        body.as_chunks().0
    }

    fn all_mut(body: &mut [u8]) -> &mut [Self] {
        body.as_chunks_mut().0
    }

    fn number(self) -> u32 {
        u32::from_le_bytes(self)
    }
}
