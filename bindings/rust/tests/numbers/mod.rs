//! Numbers that a damaged frame or shard may have.
use crate::support::Random;

/// Numbers at which something changes: kinds, processes, counts, and the limits of slots and of all numbers.
pub const AT_LIMITS: [u64; 18] = [0, 1, 2, 3, 4, 5, 6, 7, 63, 64, 65, 127, 128, 1 << 32, (1 << 63) - 2, (1 << 63) - 1, 1 << 63, u64::MAX];

/// A number at a limit, a small one, or any.
pub fn any_number(random: &mut Random) -> u64 {
    match random.below(3) {
        0 => AT_LIMITS[random.below(AT_LIMITS.len())],
        1 => random.next() % 5,
        _ => random.next(),
    }
}
