//! Carrier numbers and frequencies through the library: the ends of the table's ranges and the ends of 64 bits. tools/every_carrier.sh runs all
//! numbers.
use chanbook_shard::raster::{Arfcn, NotOnRaster};

/// Whether it is refused, and with document 02's number.
fn refused(answer: Result<Arfcn, NotOnRaster>) -> bool {
    answer.is_err_and(|refusal| refusal.number() == 14)
}

/// Numbers of each range, with their frequencies: its first two and its last.
const PAIRS: [(u64, u64); 9] = [
    (0, 0),
    (1, 5),
    (599_999, 2_999_995),
    (600_000, 3_000_000),
    (600_001, 3_000_015),
    (2_016_666, 24_249_990),
    (2_016_667, 24_250_080),
    (2_016_668, 24_250_140),
    (3_279_165, 99_999_960),
];

#[test]
fn there_and_back_at_the_ends_of_the_ranges() {
    for (number, khz) in PAIRS {
        let carrier = Arfcn::new(number).expect("a raster number");
        assert_eq!((carrier.number(), carrier.khz()), (number, khz));
        assert_eq!(Arfcn::from_khz(khz), Ok(carrier));
    }
}

#[test]
fn nothing_between_the_second_and_the_third_range() {
    assert!((24_249_991..24_250_080).all(|khz| refused(Arfcn::from_khz(khz))));
}

#[test]
fn a_frequency_off_the_raster_has_no_number() {
    for (start, step) in [(0, 5), (3_000_000, 15), (24_250_080, 60)] {
        assert!((1..step).all(|more| refused(Arfcn::from_khz(start + more))));
    }
}

#[test]
fn nothing_past_the_last_number_up_to_the_end_of_64_bits() {
    for large in [3_279_166, 100_000_020, 1 << 32, (1 << 32) + 5, 1 << 63, u64::MAX / 5 + 1, u64::MAX - 1, u64::MAX] {
        assert!(refused(Arfcn::new(large)));
        assert!(refused(Arfcn::from_khz(large.max(99_999_961))));
    }
}
