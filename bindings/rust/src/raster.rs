//! Carrier numbers (NR-ARFCN) of 3GPP TS 38.104 and their frequencies, in whole kHz.
use crate::planning_sys::{FlatValue, chanbook_raster_khz, chanbook_raster_number};
use std::fmt;

/// A carrier number of the global raster. There is one for each number from 0 to 3279165, and none else.
///
/// ```
/// use chanbook_shard::raster::Arfcn;
/// let carrier = Arfcn::new(632628).unwrap();
/// assert_eq!(carrier.khz(), 3_489_420);
/// assert_eq!(Arfcn::from_khz(3_489_420), Ok(carrier));
/// assert_eq!(carrier.to_string(), "632628 (3489.420 MHz)");
/// assert_eq!(Arfcn::from_khz(3_489_421).unwrap_err().number(), 14);
/// assert_eq!(Arfcn::new(3_279_166).unwrap_err().number(), 14);
/// ```
#[derive(Clone, Copy, Debug, PartialEq, Eq, PartialOrd, Ord, Hash)]
pub struct Arfcn {
    number: u64,
}

/// No raster number, or no raster frequency: the library refused it.
#[derive(Clone, Copy, Debug, PartialEq, Eq, PartialOrd, Ord, Hash)]
pub struct NotOnRaster {
    refusal: u64,
}

impl NotOnRaster {
    /// The number that the library handed back: 14, as document 02 names it.
    pub fn number(self) -> u64 {
        self.refusal
    }
}

impl fmt::Display for NotOnRaster {
    fn fmt(&self, f: &mut fmt::Formatter) -> fmt::Result {
        write!(f, "no raster number or no raster frequency ({})", self.refusal)
    }
}

impl std::error::Error for NotOnRaster {}

fn value(answer: FlatValue) -> Result<u64, NotOnRaster> {
    if answer.refusal == 0 { Ok(answer.value) } else { Err(NotOnRaster { refusal: answer.refusal }) }
}

impl Arfcn {
    /// The carrier with this number.
    pub fn new(number: u64) -> Result<Arfcn, NotOnRaster> {
        value(chanbook_raster_khz(number)).map(|_| Arfcn { number })
    }

    /// The carrier with this frequency.
    pub fn from_khz(khz: u64) -> Result<Arfcn, NotOnRaster> {
        value(chanbook_raster_number(khz)).map(|number| Arfcn { number })
    }

    /// Its number.
    pub fn number(self) -> u64 {
        self.number
    }

    /// Its frequency in kHz.
    pub fn khz(self) -> u64 {
        chanbook_raster_khz(self.number).value
    }
}

/// The number, and the frequency in MHz with three decimals: nothing is rounded.
impl fmt::Display for Arfcn {
    fn fmt(&self, f: &mut fmt::Formatter) -> fmt::Result {
        let khz = self.khz();
        write!(f, "{} ({}.{:03} MHz)", self.number, khz / 1000, khz % 1000)
    }
}
