//! Prints every carrier number with its frequency in kHz, a line each, and makes sure that no other frequency up to 100 GHz has a number.
//! tools/every_carrier.sh compares the lines with those of tools/planning_lines.py.
use chanbook_shard::raster::Arfcn;
use std::io::Write;

/// No kHz of these has a number.
fn without_a_number(from: u64, to: u64) {
    if let Some(carrier) = (from..to).find_map(|khz| Arfcn::from_khz(khz).ok()) {
        panic!("{carrier} has a second frequency, from {from} to {to} kHz");
    }
}

fn main() -> std::io::Result<()> {
    let mut out = std::io::BufWriter::new(std::io::stdout().lock());
    let mut next = 0;
    for carrier in (0..).map_while(|number| Arfcn::new(number).ok()) {
        let khz = carrier.khz();
        assert_eq!(Arfcn::from_khz(khz), Ok(carrier));
        without_a_number(next, khz);
        next = khz + 1;
        writeln!(out, "{} {khz}", carrier.number())?;
    }
    without_a_number(next, 100_000_100);
    out.flush()
}
