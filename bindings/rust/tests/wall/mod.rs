//! E11 of document 02 in plain Rust, over a list of cells. It is written from the document alone, and searches number by number.
#![allow(dead_code, reason = "reach_speed asks for the first free carrier alone")]
use chanbook_shard::reach::{PlacedCell, Position, Question};

/// The frequency of a raster number, in kHz.
pub fn khz(number: u64) -> u64 {
    match number {
        0..=599_999 => 5 * number,
        600_000..=2_016_666 => 3_000_000 + 15 * (number - 600_000),
        _ => 24_250_080 + 60 * (number - 2_016_667),
    }
}

fn overlap(khz: u64, width: u64, other_khz: u64, other_width: u64) -> bool {
    // in half kHz: a carrier occupies its centre less half its width up to its centre plus half its width
    let ends = |khz: u64, width: u64| (2 * khz as i128 - width as i128, 2 * khz as i128 + width as i128);
    let (from, to) = ends(khz, width);
    let (other_from, other_to) = ends(other_khz, other_width);
    from < other_to && other_from < to
}

pub fn near(question: &Question, position: Option<Position>) -> bool {
    let Question { position: here, distance, .. } = *question;
    position.is_none_or(|there| {
        let (east, north) = (i128::from(there.x) - i128::from(here.x), i128::from(there.y) - i128::from(here.y));
        east * east + north * north <= i128::from(distance) * i128::from(distance)
    })
}

fn outside(question: &Question) -> bool {
    let Question { position: Position { x, y }, distance, .. } = *question;
    x.unsigned_abs() > 2_000_000 || y.unsigned_abs() > 2_000_000 || distance > 6_000_000
}

/// 21, then 14.
fn refusal(question: &Question, carriers: &[u64]) -> Option<u64> {
    if outside(question) {
        return Some(21);
    }
    let within = carriers.iter().all(|carrier| *carrier <= 3_279_165) && (1..=400_000).contains(&question.width);
    (!within).then_some(14)
}

/// The cells in conflict, or document 02's number.
pub fn conflicts(cells: &[PlacedCell], carrier: u64, question: &Question) -> Result<Vec<u64>, u64> {
    if let Some(number) = refusal(question, &[carrier]) {
        return Err(number);
    }
    let clash = |cell: &&PlacedCell| {
        overlap(khz(carrier), question.width, khz(cell.assignment.carrier), cell.assignment.width) && near(question, cell.position)
    };
    Ok(cells.iter().filter(clash).map(|cell| cell.number).collect())
}

/// Each number of the range is tried in turn, beside each near cell.
pub fn first_free(cells: &[PlacedCell], first: u64, last: u64, question: &Question) -> Result<u64, u64> {
    if let Some(number) = refusal(question, &[first, last]) {
        return Err(number);
    }
    let close: Vec<_> = cells
        .iter()
        .filter(|cell| near(question, cell.position))
        .map(|cell| (khz(cell.assignment.carrier), cell.assignment.width))
        .collect();
    let free = |carrier: &u64| !close.iter().any(|(khz_of_cell, width)| overlap(khz(*carrier), question.width, *khz_of_cell, *width));
    (first..=last).find(free).ok_or(22)
}
