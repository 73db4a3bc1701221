//! The wall map: which cells stand where, how far each is from a site, and which of them a carrier that is wanted there conflicts with. Then the lowest carrier
//! of a range that conflicts with none.
//!
//!     cargo run --offline --manifest-path bindings/rust/Cargo.toml --example wall_map
use chanbook_shard::raster::Arfcn;
use chanbook_shard::reach::{PlacedEntry, PlacedRegister, Position, Question, Said};
use chanbook_shard::register::{Assignment, Change};
use chanbook_shard::{GroupSettings, PFModeSetting, Settings};

/// Cell, carrier, width in kHz, and where it stands.
const CELLS: [(u32, u64, u64, Option<(i64, i64)>); 5] = [
    (3, 630_000, 20_000, Some((300, -400))),
    (7, 632_000, 20_000, None),
    (11, 631_000, 40_000, Some((-6_000, 2_500))),
    (12, 634_000, 40_000, Some((9_000, 12_000))),
    (40, 631_000, 20_000, Some((52_000, -8_000))),
];

fn metres_apart(one: Position, other: Position) -> f64 {
    ((one.x - other.x) as f64).hypot((one.y - other.y) as f64)
}

fn main() {
    let mut register = PlacedRegister::new(&GroupSettings::new(Settings::all_live(3, 0, PFModeSetting::Paxos), 0));
    let mut slot = 0;
    let mut enter = |cell, said| {
        register.apply(&PlacedEntry { slot, cell, said }).expect("a cell of the list is assigned and placed");
        slot += 1;
    };
    for (cell, carrier, width, position) in CELLS {
        enter(cell, Said::Change(Change::Assign(Assignment { carrier, width })));
        if let Some((x, y)) = position {
            enter(cell, Said::Position(Position { x, y }));
        }
    }

    let site = Position { x: 0, y: 0 };
    let question = Question { width: 20_000, position: site, distance: 15_000 };
    let wanted = 631_000;
    let conflicts = register.conflicts(wanted, &question).expect("a question within its limits");
    println!("wanted at 0, 0: carrier {}, 20 MHz wide, cells within 15 km", Arfcn::new(wanted).expect("a carrier"));
    for cell in register.cells().expect("made of its settings") {
        let place = cell.position.map_or("somewhere".to_string(), |at| format!("{:.1} km away", metres_apart(site, at) / 1000.0));
        let carrier = Arfcn::new(cell.assignment.carrier).expect("a carrier");
        let conflict = if conflicts.contains(&cell.number) { ", in conflict" } else { "" };
        println!("cell {:>2}  {carrier}, {:>2} MHz  {place}{conflict}", cell.number, cell.assignment.width / 1000);
    }
    let free = register.first_free(620_000..=653_333, &Question { distance: 15_000, ..question });
    println!("first free from 620000 on: {}", Arfcn::new(free.expect("a free carrier")).expect("a carrier"));
    let nearby = register.first_free(629_000..=653_333, &question).expect("a free carrier");
    println!("first free from 629000 on: {}", Arfcn::new(nearby).expect("a carrier"));
}
