//! Three planning offices assign carriers to sites, all at the same time and over a network that loses and repeats messages. Each office keeps
//! a log of what was committed, slot by slot, and a register of cells from it. In the end the three logs and the three registers are equal. An
//! office that was away from slot 3 on then catches up from its neighbours' lists, and holds the same register.
//!
//!     cargo run --offline --manifest-path bindings/rust/Cargo.toml --example three_offices
use chanbook_shard::catch_up::CommitList;
use chanbook_shard::raster::Arfcn;
use chanbook_shard::register::{Assignment, CellEntry, CellNumber, Change, Register};
use chanbook_shard::{ConsensusMessage, Delivery, GroupSettings, PFModeSetting, Refusal, Reply, Settings, Shard};

/// What an office wants of a site's cell: a carrier of band n78, by its NR-ARFCN, with a width in kHz, or that it is released.
struct Wish {
    office: usize,
    cell: CellNumber,
    change: Change,
}

const OFFICES: [&str; 3] = ["Porto", "Coimbra", "Lisbon"];

/// The sites, by the number of their cell.
const SITES: [&str; 9] = [
    "Matosinhos harbour",
    "Gaia hill",
    "Campanha station",
    "University tower",
    "Mondego bridge",
    "Figueira beach",
    "Belem riverside",
    "Oriente station",
    "Monsanto mast",
];

/// What the offices want, each its own in this order. The engine knows a wish only by a number: its place in this list. Gaia hill changes its
/// carrier, and Monsanto mast is released.
const WANTED: [Wish; 11] = [
    assign(0, 0, 632628, 20_000),
    assign(0, 1, 636666, 40_000),
    assign(0, 2, 641280, 40_000),
    assign(0, 1, 650000, 20_000),
    assign(1, 3, 632628, 20_000),
    assign(1, 4, 638000, 40_000),
    assign(1, 5, 646666, 100_000),
    assign(2, 8, 650000, 60_000),
    assign(2, 6, 636666, 40_000),
    Wish { office: 2, cell: 8, change: Change::Release },
    assign(2, 7, 643334, 20_000),
];

const fn assign(office: usize, cell: CellNumber, carrier: u64, width: u64) -> Wish {
    Wish { office, cell, change: Change::Assign(Assignment { carrier, width }) }
}

/// An office: its shard of the engine, its log and register, and what it still wants.
struct Office {
    shard: Shard,
    log: Vec<u64>,
    register: Register,
    wishes: Vec<u64>,
}

/// The network: messages under way, each with the office that it goes to, and dice that fall the same way in every run.
struct Network {
    under_way: Vec<(usize, ConsensusMessage)>,
    dice: u64,
    lost: u32,
    repeated: u32,
}

impl Network {
    fn send(&mut self, reply: &Reply) {
        for sent in reply.sent() {
            let receivers = sent.receivers(3).map(|to| (to as usize, sent.message));
            self.under_way.extend(receivers);
        }
    }

    /// A number below `sides` (a xorshift row).
    fn throw(&mut self, sides: usize) -> usize {
        self.dice ^= self.dice << 13;
        self.dice ^= self.dice >> 7;
        self.dice ^= self.dice << 17;
        (self.dice >> 11) as usize % sides
    }

    /// The next message that arrives. Any of those under way may be next. One in four is lost; its office sends it again, so it stays under
    /// way. One in six arrives and will arrive again.
    fn next(&mut self) -> Option<(usize, ConsensusMessage)> {
        while !self.under_way.is_empty() {
            let at = self.throw(self.under_way.len());
            match self.throw(12) {
                0..3 => self.lost += 1,
                3..5 => {
                    self.repeated += 1;
                    return Some(self.under_way[at]);
                }
                _ => return Some(self.under_way.swap_remove(at)),
            }
        }
        None
    }
}

/// Every office that may do so proposes its next wish for its current slot. Whoever has heard of another proposal already is refused.
fn propose_all(offices: &mut [Office; 3], network: &mut Network) {
    for office in offices {
        if let Some(&wish) = office.wishes.first() {
            let reply = office.shard.propose(wish);
            network.send(&reply);
        }
    }
}

/// Hands a message to its office, and sends what the engine answers. A commit goes into the log and the register. If it is the office's own wish,
/// the wish is fulfilled; if not, the office proposes its wish again in the next slot.
fn deliver(office: &mut Office, to: usize, message: ConsensusMessage, network: &mut Network) {
    let reply = office.shard.receive(Delivery::of(message));
    if reply.outcome == Err(Refusal::SlotAhead) {
        // The office has not got so far yet, and nothing has changed there: the message has to come again.
        network.under_way.push((to, message));
    }
    network.send(&reply);
    if let Some(commit) = reply.commit {
        let Wish { cell, change, .. } = WANTED[commit.v as usize];
        office.log.push(commit.v);
        office.register.apply(&CellEntry { slot: commit.slot, cell, change }).expect("an entry within the limits");
        office.wishes.retain(|wish| *wish != commit.v);
    }
}

fn in_words(change: Change) -> String {
    match change {
        Change::Assign(Assignment { carrier, width }) => {
            let carrier = Arfcn::new(carrier).expect("a raster number");
            format!("channel {carrier}, {width} kHz wide")
        }
        Change::Release => "released".to_string(),
    }
}

fn print_log(name: &str, log: &[u64]) {
    println!("\nLog of {name}:");
    for (slot, &v) in log.iter().enumerate() {
        let Wish { office, cell, change } = &WANTED[v as usize];
        println!("  slot {slot:>2}: {:<18} {}, wanted by {}", SITES[*cell as usize], in_words(*change), OFFICES[*office]);
    }
}

fn print_register(register: &Register) {
    println!("\nRegister of each office, and its report:");
    for cell in register.cells().expect("made of its settings") {
        println!("  cell {}: {:<18} {}", cell.number, SITES[cell.number as usize], in_words(Change::Assign(cell.assignment)));
    }
    print!("\n{}", register.report());
}

/// What a log has of some slots, as a neighbour sends it.
fn list_of(log: &[u64], slots: std::ops::Range<usize>) -> CommitList {
    slots.map(|slot| (slot as u64, log[slot])).collect()
}

/// The register of an office that saw slots 0 to 2 and was then away: it joins two neighbours' lists, which overlap, and feeds its register. The joined
/// list begins before the slot that comes next there; what was seen already is not fed again.
fn catch_up(group: &GroupSettings, porto: &[u64], coimbra: &[u64]) -> Register {
    let says = |wish: u64| (WANTED[wish as usize].cell, WANTED[wish as usize].change);
    let mut register = Register::new(group);
    register.feed(&list_of(porto, 0..3), says).expect("a list from slot 0 on");
    let early = list_of(porto, 2..8);
    let late = list_of(coimbra, 6..coimbra.len());
    assert!(register.clone().feed(&late, says).is_err(), "a list that begins past the next slot leaves a gap");
    let both = early.join(&late).expect("lists of one group run that meet");
    let refused = register.feed(&both, says).expect("a list that begins no later than the next slot");
    assert!(refused.is_none(), "an entry within the limits");
    println!(
        "\nAn office that was away joins slots 2 to 7 of Porto and 6 to {} of Coimbra, {} entries, and feeds its register.",
        coimbra.len() - 1,
        both.len()
    );
    register
}

fn main() {
    // widths are in whole MHz from the first slot on
    let group = |me| GroupSettings::new(Settings::all_live(3, me as u64, PFModeSetting::Paxos), 0);
    let mut offices = [0, 1, 2].map(|me| Office {
        shard: Shard::new(&group(me)),
        log: vec![],
        register: Register::new(&group(me)),
        wishes: (0..WANTED.len() as u64).filter(|wish| WANTED[*wish as usize].office == me).collect(),
    });
    let mut network = Network { under_way: vec![], dice: 78, lost: 0, repeated: 0 };

    // Until every wish is in every log.
    while offices.iter().any(|office| office.log.len() < WANTED.len()) {
        propose_all(&mut offices, &mut network);
        if let Some((to, message)) = network.next() {
            deliver(&mut offices[to], to, message, &mut network);
        }
    }

    for (name, office) in OFFICES.iter().zip(&offices) {
        print_log(name, &office.log);
    }
    assert!(offices.iter().all(|office| office.log == offices[0].log));
    assert!(offices.iter().all(|office| office.register == offices[0].register));
    assert!(offices.iter().all(|office| office.register.report() == "made,superseded,released,live\r\n10,1,1,8\r\n"));
    print_register(&offices[0].register);
    assert!(catch_up(&group(2), &offices[0].log, &offices[1].log) == offices[0].register);
    println!(
        "\nThe three logs are equal, and so are the registers, that of the office that was away too. {} messages were lost and {} repeated.",
        network.lost, network.repeated
    );
}
