//! The flat forms of this crate have the fields of the C header, in the same order and of the same types, and those of the parts have the fields of crates/flat,
//! crates/calendar, crates/windows and crates/group_settings. All are numbers and `#[repr(C)]`, and so equal fields are equal sizes and offsets. The functions
//! that begin a shard and make a call are lent the same structs on all sides: the source has arrays of numbers in them, which begin where the parts of a host's
//! shard and reply do. The functions of a register and of lists have the rows of the source and of the header, in the same order.

use chanbook_shard::sys::{FlatCall, FlatReply, FlatShard};
use std::collections::BTreeMap;
use std::mem::{offset_of, size_of};

const MIRROR: &str = include_str!("../src/sys.rs");
const FLAT: &str = include_str!("../../../crates/flat/src/lib.rt");
const CALENDAR: &str = include_str!("../../../crates/calendar/src/lib.rt");
const WINDOWS: &str = include_str!("../../../crates/windows/src/lib.rt");
const GROUP_SETTINGS: &str = include_str!("../../../crates/group_settings/src/lib.rt");
const HOST: &str = include_str!("../../../crates/host/src/lib.rt");
const HOST_C: &str = include_str!("../../../crates/host_c/src/lib.rt");
const DIRECT: &str = include_str!("../../../crates/direct/src/lib.rt");
const HANDLERS: &str = include_str!("../../../crates/direct/src/handlers.rt");
const DIRECT_FAST: &str = include_str!("../../../crates/direct_fast/src/lib.rt");
const DIRECT_C: &str = include_str!("../../../crates/direct_c/src/lib.rt");
const DIRECT_FAST_C: &str = include_str!("../../../crates/direct_fast_c/src/lib.rt");
const HEADER: &str = include_str!("../../../crates/host/include/chanbook_shard.h");

const PLANNING_MIRROR: &str = include_str!("../src/planning_sys.rs");
const PLANNING_HOST: &str = include_str!("../../../crates/planning_host/src/lib.rt");
const POSITION_ARRAYS: &str = include_str!("../../../crates/register_arrays/src/positioned.rt");
const REGISTER: &str = include_str!("../../../crates/register/src/lib.rt");
const PLANNING_HEADER: &str = include_str!("../../../crates/planning_host/include/chanbook_planning.h");

/// Where the arrays that are lent have their names.
const ARRAYS: [&str; 4] = [
    include_str!("../../../crates/arrays/src/lib.rt"),
    include_str!("../../../crates/arrays/src/reads.rt"),
    include_str!("../../../crates/basics/src/tables.rt"),
    include_str!("../../../crates/register_arrays/src/lib.rt"),
];

/// The source with `[u64; 18]` in place of `CoreArray`, and so on.
fn spelled_out(source: &str) -> String {
    let named = ARRAYS.iter().flat_map(|text| text.split("\npub type ").skip(1));
    named.fold(source.to_string(), |text, rest| {
        let (name, array) = rest.split(";\n").next().and_then(|declared| declared.split_once(" = ")).expect("a name and an array");
        assert!(array.starts_with("[u64; "), "{name}");
        text.replace(name, array)
    })
}

/// `FlatOpenRead` for `chanbook_open_read`.
fn flat_of(c_name: &str) -> String {
    let words = c_name.trim_start_matches("chanbook_").split('_');
    let capital = |word: &str| word[..1].to_uppercase() + &word[1..];
    format!("Flat{}", words.map(capital).collect::<String>())
}

/// The lines between `opening`, which ends with the name, and the closing brace, for each struct.
fn structs<'a>(text: &'a str, opening: &str) -> Vec<(&'a str, Vec<&'a str>)> {
    let bodies = text.split(opening).skip(1);
    bodies
        .filter_map(|rest| rest.split_once(" {\n"))
        .filter(|(name, _)| name.chars().all(|c| c.is_alphanumeric() || c == '_'))
        .map(|(name, rest)| (name, rest.split("\n}").next().unwrap_or("").lines().collect()))
        .collect()
}

/// `FlatRound.leader: u64` for each field of each struct that is marked `#[repr(C)]`.
fn fields_in_rust(text: &str) -> Vec<String> {
    let marked: String = text.split("#[repr(C)]\n").skip(1).map(|part| part.split_inclusive("\n}").next().unwrap_or("")).collect();
    let line = |name: &str, line: &str| {
        let field = line.trim().trim_start_matches("pub ").trim_end_matches(',');
        format!("{name}.{field}")
    };
    structs(&marked, "pub struct ").iter().flat_map(|(name, lines)| lines.iter().map(move |l| line(name, l))).collect()
}

fn field_in_c(name: &str, line: &str) -> String {
    let declared = line.trim().trim_end_matches(';').trim_start_matches("struct ");
    let (of, field) = declared.split_once(' ').expect("a type and a field");
    let of = match of {
        "uint64_t" => "u64".to_string(),
        "uint16_t" => "u16".to_string(),
        "int64_t" => "i64".to_string(),
        other => flat_of(other),
    };
    match field.trim_end_matches(']').split_once('[') {
        None => format!("{}.{field}: {of}", flat_of(name)),
        Some((field, length)) => format!("{}.{field}: [{of}; {length}]", flat_of(name)),
    }
}

fn fields_in_c(text: &str) -> Vec<String> {
    structs(text, "\nstruct ").iter().flat_map(|(name, lines)| lines.iter().map(|line| field_in_c(name, line))).collect()
}

/// What stands between the brackets of the function's declaration, argument by argument.
fn arguments<'a>(text: &'a str, opening: &str) -> Vec<&'a str> {
    let (_, rest) = text.split_once(opening).expect("the function");
    let (list, _) = rest.split_once(')').expect("the end of its arguments");
    list.split(',').map(str::trim).filter(|argument| !argument.is_empty()).collect()
}

/// `call: &FlatCall` for `const struct chanbook_call *call`, and the settings of a group by value.
fn lent_struct_in_c(argument: &str) -> String {
    let (of, name) = argument.rsplit_once(' ').expect("a type and a name");
    let flat = |of: &str| flat_of(of.trim_start_matches("struct "));
    match (of.strip_prefix("const "), name.strip_prefix('*')) {
        (Some(of), Some(name)) => format!("{name}: &{}", flat(of)),
        (None, Some(name)) => format!("{name}: &mut {}", flat(of)),
        _ => format!("{name}: {}", flat(of)),
    }
}

/// `call: &FlatCall` for `call: &CallArray`.
fn lent_struct_in_source(argument: &str) -> String {
    argument.replace("ShardArrays", "FlatShard").replace("CallArray", "FlatCall").replace("ReplyInArrays", "FlatReply")
}

/// The function is lent so many structs, and they are the same ones on all three sides.
fn same_structs(function: &str, source: &str, count: usize) {
    let (in_rust, in_c) = (format!("fn {function}("), format!("\nuint64_t {function}("));
    let structs = arguments(MIRROR, &in_rust);
    assert_eq!(structs.len(), count, "{function}");
    assert_eq!(arguments(HEADER, &in_c).into_iter().map(lent_struct_in_c).collect::<Vec<_>>(), structs);
    assert_eq!(arguments(source, &in_rust).into_iter().map(lent_struct_in_source).collect::<Vec<_>>(), structs);
}

#[test]
fn the_lent_structs_are_those_of_the_source_and_of_the_header() {
    same_structs("chanbook_shard_new", HOST, 2);
    same_structs("chanbook_shard_new", HOST_C, 2);
    same_structs("chanbook_direct_call", DIRECT, 3);
    same_structs("chanbook_direct_call", DIRECT_C, 3);
    same_structs("chanbook_fast_call", DIRECT_FAST, 3);
    same_structs("chanbook_fast_call", DIRECT_FAST_C, 3);
}

/// The arrays of a struct of the source, in their order, each with its length; a number alone is one of length 1.
fn arrays_of(fields: &[String], of: &str) -> Vec<(String, usize)> {
    let own = fields.iter().filter_map(|field| field.strip_prefix(of)?.strip_prefix('.'));
    let arrays = |field: &str| {
        let (name, of) = field.split_once(": ").expect("a name and a type");
        match of.strip_prefix("[u64; ") {
            Some(length) => vec![(name.to_string(), length.trim_end_matches(']').parse().expect("a length"))],
            None if of == "u64" => vec![(name.to_string(), 1)],
            None => arrays_of(fields, of).into_iter().map(|(inner, length)| (format!("{name}.{inner}"), length)).collect(),
        }
    };
    own.flat_map(arrays).collect()
}

/// Each of them begins, in bytes, where the part of the host's struct begins that is named beside it; and the last one ends where that struct does.
fn begin_at(of: &str, parts: &[(&str, usize)], size: usize) {
    let source = spelled_out(&[ARRAYS[0], ARRAYS[1], HANDLERS].concat());
    let mut end = 0;
    let mut places = Vec::new();
    for (name, length) in arrays_of(&fields_in_rust(&source), of) {
        places.push((name, end));
        end += length * size_of::<u64>();
    }
    assert_eq!(places.iter().map(|(name, at)| (name.as_str(), *at)).collect::<Vec<_>>(), parts);
    assert_eq!(end, size, "{of}");
}

#[test]
fn what_is_lent_is_the_memory_of_a_host() {
    let shard = [
        ("settings.setup", 0),
        ("settings.committers", offset_of!(FlatShard, settings.committers)),
        ("settings.delegates", offset_of!(FlatShard, settings.delegates)),
        ("core", offset_of!(FlatShard, state.rounds.core)),
        ("fast.answers", offset_of!(FlatShard, state.rounds.fast)),
        ("fast.values", offset_of!(FlatShard, state.rounds.fast.fast_proposer_to_v)),
        ("fast.epaxos", offset_of!(FlatShard, state.rounds.fast.epaxos_proposer_scores)),
        ("fast.swift", offset_of!(FlatShard, state.rounds.fast.swift_proposer_scores)),
        ("reads.reads", offset_of!(FlatShard, state.table.reads)),
        ("reads.served", offset_of!(FlatShard, state.table.served)),
    ];
    begin_at("ShardArrays", &shard, size_of::<FlatShard>());
    let reply = [
        ("outcome", offset_of!(FlatReply, outcome)),
        ("first", offset_of!(FlatReply, first)),
        ("second", offset_of!(FlatReply, second)),
        ("third", offset_of!(FlatReply, third)),
        ("rest", offset_of!(FlatReply, commit)),
    ];
    begin_at("ReplyInArrays", &reply, size_of::<FlatReply>());
    assert_eq!(spelled_out("CallArray"), format!("[u64; {}]", size_of::<FlatCall>() / size_of::<u64>()));
}

/// The fields of each struct, in their order: the structs stand in another order in the source.
fn by_struct(fields: Vec<String>) -> BTreeMap<String, Vec<String>> {
    let mut structs: BTreeMap<String, Vec<String>> = BTreeMap::new();
    for field in fields {
        let name = field.split('.').next().unwrap_or_default().to_string();
        structs.entry(name).or_default().push(field);
    }
    structs
}

/// What is whole in this crate and in the header alone.
const OF_ROWS: [&str; 5] = ["FlatReply", "FlatRounds", "FlatShard", "FlatState", "FlatTable"];

#[test]
fn the_flat_forms_are_those_of_the_source() {
    let mut source = fields_in_rust(&spelled_out(FLAT));
    // dates and windows are numbers as they are, and have no other form in the source
    let flat = |field: String| field.replace("Date", "FlatDate").replace("Window", "FlatWindow");
    source.extend([CALENDAR, WINDOWS, GROUP_SETTINGS].into_iter().flat_map(fields_in_rust).map(flat));
    assert!(source.contains(&"FlatCommit.fast: u64".to_string()), "read to the last one");
    let (of_rows, parts): (BTreeMap<_, _>, BTreeMap<_, _>) =
        by_struct(fields_in_rust(MIRROR)).into_iter().partition(|(name, _)| OF_ROWS.contains(&name.as_str()));
    assert_eq!(parts, by_struct(source));
    assert!(of_rows.into_keys().eq(OF_ROWS), "each of them is there");
}

#[test]
fn the_flat_forms_are_those_of_the_header() {
    assert_eq!(fields_in_c(HEADER), fields_in_rust(MIRROR));
}

#[test]
fn the_planning_forms_are_those_of_the_source_and_of_the_header() {
    let mirror = fields_in_rust(PLANNING_MIRROR);
    let value = ["FlatValue.refusal: u64", "FlatValue.value: u64"];
    let columns = ["carriers: [u64; 512]", "widths: [u64; 512]", "figures: [u64; 5]"];
    let fields = |name: &str, cells: &str| {
        [vec![cells], columns.to_vec()].concat().iter().map(|field| format!("{name}.{field}")).collect::<Vec<_>>()
    };
    assert_eq!(mirror[..2], value);
    // the settings stand last, so that the four arrays of a register stored before E13 are the beginning of this one
    assert_eq!(mirror[2..6], fields("FlatRegister", "cells: [u64; 512]"));
    assert_eq!(mirror[6], "FlatRegister.settings: [u64; 2]");
    assert_eq!(mirror[7..11], fields("FlatStoredRegister", "cells: [u16; 512]"));
    let fed = ["FlatFed.refusal: u64", "FlatFed.slot: u64", "FlatFed.number: u64"];
    assert_eq!(mirror[11..14], fed);
    let position = ["FlatPosition.given: u64", "FlatPosition.x: i64", "FlatPosition.y: i64"];
    assert_eq!(mirror[14..17], position);
    let date = ["FlatDateAnswer.refusal: u64", "FlatDateAnswer.date: FlatDate"];
    let kept = ["FlatKeptWindows.starts: [u64; 128]", "FlatKeptWindows.ends: [u64; 128]", "FlatKeptWindows.figures: [u64; 2]"];
    let answer = ["FlatWindowAnswer.answer: u64", "FlatWindowAnswer.minute: u64"];
    assert_eq!(mirror[17..], [date.as_slice(), &kept, &answer].concat());
    assert_eq!(fields_in_c(PLANNING_HEADER), mirror);
    assert!(fields_in_rust(POSITION_ARRAYS).iter().map(|field| field.replace("CellPosition", "FlatPosition")).take(3).eq(position));
    let source: Vec<_> = fields_in_rust(PLANNING_HOST).iter().map(|field| field.replace(": Date", ": FlatDate")).collect();
    assert_eq!(source, [value.as_slice(), &fed, &date, &answer].concat(), "the arrays of a register and of windows are lent one by one");
}

/// `cells: &mut [u64; 512]` for `uint64_t cells[512]`, `slot: u64` for `uint64_t slot`, and the settings of a group.
fn argument_in_c(argument: &str) -> String {
    if let Some(name) = argument.strip_prefix("struct chanbook_group_settings ") {
        return format!("{name}: FlatGroupSettings");
    }
    if let Some(name) = argument.strip_prefix("struct chanbook_date ") {
        return format!("{name}: FlatDate");
    }
    let (kind, rest) = argument.strip_prefix("const ").map_or(("&mut ", argument), |rest| ("&", rest));
    let (of, declared) = rest.rsplit_once(' ').expect("a type and a name");
    let of = match of {
        "uint64_t" => "u64",
        "uint16_t" => "u16",
        "uint8_t" => "u8",
        "int64_t" => "i64",
        "struct chanbook_position" => "FlatPosition",
        "chanbook_cell_number" => "CellNumber",
        other => panic!("{other}"),
    };
    match declared.trim_end_matches(']').split_once('[') {
        None => format!("{declared}: {of}"),
        Some((name, length)) => format!("{name}: {kind}[{of}; {length}]"),
    }
}

#[test]
fn the_functions_of_a_register_are_those_of_the_source_and_of_the_header() {
    let functions =
        [("chanbook_register_new", 6), ("chanbook_register_entry", 10), ("chanbook_register_report", 3), ("chanbook_register_widened", 10)];
    let placed = [("chanbook_positions_new", 1), ("chanbook_placed_entry", 13), ("chanbook_conflicts", 12), ("chanbook_first_free", 12)];
    let windows = [("chanbook_minute_of", 1), ("chanbook_date_of", 1), ("chanbook_windows_new", 4), ("chanbook_windows_ask", 4)];
    let host = spelled_out(PLANNING_HOST);
    for (function, count) in functions.into_iter().chain(placed).chain(windows) {
        let mirror = arguments(PLANNING_MIRROR, &format!("fn {function}("));
        assert_eq!(mirror.len(), count, "{function}");
        let header = arguments(PLANNING_HEADER, &format!(" {function}("));
        assert_eq!(header.into_iter().map(argument_in_c).collect::<Vec<_>>(), mirror);
        let source = arguments(&host, &format!("fn {function}("));
        let renamed = |argument: &&str| argument.replace("CellPosition", "FlatPosition").replace(": Date", ": FlatDate");
        assert_eq!(source.iter().map(renamed).collect::<Vec<_>>(), mirror);
    }
}

/// The types of an argument of the source as C sees them: a slice is a pointer and the number of its elements.
fn lent_in_source(argument: &str) -> Vec<String> {
    let (_, of) = argument.split_once(": ").expect("a name and a type");
    match of.strip_suffix(']').filter(|of| !of.contains(';')) {
        None => vec![of.to_string()],
        Some(slice) => vec![slice.replace("&mut [", "*mut ").replace("&[", "*const "), "usize".to_string()],
    }
}

/// `*const u64` for `const uint64_t *slots`, `usize` for `size_t slot_count`, and an array as of a register.
fn lent_in_c(argument: &str) -> String {
    if argument.starts_with("size_t ") {
        return "usize".to_string();
    }
    let array = argument_in_c(&argument.replace('*', ""));
    let (_, of) = array.split_once(": ").expect("a name and a type");
    match argument.split_once('*') {
        None => of.to_string(),
        Some((kind, _)) => format!("*{} {of}", if kind.starts_with("const ") { "const" } else { "mut" }),
    }
}

#[test]
fn the_functions_of_lists_are_those_of_the_source_and_of_the_header() {
    let host = spelled_out(PLANNING_HOST);
    for (function, count) in [("chanbook_join", 12), ("chanbook_feed", 17)] {
        let mirror = arguments(PLANNING_MIRROR, &format!("fn {function}("));
        let types: Vec<_> = mirror.iter().map(|argument| argument.split_once(": ").expect("a type").1.to_string()).collect();
        assert_eq!(types.len(), count, "{function}");
        let header = arguments(PLANNING_HEADER, &format!(" {function}("));
        assert_eq!(header.into_iter().map(lent_in_c).collect::<Vec<_>>(), types);
        let source = arguments(&host, &format!("fn {function}("));
        assert_eq!(source.into_iter().flat_map(lent_in_source).collect::<Vec<_>>(), types);
    }
}

#[test]
fn a_cell_number_has_as_many_bits_on_every_side() {
    let line = "pub type CellNumber = u32;";
    assert!(PLANNING_MIRROR.contains(line) && REGISTER.contains(line));
    assert!(PLANNING_HEADER.contains("typedef uint32_t chanbook_cell_number;"));
}
