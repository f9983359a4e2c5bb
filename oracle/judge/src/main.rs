//! Compares the port with its Rust original, compiled unchanged.

mod absent;
mod annex;
mod annex_examples;
mod annex_faults;
mod annex_inputs;
mod annex_kinds;
mod annex_line_faults;
mod annex_page;
mod annex_row_faults;
mod annex_run_faults;
mod annex_seams;
mod annex_text;
mod annex_text_faults;
mod arenas;
mod authorized;
mod authorized_examples;
mod authorized_faults;
mod authorized_inputs;
mod bad_line_faults;
mod bad_lines;
mod bench;
mod compare;
mod conflict_faults;
mod damage;
mod desc;
mod descriptors;
mod diff;
mod diff_lines;
mod dump;
mod dump_faults;
mod dump_inputs;
mod edge_record_faults;
mod encode;
mod encode_inputs;
mod encode_row_faults;
mod exact;
mod exact_faults;
mod exact_inputs;
mod examples;
mod exposed;
mod exposed_faults;
mod exposed_inputs;
mod fenced;
mod fill;
mod fill_examples;
mod fill_faults;
mod fill_inputs;
mod function;
mod grant_faults;
mod handed;
mod handed_annex;
mod handed_layouts;
mod handed_maps;
mod handed_texts;
mod handed_walks;
mod handed_words;
mod inputs;
mod layout;
mod layout_edges;
mod layout_faults;
mod layout_inputs;
mod leaf_faults;
mod lending;
mod map_faults;
mod map_inputs;
mod maps;
mod mended;
mod misread;
mod number_faults;
mod p2m;
mod port;
mod port_annex;
mod port_layouts;
mod port_maps;
mod port_programs;
mod port_walk;
mod port_windows;
mod programs;
mod reach;
mod reading_faults;
mod record;
mod record_inputs;
mod record_maps;
mod record_tables;
mod records;
mod regime;
mod round;
mod scene_text;
mod scenes;
mod self_test;
mod slips;
mod source;
mod source_inputs;
mod step;
mod step_inputs;
mod step_row_faults;
mod step_store_faults;
mod store_faults;
mod table_calls;
mod table_faults;
mod tally;
mod told;
mod torn;
mod torn_faults;
mod torn_inputs;
mod torn_reads;
mod undefined;
mod updates;
mod updates_faults;
mod updates_inputs;
mod updating;
mod verify;
mod verify_inputs;
mod verify_leaf_faults;
mod verify_order_faults;
mod verify_row_faults;
mod verify_slot_faults;
mod verify_slots;
mod verify_table_faults;
mod verify_value_faults;
mod verify_word_faults;
mod walk;
mod walk_addresses;
mod walk_faults;
mod walk_inputs;
mod walk_word_faults;
mod windows;
mod windows_faults;
mod windows_inputs;

use std::env;
use std::process::ExitCode;

const USAGE: &str = "usage: judge compare [--fault N] | \
    diff [--seed S] [--inputs N] [--only FUNCTION] [--round R] | hunt | bench | self-test | \
    record DIR | check-record DIR | scenes DIR | check-scenes DIR";

fn main() -> ExitCode {
    undefined::quieten();
    let arguments: Vec<String> = env::args().skip(1).collect();
    let arguments: Vec<&str> = arguments.iter().map(String::as_str).collect();
    match run(&arguments) {
        Ok(()) => ExitCode::SUCCESS,
        Err(message) => {
            eprintln!("{message}");
            ExitCode::FAILURE
        }
    }
}

fn run(arguments: &[&str]) -> Result<(), String> {
    match arguments {
        ["compare"] => compare::compare_all(None),
        ["compare", "--fault", number] => compare::compare_all(Some(fault(number).ok_or(USAGE)?)),
        ["diff", options @ ..] => diff::Wanted::parse(options).ok_or(USAGE)?.diff(),
        ["hunt"] => compare::hunt(),
        ["bench"] => bench::bench(),
        ["self-test"] => self_test::self_test(),
        ["record", folder] => record::write(folder),
        ["check-record", folder] => record::check(folder),
        ["scenes", folder] => scenes::write(folder),
        ["check-scenes", folder] => scenes::check(folder),
        _ => Err(USAGE.into()),
    }
}

/// The faults are numbered from 1, in the order of the self-test.
fn fault(number: &str) -> Option<&'static str> {
    let index = number.parse::<usize>().ok()?.checked_sub(1)?;
    function::fault_names().get(index).copied()
}
