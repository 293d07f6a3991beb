//! Compares the library with the model, and with figures that others have published.
//!
//! `compare [CALLS [SEED]]`: random calls a function (100,000 if not said) and where their generator starts. Prints what
//! was compared. At the first difference it prints the whole case and exits with 1.

mod broken;
mod callers;
mod cases;
mod choices;
mod compact_examples;
mod compacted;
mod compactions;
mod compactor;
mod converters;
mod counts;
mod damage;
mod differ;
mod easy_examples;
mod easy_scripts;
mod examples;
mod exhaustive;
mod figures;
mod given_and_short;
mod group_rules;
mod groups;
mod idle_scripts;
mod index_cases;
mod index_damage;
mod index_examples;
mod index_rules;
mod indexed_rules;
mod indexed_runs;
mod indexer;
mod indexes;
mod kronecker_examples;
mod kronecker_lists;
mod kronecker_rules;
mod kronecker_search;
mod kronecker_writer;
mod kroneckers;
mod labels;
mod lengths;
mod lent;
mod map_bits;
mod map_broken;
mod map_callers;
mod map_cases;
mod map_damage;
mod map_examples;
mod map_faults;
mod map_lists;
mod map_parts;
mod map_reason_rules;
mod map_rules;
mod map_settle_rules;
mod map_together;
mod map_worlds;
mod maps;
mod near_lists;
mod pair_rules;
mod partners;
mod paths;
mod per_record;
mod plain_steps;
mod products;
mod random;
mod random_calls;
mod reasons;
mod records;
mod refused_steps;
mod replays;
mod scripts;
mod searches;
mod sets;
mod shared_broken;
mod shared_cases;
mod shared_examples;
mod shared_faults;
mod shared_list_rules;
mod shared_lists;
mod shared_outputs;
mod shared_runs;
mod shared_scripts;
mod shared_settles;
mod shared_step_rules;
mod shared_values;
mod shared_worlds;
mod some_labels;
mod starts;
mod tally;
mod together;
mod tree_examples;
mod tree_lists;
mod tree_rules;
mod tree_vectors;
mod tree_writer;
mod trees;
mod undoings;
mod vector_calls;
mod vector_lists;
mod writer;
mod wrong_indexes;

use std::process::ExitCode;
use std::time::Instant;

/// A name, and what is compared under it; an error is a difference.
type Part<'a> = (&'a str, &'a dyn Fn() -> Result<(), String>);

fn main() -> ExitCode {
    let mut arguments = std::env::args().skip(1).map(|text| text.parse().expect("CALLS and SEED are numbers"));
    let calls = arguments.next().unwrap_or(100_000);
    let seed = arguments.next().unwrap_or(1);
    if cfg!(feature = "standin") {
        println!("STAND-IN: the calls are answered by the model itself; nothing below speaks of the library.\n");
    }
    let parts: [Part; 26] = [
        ("the documents' examples and limits", &examples::all),
        ("the wrapper's records", &|| records::all(seed)),
        ("random calls", &|| random_calls::all(calls as usize, seed)),
        ("scripts with and without their L steps", &|| plain_steps::all(calls as usize, seed)),
        ("scripts as given and compacted", &|| given_and_short::all(calls as usize, seed)),
        ("all functions of 4 variables", &exhaustive::functions_of_four),
        ("all short lists and scripts over 2 variables", &exhaustive::short_lists_and_scripts),
        ("all steps on two cubes over up to 3 variables, and over 3 of 32", &exhaustive::steps_on_two_cubes),
        ("reasons: faults together, short lists at every label", &reasons::all),
        ("write tree: faults together, all trees of up to 3 variables, all functions of 4", &tree_writer::all),
        (
            "write kronecker: faults together, all choices of up to 3 variables, all functions of 4",
            &kronecker_writer::all,
        ),
        ("write script: faults together, short lists in every buffer", &writer::all),
        ("compact: faults together, short scripts", &compactor::all),
        ("index, group and run indexed: faults together, short lists, all short indexes and scripts", &indexer::all),
        ("partners for a join, by their number of literals", &|| partners::all(calls as usize, seed)),
        ("shared lists: faults together", &shared_faults::all),
        ("shared lists: short lists, all steps on two products, all short scripts", &shared_worlds::all),
        ("shared lists with a product changed, added or removed", &|| shared_outputs::all(calls as usize, seed)),
        ("maps of several lists: faults together, each refusal at every list", &map_faults::all),
        ("maps of several lists: short maps, all lengths, all short scripts", &map_worlds::all),
        ("maps of several lists with one of them replaced", &|| map_bits::all(calls as usize, seed)),
        ("the converters: faults together, short lists there and back", &converters::all),
        ("published average of 5-variable functions", &|| figures::average_of_five(seed)),
        ("published averages of 5-variable functions, and their trees", &|| figures::trees_of_five(seed)),
        ("published average of 5-variable functions, by choices", &|| figures::choices_of_five(seed)),
        ("published sizes of rd53, rd73, rd84", &figures::ones_counters),
    ];
    for (name, part) in parts {
        println!("== {name}");
        let start = Instant::now();
        if let Err(difference) = part() {
            println!("{difference}\nFAILED: {name}");
            return ExitCode::FAILURE;
        }
        println!("ok, {:.1} s\n", start.elapsed().as_secs_f64());
    }
    println!("all compared, no difference");
    ExitCode::SUCCESS
}
