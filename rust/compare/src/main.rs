//! The command line of the comparison.

use std::io::{Read, Write};
use std::path::{Path, PathBuf};
use std::process::ExitCode;
use std::time::Instant;

use compare::bench;
use compare::calls;
use compare::check::{against_queue, Tally};
use compare::drawings;
use compare::examples::{self, Example};
use compare::faults::{search, Fault, FaultyCalls, FaultyHost};
use compare::faults::{FIVE, HANDED_BACK, NUMBERED_SLOTS, RULES, SECOND_READINGS, YEARS};
use compare::forms::{Calls, Form};
use compare::gate::Rule;
use compare::lines;
use compare::numbered::beside::{review, Review};
use compare::numbered::calls::{self as numbered_calls, Own};
use compare::numbered::faults::{Fault as NumberedFault, Faulty};
use compare::numbered::proved::Proved;
use compare::pairs;
use compare::program;
use compare::proved_host::ProvedHost;
use compare::random::standings::Difference;
use compare::random::{schedules, Random};
use compare::replays;
use compare::shrink::shrink;
use compare::transcript::{transcript, transcript_by, GateHost, LONGEST};
use compare::turns;

const USAGE: &str = "usage:
  compare schedules [--seed S] [--count C] [--program PATH] [--examples DIR]
      runs the schedules of a folder, each against what is expected of it, and
      C random ones (2000), by the gate, the queue, the numbered gate and the program
  compare calls [--seed S] [--count C] [--lists L] [--pairs P] [--turns T]
      [--numbered M] [--reviews R]
      makes C single calls (1000000) on sound and damaged words and lists, of both
      years, by the gate and by the proved calls in every form, runs L lists of calls
      (5000) by the queue, the gate and the proved replay, compares P pairs of gates
      (5000), those that are alike through later calls, checks on T gates (5000) that
      turns come when the places say, makes M single calls (300000) by the numbered
      gate and by the proved one, and plays R random schedules (300) as a review does
  compare review --schedule FILE
      plays a schedule on the proved numbered gate and on the proved gate side by
      side, and says where they part
  compare bench [--date D]
      times each call on sound and damaged lists, proved, by the program written
      for speed and by the gate, and prints tables with ratios
  compare faults [--out DIR]
      finds the shortest schedules on which the faulty gates depart, and the single
      calls on which those of the years do
  compare drawings [--repository DIR]
      draws the crates and the way of a look, from the files of a repository (..), as
      docs/crates.svg and docs/look.svg in it
  compare print
      prints what gaterun prints for the schedule on standard input";

const SEED: u64 = 1989;
const SCHEDULES: u64 = 2000;
const CALLS: u64 = 1_000_000;
const LISTS: u64 = 5000;
const PAIRS: u64 = 5000;
const TURNS: u64 = 5000;
const NUMBERED: u64 = 300_000;
const REVIEWS: u64 = 300;

/// A part of `compare calls`: the option that says how many, what it runs, and how many else.
type Part = (&'static str, fn(u64, u64) -> bool, u64);

fn main() -> ExitCode {
    let arguments: Vec<String> = std::env::args().skip(1).collect();
    match run(&arguments) {
        Ok(status) => status,
        Err(error) => {
            eprintln!("{error}");
            ExitCode::from(2)
        }
    }
}

fn run(arguments: &[String]) -> Result<ExitCode, String> {
    let (command, options) = arguments.split_first().ok_or(USAGE)?;
    match command.as_str() {
        "schedules" => {
            let names = ["--seed", "--count", "--program", "--examples"];
            let options = read_options(options, &names)?;
            let seed = number(&options[0], SEED)?;
            let count = number(&options[1], SCHEDULES)?;
            let path = options[2].as_deref().map(Path::new);
            if let Some(missing) = path.filter(|path| !path.is_file()) {
                return Err(format!("{}: no such program", missing.display()));
            }
            let examples = match options[3].as_deref() {
                Some(folder) => examples::read(Path::new(folder))?,
                None => Vec::new(),
            };
            Ok(run_schedules(seed, count, path, &examples))
        }
        "calls" => {
            let parts: [Part; 6] = [
                ("--count", run_calls, CALLS),
                ("--lists", run_replays, LISTS),
                ("--pairs", run_pairs, PAIRS),
                ("--turns", run_turns, TURNS),
                ("--numbered", run_numbered, NUMBERED),
                ("--reviews", run_reviews, REVIEWS),
            ];
            let mut names = vec!["--seed"];
            names.extend(parts.map(|(name, ..)| name));
            let options = read_options(options, &names)?;
            let seed = number(&options[0], SEED)?;
            for ((_, part, otherwise), given) in parts.into_iter().zip(&options[1..]) {
                if !part(seed, number(given, otherwise)?) {
                    return Ok(ExitCode::FAILURE);
                }
            }
            Ok(ExitCode::SUCCESS)
        }
        "review" => {
            let options = read_options(options, &["--schedule"])?;
            let path = options[0].as_ref().ok_or(USAGE)?;
            let input = std::fs::read(path).map_err(|error| format!("{path}: {error}"))?;
            Ok(print_review(&input))
        }
        "bench" => {
            let options = read_options(options, &["--date"])?;
            let ways: [bench::Way; 3] = [bench::proved_call, bench::fast_call, bench::our_call];
            let measured = bench::tables::Measured {
                calls: bench::measure(&bench::all_cases(), ways),
                early: bench::measure(&bench::early_looks(), ways),
                crafted: bench::measure(&bench::crafted_looks(), ways),
                thin: bench::measure(&bench::looks(), [bench::thin_look, bench::proved_call]),
                nothing: bench::measure_nothing(),
            };
            print!(
                "{}",
                bench::tables::report(options[0].as_deref(), &measured)
            );
            Ok(ExitCode::SUCCESS)
        }
        "faults" => {
            let options = read_options(options, &["--out"])?;
            run_faults(options[0].as_deref().map(Path::new)).map_err(|error| error.to_string())?;
            Ok(ExitCode::SUCCESS)
        }
        "drawings" => {
            let options = read_options(options, &["--repository"])?;
            write_drawings(Path::new(options[0].as_deref().unwrap_or("..")))?;
            Ok(ExitCode::SUCCESS)
        }
        "print" => {
            read_options(options, &[])?;
            print_transcript().map_err(|error| error.to_string())?;
            Ok(ExitCode::SUCCESS)
        }
        _ => Err(USAGE.to_string()),
    }
}

/// The values of the options that a command knows, in the order of their names.
fn read_options(given: &[String], names: &[&str]) -> Result<Vec<Option<String>>, String> {
    let mut values = vec![None; names.len()];
    for pair in given.chunks(2) {
        let known = names.iter().position(|name| *name == pair[0]);
        match (known, pair.get(1)) {
            (Some(i), Some(value)) => values[i] = Some(value.clone()),
            _ => return Err(USAGE.to_string()),
        }
    }
    Ok(values)
}

fn number(given: &Option<String>, otherwise: u64) -> Result<u64, String> {
    given.as_ref().map_or(Ok(otherwise), |text| {
        text.parse().map_err(|_| USAGE.to_string())
    })
}

/// One input by the gate and the queue, by the numbered gate, then by the program; the
/// first difference is the error.
fn compare_one(input: &[u8], path: Option<&Path>, tally: &mut Tally) -> Result<(), String> {
    against_queue(&mut GateHost::default(), input, tally)?;
    let beside = review(input, &Own, &mut GateHost::default());
    if let Some(parted) = beside.parted.into_iter().next() {
        return Err(format!("the numbered gate parts, {parted}"));
    }
    tally.lines += lines::compare_all(input)?;
    if let Some(path) = path {
        let printed = program::output(path, input)?;
        if let Some(difference) =
            program::difference(("the gate", &transcript(input)), ("the program", &printed))
        {
            return Err(difference);
        }
    }
    Ok(())
}

/// A schedule with what is expected of it: the gate and the program must print
/// just that.
fn compare_example(
    example: &Example,
    path: Option<&Path>,
    tally: &mut Tally,
) -> Result<(), String> {
    let printed = transcript(&example.schedule);
    let wanted = ("the file", &example.expected[..]);
    if let Some(difference) = program::difference(wanted, ("the gate", &printed)) {
        return Err(difference);
    }
    compare_one(&example.schedule, path, tally)
}

fn run_schedules(seed: u64, count: u64, path: Option<&Path>, examples: &[Example]) -> ExitCode {
    let start = Instant::now();
    let mut tally = Tally::default();
    for example in examples {
        if let Err(difference) = compare_example(example, path, &mut tally) {
            println!("{} fails: {difference}", example.path.display());
            if compare_one(&example.schedule, path, &mut Tally::default()).is_err() {
                report_smallest(&example.schedule, path);
            }
            return ExitCode::FAILURE;
        }
    }
    // Each schedule has a generator of its own, so that it can be made again alone.
    let mut seeds = Random::new(seed);
    for i in 1..=count {
        let input = schedules::input(&mut Random::new(seeds.number()));
        if let Err(difference) = compare_one(&input, path, &mut tally) {
            println!("schedule {i} of seed {seed} fails: {difference}");
            report_smallest(&input, path);
            return ExitCode::FAILURE;
        }
    }
    println!(
        "accepted {}, refused {}",
        tally.numbers[0],
        refusals(&tally.numbers)
    );
    println!(
        "looks answered no {}, slots given {}, places above 0 {}, turns handed back {}, blocks begun {}, longest schedule {} calls, lines read by the proved reader too {}, inputs over {LONGEST} bytes {}",
        tally.noes, tally.given, tally.places, tally.handed_back, tally.blocks, tally.longest, tally.lines, tally.long
    );
    println!("looks by their rules: {}", by_rule(&tally.rules));
    let with = match path {
        Some(path) => format!("gate, queue, numbered gate and {}", path.display()),
        None => "gate, queue and numbered gate".to_string(),
    };
    println!(
        "{} examples and {count} random schedules, {} calls, {:.2} seconds, seed {seed}: {with} agree",
        examples.len(),
        tally.calls,
        start.elapsed().as_secs_f64()
    );
    ExitCode::SUCCESS
}

fn run_calls(seed: u64, count: u64) -> bool {
    let start = Instant::now();
    let mut tally = calls::Tally::default();
    if let Err(difference) = calls::compare(seed, count, &mut tally) {
        println!("call {} of seed {seed} fails: {difference}", tally.calls);
        return false;
    }
    println!(
        "accepted {}, refused {}",
        tally.numbers[0],
        refusals(&tally.numbers)
    );
    println!(
        "on damaged words or lists {}, on slices of unequal length {}, with k above N {}, turns handed back with all 64 slots free {}, most plugins {}",
        tally.damaged, tally.unequal, tally.more_slots, tally.full_rows, tally.most_plugins
    );
    println!(
        "on words of 1979 {}, of which accepted {}; on words that only the year makes unsound {}",
        tally.early, tally.early_accepted, tally.wrong_years
    );
    println!("looks by their rules: {}", by_rule(&tally.rules));
    for (form, made) in Form::ALL.into_iter().zip(tally.forms) {
        println!("by {}: {}", form.name(), by_kind(&made));
    }
    println!(
        "lines read by the proved reader: {}, of which no line of the grammar {}",
        tally.lines, tally.bad_lines
    );
    println!(
        "{} calls, {:.2} seconds, seed {seed}: gate and proved calls agree",
        tally.calls,
        start.elapsed().as_secs_f64()
    );
    true
}

/// How many looks were decided by each rule.
fn by_rule(rules: &[u64; Rule::NAMES.len()]) -> String {
    let each = Rule::NAMES.iter().zip(rules);
    let each = each.map(|(name, count)| format!("{name} {count}"));
    each.collect::<Vec<_>>().join("; ")
}

/// How many calls of each kind were made by one form, and how many in all.
fn by_kind(made: &[u64; calls::KINDS.len()]) -> String {
    let each = calls::KINDS.iter().zip(made);
    let each: Vec<String> = each
        .filter(|(_, &count)| count > 0)
        .map(|(kind, count)| format!("{kind} {count}"))
        .collect();
    format!("{} ({})", made.iter().sum::<u64>(), each.join(", "))
}

fn run_replays(seed: u64, lists: u64) -> bool {
    let start = Instant::now();
    let mut tally = replays::Tally::default();
    if let Err(difference) = replays::compare(seed, lists, &mut tally) {
        println!("replays of seed {seed} fail: {difference}");
        return false;
    }
    let [ran, not_opened, too_short, no_such_call] = tally.ended;
    println!(
        "replays: ran {ran}, open refused {not_opened}, too little lent {too_short}, a letter that names no call {no_such_call}"
    );
    println!(
        "of their calls accepted {}, refused {}; slots given {}; longest list {} calls",
        tally.numbers[0],
        refusals(&tally.numbers),
        tally.given,
        tally.longest
    );
    println!("looks by their rules: {}", by_rule(&tally.rules));
    println!(
        "{} lists, of which run on gates of 1979 {}, {} calls, {:.2} seconds, seed {seed}: queue, gate and proved replay agree",
        tally.lists,
        tally.early,
        tally.calls,
        start.elapsed().as_secs_f64()
    );
    true
}

fn run_pairs(seed: u64, pairs: u64) -> bool {
    let start = Instant::now();
    let mut tally = pairs::Tally::default();
    if let Err(difference) = pairs::compare(seed, pairs, &mut tally) {
        println!("pair {} of seed {seed} fails: {difference}", tally.pairs());
        return false;
    }
    let unlike = Difference::ALL.into_iter().zip(tally.unlike);
    let unlike = unlike.map(|(difference, count)| format!("{} {count}", difference.name()));
    println!(
        "pairs of gates: alike {}, of which with other years {}, with other tickets {}, with other slots {}; unlike by {}",
        tally.alike,
        tally.other_years,
        tally.other_tickets,
        tally.other_slots,
        unlike.collect::<Vec<_>>().join(", ")
    );
    println!(
        "{} pairs, {} later calls on alike ones, of which refused {}, {:.2} seconds, seed {seed}: gate and proved alike agree, and alike gates do",
        tally.pairs(),
        tally.calls,
        tally.refused,
        start.elapsed().as_secs_f64()
    );
    true
}

fn run_turns(seed: u64, gates: u64) -> bool {
    let start = Instant::now();
    let mut tally = turns::Tally::default();
    if let Err(difference) = turns::check(seed, gates, &mut tally) {
        println!(
            "turns on gate {} of seed {seed} fail: {difference}",
            tally.gates
        );
        return false;
    }
    println!(
        "turns: places told {}, turns that came later {}; slots given {}; leaves {}, of which from waiting {}",
        tally.places, tally.turns, tally.given, tally.leaves, tally.handed_back
    );
    println!(
        "{} gates, of which of 1979 {}, {} calls, of which refused {}, {:.2} seconds, seed {seed}: each turn came at the return that its place said",
        tally.gates,
        tally.early,
        tally.calls,
        tally.refused,
        start.elapsed().as_secs_f64()
    );
    true
}

fn run_numbered(seed: u64, count: u64) -> bool {
    let start = Instant::now();
    let mut tally = numbered_calls::Tally::default();
    if let Err(difference) = numbered_calls::compare(&Proved, seed, count, &mut tally) {
        let call = tally.calls;
        println!("numbered gate, call {call} of seed {seed} fails: {difference}");
        return false;
    }
    let met = |&number: &usize| tally.numbers[number] > 0;
    let met = (1..tally.numbers.len()).filter(met);
    let refused: Vec<String> = met
        .map(|number| format!("as {number} {}", tally.numbers[number]))
        .collect();
    println!(
        "numbered gate: accepted {}, refused {}",
        tally.numbers[0],
        refused.join(", ")
    );
    println!(
        "on damaged words or lists {}, on slices of unequal length {}, with k above N {}, with a counter at its end {}, one before it {}, most plugins {}",
        tally.damaged, tally.unequal, tally.more_slots, tally.at_end, tally.near_end, tally.most_plugins
    );
    println!(
        "{} calls, of which opens {}, by functions of their own too {}, {:.2} seconds, seed {seed}: numbered gate and proved numbered gate agree",
        tally.calls,
        tally.opens,
        tally.by_name,
        start.elapsed().as_secs_f64()
    );
    true
}

/// Random schedules on both proved gates.
fn run_reviews(seed: u64, count: u64) -> bool {
    let start = Instant::now();
    let mut seeds = Random::new(seed);
    let mut calls = 0;
    for i in 1..=count {
        let input = schedules::input(&mut Random::new(seeds.number()));
        let review = review(&input, &Proved, &mut ProvedHost::new(Form::Slices));
        calls += review.calls;
        if let Some(parted) = review.parted.first() {
            println!("review {i} of seed {seed} fails: {parted}");
            return false;
        }
    }
    println!(
        "{count} schedules reviewed, {calls} calls, {:.2} seconds, seed {seed}: proved numbered gate and proved gate part nowhere",
        start.elapsed().as_secs_f64()
    );
    true
}

fn print_review(input: &[u8]) -> ExitCode {
    let review = review(input, &Proved, &mut ProvedHost::new(Form::Slices));
    println!("{}", Review::HEAD);
    for line in &review.lines {
        println!("{line}");
    }
    println!("{}", review.verdict());
    if review.parted.is_empty() {
        ExitCode::SUCCESS
    } else {
        ExitCode::FAILURE
    }
}

fn refusals(numbers: &[u64; 11]) -> String {
    let each = (1..=10).map(|number| format!("as {number} {}", numbers[number]));
    each.collect::<Vec<_>>().join(", ")
}

fn report_smallest(input: &[u8], path: Option<&Path>) {
    let mut fails = |input: &[u8]| compare_one(input, path, &mut Tally::default()).is_err();
    let smallest = shrink(input, &mut fails);
    let lines = smallest.split_inclusive(|&byte| byte == b'\n');
    println!("the smallest found that fails:");
    for line in lines {
        println!("  {}", line.escape_ascii());
    }
    if let Err(difference) = compare_one(&smallest, path, &mut Tally::default()) {
        println!("its difference: {difference}");
    }
}

fn run_faults(out: Option<&Path>) -> std::io::Result<()> {
    let start = Instant::now();
    if let Some(directory) = out {
        std::fs::create_dir_all(directory)?;
    }
    for fault in FIVE {
        report_fault(fault, out)?;
    }
    println!("second readings:");
    for fault in SECOND_READINGS {
        report_fault(fault, out)?;
    }
    println!("a turn handed back:");
    for fault in HANDED_BACK {
        report_fault(fault, out)?;
    }
    println!("numbered slots:");
    for fault in NUMBERED_SLOTS {
        report_fault(fault, out)?;
    }
    println!("rules:");
    for fault in RULES {
        report_fault(fault, out)?;
    }
    println!("years, by single calls:");
    for fault in YEARS {
        let mut tally = calls::Tally::default();
        let compared: [&dyn Calls; 1] = [&FaultyCalls(Some(fault))];
        match calls::compare_with(&compared, SEED, CALLS, &mut tally) {
            Ok(()) => println!("{}: not found by {CALLS} calls", fault.name()),
            Err(_) => println!("{}: found by call {}", fault.name(), tally.calls),
        }
    }
    println!("numbered gate, by single calls:");
    for fault in NumberedFault::ALL {
        let mut tally = numbered_calls::Tally::default();
        match numbered_calls::compare(&Faulty(fault), SEED, NUMBERED, &mut tally) {
            Ok(()) => println!("{}: not found by {NUMBERED} calls", fault.name()),
            Err(_) => println!("{}: found by call {}", fault.name(), tally.calls),
        }
    }
    println!("{:.2} seconds", start.elapsed().as_secs_f64());
    Ok(())
}

fn report_fault(fault: Fault, out: Option<&Path>) -> std::io::Result<()> {
    let name = fault.name();
    let Some(found) = search::shortest(fault, search::BOUNDS) else {
        println!("{name}: nothing found within {:?}", search::BOUNDS);
        return Ok(());
    };
    let text = found.text();
    let expected = transcript(&text);
    let faulty = transcript_by(&mut FaultyHost::new(Some(fault)), &text);
    let calls: Vec<String> = found.calls.iter().map(|call| call.to_string()).collect();
    println!("{name}: {} calls after {}", calls.len(), found.open);
    println!("  {}", calls.join(", "));
    println!("  right gate:  {}", last_line(&expected));
    println!("  faulty gate: {}", last_line(&faulty));
    if fault.shows_in_slots_only() || fault.shows_in_rules_only() {
        let host = &mut FaultyHost::new(Some(fault));
        let departs = against_queue(host, &text, &mut Tally::default());
        println!("  departs at:  {}", departs.err().unwrap_or_default());
    }
    if let Some(directory) = out {
        let file = |ending: &str| -> PathBuf { directory.join(format!("{name}.{ending}")) };
        std::fs::write(file("schedule"), &text)?;
        std::fs::write(file("expected"), &expected)?;
    }
    Ok(())
}

fn last_line(output: &[u8]) -> String {
    let text = String::from_utf8_lossy(output);
    text.lines().last().unwrap_or("").to_string()
}

fn write_drawings(repository: &Path) -> Result<(), String> {
    for (name, drawing) in drawings::all(repository)? {
        let path = repository.join("docs").join(name);
        std::fs::write(&path, drawing).map_err(|error| format!("{}: {error}", path.display()))?;
    }
    Ok(())
}

/// One byte more than 64 KiB is enough to know that the input is long.
fn print_transcript() -> std::io::Result<()> {
    let mut input = Vec::new();
    let limit = LONGEST as u64 + 1;
    std::io::stdin()
        .lock()
        .take(limit)
        .read_to_end(&mut input)?;
    std::io::stdout().lock().write_all(&transcript(&input))
}
