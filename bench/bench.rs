#![feature(box_patterns)]
#![allow(unused, dead_code, unstable_name_collisions)]
//! Times the exported function and the published Rust on the same inputs, in one process: bench INPUTS RESULTS
//! An input line is `FAMILY FLAGS HEX`, for a refusal also `FAMILY FLAGS HEX NODES FORMULAS EDGES` (lengths of the trays
//! lent); HEX is `-` for no bytes. Writes a line for each input to RESULTS, and prints a table of the families.
//! Exit status 1 if the two sides ever answer differently.
mod stand_in;
mod formula;
mod graph;
mod logic;
mod parser;
mod problem;
mod proof;
mod semantics;
mod tree;
mod utils;
mod input;
mod recorder;
mod variant;
mod alloc;

//favours the Rust, which allocates all the time: twice as fast as the system's. Ours allocates nothing
#[global_allocator]
static ALLOCATOR : alloc::FreeLists = alloc::FreeLists;

use std::io::Write as _;
use std::panic::{catch_unwind, AssertUnwindSafe};
use std::time::{Duration, Instant};
use formula::Formula;
use proof::ProofAlgorithm;

#[link(name = "wozhnerk", kind = "static")]
unsafe extern "C"
{
    fn wozhnerk_prove(branch : *const u8, branch_length : usize, flags : u8, nodes : *mut u8, nodes_length : usize,
        formulas : *mut u8, formulas_length : usize, edges : *mut u32, edges_length : usize) -> u64;
}

const LENGTHS : [usize; 3] = [6144, 7680, 25];
const FILL : Duration = Duration::from_millis(20); //calls are timed until they fill this
const LEAST : usize = 3;
const MOST : usize = 2000;
const LONG : Duration = Duration::from_secs(2); //a run of the Rust beyond this is timed once

struct Input { line : String, family : String, flags : u8, bytes : Vec<u8>, lengths : [usize; 3] }

struct Trays { nodes : Vec<u8>, formulas : Vec<u8>, edges : Vec<u32> }

#[derive(Clone, Copy, PartialEq, Debug)]
enum Answer { Verdict { proved : bool, late : bool, ids : usize, worlds : usize, steps : usize }, Full, Refused(u64) }

struct Timed { family : String, line : String, ours : u64, rust : Option<u64> }

fn parse(line : &str) -> Input
{
    let words = line.split_whitespace().collect::<Vec<&str>>();
    let length = |i : usize| words.get(3 + i).map(|w| w.parse().expect(line)).unwrap_or(LENGTHS[i]);
    return Input { line:line.to_string(), family:words[0].to_string(), flags:words[1].parse().expect(line),
        bytes:if words[2] == "-" { vec![] } else { input::decode(words[2]).expect(line) }, lengths:[length(0), length(1), length(2)] };
}

fn answer_of(word : u64) -> Answer
{
    let bits = |low : u32, count : u32| (word >> low & ((1 << count) - 1)) as usize;
    if word >> 63 == 1 { return if bits(16, 16) == 12 { Answer::Full } else { Answer::Refused(bits(16, 16) as u64) }; }
    return Answer::Verdict { proved:bits(56, 1) == 1, late:bits(57, 1) == 1, ids:bits(0, 16), worlds:bits(48, 8), steps:bits(32, 16) };
}

//reading and checking the records, and writing every byte of the trays, count against ours
fn ours(input : &Input, trays : &mut Trays) -> (Answer, Duration)
{
    trays.nodes.fill(0xa5); trays.formulas.fill(0xa5); trays.edges.fill(0xa5a5a5a5);
    assert!(trays.nodes.len() == input.lengths[0] && trays.formulas.len() == input.lengths[1] && trays.edges.len() == input.lengths[2]);
    let start = Instant::now();
    let word = unsafe { wozhnerk_prove(input.bytes.as_ptr(), input.bytes.len(), input.flags, trays.nodes.as_mut_ptr(), trays.nodes.len(),
        trays.formulas.as_mut_ptr(), trays.formulas.len(), trays.edges.as_mut_ptr(), trays.edges.len()) };
    let time = start.elapsed();
    return (answer_of(word), time);
}

//favours the Rust: formulas and logic are ready made, and emptying its logs and dropping its result do not count.
//Favours ours: its logs count, since the published `prove` writes them; so does unwinding where the run is full
fn rust(input : &Input, branch : &Vec<Formula>) -> (Answer, Duration)
{
    input::clear();
    let (branch, logic, skip) = (branch.clone(), input::logic_of(input.flags as u32), input.flags & 8 != 0);
    let start = Instant::now();
    let outcome = catch_unwind(AssertUnwindSafe(|| ProofAlgorithm::initialize_with_branch(logic, branch, skip).prove()));
    let time = start.elapsed();
    let answer = match outcome
    {
        Ok(tree) =>
        {
            //late by document 02's condition, as in oracle/answer.py
            let (record, proved) = (recorder::take(), tree.is_proof_correct);
            Answer::Verdict { proved, late:tree.has_timeout && !proved && record.waits, ids:tree.node_factory.clone().new_node_id(),
                worlds:tree.modality_graph.nodes().len(), steps:record.steps }
        }
        Err(payload) if payload.is::<recorder::Full>() => Answer::Full,
        Err(payload) => std::panic::resume_unwind(payload),
    };
    return (answer, time);
}

//the median of the times of single calls, in nanoseconds; every call must answer as the first did
fn median_time(first : Answer, mut call : impl FnMut() -> (Answer, Duration)) -> u64
{
    let (mut times, mut sum) = (vec![], Duration::ZERO);
    while times.len() < LEAST || (sum < FILL && times.len() < MOST)
    {
        let (answer, time) = call();
        assert!(answer == first, "a second call answers {answer:?}, the first {first:?}");
        sum += time;
        times.push(time.as_nanos() as u64);
    }
    return median(times);
}

fn median<T : PartialOrd + Copy>(mut values : Vec<T>) -> T
{
    values.sort_by(|a, b| a.partial_cmp(b).unwrap());
    return values[values.len() / 2];
}

//placed nodes that are nobody's parent, of the node tray
fn leaves(nodes : &[u8], ids : usize) -> usize
{
    let placed = || nodes[..12 * ids].chunks(12).filter(|node| node[2] != 4);
    let parents = placed().map(|node| (node[0], node[1])).filter(|p| *p != (255, 255)).collect::<std::collections::BTreeSet<_>>();
    return placed().count() - parents.len();
}

//the two sides' answers compared, then their times; the Rust's first answer is its warm-up
fn measure(input : &Input, results : &mut impl std::io::Write) -> Result<Timed, String>
{
    let mut trays = Trays { nodes:vec![0; input.lengths[0]], formulas:vec![0; input.lengths[1]], edges:vec![0; input.lengths[2]] };
    let (first, _) = ours(input, &mut trays);
    let mut rust_time = None;
    if input.family == "refusals"
    {
        if !matches!(first, Answer::Refused(1..=11)) { return Err(format!("{first:?} is no refusal 1 to 11: {}", input.line)) }
    }
    else if input.family != "worst" //the Rust takes minutes
    {
        let branch = input::branch_of(&input.bytes).map_err(|e| format!("{e}: {}", input.line))?;
        let (theirs, time) = rust(input, &branch);
        if theirs != first { return Err(format!("DIFFERENT: ours {first:?}, the Rust {theirs:?}: {}", input.line)) }
        rust_time = Some(if time > LONG { time.as_nanos() as u64 } else { median_time(theirs, || rust(input, &branch)) });
    }
    ours(input, &mut trays); //warm-up
    let our_time = median_time(first, || ours(input, &mut trays));

    let counts = match first
    {
        Answer::Verdict { ids, worlds, steps, .. } => format!("{ids} {worlds} {steps} {}", leaves(&trays.nodes, ids)),
        _ => "- - - -".to_string(),
    };
    let rust_text = rust_time.map(|t| t.to_string()).unwrap_or("-".to_string());
    let (family, case) = input.line.split_once(' ').unwrap();
    writeln!(results, "{family} {counts} {our_time} {rust_text} {case}").unwrap();
    return Ok(Timed { family:input.family.clone(), line:input.line.clone(), ours:our_time, rust:rust_time });
}

fn ratio(t : &Timed) -> f64 { return t.rust.unwrap() as f64 / t.ours as f64; }

fn row(family : &str, timed : &[&Timed])
{
    let ours = median(timed.iter().map(|t| t.ours).collect());
    let slowest = timed.iter().map(|t| t.ours).max().unwrap();
    let per_second = |ns : u64| 1e9 / ns as f64;
    print!("{family:<10} {:>6} {ours:>10} ", timed.len());
    if timed.iter().all(|t| t.rust.is_some())
    {
        let rust = median(timed.iter().map(|t| t.rust.unwrap()).collect());
        let ratios = timed.iter().map(|t| ratio(t)).collect::<Vec<f64>>();
        let smallest = ratios.iter().copied().fold(f64::INFINITY, f64::min);
        print!("{rust:>12} {:>8.1} {:>8.1} {smallest:>8.2} ", rust as f64 / ours as f64, median(ratios));
        println!("{:>12.0} {:>12.1} {slowest:>12}", per_second(ours), per_second(rust));
    }
    else
    {
        println!("{:>12} {:>8} {:>8} {:>8} {:>12.0} {:>12} {slowest:>12}", "-", "-", "-", "-", per_second(ours), "-");
    }
}

fn table(timed : &[Timed])
{
    println!("{:<10} {:>6} {:>10} {:>12} {:>8} {:>8} {:>8} {:>12} {:>12} {:>12}", "family", "inputs", "ours ns", "Rust ns", "ratio",
        "median", "smallest", "ours calls/s", "Rust calls/s", "slowest ours");
    let mut families = vec![];
    for t in timed { if !families.contains(&t.family) { families.push(t.family.clone()); } }
    for family in &families
    {
        row(family, &timed.iter().filter(|t| t.family == *family).collect::<Vec<&Timed>>());
    }
    let both = timed.iter().filter(|t| t.rust.is_some()).collect::<Vec<&Timed>>();
    let slower = both.iter().filter(|t| ratio(t) < 1.0).count();
    println!("ours is slower than the Rust on {slower} of {} inputs", both.len());
    if let Some(t) = both.iter().min_by(|a, b| ratio(a).partial_cmp(&ratio(b)).unwrap())
    {
        println!("smallest ratio {:.2}, ours {} ns, the Rust {} ns: {}", ratio(t), t.ours, t.rust.unwrap(), t.line);
    }
}

fn run() -> bool
{
    let names = std::env::args().skip(1).collect::<Vec<String>>();
    assert!(names.len() == 2, "usage: bench INPUTS RESULTS");
    let mut results = std::io::BufWriter::new(std::fs::File::create(&names[1]).expect(&names[1]));
    writeln!(results, "# family identifiers worlds steps leaves ours_ns rust_ns flags hex [tray lengths]").unwrap();
    recorder::set_quiet(true);
    let clock = median((0..1001).map(|_| { let start = Instant::now(); start.elapsed().as_nanos() }).collect());
    println!("the clock itself takes {clock} ns, which counts in each call of both sides");

    let (mut timed, mut same) = (vec![], true);
    for line in std::fs::read_to_string(&names[0]).expect(&names[0]).lines()
    {
        match measure(&parse(line), &mut results)
        {
            Ok(t) => timed.push(t),
            Err(what) => { println!("{what}"); same = false; }
        }
    }
    table(&timed);
    return same;
}

fn main()
{
    //the Rust recurses over trees and formulas: a large stack
    let same = std::thread::Builder::new().stack_size(1 << 30).spawn(run).unwrap().join().unwrap();
    std::process::exit(if same { 0 } else { 1 });
}
