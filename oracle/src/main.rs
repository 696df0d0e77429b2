#![feature(box_patterns)]
#![allow(unused, dead_code, unstable_name_collisions)]
//! Oracle harness. One input line `FLAGS HEX` -> one output line.
mod stand_in;
mod formula;
mod graph;
mod logic;
mod parser;
mod problem;
mod proof;
mod semantics;
mod tree;
mod utils;
mod input;
mod recorder;
mod variant;
mod alloc;

#[global_allocator]
static ALLOCATOR : alloc::FreeLists = alloc::FreeLists;

use std::fmt::Write as _;
use input::{branch_of, clear, decode, logic_of};
use proof::ProofAlgorithm;
use tree::node::ProofTreeNode;

#[derive(Clone, Default)]
struct Placed { parent : Option<usize>, place : &'static str, contrarian : Option<usize>, contradictory : bool, spawner : Option<usize>, world : u8, formula : String }

fn collect(node : &ProofTreeNode, parent : Option<usize>, place : &'static str, out : &mut Vec<Option<Placed>>)
{
    assert!(out[node.id].is_none(), "oracle: identifier {} twice in the tree", node.id);
    out[node.id] = Some(Placed { parent, place, contrarian:node.contrarian_node_id, contradictory:node.is_contradictory,
        spawner:node.spawner_node_id, world:node.formula.get_possible_world().index, formula:recorder::text(&node.formula) });
    if let Some(child) = &node.left { collect(child, Some(node.id), "left", out); }
    if let Some(child) = &node.middle { collect(child, Some(node.id), "middle", out); }
    if let Some(child) = &node.right { collect(child, Some(node.id), "right", out); }
}

fn run(line : &str) -> String
{
    let mut words = line.split_whitespace();
    let flags = match words.next().and_then(|w| w.parse::<u32>().ok()) { Some(f) if f < 16 => f, _ => return "error bad tick".to_string() };
    let bytes = match decode(words.next().unwrap_or("")) { Ok(b) => b, Err(e) => return format!("error {}", e) };
    let branch = match branch_of(&bytes) { Ok(b) => b, Err(e) => return format!("error {}", e) };

    let outcome = std::panic::catch_unwind(std::panic::AssertUnwindSafe(||
        ProofAlgorithm::initialize_with_branch(logic_of(flags), branch, flags & 8 != 0).prove()));
    let tree = match outcome
    {
        Ok(tree) => tree,
        Err(payload) if payload.is::<recorder::Full>() => return "full".to_string(),
        Err(payload) if payload.is::<recorder::Slow>() => return "slow".to_string(),
        Err(_) => return "error panic".to_string(),
    };

    let record = recorder::take();
    let mut node_factory = tree.node_factory.clone();
    let issued = node_factory.new_node_id(); //the next number = how many were issued
    assert!(issued == record.seen.len() && record.seen.iter().all(|s| s.is_some()), "oracle: an issued identifier was not watched");

    let mut placed : Vec<Option<Placed>> = vec![None; issued];
    collect(&tree.root_node, None, "root", &mut placed);

    let mut out = String::new();
    write!(out, "{{\"proved\":{},\"timeout\":{},\"waits\":{},\"ids\":{},\"worlds\":{},\"steps\":{},\"edges\":[",
        tree.is_proof_correct, tree.has_timeout, record.waits, issued, tree.modality_graph.nodes().len(), record.steps).unwrap();
    for (i, v) in tree.modality_graph.vertices().enumerate()
    {
        write!(out, "{}[{},{}]", if i > 0 { "," } else { "" }, v.from.index, v.to.index).unwrap();
    }
    out.push_str("],\"nodes\":[");
    let number = |n : Option<usize>| n.map(|n| n.to_string()).unwrap_or("null".to_string());
    for id in 0..issued
    {
        let seen = record.seen[id].as_ref().unwrap();
        let (parent, place, contrarian, contradictory) = match &placed[id]
        {
            Some(p) =>
            {
                assert!(p.spawner == seen.spawner && p.world == seen.world && p.formula == seen.formula, "oracle: a node changed");
                (p.parent, p.place, p.contrarian, p.contradictory)
            }
            None => (None, "unplaced", None, false),
        };
        //id, parent, place, world, formula, spawner, contrarian, contradictory, step that issued it (0 = input)
        write!(out, "{}[{},{},\"{}\",{},\"{}\",{},{},{},{}]", if id > 0 { "," } else { "" }, id, number(parent), place,
            seen.world, seen.formula, number(seen.spawner), number(contrarian), contradictory as u8, seen.step).unwrap();
    }
    out.push_str("]}");
    return out;
}

fn answer_all()
{
    let number = |name : &str| std::env::var(name).ok().map(|v| v.parse::<u64>().expect(name)).unwrap_or(0);
    variant::set(number("ORACLE_VARIANT") as u32);
    let max_work = number("ORACLE_MAX_WORK"); //millions of blocks; 0: no limit; a run beyond it answers `slow` (no verdict)
    let show_work = number("ORACLE_SHOW_WORK") != 0; //thousands of blocks and microseconds of each run, on stderr

    for line in std::io::stdin().lines()
    {
        let (line, blocks, start) = (line.unwrap(), alloc::blocks(), std::time::Instant::now());
        clear();
        if max_work > 0 { recorder::set_work(max_work * 1000000); }
        let answer = std::panic::catch_unwind(|| run(&line)).unwrap_or_else(|_| "error panic".to_string());
        if show_work { eprintln!("{} {}", (alloc::blocks() - blocks) / 1000, start.elapsed().as_micros()); }
        println!("{}", answer);
    }
}

fn main()
{
    std::panic::set_hook(Box::new(|info| eprintln!("oracle: {}", info)));
    //the prover recurses over trees and formulas: a large stack
    std::thread::Builder::new().stack_size(1 << 30).spawn(answer_all).unwrap().join().unwrap();
}
