//! Harness: watches every node that a rule or a copy issues, counts steps, keeps whether a node waits, aborts beyond 512 identifiers.
use std::cell::{Cell, RefCell};
use crate::formula::Formula;
use crate::formula::Formula::{And, Atomic, BiImply, Comment, Imply, Necessary, Non, Or, Possible, StrictImply};
use crate::tree::node::ProofTreeNode;
use crate::tree::subtree::ProofSubtree;

pub struct Full;
pub struct Slow;
pub const LIMIT : usize = 512;

#[derive(Clone)]
pub struct Seen { pub world : u8, pub formula : String, pub spawner : Option<usize>, pub step : usize }

#[derive(Default)]
pub struct Recorder { pub seen : Vec<Option<Seen>>, pub steps : usize, pub waits : bool, pub last_block : Option<u64> }

thread_local! { static RECORDER : RefCell<Recorder> = RefCell::new(Recorder::default()); }
thread_local! { static QUIET : Cell<bool> = const { Cell::new(false) }; }

//quiet: of a node only the limit is checked and nothing is kept, so that bench/ times the prover and not the watching
pub fn set_quiet(quiet : bool) { QUIET.set(quiet); }

//a run that allocates more than `blocks` blocks of memory ends as Slow, at the next step
pub fn set_work(blocks : u64) { RECORDER.with(|r| r.borrow_mut().last_block = Some(crate::alloc::blocks() + blocks)); }

pub fn step()
{
    let slow = RECORDER.with(|r|
    {
        let mut r = r.borrow_mut();
        r.steps += 1;
        return r.last_block.is_some_and(|last| crate::alloc::blocks() > last);
    });
    if slow { std::panic::resume_unwind(Box::new(Slow)); }
}

//whether a node waits, asked of the queue after each push: the last answer is that of the end of the run
pub fn waits(waits : bool) { RECORDER.with(|r| r.borrow_mut().waits = waits); }

pub fn take() -> Recorder { return RECORDER.with(|r| std::mem::take(&mut *r.borrow_mut())); }

pub fn node(node : &ProofTreeNode)
{
    //more than 512 identifiers were issued: ids are consecutive from 0, and every issued one passes here
    if node.id >= LIMIT { std::panic::resume_unwind(Box::new(Full)); }

    if !QUIET.get() { watch(node); }

    if let Some(child) = &node.left { self::node(child); }
    if let Some(child) = &node.middle { self::node(child); }
    if let Some(child) = &node.right { self::node(child); }
}

fn watch(node : &ProofTreeNode)
{
    RECORDER.with(|r|
    {
        let mut r = r.borrow_mut();
        let step = r.steps;
        if r.seen.len() <= node.id { r.seen.resize(node.id+1, None); }
        assert!(r.seen[node.id].is_none(), "oracle: identifier {} seen twice", node.id);
        let world = node.formula.get_possible_world().index;
        check_labels(&node.formula, world);
        r.seen[node.id] = Some(Seen { world, formula:text(&node.formula), spawner:node.spawner_node_id, step });
    });
}

pub fn subtree(subtree : &ProofSubtree)
{
    if let Some(child) = &subtree.left { node(child); }
    if let Some(child) = &subtree.middle { node(child); }
    if let Some(child) = &subtree.right { node(child); }
}

//only the check of the limit (nodes of a rule result stand in middle chains while it is being built)
pub fn limit(subtree : &ProofSubtree)
{
    fn go(node : &Option<Box<ProofTreeNode>>)
    {
        if let Some(node) = node
        {
            if node.id >= LIMIT { std::panic::resume_unwind(Box::new(Full)); }
            go(&node.left); go(&node.middle); go(&node.right);
        }
    }
    go(&subtree.left); go(&subtree.middle); go(&subtree.right);
}

pub fn copies(subtree : &ProofSubtree)
{
    for copy in &subtree.cloned_subtrees_with_new_ids { self::subtree(copy); }
}

//"Labels agree throughout a formula": asserted for every issued node
fn check_labels(formula : &Formula, world : u8)
{
    if matches!(formula, Comment(..)) { return }
    assert!(formula.get_possible_world().index == world, "oracle: labels disagree inside a formula");
    match formula
    {
        Non(p, _) | Possible(p, _) | Necessary(p, _) => check_labels(p, world),
        And(p, q, _) | Or(p, q, _) | Imply(p, q, _) | BiImply(p, q, _) | StrictImply(p, q, _) =>
            { check_labels(p, world); check_labels(q, world) }
        _ => {}
    }
}

pub fn text(formula : &Formula) -> String
{
    let mut out = String::new();
    write(formula, &mut out);
    return out;
}

fn write(formula : &Formula, out : &mut String)
{
    let (letter, p, q) = match formula
    {
        Atomic(name, _) => { out.push('A'); out.push_str(name); return }
        Comment(_) => { out.push('#'); return }
        Non(p, _) => ('N', p, None),
        And(p, q, _) => ('C', p, Some(q)),
        Or(p, q, _) => ('D', p, Some(q)),
        Imply(p, q, _) => ('I', p, Some(q)),
        BiImply(p, q, _) => ('B', p, Some(q)),
        StrictImply(p, q, _) => ('S', p, Some(q)),
        Possible(p, _) => ('P', p, None),
        Necessary(p, _) => ('L', p, None),
        _ => panic!("oracle: a kind outside the scope"),
    };
    out.push(letter); out.push('(');
    write(p, out);
    if let Some(q) = q { out.push(','); write(q, out); }
    out.push(')');
}
