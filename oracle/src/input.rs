//! Harness: the formulas of an input line's records, the logic of its flags, and what is emptied between runs.
use std::rc::Rc;
use smol_str::SmolStr;
use crate::formula::{AtomicFormulaExtras, Formula, FormulaExtras};
use crate::logic::normal_modal_logic::NormalModalLogic;
use crate::logic::Logic;
use crate::proof::execution_log::{ExecutionLog, ExecutionLogHelperData};
use crate::recorder;

pub fn decode(hex : &str) -> Result<Vec<u8>, String>
{
    let hex = hex.as_bytes();
    if hex.len() % 2 != 0 { return Err("odd hex".to_string()) }
    let digit = |c : u8| (c as char).to_digit(16).map(|d| d as u8).ok_or("bad hex".to_string());
    return (0..hex.len()/2).map(|i| Ok(digit(hex[2*i])? * 16 + digit(hex[2*i+1])?)).collect();
}

//assumes checks 1-11 of document 01 passed; anything else is reported, not judged
pub fn branch_of(bytes : &[u8]) -> Result<Vec<Formula>, String>
{
    if bytes.len() % 6 != 0 { return Err("torn".to_string()) }
    let mut formulas : Vec<Formula> = vec![];
    let mut branch : Vec<Formula> = vec![];
    for (number, record) in bytes.chunks(6).enumerate()
    {
        let (a, b) = (record[2] as usize + 256 * record[3] as usize, record[4] as usize + 256 * record[5] as usize);
        let link = |n : usize| if n < number { Ok(Box::new(formulas[n].clone())) } else { Err("forward link".to_string()) };
        let e = FormulaExtras::empty();
        let formula = match record[0]
        {
            0 => Formula::Atomic(SmolStr::new(a.to_string()), AtomicFormulaExtras::empty()),
            1 => Formula::Non(link(a)?, e),
            2 => Formula::And(link(a)?, link(b)?, e),
            3 => Formula::Or(link(a)?, link(b)?, e),
            4 => Formula::Imply(link(a)?, link(b)?, e),
            5 => Formula::BiImply(link(a)?, link(b)?, e),
            6 => Formula::StrictImply(link(a)?, link(b)?, e),
            7 => Formula::Possible(link(a)?, e),
            8 => Formula::Necessary(link(a)?, e),
            _ => return Err("unknown stain".to_string()),
        };
        if record[1] == 1 { branch.push(formula.clone()); }
        formulas.push(formula);
    }
    if branch.is_empty() { return Err("blank or unmarked".to_string()) }
    return Ok(branch);
}

pub fn logic_of(flags : u32) -> Rc<dyn Logic>
{
    return Rc::new(NormalModalLogic
    {
        name: NormalModalLogic::K().name,
        is_reflexive: flags & 1 != 0, is_symmetric: flags & 2 != 0, is_transitive: flags & 4 != 0,
    });
}

//a run leaves nothing behind: the recorder and the two execution logs (thread-locals) are emptied
pub fn clear()
{
    recorder::take();
    ExecutionLog::clear();
    ExecutionLogHelperData::with(|mut data|
    {
        data.new_graph_nodes.clear(); data.new_graph_vertices.clear();
        data.old_contradictions.clear(); data.new_contradictions.clear();
    });
}
