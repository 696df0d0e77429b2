//! Stand-in for prover/src/logic/logic_rule_result_impl.rs (not listed).
//! Behaviour read off document 01 ('Queue', 'Placing', 'Possible', 'Necessary'):
//!   placing:  Subtree -> append_subtree(subtree, target);
//!             Subtrees -> append_subtree(subtree, its own leaf), one after the other;
//!             FromMultipleResults -> each in order.
//!   queueing: the same order, each subtree through push_subtree, placed or not.
//! crate::variant::on(bit) switches ON a deliberately different reading (default none);
//! crate::recorder only watches.
use crate::formula::to_string::FormulaFormatOptions;
use crate::logic::{LogicRuleResult, LogicRuleResultCollection};
use crate::proof::decomposition_queue::DecompositionPriorityQueue;
use crate::tree::node_factory::ProofTreeNodeID;
use crate::tree::subtree::ProofSubtree;
use crate::tree::ProofTree;
use crate::recorder;
use crate::variant;

impl LogicRuleResult
{
    pub fn is_empty(&self) -> bool
    {
        return match self
        {
            LogicRuleResult::Empty => true,
            LogicRuleResult::Subtree(subtree) => subtree.is_empty(),
            LogicRuleResult::Subtrees(subtrees) => subtrees.iter().all(|(_, subtree)| subtree.is_empty()),
            LogicRuleResult::FromMultipleResults(collection) => collection.results.iter().all(|result| result.is_empty()),
        }
    }

    //text for the execution log only; the harness never reads it
    pub fn to_string_with_options(&self, _options : &FormulaFormatOptions) -> String
    {
        return String::new();
    }

    fn for_each_subtree(&self, callback : &mut dyn FnMut(&ProofSubtree))
    {
        match self
        {
            LogicRuleResult::Empty => {}
            LogicRuleResult::Subtree(subtree) => callback(subtree),
            LogicRuleResult::Subtrees(subtrees) => for (_, subtree) in subtrees { callback(subtree) }
            LogicRuleResult::FromMultipleResults(collection) => for result in &collection.results { result.for_each_subtree(callback) }
        }
    }

    fn for_each_subtree_mut(&mut self, callback : &mut dyn FnMut(&mut ProofSubtree))
    {
        match self
        {
            LogicRuleResult::Empty => {}
            LogicRuleResult::Subtree(subtree) => callback(subtree),
            LogicRuleResult::Subtrees(subtrees) => for (_, subtree) in subtrees { callback(subtree) }
            LogicRuleResult::FromMultipleResults(collection) => for result in &mut collection.results { result.for_each_subtree_mut(callback) }
        }
    }
}

impl LogicRuleResultCollection
{
    pub fn with(result : LogicRuleResult) -> LogicRuleResultCollection
    {
        return LogicRuleResultCollection { results:vec![result] };
    }

    pub fn push(&mut self, result : LogicRuleResult)
    {
        //stop early once more than 512 identifiers were issued, whatever follows
        result.for_each_subtree(&mut |subtree| recorder::limit(subtree));
        self.results.push(result);
    }

    pub fn joined(self) -> LogicRuleResult
    {
        return LogicRuleResult::FromMultipleResults(self);
    }
}

impl ProofTree
{
    pub fn append_logic_rule_result(&mut self, result : &mut LogicRuleResult, target_node_id : ProofTreeNodeID)
    {
        //watch what the rule made before it is placed (originals)
        result.for_each_subtree(&mut |subtree| recorder::subtree(subtree));

        self.append_logic_rule_result_impl(result, target_node_id);

        if variant::on(variant::DROP_UNPLACED_FROM_QUEUE)
        {
            result.for_each_subtree_mut(&mut |subtree|
            {
                let first = subtree.left.as_ref().or(subtree.middle.as_ref()).or(subtree.right.as_ref());
                if let Some(first) = first && self.get_node_with_id(first.id).is_none() { *subtree = ProofSubtree::empty(); }
            });
        }
    }

    fn append_logic_rule_result_impl(&mut self, result : &mut LogicRuleResult, target_node_id : ProofTreeNodeID)
    {
        match result
        {
            LogicRuleResult::Empty => {}

            LogicRuleResult::Subtree(subtree) =>
            {
                self.append_subtree(subtree, target_node_id);
                recorder::copies(subtree);
            }

            LogicRuleResult::Subtrees(subtrees) =>
            {
                for (leaf_node_id, subtree) in subtrees
                {
                    let target = if variant::on(variant::PLACE_SUBTREES_AT_TARGET) { target_node_id } else { *leaf_node_id };
                    self.append_subtree(subtree, target);
                    recorder::copies(subtree);
                }
            }

            LogicRuleResult::FromMultipleResults(collection) =>
            {
                let mut order = (0..collection.results.len()).collect::<Vec<usize>>();
                if variant::on(variant::PLACE_JOINED_REVERSED) { order.reverse(); }
                for index in order
                {
                    self.append_logic_rule_result_impl(&mut collection.results[index], target_node_id);
                }
            }
        }
    }
}

impl DecompositionPriorityQueue
{
    pub fn push_logic_rule_result(&mut self, result : LogicRuleResult)
    {
        self.push_logic_rule_result_impl(result);
        recorder::waits(!self.is_empty());
    }

    fn push_logic_rule_result_impl(&mut self, result : LogicRuleResult)
    {
        match result
        {
            LogicRuleResult::Empty => {}

            LogicRuleResult::Subtree(subtree) => { self.push_subtree(Box::new(subtree)); }

            LogicRuleResult::Subtrees(mut subtrees) =>
            {
                if variant::on(variant::QUEUE_SUBTREES_REVERSED) { subtrees.reverse(); }
                for (_, subtree) in subtrees { self.push_subtree(Box::new(subtree)); }
            }

            LogicRuleResult::FromMultipleResults(mut collection) =>
            {
                if variant::on(variant::QUEUE_JOINED_REVERSED) { collection.results.reverse(); }
                for result in collection.results { self.push_logic_rule_result_impl(result); }
            }
        }
    }
}
