// Necessary p, Possible Non p: proved. Then the same with a flag byte that has no meaning: refused. Then rules as text: the
// README's example, open and with transitive proved; one that comes to the world limit, late; and a text that is garbled, with
// the offset of the byte that is wrong.
//     tools/build wozhnerk && rustc --edition 2021 -L target/staticlib examples/prove.rs -o target/prove-rs
#[link(name = "wozhnerk", kind = "static")]
extern "C" {
    fn wozhnerk_prove(branch: *const u8, branch_length: usize, flags: u8, nodes: *mut u8, nodes_length: usize,
                      formulas: *mut u8, formulas_length: usize, edges: *mut u32, edges_length: usize) -> u64;
    fn wozhnerk_prove_typed(text: *const u8, text_length: usize, flags: u8, records: *mut u8, records_length: usize,
                            nodes: *mut u8, nodes_length: usize, formulas: *mut u8, formulas_length: usize,
                            edges: *mut u32, edges_length: usize) -> u64;
}

/// The place of a refusal is its record, of refusals 6 to 9, and its offset in the text, of refusal 13.
enum Answer {
    Refusal { number: u16, place: u16 },
    Verdict { proved: bool, late: bool, identifiers: u16, formulas: u16, worlds: u8, steps: u16 },
}

/// The trays may have any lengths; `include/wozhnerk.h` has the layouts.
fn prove(branch: &[u8], flags: u8, nodes: &mut [u8], formulas: &mut [u8], edges: &mut [u32]) -> Answer {
    // Safe: each pointer is valid for its length, edges is aligned, and the borrows keep branch and trays apart.
    let w = unsafe {
        wozhnerk_prove(branch.as_ptr(), branch.len(), flags, nodes.as_mut_ptr(), nodes.len(),
                       formulas.as_mut_ptr(), formulas.len(), edges.as_mut_ptr(), edges.len())
    };
    read(w)
}

/// The text's records are left in `records`.
fn prove_typed(text: &[u8], flags: u8, records: &mut [u8], nodes: &mut [u8], formulas: &mut [u8], edges: &mut [u32]) -> Answer {
    // Safe: as above.
    let w = unsafe {
        wozhnerk_prove_typed(text.as_ptr(), text.len(), flags, records.as_mut_ptr(), records.len(), nodes.as_mut_ptr(),
                             nodes.len(), formulas.as_mut_ptr(), formulas.len(), edges.as_mut_ptr(), edges.len())
    };
    read(w)
}

fn read(w: u64) -> Answer {
    if w >> 63 == 1 {
        return Answer::Refusal { number: (w >> 16) as u16, place: w as u16 };
    }
    Answer::Verdict { proved: w >> 56 & 1 == 1, late: w >> 57 & 1 == 1, identifiers: w as u16,
                      formulas: (w >> 16) as u16, worlds: (w >> 48) as u8, steps: (w >> 32) as u16 }
}

fn say(answer: Answer) {
    match answer {
        Answer::Refusal { number: 13, place } => println!("garbled at byte {place}"),
        Answer::Refusal { number, place } => println!("refused: number {number}, record {place}"),
        Answer::Verdict { proved, late, identifiers, formulas, worlds, steps } => println!(
            "{}: {identifiers} identifiers, {formulas} formulas, {worlds} worlds, {steps} steps",
            if proved { "proved" } else if late { "late" } else { "open" }),
    }
}

fn main() {
    let branch = [0, 0, 0, 0, 0, 0, 8, 1, 0, 0, 0, 0, 1, 0, 0, 0, 0, 0, 7, 1, 2, 0, 0, 0];
    let rules = b"a0 => a1\n~[](a0 => a1)\n";
    let (mut records, mut nodes, mut formulas, mut edges) = ([0u8; 24576], [0u8; 6144], [0u8; 7680], [0u32; 25]);
    say(prove(&branch, 0, &mut nodes, &mut formulas, &mut edges));
    say(prove(&branch, 16, &mut nodes, &mut formulas, &mut edges));
    say(prove_typed(rules, 0, &mut records, &mut nodes, &mut formulas, &mut edges));
    say(prove_typed(rules, 4, &mut records, &mut nodes, &mut formulas, &mut edges));
    say(prove_typed(b"[]<>a0\n<>a0\n", 4, &mut records, &mut nodes, &mut formulas, &mut edges));
    say(prove_typed(b"a0 => a1\n~[](a0 = a1)\n", 0, &mut records, &mut nodes, &mut formulas, &mut edges));
}
