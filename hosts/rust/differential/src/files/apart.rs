//! Files that are run apart: at the limit of 2^30 bytes, and the shortest on which decoder.rs runs out of memory.

use super::smallest::{one_section, one_type};
use super::Run;
use crate::tally::Random;

const MOST_BYTES: usize = 1 << 30;

/// A Type payload of so many function types. The first has no inputs, and each other has eight times the one before.
fn nested_names(types: u8) -> Vec<u8> {
    let mut data: Vec<u8> = vec![16, 0, 0];
    let mut starts = vec![0];
    for i in 1..types {
        starts.push(data.len() as u32);
        data.extend([16, 8]);
        data.extend([i - 1; 8]);
        data.push(0);
    }
    let starts: Vec<u8> = starts.into_iter().flat_map(u32::to_le_bytes).collect();
    [&[types, 0xCB, 0xCB, 0xCB], &starts[..], &data].concat()
}

/// 2^35 - 1 as a varint: a count for which decoder.rs reserves memory before it looks further.
const MANY: [u8; 5] = [0xFF, 0xFF, 0xFF, 0xFF, 0x7F];

/// The shortest files that make decoder.rs ask for more memory than there is.
fn hungry() -> Vec<Vec<u8>> {
    let padded = |fill: usize| [&MANY[..], &vec![0xCB; fill]].concat();
    vec![
        one_section(1, &padded(3)),
        one_section(5, &padded(3)),
        one_section(4, &padded(3)),
        one_section(6, &MANY),
        one_section(2, &MANY),
        one_type(&[&[13, 0][..], &MANY].concat()),
        one_type(&[&[16][..], &MANY].concat()),
        one_section(5, &nested_names(13)),
    ]
}

/// At the limit, and a byte over it. Memory that is never written stays unmapped, so such a file costs little.
fn limit(random: &mut Random, run: &mut Run) {
    let case = one_section(1, &[1, 0xCB, 0xCB, 0xCB, 0, 0, 0, 0, b'a']);
    let mut file = vec![0; MOST_BYTES + 1];
    file[..case.len()].copy_from_slice(&case);
    run.file(random, &file[..MOST_BYTES]);
    run.file(random, &file);
}

pub fn compare(random: &mut Random, run: &mut Run) {
    let before = run.counts.unanswered();
    let files = hungry();
    for file in &files {
        run.file(random, file);
    }
    let unanswered = run.counts.unanswered() - before;
    run.refusals.case(unanswered == files.len() as u64, [0; 3], || {
        format!("decoder.rs has memory enough for some of {} files", files.len())
    });
    limit(random, run);
}
