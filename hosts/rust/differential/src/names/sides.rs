//! One call of both sides: the library and the plain names.

use boundary::Answer;

use super::output::Output;
use crate::tally::Random;

/// Longer names are refused for want of room in every comparison.
pub const MOST_NAME: usize = 1 << 16;

fn answer(named: Result<u64, plain::Refusal>) -> Answer {
    match named {
        Ok(size) => Answer::accepted(size, 0),
        Err(refusal) => Answer::refused_at(refusal.number, refusal.stage),
    }
}

/// The plain name of a row, or why there is none.
pub fn plain_name(sheet: &[u8], row: u64) -> Result<Vec<u8>, Answer> {
    let mut name = vec![0; MOST_NAME];
    let answer = answer(plain::type_text(sheet, row, &mut name));
    if answer.refusal != 0 {
        return Err(answer);
    }
    name.truncate(answer.first as usize);
    Ok(name)
}

/// What both sides answered, and whether they left the same text and every other byte as it was.
pub struct Said {
    pub ours: Answer,
    pub plain: Answer,
    pub same: bool,
}

pub fn ask(random: &mut Random, sheet: &[u8], row: u64, room: usize) -> Said {
    let odd = random.below(8);
    let (mut our_out, mut plain_out) = (Output::new(odd, room), Output::new(odd, room));
    let ours = boundary::type_text(sheet, row, our_out.lent());
    let plain = answer(plain::type_text(sheet, row, plain_out.lent()));
    let text = plain_out.lent()[..plain.first as usize].to_vec();
    Said { ours, plain, same: ours == plain && our_out.has(&text) && plain_out.has(&text) }
}
