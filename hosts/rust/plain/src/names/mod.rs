//! The name of a type, as document 02 asks for it in request 1/14: a type row of a sheet as a text, into a lent buffer.

mod kinds;
mod text;

use crate::judge::{judge, whole_words, Rows};
use crate::refusal::{stop, AtStage, Refusal, Stop, ABSENT, STAGE_CALL};
use kinds::Name;
use text::{Measured, Text, Written};

/// So deep do names of files stand in names.
const USUAL_DEPTH: usize = 8;

/// The types of a sheet, and the rows whose names are being written, each with what is still to come of it. They stand
/// in a vector since names may stand in names more often than calls in calls.
struct Names<'a> {
    types: Rows<'a>,
    open: Vec<(usize, Name<'a>)>,
}

impl Names<'_> {
    /// Writes the name of a row, and those of the earlier rows that it names where it names them.
    fn write(&mut self, row: usize, text: &mut impl Text) -> Result<(), Stop> {
        self.open.push((row, Name::of(self.types[row])));
        while let Some((row, name)) = self.open.last_mut() {
            match name.up_to_the_next(text)? {
                Some(index) if index < *row as u64 => {
                    let earlier = index as usize;
                    self.open.push((earlier, Name::of(self.types[earlier])));
                }
                Some(_) => text.bytes(b"?")?,
                None => drop(self.open.pop()),
            }
        }
        Ok(())
    }
}

/// Measures a name first, no further than there is room, so that an output that is too small stays as it is.
fn written(sheet: &[u8], row: u64, out: &mut [u8]) -> Result<u64, Stop> {
    let words = whole_words(sheet)?;
    let mut names = Names { types: judge(&words)?.types, open: Vec::with_capacity(USUAL_DEPTH) };
    let row = usize::try_from(row).ok().filter(|&row| row < names.types.len()).ok_or(stop(ABSENT))?;
    let mut measured = Measured::within(out.len());
    names.write(row, &mut measured)?;
    names.write(row, &mut Written(out))?;
    Ok(measured.size() as u64)
}

/// Writes the name of a type row of a sheet at the start of an output. Gives its length.
pub fn type_text(sheet: &[u8], row: u64, out: &mut [u8]) -> Result<u64, Refusal> {
    written(sheet, row, out).at_stage(STAGE_CALL)
}
