//! The files that are put: made with every freedom, damaged, with faults, and those of the genuine writer.

use std::io;
use std::path::Path;

use super::history::any;
use crate::files::{damaged, faulty, make, Dice, Made};
use crate::genuine;

/// The word of a sheet that says how many constants there are.
const CONSTANTS: usize = 10;

/// Files of a history.
const MADE: usize = 5;
const GENUINE: usize = 3;
const DAMAGED: usize = 2;
const FAULTY: usize = 4;

/// Tables that have constants.
fn with_constants(dice: &mut Dice) -> Made {
    loop {
        let most = 2 + dice.below(4);
        let made = make(dice, most);
        if made.words[CONSTANTS] > 0 {
            return made;
        }
    }
}

pub struct Stock {
    genuine: Vec<Vec<u8>>,
}

impl Stock {
    /// With the files that are kept in this repository, and those in a folder of the genuine writer if there is one.
    pub fn new(folder: Option<&Path>) -> io::Result<Self> {
        Ok(Self { genuine: genuine::files(folder)? })
    }

    pub fn genuine(&self) -> usize {
        self.genuine.len()
    }

    /// The files of a history.
    pub fn some(&self, dice: &mut Dice) -> Vec<Vec<u8>> {
        let mut files = Vec::new();
        for i in 0..MADE {
            let made = with_constants(dice);
            files.push(made.plan.lay(dice));
            if i < DAMAGED {
                files.push(damaged(dice, &made));
            }
            if i < FAULTY {
                files.push(faulty(dice, &made).0);
            }
        }
        files.extend((0..GENUINE).map(|_| any(dice, &self.genuine).clone()));
        files
    }
}
