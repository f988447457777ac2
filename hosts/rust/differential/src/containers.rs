//! The view of a section against the header and the section walk of decoder.rs: files with sections of every id, longer
//! spellings, alignments and paddings, and damaged copies of them.

use boundary::{Answer, ABSENT, SHORT, STAGE_HEADER, STAGE_SECTIONS};
use oracle::bytecode::decoder::window::{refusal, walk, Walk};
use oracle::bytecode::encoding::EncodingWriter;
use oracle::bytecode::MAGIC;

use crate::tally::{Against, Random, Report, Tally};

const RANDOM_FILES: u64 = 60_000;

/// A varint, now and then with a byte more than it needs.
fn write_varint(writer: &mut EncodingWriter, random: &mut Random, value: u64) {
    writer.write_varint(value);
    if random.one_in(8) {
        *writer.buf_mut().last_mut().expect("a varint has a byte") |= 0x80;
        writer.write_byte(0);
    }
}

fn write_section(writer: &mut EncodingWriter, random: &mut Random) {
    let ids = if random.one_in(4) { 127 } else { 7 };
    let id = 1 + random.below(ids) as u8;
    let payload: Vec<u8> = (0..random.below(12)).map(|_| random.word() as u8).collect();
    let aligned = random.one_in(2);
    writer.write_byte(id | u8::from(aligned) << 7);
    write_varint(writer, random, payload.len() as u64);
    if aligned {
        let alignment = random.below(20);
        write_varint(writer, random, alignment);
        writer.align_to(alignment);
    }
    writer.write_bytes(&payload);
}

/// A file with up to six sections, an end marker, and bytes after it.
fn random_file(random: &mut Random) -> Vec<u8> {
    let mut writer = EncodingWriter::new();
    writer.write_bytes(&MAGIC);
    writer.write_le_u32(random.word() as u32);
    for _ in 0..random.below(7) {
        write_section(&mut writer, random);
    }
    writer.write_byte(if random.one_in(2) { 0 } else { 0x80 });
    for _ in 0..random.below(4) {
        writer.write_byte(random.word() as u8);
    }
    writer.into_bytes()
}

/// A byte changed, the end cut off, or both.
fn damage(random: &mut Random, file: &mut Vec<u8>) {
    if random.one_in(2) {
        let place = random.below(file.len() as u64) as usize;
        file[place] = random.word() as u8;
    }
    if random.one_in(3) {
        let place = 12 + random.below(6) as usize;
        file.splice(place.min(file.len()).., [0x81; 9]);
    }
    if random.one_in(2) {
        file.truncate(random.below(file.len() as u64 + 1) as usize);
    }
}

/// What decoder.rs says of a section. Where a length's end wraps it panics, and document 01 says what is wanted.
fn wanted(file: &[u8], id: u64) -> (Against, Answer) {
    let answer = match walk(file) {
        Walk::Sections(places) => places
            .get(usize::try_from(id).unwrap_or(usize::MAX))
            .and_then(|place| *place)
            .map_or(Answer::refused(ABSENT), |(offset, length)| Answer::accepted(offset, length)),
        Walk::Error(error, header_read) => {
            Answer::refused_at(refusal(&error), if header_read { STAGE_SECTIONS } else { STAGE_HEADER })
        }
        Walk::Wraps => return (Against::Known, Answer::refused_at(SHORT, STAGE_SECTIONS)),
    };
    (Against::Rust, answer)
}

pub fn compare(random: &mut Random, report: &mut Report) {
    println!("views:");
    let mut tally = Tally::new("section", Against::Rust);
    let mut compare = |file: &[u8]| {
        for id in (0..10).chain([127, 255, 256, u64::MAX]) {
            let (ours, (against, wanted)) = (boundary::section(file, id), wanted(file, id));
            tally.case_against(against, ours == wanted, [file.len() as u64, id, 0], || {
                format!("section {id} of {file:02X?}: {ours:?}, and {wanted:?} is wanted")
            });
        }
    };
    for _ in 0..report.share_of(RANDOM_FILES) {
        let mut file = random_file(random);
        compare(&file);
        damage(random, &mut file);
        compare(&file);
    }
    report.add(tally);
}
