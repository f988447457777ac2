//! Our calls beside encoding.rs, decoder.rs, a plain reader and writer in safe Rust and a plain map in C++, in one run,
//! as ratios of times. See `about` for what is timed.
//!
//! bench [--genuine FOLDER]

mod caches;
mod files;
mod indices;
mod inputs;
mod map;
mod names;
mod numbers;
mod session;
mod stores;
mod timing;

use std::env;
use std::error::Error;
use std::path::PathBuf;

use session::Load;
use timing::Row;

fn about() {
    println!("Compiled for {}. Each row is the median of 7 to {} rounds;", std::env::consts::ARCH, timing::MOST_ROUNDS);
    println!("a round times both sides one after the other, on memory that was touched before.");
    println!("Ours: a call of the archive, as C++ calls it; times are for each call.");
    println!("`called`: encoding.rs's EncodingWriter or decoder.rs's Reader behind a call that answers the same;");
    println!("`inlined`: the same, inlined into the loop that times it. Capacities are reserved.");
    println!("Arrays have 1,000 numbers; reading one ends with the numbers in a vector on both sides.");
    println!("Indices: a million in one function type, whose file we measure and read; times are for each index;");
    println!("`plain loop`: the plain reader's varint over the bytes of the indices alone, into a touched vector.");
    println!("Session load: files of the genuine writer, measured and read one by one; times are for each file.");
    println!("Types are named by a call for each row, which judges the whole sheet, into one buffer of 256 bytes.");
    println!(
        "Caches are full. A slot has as many bytes as the file, in whole lines of 64 bytes, so that a put writes what memcpy does;"
    );
    println!("`memcpy and measure`: the file copied to the same place of another buffer, and tikomuci_measure;");
    println!("`constant`: tikomuci_constant of the slot's file. The profile is the kernel's only constant.");
    println!("`C++ map of vectors`: an unordered_map that measures at a put, and calls tikomuci_constant at a fetch.");
}

/// A time with three digits or so, in a unit that suits it.
fn shown(nanoseconds: f64) -> String {
    let (scale, unit) = match nanoseconds {
        n if n < 1e3 => (1.0, "ns"),
        n if n < 1e6 => (1e3, "µs"),
        _ => (1e6, "ms"),
    };
    format!("{:.2} {unit}", nanoseconds / scale)
}

fn table(rows: &[Row]) {
    println!("\n| what | ours | against | theirs | ours / theirs | goal | met |");
    println!("|---|---:|---|---:|---:|---:|---|");
    for row in rows {
        let (what, against, ratio) = (&row.what, row.against, row.ratio());
        let goal = row.goal.map_or("-".to_owned(), |goal| goal.to_string());
        let met = row.goal.map_or("-", |goal| ["no", "yes"][usize::from(ratio <= goal)]);
        println!("| {what} | {} | {against} | {} | {ratio:.2} | {goal} | {met} |", shown(row.ours), shown(row.theirs));
    }
}

/// The folder below which the genuine writer put its files, if there is one.
fn genuine() -> Result<Option<PathBuf>, String> {
    let arguments: Vec<String> = env::args().skip(1).collect();
    match &arguments[..] {
        [] => Ok(None),
        [option, folder] if option == "--genuine" => Ok(Some(folder.into())),
        _ => Err("bench [--genuine FOLDER]".to_owned()),
    }
}

fn main() -> Result<(), Box<dyn Error>> {
    let load = genuine()?.map(|folder| Load::of(&folder.join("fixed"))).transpose()?;
    about();
    let rows = [numbers::varints(), numbers::arrays(), numbers::padding(), numbers::floats()].concat();
    table(&rows);
    table(&files::all());
    table(&indices::all());
    match load {
        Some(load) => {
            table(&load.rows());
            println!("\n{}", load.about());
        }
        None => println!("\nThe session load, which needs the files of the genuine writer, was LEFT OUT."),
    }
    table(&names::all());
    table(&caches::all());
    Ok(())
}
