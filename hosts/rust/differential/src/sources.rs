//! Which Rust the library is compared with: the files that the oracle compiles are those that were carried over.

use oracle::SOURCES;

use crate::tally::{Against, Report, Tally};

/// cutile-ir 0.4.0, by the names below its folder `src`.
const CARRIED_OVER: [(&str, &str); 4] = [
    ("bytecode/encoding.rs", "ddc41888237632b1e79fdd026c2f647a768e941ff73cdda9ca913db7d2b22329"),
    ("bytecode/enums.rs", "6cf0ca8e826dc4520a0dc1bd810da907d187fe2b0d0a0c42490006ab332a3907"),
    ("ir/types.rs", "3d003b8816e65602a59c896f0a9da0c3da32023a5d0b563228a466c248bbfe85"),
    ("bytecode/decoder.rs", "ce44ef956be767d0cd081ecaa320e6745dcde153fab7a10ddfdbe1566749a0f1"),
];

pub fn compare(report: &mut Report) {
    println!("the Rust, by sha256:");
    let mut tally = Tally::new("what was carried over", Against::Demand);
    for ((name, text), known) in SOURCES.into_iter().zip(CARRIED_OVER) {
        let digest = sha256::hex(text);
        println!("  {digest}  {name}");
        tally.case((name, digest.as_str()) == known, [0; 3], || format!("{name} is not the file {}", known.1));
    }
    report.add(tally);
}
