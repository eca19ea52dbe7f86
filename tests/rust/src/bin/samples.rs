//! Writes the samples: a row of all inputs (each with its length in 4 bytes before it), and a file with what the
//! program prints for each, one after the other.

use second::pathcheck::pathcheck;
use second::samples::samples;

fn main() -> std::io::Result<()> {
    let names: Vec<String> = std::env::args().skip(1).collect();
    let [inputs, outputs] = names.as_slice() else {
        eprintln!("usage: samples INPUTS OUTPUTS");
        std::process::exit(2);
    };
    let (mut row, mut printed) = (Vec::new(), Vec::new());
    for input in samples() {
        row.extend_from_slice(&(input.len() as u32).to_be_bytes());
        row.extend_from_slice(&input);
        printed.extend_from_slice(&pathcheck(&input));
    }
    std::fs::write(inputs, row)?;
    std::fs::write(outputs, printed)
}
