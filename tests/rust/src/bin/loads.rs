//! Writes the load cases: a row of all texts (each with its length in 4 bytes before it), and a file with the line
//! of each one's refusal, of number 0 if it is accepted. The load's own result and the pair worked out by hand must
//! be the same.

use second::load_cases::cases;
use second::pathcheck::refused;
use second::policy::load;

fn main() -> std::io::Result<()> {
    let names: Vec<String> = std::env::args().skip(1).collect();
    let [texts, refusals] = names.as_slice() else {
        eprintln!("usage: loads TEXTS REFUSALS");
        std::process::exit(2);
    };
    let (mut row, mut lines) = (Vec::new(), Vec::new());
    for case in cases() {
        let (number, line) = load(&case.text).map_or_else(|r| (r.number, r.line), |_| (0, 0));
        assert_eq!((number, line), case.expected, "{}", case.name);
        row.extend_from_slice(&(case.text.len() as u32).to_be_bytes());
        row.extend_from_slice(&case.text);
        lines.extend_from_slice(&refused(number, line));
    }
    std::fs::write(texts, row)?;
    std::fs::write(refusals, lines)
}
