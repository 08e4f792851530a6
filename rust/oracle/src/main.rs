//! Writes the stored answers: `oracle list parse` or `oracle list split`.

use std::io::Write;

fn main() {
    let arguments: Vec<String> = std::env::args().skip(1).collect();
    let arguments: Vec<&str> = arguments.iter().map(String::as_str).collect();
    let lines = match arguments[..] {
        ["list", "parse"] => oracle::list::parse_lines(),
        ["list", "split"] => oracle::list::split_lines(),
        _ => {
            eprintln!("usage: oracle list parse | oracle list split");
            std::process::exit(2);
        }
    };
    let mut text = lines.join("\n");
    text.push('\n');
    if let Err(error) = std::io::stdout().write_all(text.as_bytes()) {
        eprintln!("the list could not be written: {error}");
        std::process::exit(1);
    }
}
