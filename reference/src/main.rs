//! A second implementation of the rules of docs/RULES.md, which shares nothing with the libraries: it makes random scripts
//! for the program `sample`, and says what `sample` must print for a script.
//!
//!     reference script SEED CALLS     prints a random script with so many commands
//!     reference answer < SCRIPT       prints what sample must print for it

mod field;
mod plan;
mod pool;
mod rack;
mod random;
mod script;

use std::io::{Read, Write};

fn main() -> std::io::Result<()> {
    let arguments: Vec<String> = std::env::args().skip(1).collect();
    let words: Vec<&str> = arguments.iter().map(String::as_str).collect();
    let output = match words[..] {
        ["script", seed, calls] => match (seed.parse(), calls.parse()) {
            (Ok(seed), Ok(calls)) => random::script(seed, calls),
            _ => usage(),
        },
        ["answer"] => {
            let mut input = vec![];
            std::io::stdin().read_to_end(&mut input)?;
            script::play(&input)
        }
        _ => usage(),
    };
    std::io::stdout().write_all(&output)
}

fn usage() -> ! {
    eprintln!("usage: reference script SEED CALLS, or reference answer < SCRIPT");
    std::process::exit(2)
}
