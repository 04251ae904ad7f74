//! Replays a file of events: `replay [FILE]`, from standard input without FILE, to standard output.

use std::io::{Read, Write};

fn main() {
    let mut input = Vec::new();
    let taken = match std::env::args_os().nth(1) {
        Some(path) => std::fs::File::open(path).and_then(|mut file| file.read_to_end(&mut input)),
        None => std::io::stdin().lock().read_to_end(&mut input),
    };
    if let Err(error) = taken {
        eprintln!("replay: {error}");
        std::process::exit(2);
    }
    let output = reference::replay::replay(&input);
    let mut out = std::io::stdout().lock();
    if let Err(error) = out.write_all(&output).and_then(|_| out.flush()) {
        eprintln!("replay: {error}");
        std::process::exit(2);
    }
}
