//! The example of `bindings/c/example.c`, in Rust.
//!
//!     rustc --edition 2024 -O bindings/rust/example.rs -L target/staticlib -o example
//!     ./example traces/b.pw

mod mersohki;

use mersohki::{MAX_FILE, MAX_TABLE, Refusal};

/// As many races as the report program has space for.
const RACE_SPACE: usize = 4096;

fn print_numbers(word: &str, numbers: &[u16]) {
    print!("{word}");
    for x in numbers {
        print!(" {x}");
    }
    println!();
}

/// The order of an operation with each other one.
fn print_orders(file: &[u8], operations: u32, a: u32) -> Result<(), Refusal> {
    print!("orders of {a}:");
    for b in (0..operations).filter(|&b| b != a) {
        print!(" {}", mersohki::pair_order(file, a, b)?);
    }
    println!();
    Ok(())
}

/// Why a and b, two operations of a trace of n, race.
fn print_witness(file: &[u8], n: usize, a: u16, b: u16) -> Result<(), Refusal> {
    let mut table = [0; MAX_TABLE];
    let counts = mersohki::order_table(file, &mut table)?;
    let workers = counts.workers as usize;
    for k in [a, b] {
        let row = &table[k as usize * workers..][..workers];
        print_orders(file, counts.operations, k.into())?;
        print_numbers(&format!("row of {k}:"), row);
    }

    let (mut first, mut second) = (vec![0; n], vec![0; n]);
    let length = mersohki::two_runs(file, a.into(), b.into(), &mut first, &mut second)? as usize;
    let part = mersohki::beginning(&first, &second, b.into(), a.into());
    print_numbers("run:", &first[..length]);
    print_numbers("run:", &second[..length]);
    print_numbers("beginning:", part);
    Ok(())
}

fn print_races(file: &[u8]) -> Result<(), Refusal> {
    let counts = mersohki::accept(file)?;
    let n = counts.operations as usize;
    let mut table = vec![0; n * counts.workers as usize];
    let (mut lower, mut higher) = ([0; RACE_SPACE], [0; RACE_SPACE]);
    let listed = mersohki::races(file, &mut table, &mut lower, &mut higher)?;

    println!("ops {} workers {}", listed.operations, listed.workers);
    for i in 0..listed.races as usize {
        println!("race {} {}", lower[i], higher[i]);
    }
    println!("races {}", listed.races);
    if listed.races > 0 {
        print_witness(file, n, lower[0], higher[0])?;
    }

    let mut output = [0; MAX_FILE];
    let size = mersohki::canonical(file, &mut output)? as usize;
    let same = output[..size] == *file;
    println!("tidy: {size} {}", if same { "same" } else { "other" });
    Ok(())
}

fn main() {
    let arguments: Vec<_> = std::env::args_os().skip(1).collect();
    let [name] = &arguments[..] else {
        eprintln!("usage: example TRACE");
        std::process::exit(2);
    };
    let file = std::fs::read(name).unwrap_or_else(|e| {
        eprintln!("{}: {e}", std::path::Path::new(name).display());
        std::process::exit(2);
    });
    if let Err(refusal) = print_races(&file) {
        println!("{refusal}");
    }
}
