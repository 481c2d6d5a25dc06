//! The benchmark, `bench.sh` at the repository's root: all its tables, or those that are named.

use baizeridge_tests::benchmark::{calls, cost, growth, tail, COUNTED};

const TABLES: [(&str, fn()); 4] =
    [(cost::NAME, cost::print), (growth::NAME, growth::print), (tail::NAME, tail::print), (calls::NAME, calls::print)];

fn main() {
    let arguments: Vec<String> = std::env::args().skip(1).collect();
    let words: Vec<&str> = arguments.iter().map(|word| &word[..]).collect();
    match words[..] {
        [COUNTED, cost::NAME] => cost::count(),
        [COUNTED, growth::NAME] => growth::count(),
        _ => tables(&words),
    }
}

fn tables(names: &[&str]) {
    if let Some(other) = names.iter().find(|&name| TABLES.iter().all(|(table, _)| table != name)) {
        eprintln!("no table {other}: there are cost, growth, tail and calls");
        std::process::exit(2);
    }
    for (_, print) in TABLES.iter().filter(|(table, _)| names.is_empty() || names.contains(table)) {
        print();
        println!();
    }
}
