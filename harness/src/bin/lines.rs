//! A random call list as a script: `lines SEED CALLS`. Calls that a script has no line for are left out.

use harness::calls::call_list;
use harness::script::line;

fn main() {
    let numbers: Vec<u64> = std::env::args().skip(1).flat_map(|a| a.parse()).collect();
    let [seed, calls] = numbers[..] else {
        eprintln!("usage: lines SEED CALLS");
        std::process::exit(2);
    };
    let lines: Vec<String> = call_list(seed, calls as usize)
        .into_iter()
        .filter_map(line)
        .collect();
    println!("{}", lines.join("\n"));
}
