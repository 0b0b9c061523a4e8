//! What `bench/tables` asks its hash maps, asked of Rust's own hash map and of a sorted list that is searched by halving: it reads the same lines,
//! takes the first address of each entry as a key, and prints at each line `measure` how many keys there were, how many were asked for, how many of
//! these are there, and the nanoseconds that the map and the list took in all. `bench/tables` compiles it by `rustc -O`.
use std::collections::HashMap;
use std::io::Read;
use std::net::IpAddr;
use std::time::Instant;

fn number(text: &str) -> u128 {
    match text.parse().expect("an address") {
        IpAddr::V4(address) => u128::from(address.to_bits()),
        IpAddr::V6(address) => address.to_bits(),
    }
}

/// How many of these are there by the test, and the nanoseconds of all tests.
fn timed(asked: &[u128], is_there: impl Fn(&u128) -> bool) -> (usize, u128) {
    let start = Instant::now();
    let there = asked.iter().filter(|key| is_there(key)).count();
    (there, start.elapsed().as_nanos())
}

fn main() {
    let mut text = String::new();
    std::io::stdin().read_to_string(&mut text).expect("text");
    let (mut keys, mut asked) = (Vec::new(), Vec::new());
    for line in text.lines() {
        if let Some(network) = line.strip_prefix("t ") {
            keys.push(number(network.split('/').next().expect("an address")));
        } else if let Some(address) = line.strip_prefix("k ") {
            asked.push(number(address));
        } else if line == "measure" {
            let map: HashMap<u128, bool> = keys.iter().map(|key| (*key, true)).collect();
            let mut sorted = keys.clone();
            sorted.sort();
            let (there, mapped) = timed(&asked, |key| map.contains_key(key));
            let (also_there, halved) = timed(&asked, |key| sorted.binary_search(key).is_ok());
            assert_eq!(there, also_there);
            println!("{} {} {there} {mapped} {halved}", keys.len(), asked.len());
            keys.clear();
            asked.clear();
        }
    }
}
