// The baseline of trees.sh: the same keys in the standard library's B-tree, whose values are plain numbers.
use std::collections::BTreeMap;
use std::env;

fn key(what: &str, place: u64) -> u64 {
    if what == "rising" {
        place
    } else {
        place * 648_055 % (1 << 20)
    }
}

fn main() {
    let words: Vec<String> = env::args().skip(1).collect();
    let (what, count) = (words[0].as_str(), words[1].parse().unwrap());
    let mut tree: BTreeMap<u64, i128> = BTreeMap::new();
    for place in 0..count {
        tree.insert(key(what, place), 1);
    }
    if what == "removed" {
        for place in 0..count {
            let _gone = tree.remove(&key(what, place));
        }
    }
    println!("{} pairs, sum {}", tree.len(), tree.values().sum::<i128>());
}
