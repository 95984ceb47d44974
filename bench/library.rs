//! Judges the bundle on standard input as often as the first word says.
use std::hint::black_box;
use std::io::Read;

fn main() {
    let mut bytes = Vec::new();
    std::io::stdin().read_to_end(&mut bytes).unwrap();
    let rounds: u64 = std::env::args().nth(1).unwrap().parse().unwrap();
    let good = (0..rounds).filter(|_| tcpclkit::verdict(black_box(&bytes)).fault.is_none());
    assert_eq!(good.count() as u64, rounds);
}
