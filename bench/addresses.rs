// Rust's std::net on what `ipam_bench` measures: with a number, prints so many mixed addresses; else reads the
// addresses of standard input, and prints them, with the same sum and the same number of bytes.
use std::fmt::Write;
use std::io::Read;
use std::net::{IpAddr, Ipv4Addr, Ipv6Addr};
use std::time::Instant;

struct Draws(u64);

impl Draws {
    fn next_bits(&mut self) -> u32 {
        self.0 = self.0.wrapping_mul(6364136223846793005).wrapping_add(1442695040888963407);
        (self.0 >> 33) as u32
    }
}

fn print_mixed(count: u32) {
    let mut draws = Draws(1);
    for place in 0..count {
        if place % 2 == 0 {
            println!("{}", Ipv4Addr::from(draws.next_bits()));
        } else {
            let high = u128::from(draws.next_bits());
            let low = u128::from(draws.next_bits());
            println!("{}", Ipv6Addr::from((0x2001_0db8 << 96) + (high << 33) + low));
        }
    }
}

fn main() {
    if let Some(count) = std::env::args().nth(1) {
        return print_mixed(count.parse().unwrap());
    }
    let mut lines = String::new();
    std::io::stdin().read_to_string(&mut lines).unwrap();
    let texts: Vec<&str> = lines.lines().collect();

    let start = Instant::now();
    let mut sum = 0u64;
    for text in &texts {
        if let Ok(addr) = text.parse::<IpAddr>() {
            let number = match addr {
                IpAddr::V4(addr) => u128::from(u32::from(addr)),
                IpAddr::V6(addr) => u128::from(addr),
            };
            sum = sum.wrapping_add((number & 0xffff_ffff) as u64);
        }
    }
    eprintln!("{} ns", start.elapsed().as_nanos());
    println!("{sum}");

    let all: Vec<IpAddr> = texts.iter().map(|text| text.parse().unwrap()).collect();
    let start = Instant::now();
    let mut bytes = 0u64;
    let mut text = String::with_capacity(64);
    for addr in &all {
        text.clear();
        write!(text, "{addr}").unwrap();
        bytes = bytes.wrapping_add(text.len() as u64);
    }
    eprintln!("{} ns", start.elapsed().as_nanos());
    println!("{bytes}");
}
