// What rules decide, by a look at each in turn: the program that bench/policy times beside this repository's.
// Its words are those behind `benches policy`: a family and how many addresses are asked about. It prints how many nanoseconds
// reading took, how many all questions took together, and the sum of the lines of the rules that decided.
use std::time::Instant;

struct Rule {
    usage: u8,
    family: u8,
    low: u128,
    high: u128,
    least: u16,
    greatest: u16,
    allow: bool,
}

const USES: [&str; 8] =
    ["tcp-bind", "tcp-listen", "tcp-accept", "tcp-connect", "udp-bind", "udp-send", "udp-receive", "any"];

fn rule(line: &str) -> Rule {
    let fields: Vec<&str> = line.split(' ').collect();
    let number = |at: usize| fields[at].parse::<u128>().unwrap();
    let usage = USES.iter().position(|word| *word == fields[1]).unwrap() as u8;
    let (family, address, bits, len, rest) = match fields[2] {
        "any" => (0, 0, 128, 0, 3),
        "4" => (4, (3..7).fold(0, |all, at| all << 8 | number(at)), 32, number(7), 8),
        _ => (6, (3..11).fold(0, |all, at| all << 16 | number(at)), 128, number(11), 12),
    };
    let last = if bits - len as u32 == 128 { u128::MAX } else { (1 << (bits - len as u32)) - 1 };
    Rule {
        usage,
        family,
        low: address & !last,
        high: address | last,
        least: number(rest) as u16,
        greatest: number(rest + 1) as u16,
        allow: fields[0] == "allow",
    }
}

#[inline(never)]
fn decide(rules: &[Rule], family: u8, address: u128, port: u16, usage: u8) -> (bool, u32) {
    for (at, rule) in rules.iter().enumerate() {
        if (rule.usage == 7 || rule.usage == usage)
            && (rule.family == 0 || rule.family == family)
            && rule.least <= port
            && port <= rule.greatest
            && rule.low <= address
            && address <= rule.high
        {
            return (rule.allow, at as u32 + 1);
        }
    }
    (false, 0)
}

fn main() {
    let words: Vec<String> = std::env::args().collect();
    let family: u8 = words[1].parse().unwrap();
    let count: u32 = words[2].parse().unwrap();
    let start = Instant::now();
    let text = std::fs::read_to_string("rules.txt").unwrap();
    let rules: Vec<Rule> = text.lines().map(rule).collect();
    let read = start.elapsed();
    let start = Instant::now();
    let (mut state, mut sum) = (1u64, 0u64);
    for _ in 0..count {
        state = state.wrapping_mul(6364136223846793005).wrapping_add(1442695040888963407);
        let port = (state >> 16) as u16;
        let address = if family == 6 {
            0xfd00 << 112 | ((state >> 32) as u128) << 80 | 1
        } else {
            10 << 24 | (state >> 40) as u128
        };
        sum += u64::from(decide(&rules, family, address, port, 3).1);
    }
    println!("{} {} {sum}", read.as_nanos(), start.elapsed().as_nanos());
}
