//! How many cells a find of what is there looks at on average, with the hash of `open_addressing` at half load: each stride
//! from 1 to 65,536, and grids of VLANs times addresses.
//! `rustc -C opt-level=3 bench/probes.rs -o /tmp/probes && /tmp/probes`
const BITS: u32 = 15;
const KEYS: u64 = 16384;

fn home(key: u64) -> usize {
    let a = key.wrapping_mul(0xff51afd7ed558ccd);
    ((a ^ (a >> 32)).wrapping_mul(0xc4ceb9fe1a85ec53) >> (64 - BITS)) as usize
}

/// Puts the keys into cells, and answers how many cells were looked at for each on average. In whatever order keys come, all
/// of them together are as far from their homes.
fn average(used: &mut [bool], key_of: impl Fn(u64) -> u64) -> f64 {
    used.fill(false);
    let mut looked = 0u64;
    for i in 0..KEYS {
        let mut place = home(key_of(i));
        looked += 1;
        while used[place] {
            place = (place + 1) & (used.len() - 1);
            looked += 1;
        }
        used[place] = true;
    }
    looked as f64 / KEYS as f64
}

fn main() {
    let mut used = vec![false; 1 << BITS];
    let (mut worst, mut at) = (0.0, 0);
    for stride in 1..=65_536u64 {
        let now = average(&mut used, |i| (1 << 48 | 2 << 40) + i * stride);
        if now > worst {
            (worst, at) = (now, stride);
        }
    }
    println!("strides 1 to 65,536: at most {worst:.2}, at {at}");
    let (mut worst, mut at) = (0.0, (0, 0));
    for vlan_bits in 1..=12 {
        for step_bits in 0..=16 {
            let vlans = (1u64 << vlan_bits).min(4094);
            let now = average(&mut used, |i| (1 + i % vlans) << 48 | 2 << 40 | (i / vlans) << step_bits);
            if now > worst {
                (worst, at) = (now, (vlans, 1u64 << step_bits));
            }
        }
    }
    println!("grids: at most {worst:.2}, at {} VLANs times addresses {} apart", at.0, at.1);
}
