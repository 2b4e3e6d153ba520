//! Finds filter.rs of arrow-select 60.1.0 at the path that FILTER_RS names, makes sure by its SHA-256 that it is that file,
//! and hands it to the compiler unchanged. A copy stands in the build's own folder only.
use std::{env, fs, path::PathBuf, process};

const SHA256: &str = "99f2ef1a6373917f630eade43b233dc0445ad36dcce8515002422e6594ca4a14";
/// Where the file stands if FILTER_RS is not set. Both are paths from the repository's root.
const DEFAULT: &str = "../shared/docs/src/src--src--filter.rs.txt";

fn main() {
    println!("cargo::rerun-if-env-changed=FILTER_RS");
    let here = PathBuf::from(env::var_os("CARGO_MANIFEST_DIR").unwrap());
    // host/stand/arrow_select
    let root = here.ancestors().nth(3).unwrap();
    let path = root.join(env::var_os("FILTER_RS").unwrap_or(DEFAULT.into()));
    println!("cargo::rerun-if-changed={}", path.display());
    let bytes = fs::read(&path).unwrap_or_else(|e| {
        fail(format!("filter.rs of arrow-select 60.1.0 is not at {} ({e}): name its path in FILTER_RS", path.display()))
    });
    if sha256(&bytes) != SHA256 {
        fail(format!("{} is not filter.rs of arrow-select 60.1.0: its SHA-256 is not {SHA256}", path.display()));
    }
    let out = PathBuf::from(env::var_os("OUT_DIR").unwrap());
    let copy = out.join("filter.rs");
    fs::write(&copy, bytes).unwrap();
    fs::write(out.join("module.rs"), format!("#[path = {copy:?}]\npub mod filter;\n")).unwrap();
}

fn fail(line: String) -> ! {
    eprintln!("{line}");
    process::exit(1);
}

/// FIPS 180-4, in hex.
fn sha256(message: &[u8]) -> String {
    let primes: Vec<u128> = (2..312).filter(|n| (2..*n).all(|d| n % d != 0)).collect();
    // the first 32 bits behind the point of square and cube roots
    let mut h: Vec<u32> = primes[..8].iter().map(|p| root(p << 64, 2)).collect();
    let k: Vec<u32> = primes[..64].iter().map(|p| root(p << 96, 3)).collect();

    let mut padded = message.to_vec();
    padded.push(0x80);
    while padded.len() % 64 != 56 {
        padded.push(0);
    }
    padded.extend((message.len() as u64 * 8).to_be_bytes());

    for block in padded.chunks(64) {
        let mut w: Vec<u32> = block.chunks(4).map(|b| u32::from_be_bytes(b.try_into().unwrap())).collect();
        for t in 16..64 {
            let s0 = w[t - 15].rotate_right(7) ^ w[t - 15].rotate_right(18) ^ (w[t - 15] >> 3);
            let s1 = w[t - 2].rotate_right(17) ^ w[t - 2].rotate_right(19) ^ (w[t - 2] >> 10);
            w.push(w[t - 16].wrapping_add(s0).wrapping_add(w[t - 7]).wrapping_add(s1));
        }
        let mut v = h.clone();
        for t in 0..64 {
            let s1 = v[4].rotate_right(6) ^ v[4].rotate_right(11) ^ v[4].rotate_right(25);
            let choice = (v[4] & v[5]) ^ (!v[4] & v[6]);
            let t1 = v[7].wrapping_add(s1).wrapping_add(choice).wrapping_add(k[t]).wrapping_add(w[t]);
            let s0 = v[0].rotate_right(2) ^ v[0].rotate_right(13) ^ v[0].rotate_right(22);
            let majority = (v[0] & v[1]) ^ (v[0] & v[2]) ^ (v[1] & v[2]);
            v.rotate_right(1);
            v[4] = v[4].wrapping_add(t1);
            v[0] = t1.wrapping_add(s0).wrapping_add(majority);
        }
        h.iter_mut().zip(v).for_each(|(h, v)| *h = h.wrapping_add(v));
    }
    h.iter().map(|h| format!("{h:08x}")).collect()
}

/// The low 32 bits of the greatest number whose power is at most `n`.
fn root(n: u128, power: u32) -> u32 {
    let mut found = 0u128;
    for bit in (0..40).rev() {
        let next = found | 1 << bit;
        if next.pow(power) <= n {
            found = next;
        }
    }
    found as u32
}
