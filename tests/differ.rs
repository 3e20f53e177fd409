//! Every operation of the library beside the model (model.rs), on many thousand inputs, legal and damaged: answers, places, results and whole buffers.
//!
//! The library is called through the crate `probe`. Some seeds are the same in every run; one more comes from the clock, or is the argument, and is printed.

mod model;
#[path = "differ/appending.rs"]
mod appending;
#[path = "differ/border.rs"]
mod border;
#[path = "differ/codec.rs"]
mod codec;
#[path = "differ/dense.rs"]
mod dense;
#[path = "differ/encodings.rs"]
mod encodings;
#[path = "differ/every.rs"]
mod every;
#[path = "differ/index.rs"]
mod index;
#[path = "differ/ledger.rs"]
mod ledger;
#[path = "differ/listing.rs"]
mod listing;
#[path = "differ/random.rs"]
mod random;
#[path = "differ/replacing.rs"]
mod replacing;
#[path = "differ/text.rs"]
mod text;
#[path = "differ/words.rs"]
mod words;

use border::Border;
use codec::Codec;
use index::Indexing;
use ledger::Ledger;
use listing::Listing;
use random::Random;

/// Random cases of each kind for one seed.
const ROWS: usize = 6_000;
const ENCODINGS: usize = 10_000;
const DENSE: usize = 10_000;
const INDEXES: usize = 6_000;
const LISTINGS: usize = 6_000;

fn round(border: &mut Border, ledger: &mut Ledger, seed: u64) {
    ledger.begin(seed);
    let mut random = Random::new(seed);
    let mut codec = Codec { border, ledger, random: &mut random };
    for _ in 0..ROWS {
        codec.row_case();
    }
    for _ in 0..ENCODINGS {
        codec.encoding_case();
    }
    for _ in 0..DENSE {
        codec.dense_case();
    }
    let mut indexing = Indexing { border, ledger, random: &mut random };
    for _ in 0..INDEXES {
        indexing.case();
    }
    let mut listing = Listing { border, ledger, random: &mut random };
    for _ in 0..LISTINGS {
        listing.case();
    }
}

/// What does not depend on a seed: of the codec, and of the index and the listing.
fn fixed_codec(border: &mut Border, ledger: &mut Ledger) {
    ledger.begin(0);
    let mut random = Random::new(0);
    let mut codec = Codec { border, ledger, random: &mut random };
    codec.every();
    codec.limits();
    codec.words();
    codec.appending();
    codec.replacing();
    codec.dense();
}

fn fixed_index(border: &mut Border, ledger: &mut Ledger) {
    ledger.begin(0);
    let mut random = Random::new(0);
    let mut indexing = Indexing { border, ledger, random: &mut random };
    indexing.small_rows();
    indexing.small_strings();
    indexing.visits();
    indexing.large_rows();
    indexing.limits();
    let mut listing = Listing { border, ledger, random: &mut random };
    listing.fixed();
}

/// The argument, or a number from the clock.
fn last_seed() -> u64 {
    if let Some(word) = std::env::args().nth(1) {
        return word.parse().unwrap_or_else(|_| {
            println!("tests/differ: {word} is no seed: a number of 64 bits is");
            std::process::exit(2)
        });
    }
    let since = std::time::SystemTime::now().duration_since(std::time::UNIX_EPOCH).unwrap();
    since.as_nanos() as u64
}

fn main() {
    let seed = last_seed();
    println!("tests/differ: the seed of this run is {seed}");
    // two threads, each on buffers of its own
    let beside = std::thread::Builder::new().stack_size(8 << 20).spawn(|| {
        let (mut border, mut ledger) = (Border::new(), Ledger::new());
        fixed_codec(&mut border, &mut ledger);
        ledger
    });
    let (mut border, mut ledger) = (Border::new(), Ledger::new());
    fixed_index(&mut border, &mut ledger);
    for seed in [1, 2, 3, seed] {
        round(&mut border, &mut ledger, seed);
    }
    match beside.map(|thread| thread.join()) {
        Ok(Ok(other)) => ledger.add(&other),
        _ => std::process::exit(1),
    }
    if !ledger.end() {
        std::process::exit(1);
    }
}
