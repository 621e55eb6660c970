//! What the instrumented library reports: a counter of 8 bits for each edge, and a table of the places they count.

use std::sync::atomic::{AtomicPtr, AtomicUsize, Ordering::Relaxed};

static COUNTERS: AtomicPtr<u8> = AtomicPtr::new(std::ptr::null_mut());
static EDGES: AtomicUsize = AtomicUsize::new(0);
static PLACES: AtomicPtr<Place> = AtomicPtr::new(std::ptr::null_mut());

/// An entry of the table: the address, and 1 where a function begins.
#[repr(C)]
#[derive(Clone, Copy)]
pub struct Place {
    pub address: usize,
    pub begins: usize,
}

/// The library calls it before `main`.
#[unsafe(no_mangle)]
extern "C" fn __sanitizer_cov_8bit_counters_init(start: *mut u8, stop: *mut u8) {
    COUNTERS.store(start, Relaxed);
    EDGES.store(stop as usize - start as usize, Relaxed);
}

#[unsafe(no_mangle)]
extern "C" fn __sanitizer_cov_pcs_init(start: *mut Place, _stop: *mut Place) {
    PLACES.store(start, Relaxed);
}

/// The table, one entry an edge.
pub fn places() -> &'static [Place] {
    unsafe { std::slice::from_raw_parts(PLACES.load(Relaxed), EDGES.load(Relaxed)) }
}

pub fn edges() -> usize {
    EDGES.load(Relaxed)
}

/// Before a call of the library: nothing is counted.
pub fn begin() {
    unsafe { COUNTERS.load(Relaxed).write_bytes(0, edges()) }
}

/// What calls have shown so far: for each edge a bit for each bucket of hits within one call.
pub struct Seen {
    buckets: Vec<u8>,
    pub edges: usize,
    pub features: usize,
}

impl Seen {
    pub fn new() -> Seen {
        Seen { buckets: vec![0; edges()], edges: 0, features: 0 }
    }

    /// After a call of the library: whether it went a new way.
    pub fn end(&mut self) -> bool {
        let counters = unsafe { std::slice::from_raw_parts(COUNTERS.load(Relaxed), edges()) };
        let before = self.features;
        for (seen, &hits) in self.buckets.iter_mut().zip(counters) {
            if hits == 0 {
                continue;
            }
            let bucket = bucket(hits);
            if *seen & bucket == 0 {
                self.edges += usize::from(*seen == 0);
                self.features += 1;
                *seen |= bucket;
            }
        }
        self.features != before
    }

    pub fn covers(&self, edge: usize) -> bool {
        self.buckets[edge] != 0
    }
}

/// 1, 2, 3, 4 to 7, 8 to 15, 16 to 31, 32 to 127 and more: one bit each.
fn bucket(hits: u8) -> u8 {
    match hits {
        0..=3 => 1 << (hits - 1),
        4..=7 => 8,
        8..=15 => 16,
        16..=31 => 32,
        32..=127 => 64,
        128.. => 128,
    }
}
