//! What the original takes from the allocator at most, over what was taken before the call. A program of its own, for counting costs time.

use oracle::cases::{slices, unbundle};
use oracle::growth::{half_live, name, unit, FAMILIES};
use oracle::judge::{measured, Setting};
use oracle::order;
use std::alloc::{GlobalAlloc, Layout, System};
use std::sync::atomic::{AtomicUsize, Ordering::Relaxed};

const USAGE: &str = "usage: peak SIZE [BUNDLE ..]: of each family's unit of this size, and of each bundle with about half of its addresses dead";

static NOW: AtomicUsize = AtomicUsize::new(0);
static MOST: AtomicUsize = AtomicUsize::new(0);

struct Counting;

unsafe impl GlobalAlloc for Counting {
    unsafe fn alloc(&self, layout: Layout) -> *mut u8 {
        MOST.fetch_max(NOW.fetch_add(layout.size(), Relaxed) + layout.size(), Relaxed);
        System.alloc(layout)
    }

    unsafe fn dealloc(&self, block: *mut u8, layout: Layout) {
        NOW.fetch_sub(layout.size(), Relaxed);
        System.dealloc(block, layout)
    }
}

#[global_allocator]
static ALLOCATOR: Counting = Counting;

fn main() {
    let mut args = std::env::args().skip(1);
    let Some(size) = args.next().and_then(|n| n.parse().ok()) else {
        eprintln!("{USAGE}");
        std::process::exit(2)
    };
    let files: Vec<String> = args.collect();
    let run = move || {
        let families = FAMILIES.iter().map(|f| (f.0.to_string(), size, unit(f.0, size, order::Layout::new(false, false, false)).expect("a family")));
        let bundles = files.iter().map(|f| (name(f), 0, half_live(unbundle(&std::fs::read(f).expect(f)).expect(f))));
        for (name, size, parts) in families.chain(bundles) {
            let before = NOW.load(Relaxed);
            MOST.store(before, Relaxed);
            let answer = measured(slices(&parts), Setting::default());
            let most = MOST.load(Relaxed) - before;
            println!("peak\t{name}\t{size}\t{}\t{most}", if answer.is_some() { "answered" } else { "refused" });
        }
    };
    std::thread::Builder::new().stack_size(1 << 30).spawn(run).expect("a thread").join().expect("an answer");
}
