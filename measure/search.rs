// The searches of crates/lt_measure in plain Rust, by `partition_point` over sorted vectors.
//
//     rustc -O -C target-cpu=x86-64-v2 measure/search.rs -o search && ./search 1000
use std::cmp::Ordering;
use std::time::Instant;

const ROWS_A_KEY: u32 = 1000;

const SEARCHES: u32 = 1_000_000;

/// Rows of one size: room for eight cells in each, as lt_face has it.
#[derive(Clone, Copy)]
struct Wide {
    len: usize,
    cells: [u128; 8],
}

trait Cells {
    fn cells(&self) -> &[u128];
}

impl Cells for Wide {
    fn cells(&self) -> &[u128] {
        &self.cells[..self.len]
    }
}

impl Cells for [u128; 2] {
    fn cells(&self) -> &[u128] {
        self
    }
}

struct Random(u64);

impl Random {
    fn up_to(&mut self, limit: u32) -> u32 {
        self.0 = self.0.wrapping_mul(6364136223846793005).wrapping_add(1442695040888963407);
        (self.0 >> 33) as u32 % limit + 1
    }
}

fn at_least<'a, R: Cells>(rows: &'a [R], from: &[u128]) -> Option<&'a R> {
    rows.get(rows.partition_point(|row| row.cells().cmp(from) == Ordering::Less))
}

fn find_rows<R: Cells>(rows: &[R], keys: u32) -> u128 {
    let mut random = Random(1);
    let mut sum = 0u128;
    for _ in 0..SEARCHES {
        let from = [random.up_to(keys) as u128, random.up_to(ROWS_A_KEY) as u128];
        if let Some(found) = at_least(rows, &from) {
            sum += found.cells()[0] + found.cells()[1];
        }
    }
    sum
}

fn seek_keys<R: Cells>(rows: &[R], keys: u32) -> u128 {
    let mut random = Random(1);
    let mut sum = 0u128;
    for _ in 0..SEARCHES {
        if let Some(found) = at_least(rows, &[random.up_to(keys) as u128]) {
            sum += found.cells()[0];
        }
    }
    sum
}

fn walk_down<R: Cells>(rows: &[R], keys: u32) -> u128 {
    let mut random = Random(1);
    let mut sum = 0u128;
    for _ in 0..SEARCHES {
        let (a, b) = (random.up_to(keys) as u128, random.up_to(ROWS_A_KEY) as u128);
        let mut lowest = 0;
        for bound in [0, a] {
            lowest = at_least(rows, &[bound]).map_or(u128::MAX, |row| row.cells()[0]);
        }
        sum += lowest;
        for bound in [0, b] {
            lowest = at_least(rows, &[a, bound]).map_or(u128::MAX, |row| row.cells()[1]);
        }
        sum += lowest;
    }
    sum
}

fn measure<R: Cells>(layout: &str, rows: &[R], keys: u32) {
    let searches: [(&str, fn(&[R], u32) -> u128); 3] =
        [("at least", find_rows), ("seek", seek_keys), ("open, seek, open, seek", walk_down)];
    for (what, search) in searches {
        let start = Instant::now();
        let sum = search(rows, keys);
        let each = start.elapsed().as_nanos() / SEARCHES as u128;
        println!("{layout}, {what}: {each} ns (sum {sum})");
    }
}

fn main() {
    let keys = std::env::args().nth(1).and_then(|word| word.parse().ok()).unwrap_or(1000);
    let mut wide = Vec::new();
    let mut narrow = Vec::new();
    for a in 1..=keys as u128 {
        for b in 1..=ROWS_A_KEY as u128 {
            let mut cells = [0; 8];
            cells[..2].copy_from_slice(&[a, b]);
            wide.push(Wide { len: 2, cells });
            narrow.push([a, b]);
        }
    }
    measure("rows of eight", &wide, keys);
    measure("rows of two", &narrow, keys);
}
