// The baseline: all group-by summaries of a chunk file by the same multi-way method, in plain Rust without proofs. Written to be fast.
// Usage: baseline FILE LETTER ROUNDS. Prints, for the fastest of the rounds: cells per second, nanoseconds in joins, blocks, and a check number.
use std::time::{Duration, Instant};

trait Measure: Copy {
    const EMPTY: Self;
    fn lift(reading: u32) -> Self;
    fn join(self, other: Self) -> Self;
    fn check(self) -> u64;
}

#[derive(Clone, Copy)]
struct Total(u64, u64);
impl Measure for Total {
    const EMPTY: Total = Total(0, 0);
    fn lift(reading: u32) -> Total {
        Total(1, u64::from(reading))
    }
    #[inline(always)]
    fn join(self, other: Total) -> Total {
        Total(self.0.saturating_add(other.0), self.1.saturating_add(other.1))
    }
    fn check(self) -> u64 {
        self.0.wrapping_mul(31).wrapping_add(self.1)
    }
}

#[derive(Clone, Copy)]
struct Range(u32, u32);
impl Measure for Range {
    const EMPTY: Range = Range(u32::MAX, 0);
    fn lift(reading: u32) -> Range {
        Range(reading, reading)
    }
    #[inline(always)]
    fn join(self, other: Range) -> Range {
        Range(self.0.min(other.0), self.1.max(other.1))
    }
    fn check(self) -> u64 {
        u64::from(self.0).wrapping_mul(31).wrapping_add(u64::from(self.1))
    }
}

#[derive(Clone, Copy)]
struct Marks(u64);
impl Measure for Marks {
    const EMPTY: Marks = Marks(0);
    fn lift(reading: u32) -> Marks {
        Marks(1 << (reading % 64))
    }
    #[inline(always)]
    fn join(self, other: Marks) -> Marks {
        Marks(self.0 | other.0)
    }
    fn check(self) -> u64 {
        self.0
    }
}

// The highest reading.
const MOST: u32 = 16_777_215;

fn half(bytes: &[u8], at: usize) -> usize {
    usize::from(u16::from_le_bytes([bytes[at], bytes[at + 1]]))
}

fn word(bytes: &[u8], at: usize) -> u32 {
    u32::from_le_bytes([bytes[at], bytes[at + 1], bytes[at + 2], bytes[at + 3]])
}

// A group's region: where it begins, the strides of its cells, which dimensions it keeps whole, its children.
#[derive(Clone)]
struct Region {
    base: usize,
    len: usize,
    stride: [usize; 6],
    children: Vec<usize>,
    // the dimensions whose blocks the region holds side by side, first-changing first
    whole: Vec<usize>,
    // a block of the parent completes the region if it is the last along these dimensions
    last_along: Vec<usize>,
}

struct Cube<'a> {
    bytes: &'a [u8],
    n: usize,
    size: [usize; 6],
    edge: [usize; 6],
    count: [usize; 6],
    order: Vec<usize>,
    regions: Vec<Region>,
    need: usize,
    volume: usize,
}

impl<'a> Cube<'a> {
    fn open(bytes: &'a [u8]) -> Cube<'a> {
        let n = usize::from(bytes[1]);
        let (mut size, mut edge, mut count) = ([1; 6], [1; 6], [1; 6]);
        for i in 0..n {
            size[i] = word(bytes, 4 + 8 * i) as usize;
            edge[i] = word(bytes, 8 + 8 * i) as usize;
            count[i] = size[i] / edge[i];
        }
        let mut order: Vec<usize> = (0..n).collect();
        order.sort_by_key(|&i| (size[i] - edge[i], i));
        let volume = edge.iter().product();
        let mut cube = Cube { bytes, n, size, edge, count, order, regions: Vec::new(), need: 0, volume };
        cube.lay_out();
        cube
    }

    fn lay_out(&mut self) {
        let full = (1 << self.n) - 1;
        let mut regions: Vec<Region> = (0..=full)
            .map(|_| Region { base: 0, len: 1, stride: [0; 6], children: Vec::new(), whole: Vec::new(), last_along: Vec::new() })
            .collect();
        let mut base = 0;
        for mask in std::iter::once(full).chain(0..full) {
            let added = (0..self.n).map(|p| self.order[p]).position(|d| mask >> d & 1 == 0);
            let before: Vec<usize> = match added {
                Some(p) => self.order[..p].to_vec(),
                None => Vec::new(),
            };
            let mut len = 1;
            for d in (0..self.n).filter(|d| mask >> d & 1 == 1) {
                regions[mask].stride[d] = len;
                len *= if before.contains(&d) { self.size[d] } else { self.edge[d] };
            }
            regions[mask].base = base;
            regions[mask].len = len;
            regions[mask].whole = before.clone();
            base += len;
            if let Some(p) = added {
                regions[mask].last_along = self.order[..=p].to_vec();
                let up = mask | 1 << self.order[p];
                regions[up].children.push(mask);
            }
        }
        self.need = base;
        self.regions = regions;
    }

    fn fill<M: Measure>(&self, number: usize, root: &mut [M]) {
        let at = 4 + 8 * self.n + 8 * number;
        let from = word(self.bytes, at) as usize;
        let count = half(self.bytes, at + 4);
        root.fill(M::EMPTY);
        let sound = if self.bytes[at + 6] == 0 {
            self.fill_pairs(from, count, root)
        } else {
            self.fill_words(from, count, root)
        };
        if !sound {
            root.fill(M::EMPTY);
        }
    }

    fn fill_pairs<M: Measure>(&self, from: usize, count: usize, root: &mut [M]) -> bool {
        let mut low = 0;
        for pair in self.bytes[from..from + 6 * count].chunks_exact(6) {
            let (offset, reading) = (half(pair, 0), word(pair, 2));
            if offset < low || offset >= root.len() || reading > MOST {
                return false;
            }
            root[offset] = M::lift(reading);
            low = offset + 1;
        }
        true
    }

    fn fill_words<M: Measure>(&self, from: usize, count: usize, root: &mut [M]) -> bool {
        let mut filled = 0;
        for (cell, raw) in root.iter_mut().zip(self.bytes[from..].chunks_exact(4)) {
            let reading = word(raw, 0);
            if reading != u32::MAX {
                if reading > MOST {
                    return false;
                }
                *cell = M::lift(reading);
                filled += 1;
            }
        }
        filled == count
    }
}

struct Scan<'c, 'a, M> {
    cube: &'c Cube<'a>,
    cells: Vec<M>,
    block: Vec<M>,
    blocks: u64,
    check: u64,
    joining: Duration,
    timed: bool,
}

impl<M: Measure> Scan<'_, '_, M> {
    fn start(&self, region: &Region, chunk: &[usize; 6]) -> usize {
        region.base + region.whole.iter().map(|&d| chunk[d] * self.cube.edge[d] * region.stride[d]).sum::<usize>()
    }

    // Writes the block to the buffer, joins it into every child, and releases the children that it completes.
    fn release(&mut self, mask: usize, chunk: &[usize; 6]) {
        let cube = self.cube;
        let region = &cube.regions[mask];
        let from = self.start(region, chunk);
        let mut edges = [1; 6];
        for d in (0..cube.n).filter(|d| mask >> d & 1 == 1) {
            edges[d] = cube.edge[d];
        }
        let len: usize = edges.iter().product();
        let (cells, block) = (&self.cells, &mut self.block[..len]);
        let long = (0..6).find(|&d| edges[d] != 1).unwrap_or(0);
        let mut out = 0;
        rows(&edges, long, from, &region.stride, 0, &[0; 6], |a, _| {
            let row = &mut block[out..out + edges[long]];
            if region.stride[long] == 1 {
                row.copy_from_slice(&cells[a..a + edges[long]]);
            } else {
                for (l, cell) in row.iter_mut().enumerate() {
                    *cell = cells[a + l * region.stride[long]];
                }
            }
            out += edges[long];
        });
        self.blocks += 1;
        self.check = self.check.wrapping_mul(0x9E37_79B9_7F4A_7C15).wrapping_add(block[len - 1].check()) ^ block[0].check();
        for &child in &region.children {
            let below = &cube.regions[child];
            let to = self.start(below, chunk);
            let begun = self.timed.then(Instant::now);
            join(&mut self.cells, &edges, long, from, &region.stride, to, &below.stride);
            if let Some(begun) = begun {
                self.joining += begun.elapsed();
            }
            if below.last_along.iter().all(|&d| chunk[d] + 1 == cube.count[d]) {
                self.release_region(child, chunk);
            }
        }
    }

    fn release_region(&mut self, mask: usize, chunk: &[usize; 6]) {
        let cube = self.cube;
        let region = &cube.regions[mask];
        let mut at = *chunk;
        for &d in &region.last_along {
            at[d] = 0;
        }
        loop {
            self.release(mask, &at);
            let Some(&up) = region.whole.iter().find(|&&d| at[d] + 1 < cube.count[d]) else { break };
            for &d in region.whole.iter().take_while(|&&d| d != up) {
                at[d] = 0;
            }
            at[up] += 1;
        }
        self.cells[region.base..region.base + region.len].fill(M::EMPTY);
    }

    fn run(&mut self) {
        let cube = self.cube;
        let root = (1 << cube.n) - 1;
        let total: usize = cube.count.iter().product();
        let mut chunk = [0; 6];
        for _ in 0..total {
            let mut number = 0;
            for d in (0..cube.n).rev() {
                number = number * cube.count[d] + chunk[d];
            }
            cube.fill(number, &mut self.cells[..cube.volume]);
            self.release(root, &chunk);
            for &d in &cube.order {
                chunk[d] += 1;
                if chunk[d] < cube.count[d] {
                    break;
                }
                chunk[d] = 0;
            }
        }
    }
}

// Calls a function on the first cell of each row of a box, in two grids.
#[inline(always)]
fn rows(edges: &[usize; 6], long: usize, from: usize, fs: &[usize; 6], to: usize, ts: &[usize; 6], mut each: impl FnMut(usize, usize)) {
    let mut at = [0; 6];
    let (mut a, mut b) = (from, to);
    'rows: loop {
        each(a, b);
        for d in 0..6 {
            if d == long {
                continue;
            }
            if at[d] + 1 < edges[d] {
                at[d] += 1;
                a += fs[d];
                b += ts[d];
                continue 'rows;
            }
            a -= at[d] * fs[d];
            b -= at[d] * ts[d];
            at[d] = 0;
        }
        return;
    }
}

// Joins a box into another. Regions lie apart, the parent's above or below the child's.
fn join<M: Measure>(cells: &mut [M], edges: &[usize; 6], long: usize, from: usize, fs: &[usize; 6], to: usize, ts: &[usize; 6]) {
    let count = edges[long];
    rows(edges, long, from, fs, to, ts, |a, b| match (fs[long], ts[long]) {
        (1, 0) => {
            let mut sum = cells[b];
            for cell in &cells[a..a + count] {
                sum = sum.join(*cell);
            }
            cells[b] = sum;
        }
        (1, 1) => {
            let (above, below) = if a < b {
                let (low, high) = cells.split_at_mut(b);
                (&low[a..a + count], &mut high[..count])
            } else {
                let (low, high) = cells.split_at_mut(a);
                (&high[..count], &mut low[b..b + count])
            };
            for (below, above) in below.iter_mut().zip(above) {
                *below = below.join(*above);
            }
        }
        (f, t) => {
            for l in 0..count {
                cells[b + l * t] = cells[b + l * t].join(cells[a + l * f]);
            }
        }
    });
}

fn measure<M: Measure>(cube: &Cube, rounds: u32) {
    let mut best = Duration::MAX;
    let mut last = (0, 0);
    let scan = |timed| {
        let mut scan = Scan { cube, cells: vec![M::EMPTY; cube.need], block: vec![M::EMPTY; cube.volume], blocks: 0, check: 0, joining: Duration::ZERO, timed };
        let begun = Instant::now();
        scan.run();
        (begun.elapsed(), scan.blocks, scan.check, scan.joining)
    };
    for _ in 0..rounds {
        let (took, blocks, check, _) = scan(false);
        best = best.min(took);
        last = (blocks, check);
    }
    let (took, _, _, joining) = scan(true);
    let cells: usize = cube.size.iter().product();
    println!(
        "CELLS {} NEED {} BLOCKS {} NANOS {} RATE {:.0} JOINS {:.2} CHECK {:x}",
        cells,
        cube.need,
        last.0,
        best.as_nanos(),
        cells as f64 / best.as_secs_f64(),
        joining.as_secs_f64() / took.as_secs_f64(),
        last.1
    );
}

fn main() {
    let args: Vec<String> = std::env::args().collect();
    let bytes = std::fs::read(&args[1]).expect("a chunk file");
    let rounds = args[3].parse().expect("a number of rounds");
    let cube = Cube::open(&bytes);
    match args[2].as_str() {
        "T" => measure::<Total>(&cube, rounds),
        "R" => measure::<Range>(&cube, rounds),
        _ => measure::<Marks>(&cube, rounds),
    }
}
