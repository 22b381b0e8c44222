//! The engine: the least cost of filling a capacity exactly, by digit scales.
//!
//! Of part j any whole amount 0 ..= range[j] is taken. A unit taken costs taken[j], a unit left costs left[j]. Every amount is written low
//! digit first: y = m + 2 y', where m is at most 1 or 2. The parts are first offered their digits m, a pass for each unit. Then only weights
//! of the capacity's parity matter; these are halved, costs are doubled, and the same is done with the amounts y'. So the array stays below
//! 4 times the sum of the weights, whatever the ranges. A divisor that the weights of all parts to come share is dropped with the parity. No
//! weight above the capacity is of use, nor one so low that all units to come cannot fill it.

/// 16 items and the slack.
pub const PARTS: usize = 17;

/// More than 4 * (16 * 1000 + 1) + 1, the most cells that are used.
const ARRAY: usize = 65_536;

/// No cap is above this: two costs are added without overflow.
pub const HIGHEST: u64 = i64::MAX as u64;

/// weight <= 1000 each; taken, left <= cap <= HIGHEST.
#[derive(Clone, Copy)]
pub struct Load {
    pub weight: [usize; PARTS],
    pub range: [u64; PARTS],
    pub taken: [u64; PARTS],
    pub left: [u64; PARTS],
    pub capacity: u64,
    pub cap: u64,
}

/// The array, and how often a cell was written.
#[derive(Default)]
pub struct Cells {
    array: Vec<u64>,
    pub written: u64,
}

/// The most that the lowest digit of an amount 0 ..= range can be.
fn digit(range: u64) -> u64 {
    if range == 0 {
        0
    } else {
        2 - range % 2
    }
}

fn gcd(a: usize, b: usize) -> usize {
    if b == 0 {
        a
    } else {
        gcd(b, a % b)
    }
}

impl Load {
    /// What all units weigh.
    fn heft(&self) -> u64 {
        (0..PARTS).map(|j| self.weight[j] as u64 * self.range[j]).sum()
    }

    /// What the weights of the parts that have units share; 1 if none has.
    fn shared(&self) -> usize {
        (0..PARTS).filter(|&j| self.range[j] > 0).fold(0, |g, j| gcd(g, self.weight[j])).max(1)
    }
}

impl Cells {
    /// A unit that weighs w is offered to the first n cells, downwards; those from .. to are written.
    fn offer(&mut self, n: usize, w: usize, taken: u64, left: u64, cap: u64, from: usize, to: usize) {
        let cells = &mut self.array[..to.max(n)];
        let high = n.min(to);
        let low = w.max(from).min(high);
        for x in (high..to).rev() {
            cells[x] = if w <= x && x - w < n { (cells[x - w] + taken).min(cap) } else { cap };
        }
        if left == 0 {
            (low..high).rev().for_each(|x| cells[x] = cells[x].min(cells[x - w] + taken));
        } else if taken == 0 {
            (low..high).rev().for_each(|x| cells[x] = (cells[x] + left).min(cells[x - w]));
        } else {
            (low..high).rev().for_each(|x| cells[x] = (cells[x] + left).min(cells[x - w] + taken).min(cap));
        }
        cells[from..low].iter_mut().for_each(|c| *c = (*c + left).min(cap));
        self.written += (to - from) as u64;
    }

    /// The digits of all parts at this scale are offered to the first n cells; how many there are then.
    fn offer_all(&mut self, l: &Load, mut n: usize) -> usize {
        let mut heft = l.heft();
        for j in 0..PARTS {
            for _ in 0..digit(l.range[j]) {
                heft -= l.weight[j] as u64;
                let to = (n + l.weight[j]).min(l.capacity.saturating_add(1).min(ARRAY as u64) as usize);
                let from = n.min(l.capacity.saturating_sub(heft).min(ARRAY as u64) as usize);
                self.offer(n, l.weight[j], l.taken[j], l.left[j], l.cap, from, to);
                n = to;
            }
        }
        n
    }

    /// Of the first n cells every stride-th stays, from the first on; how many.
    fn thin(&mut self, n: usize, stride: usize, first: usize) -> usize {
        let kept = (n + stride - 1 - first) / stride;
        for x in 0..kept {
            self.array[x] = self.array[stride * x + first];
        }
        self.written += kept as u64;
        kept
    }

    /// The least cost of a choice that weighs exactly the capacity; cap if none costs less.
    pub fn least_cost(&mut self, mut l: Load) -> u64 {
        let mut n = 1;
        self.array.resize(ARRAY, 0);
        self.array[0] = 0;
        while l.range.iter().any(|&r| r > 0) {
            n = self.offer_all(&l, n);
            let capacity = l.capacity;
            let stride = coarser(&mut l);
            n = self.thin(n, stride, (capacity % stride as u64) as usize);
        }
        if l.capacity < n as u64 {
            self.array[l.capacity as usize]
        } else {
            l.cap
        }
    }
}

/// What is left to choose once the lowest digits are chosen, in units twice as large, and by weights without what they share; a unit of weight
/// is then so many as before.
fn coarser(l: &mut Load) -> usize {
    for j in 0..PARTS {
        l.range[j] = (l.range[j] - digit(l.range[j])) / 2;
        l.taken[j] = (2 * l.taken[j]).min(l.cap);
        l.left[j] = (2 * l.left[j]).min(l.cap);
    }
    let shared = l.shared();
    l.weight.iter_mut().for_each(|w| *w /= shared);
    l.capacity /= 2 * shared as u64;
    2 * shared
}
