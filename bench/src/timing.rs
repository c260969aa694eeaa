//! Rounds: every contender in turn, on buffers whose offsets within a page
//! change from round to round.

use std::hint::black_box;
use std::slice;
use std::time::Instant;

const PAGE: usize = 4_096;
/// Offsets within a page of the input and of the output.
pub const OFFSETS: [(usize, usize); 9] = [
    (0, 0),
    (0, 64),
    (1, 0),
    (8, 2_049),
    (63, 17),
    (1_000, 3),
    (2_048, 2_048),
    (4_090, 1),
    (31, 4_095),
];
/// Rounds in all, a multiple of the number of offsets.
pub const ROUNDS: usize = 90;
/// About how long a contender runs in one round, in ns.
const SLICE: f64 = 2_000_000.0;
/// Room of the output: the largest that a case copies.
pub const ROOM: usize = 16_384;
/// Room of the two buffers, at a whole page each.
const BUFFER: usize = 8 * PAGE;

/// Something to be measured: given the input and the output, it runs once.
pub trait Contender {
    /// Runs so many times.
    fn run(&mut self, times: u64, input: &[u8], output: &mut [u8]);
}

impl<F: FnMut(&[u8], &mut [u8])> Contender for F {
    fn run(&mut self, times: u64, input: &[u8], output: &mut [u8]) {
        for _ in 0..times {
            self(hidden(input), hidden_mut(output));
        }
    }
}

/// The same slice, not known to the compiler. Pointer and length are hidden one
/// by one: a pair goes through memory, and is waited for there.
pub fn hidden<T>(bytes: &[T]) -> &[T] {
    // SAFETY: the slice's own pointer and length.
    unsafe { slice::from_raw_parts(black_box(bytes.as_ptr()), black_box(bytes.len())) }
}

/// As `hidden`.
fn hidden_mut(bytes: &mut [u8]) -> &mut [u8] {
    // SAFETY: as above.
    unsafe { slice::from_raw_parts_mut(black_box(bytes.as_mut_ptr()), black_box(bytes.len())) }
}

/// Copies so many bytes, the number not known to the compiler.
pub fn copy(from: &[u8], to: &mut [u8], count: usize) {
    let count = black_box(count).min(from.len()).min(to.len());
    // SAFETY: both slices have so many bytes, and don't overlap.
    unsafe { std::ptr::copy_nonoverlapping(from.as_ptr(), to.as_mut_ptr(), count) };
}

/// Best and median, in ns for one run.
#[derive(Clone, Copy, Debug)]
pub struct Measured {
    /// The best round.
    pub best: f64,
    /// The median of the rounds.
    pub median: f64,
}

/// Measures the contenders side by side on the same input.
pub fn measure<const N: usize>(input: &[u8], contenders: [&mut dyn Contender; N]) -> [Measured; N] {
    let mut buffers = Buffers::new(input);
    let mut times = contenders.map(|contender| (contender, vec![], 1));
    for (contender, _, count) in &mut times {
        *count = calibrate(*contender, &mut buffers);
    }
    for round in 0..ROUNDS {
        let offsets = OFFSETS[round % OFFSETS.len()];
        for (contender, rounds, count) in &mut times {
            rounds.push(buffers.time(*contender, *count, offsets));
        }
    }
    times.map(|(_, rounds, _)| summed_up(rounds))
}

/// How many runs fill a slice.
fn calibrate(contender: &mut dyn Contender, buffers: &mut Buffers) -> u64 {
    let mut count = 1;
    loop {
        let one = buffers.time(contender, count, OFFSETS[0]);
        if one * count as f64 > SLICE / 4.0 {
            return ((SLICE / one) as u64).max(1);
        }
        count *= 2;
    }
}

fn summed_up(mut rounds: Vec<f64>) -> Measured {
    rounds.sort_by(f64::total_cmp);
    Measured {
        best: rounds[0],
        median: rounds[rounds.len() / 2],
    }
}

/// The two buffers.
struct Buffers<'a> {
    input: &'a [u8],
    from: Vec<u8>,
    to: Vec<u8>,
}

impl Buffers<'_> {
    fn new(input: &[u8]) -> Buffers<'_> {
        Buffers {
            input,
            from: vec![0; BUFFER],
            to: vec![0; BUFFER],
        }
    }

    /// The ns of one of so many runs at these offsets.
    fn time(&mut self, contender: &mut dyn Contender, count: u64, offsets: (usize, usize)) -> f64 {
        let from = page_start(&self.from) + offsets.0;
        let to = page_start(&self.to) + offsets.1;
        let input = &mut self.from[from..from + self.input.len()];
        input.copy_from_slice(self.input);
        let output = &mut self.to[to..to + ROOM];
        contender.run(count / 16 + 1, input, output);
        let started = Instant::now();
        contender.run(count, input, output);
        started.elapsed().as_nanos() as f64 / count as f64
    }
}

/// The first place of the buffer where a page begins.
fn page_start(buffer: &[u8]) -> usize {
    buffer.as_ptr().align_offset(PAGE)
}
