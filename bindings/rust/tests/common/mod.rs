//! What the tests share: a source of numbers, memory with guards, and each C function as a step from what is lent to what
//! it holds afterwards.

#![allow(dead_code)] // no test uses all of it

use rangqoda::{ffi, Crc};

/// A xorshift generator: a seed repeats a run.
pub struct Random(u64);

impl Random {
    pub fn new(seed: u64) -> Random {
        Random(seed.wrapping_mul(0x9E37_79B9_7F4A_7C15) | 1)
    }

    pub fn next(&mut self) -> u64 {
        self.0 ^= self.0 << 13;
        self.0 ^= self.0 >> 7;
        self.0 ^= self.0 << 17;
        self.0.wrapping_mul(0x2545_F491_4F6C_DD1D)
    }

    /// A number below `bound`.
    pub fn below(&mut self, bound: u64) -> u64 {
        (self.next() >> 11) % bound
    }

    /// A number from `from` to `to`, both included.
    pub fn within(&mut self, from: usize, to: usize) -> usize {
        from + self.below((to - from + 1) as u64) as usize
    }

    /// True once in `times`.
    pub fn once_in(&mut self, times: u64) -> bool {
        self.below(times) == 0
    }

    pub fn pick<T: Clone>(&mut self, choices: &[T]) -> T {
        choices[self.below(choices.len() as u64) as usize].clone()
    }

    pub fn bytes(&mut self, len: usize) -> Vec<u8> {
        (0..len).map(|_| (self.next() >> 32) as u8).collect()
    }

    /// Bytes that are now and then all the same, as sums and remainders have their edges there.
    pub fn packet(&mut self, len: usize) -> Vec<u8> {
        match self.below(8) {
            0 => vec![0x00; len],
            1 => vec![0xFF; len],
            _ => self.bytes(len),
        }
    }

    /// A generator of this degree that is accepted.
    pub fn generator(&mut self, degree: u32) -> u64 {
        1 << degree | self.below(1 << degree) | 1
    }

    /// An accepted generator of any degree.
    pub fn any_generator(&mut self) -> u64 {
        let degree = self.within(3, 16) as u32;
        self.generator(degree)
    }

    /// The generator with initial and final values: both 0 as often as not, and now and then all ones.
    pub fn values(&mut self, generator: u64) -> Crc {
        let bound = top_bit(generator.max(1));
        let mut value = || match self.below(6) {
            0..=2 => 0,
            3 => bound - 1,
            _ => self.below(bound),
        };
        Crc { generator, init: value(), xorout: value() }
    }

    /// An accepted generator of any degree, one of a hundred, so that the tables of many a call are at hand.
    pub fn known_generator(&mut self) -> u64 {
        let degree = self.within(3, 16) as u32;
        match self.below(8) {
            0 if degree == 16 => 0x11021,
            0 if degree == 5 => 53,
            which => Random::new(100 * u64::from(degree) + which).generator(degree),
        }
    }

    /// `count` different positions below `length`, ascending.
    pub fn positions(&mut self, count: usize, length: usize) -> Vec<u16> {
        let mut positions = Vec::new();
        while positions.len() < count.min(length) {
            let position = self.below(length as u64) as u16;
            if !positions.contains(&position) {
                positions.push(position);
            }
        }
        positions.sort_unstable();
        positions
    }
}

/// Numbers that no generator is.
pub const UNFIT_GENERATORS: [u64; 16] = [
    0,
    1,
    2,
    7,
    8,
    52,
    0x11020,
    131072,
    131073,
    0x3FFFF,
    1 << 32 | 53,
    1 << 32 | 0x11021,
    1 << 63,
    1 << 63 | 53,
    u64::MAX,
    u64::MAX - 1,
];

/// 2^n, where n is the degree.
fn top_bit(generator: u64) -> u64 {
    1 << (63 - generator.leading_zeros())
}

/// The CRC with one of its values, or both, not below 2^n.
pub fn unfit_values(random: &mut Random, crc: Crc) -> Crc {
    let bound = top_bit(crc.generator);
    let mut unfit = || random.pick(&[bound, bound | 1, bound | bound << 1, 1 << 32, 1 << 32 | 1, 1 << 63, u64::MAX]);
    let (init, xorout) = (unfit(), unfit());
    match random.below(3) {
        0 => Crc { init, ..crc },
        1 => Crc { xorout, ..crc },
        _ => Crc { init, xorout, ..crc },
    }
}

/// Sizes at which a careless product, sum or cast wraps.
pub const HUGE: [usize; 10] = [
    usize::MAX,
    usize::MAX - 1,
    usize::MAX / 8,
    usize::MAX / 8 + 1,
    usize::MAX / 8 + 2,
    1 << 63,
    1 << 61,
    (1 << 61) + 2,
    1 << 32,
    (1 << 32) + 2,
];

const GUARD: usize = 32;

/// Memory that is lent with guards on both sides.
pub struct Guarded<T> {
    all: Vec<T>,
    len: usize,
}

fn guard<T: TryFrom<u8>>(i: usize) -> T {
    let byte = (i * 37 % 251) as u8 | 1;
    T::try_from(byte).ok().expect("a number holds a byte")
}

impl<T: TryFrom<u8> + Copy + PartialEq + std::fmt::Debug> Guarded<T> {
    pub fn new(content: &[T]) -> Guarded<T> {
        let mut all: Vec<T> = (0..GUARD).map(guard).collect();
        all.extend_from_slice(content);
        all.extend((0..GUARD).map(guard::<T>));
        Guarded { all, len: content.len() }
    }

    pub fn as_ptr(&self) -> *const T {
        self.all[GUARD..].as_ptr()
    }

    pub fn as_mut_ptr(&mut self) -> *mut T {
        self.all[GUARD..].as_mut_ptr()
    }

    /// What the memory holds, once it is seen that the guards stand.
    pub fn content(&self) -> &[T] {
        for i in 0..GUARD {
            assert_eq!(self.all[i], guard(i), "an element before the lent ones changed");
            assert_eq!(self.all[GUARD + self.len + i], guard(i), "an element behind the lent ones changed");
        }
        &self.all[GUARD..GUARD + self.len]
    }

    /// The same for memory that is lent to be read: it holds what it held.
    pub fn kept(&self, content: &[T]) {
        assert_eq!(self.content(), content, "memory that was lent to be read changed");
    }
}

/// What numbers hold that a call may write, before it.
pub const UNSET: u64 = 0xA5A5_5A5A_0F0F_F0F1;

// Each function below lends guarded memory, makes the call, and gives its answer with what may have changed.

pub fn remainder(crc: Crc, packet: &[u8]) -> (u32, u64) {
    let lent = Guarded::new(packet);
    let mut remainder = Guarded::new(&[UNSET]);
    let Crc { generator, init, xorout } = crc;
    let number = unsafe {
        ffi::rangqoda_remainder(generator, init, xorout, lent.as_ptr(), packet.len(), remainder.as_mut_ptr())
    };
    lent.kept(packet);
    (number, remainder.content()[0])
}

pub fn seal(crc: Crc, packet: &[u8]) -> (u32, Vec<u8>) {
    let mut lent = Guarded::new(packet);
    let Crc { generator, init, xorout } = crc;
    let number = unsafe { ffi::rangqoda_seal(generator, init, xorout, lent.as_mut_ptr(), packet.len()) };
    (number, lent.content().to_vec())
}

pub fn sum(bytes: &[u8]) -> u16 {
    let lent = Guarded::new(bytes);
    let sum = unsafe { ffi::rangqoda_sum(lent.as_ptr(), bytes.len()) };
    lent.kept(bytes);
    sum
}

pub fn stamp(generator: u64, start: usize, end: usize, field: usize, packet: &[u8]) -> (u32, Vec<u8>) {
    let mut lent = Guarded::new(packet);
    let number = unsafe { ffi::rangqoda_stamp(generator, start, end, field, lent.as_mut_ptr(), packet.len()) };
    (number, lent.content().to_vec())
}

/// What a packet is made from, apart from its length.
#[derive(Clone, Copy, Debug)]
pub struct MakeCall {
    pub crc: Crc,
    pub seed: u32,
    pub start: usize,
    pub end: usize,
    pub field: usize,
}

/// The answer, the packet and the state, which is `UNSET`'s low half before.
pub fn make(call: &MakeCall, packet: &[u8]) -> (u32, Vec<u8>, u32) {
    let mut lent = Guarded::new(packet);
    let mut state = Guarded::new(&[UNSET as u32]);
    let number = unsafe {
        ffi::rangqoda_make(
            call.crc.generator,
            call.crc.init,
            call.crc.xorout,
            call.seed,
            call.start,
            call.end,
            call.field,
            lent.as_mut_ptr(),
            packet.len(),
            state.as_mut_ptr(),
        )
    };
    (number, lent.content().to_vec(), state.content()[0])
}

#[derive(Clone, Copy, Debug)]
pub enum Way {
    Scatter,
    Gather,
}

pub const WAYS: [Way; 2] = [Way::Scatter, Way::Gather];

pub fn rearrange(way: Way, rows: usize, columns: usize, input: &[u8], output: &[u8]) -> (u32, Vec<u8>) {
    let call = match way {
        Way::Scatter => ffi::rangqoda_scatter,
        Way::Gather => ffi::rangqoda_gather,
    };
    let lent = Guarded::new(input);
    let mut written = Guarded::new(output);
    let number = unsafe { call(rows, columns, lent.as_ptr(), input.len(), written.as_mut_ptr(), output.len()) };
    lent.kept(input);
    (number, written.content().to_vec())
}

#[derive(Clone, Debug, PartialEq, Eq)]
pub struct Built {
    pub step: Vec<u16>,
    pub first: Vec<u16>,
    pub period: u64,
}

pub fn tables(generator: u64, before: &Built) -> (u32, Built) {
    let mut step = Guarded::new(&before.step);
    let mut first = Guarded::new(&before.first);
    let mut period = Guarded::new(&[before.period]);
    let number = unsafe {
        ffi::rangqoda_tables(
            generator,
            step.as_mut_ptr(),
            before.step.len(),
            first.as_mut_ptr(),
            before.first.len(),
            period.as_mut_ptr(),
        )
    };
    let after = Built { step: step.content().to_vec(), first: first.content().to_vec(), period: period.content()[0] };
    (number, after)
}

/// What is lent to a page call: what it reads, and what it may write.
#[derive(Clone, Debug)]
pub struct PageCall<'a> {
    pub generator: u64,
    pub length: usize,
    pub limit: usize,
    pub syndrome: u64,
    pub step: &'a [u16],
    pub first: &'a [u16],
}

#[derive(Clone, Debug, PartialEq, Eq)]
pub struct PageLent {
    pub mark: Vec<u8>,
    pub output: Vec<u8>,
    pub used: usize,
    pub written: u64,
}

impl PageLent {
    pub fn new(mark: Vec<u8>, output: Vec<u8>) -> PageLent {
        PageLent { mark, output, used: UNSET as usize, written: UNSET }
    }
}

pub fn page(call: &PageCall<'_>, before: &PageLent) -> (u32, PageLent) {
    let step = Guarded::new(call.step);
    let first = Guarded::new(call.first);
    let mut mark = Guarded::new(&before.mark);
    let mut output = Guarded::new(&before.output);
    let mut used = Guarded::new(&[before.used]);
    let mut written = Guarded::new(&[before.written]);
    let number = unsafe {
        ffi::rangqoda_page(
            call.generator,
            call.length,
            call.limit,
            call.syndrome,
            step.as_ptr(),
            call.step.len(),
            first.as_ptr(),
            call.first.len(),
            mark.as_mut_ptr(),
            before.mark.len(),
            output.as_mut_ptr(),
            before.output.len(),
            used.as_mut_ptr(),
            written.as_mut_ptr(),
        )
    };
    step.kept(call.step);
    first.kept(call.first);
    let after = PageLent {
        mark: mark.content().to_vec(),
        output: output.content().to_vec(),
        used: used.content()[0],
        written: written.content()[0],
    };
    (number, after)
}

/// What is lent to a repair: what it reads, and what it may write.
#[derive(Clone, Debug)]
pub struct RepairCall<'a> {
    pub crc: Crc,
    pub start: usize,
    pub end: usize,
    pub field: usize,
    pub limit: usize,
    pub step: &'a [u16],
    pub first: &'a [u16],
    pub packet: &'a [u8],
}

#[derive(Clone, Debug, PartialEq, Eq)]
pub struct RepairLent {
    pub output: Vec<u8>,
    pub verdict: Vec<u8>,
}

pub fn repair(call: &RepairCall<'_>, before: &RepairLent) -> (u32, RepairLent) {
    let step = Guarded::new(call.step);
    let first = Guarded::new(call.first);
    let packet = Guarded::new(call.packet);
    let mut output = Guarded::new(&before.output);
    let mut verdict = Guarded::new(&before.verdict);
    let number = unsafe {
        ffi::rangqoda_repair(
            call.crc.generator,
            call.crc.init,
            call.crc.xorout,
            call.start,
            call.end,
            call.field,
            call.limit,
            step.as_ptr(),
            call.step.len(),
            first.as_ptr(),
            call.first.len(),
            packet.as_ptr(),
            call.packet.len(),
            output.as_mut_ptr(),
            before.output.len(),
            verdict.as_mut_ptr(),
            before.verdict.len(),
        )
    };
    step.kept(call.step);
    first.kept(call.first);
    packet.kept(call.packet);
    (number, RepairLent { output: output.content().to_vec(), verdict: verdict.content().to_vec() })
}

/// What is lent to a simulation: what it reads, and what it may write.
#[derive(Clone, Debug)]
pub struct SimulateCall<'a> {
    pub crc: Crc,
    pub seed: u32,
    pub start: usize,
    pub end: usize,
    pub field: usize,
    pub limit: usize,
    pub trials: u64,
    pub step: &'a [u16],
    pub first: &'a [u16],
}

#[derive(Clone, Debug, PartialEq, Eq)]
pub struct SimulateLent {
    pub packet: Vec<u8>,
    pub output: Vec<u8>,
    pub counts: Vec<u32>,
    pub state: u32,
}

pub fn simulate(call: &SimulateCall<'_>, before: &SimulateLent) -> (u32, SimulateLent) {
    let step = Guarded::new(call.step);
    let first = Guarded::new(call.first);
    let mut packet = Guarded::new(&before.packet);
    let mut output = Guarded::new(&before.output);
    let mut counts = Guarded::new(&before.counts);
    let mut state = Guarded::new(&[before.state]);
    let number = unsafe {
        ffi::rangqoda_simulate(
            call.crc.generator,
            call.crc.init,
            call.crc.xorout,
            call.seed,
            call.start,
            call.end,
            call.field,
            call.limit,
            call.trials,
            step.as_ptr(),
            call.step.len(),
            first.as_ptr(),
            call.first.len(),
            packet.as_mut_ptr(),
            before.packet.len(),
            output.as_mut_ptr(),
            before.output.len(),
            counts.as_mut_ptr(),
            before.counts.len(),
            state.as_mut_ptr(),
        )
    };
    step.kept(call.step);
    first.kept(call.first);
    let after = SimulateLent {
        packet: packet.content().to_vec(),
        output: output.content().to_vec(),
        counts: counts.content().to_vec(),
        state: state.content()[0],
    };
    (number, after)
}

pub fn publish(verdict: &[u8]) -> u32 {
    let lent = Guarded::new(verdict);
    let number = unsafe { ffi::rangqoda_publish(lent.as_ptr(), verdict.len()) };
    lent.kept(verdict);
    number
}
