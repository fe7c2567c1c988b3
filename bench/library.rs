// Calls the library through its C functions on random arrays, and compares each call with the
// crate of reference.rs: the number returned, and every word of the memory, answers and buffers.
//   library SEED COUNT
// makes COUNT calls, the same ones for the same seed, after some that were worked out by hand: puts of lent words, Repeats and Stops, front events, crate
// lines and steps in crates with modules two stations wide, commands to N24, 26, 28 and 30, transfers at the trigger processor's entry, windows, and
// memories that are not fit.
// Ends with 0 when none differs, with 1 at the first that does, after printing it; a call by hand that differs is a
// panic; 2 means that the two numbers were not given.
// What the calls have to do is written from document 01, requests L1, L3, L4 and L6 to L9 of document 02, include/pagontxu.h and docs/DECISIONS.md.

#[allow(dead_code)]
#[path = "reference.rs"]
mod reference;

use reference::{Answer, Crate, Entry, Kind, Module, Step, GARBLED, SHORT_BUFFER};
use std::fmt::Debug;

const UNFIT_CRATE: u32 = 9;
const NUMBERS: usize = 15; // 0 and the fourteen refusals
const MEMORY: usize = 768;
const BLOCK: usize = 32;
const STEP: usize = 6;
const ANSWER: usize = 4;
const BUFFER: usize = 512; // of each step of a list
const WORD_MAX: u32 = 0xff_ffff;
const ALL_STATIONS: u32 = 0x7f_ffff;

extern "C" {
    fn pagontxu_crate_line(memory: *mut u32, memory_len: usize, previous: u32, line: *const u8, line_len: usize) -> u32;
    fn pagontxu_run_line(
        memory: *mut u32, memory_len: usize, line: *const u8, line_len: usize, answer: *mut u32, answer_len: usize,
        buffer: *mut u32, buffer_len: usize,
    ) -> u32;
    fn pagontxu_step(
        memory: *mut u32, memory_len: usize, step: *const u32, step_len: usize, answer: *mut u32, answer_len: usize,
        buffer: *mut u32, buffer_len: usize,
    ) -> u32;
    fn pagontxu_list(
        memory: *mut u32, memory_len: usize, count: usize, steps: *const u32, steps_len: usize, answers: *mut u32,
        answers_len: usize, buffers: *mut u32, buffers_len: usize,
    ) -> u32;
}

// ---- chance ----

struct Chance(u64);

impl Chance {
    // splitmix64
    fn next(&mut self) -> u64 {
        self.0 = self.0.wrapping_add(0x9e37_79b9_7f4a_7c15);
        let mut z = self.0;
        z = (z ^ (z >> 30)).wrapping_mul(0xbf58_476d_1ce4_e5b9);
        z = (z ^ (z >> 27)).wrapping_mul(0x94d0_49bb_1331_11eb);
        z ^ (z >> 31)
    }

    fn word(&mut self) -> u32 {
        (self.next() >> 32) as u32
    }

    // A number below `bound`.
    fn below(&mut self, bound: usize) -> usize {
        (self.next() >> 11) as usize % bound
    }

    // A number from `low` to `high`, both included.
    fn from(&mut self, low: u32, high: u32) -> u32 {
        low + self.below((high - low + 1) as usize) as u32
    }

    // True `percent` times in a hundred.
    fn percent(&mut self, percent: usize) -> bool {
        self.below(100) < percent
    }

    fn pick<T: Copy>(&mut self, list: &[T]) -> T {
        list[self.below(list.len())]
    }
}

// ---- arrays ----

const FENCE: usize = 4;

// An array to lend, between words that no call may touch.
#[derive(Clone, PartialEq)]
struct Lent<T> {
    all: Vec<T>,
}

impl<T: Copy> Lent<T> {
    fn new(contents: &[T], mut fence: impl FnMut() -> T) -> Lent<T> {
        let mut all = Vec::with_capacity(contents.len() + 2 * FENCE);
        all.extend((0..FENCE).map(|_| fence()));
        all.extend_from_slice(contents);
        all.extend((0..FENCE).map(|_| fence()));
        Lent { all }
    }

    fn len(&self) -> usize {
        self.all.len() - 2 * FENCE
    }

    fn words(&self) -> &[T] {
        &self.all[FENCE..self.all.len() - FENCE]
    }

    fn words_mut(&mut self) -> &mut [T] {
        let end = self.all.len() - FENCE;
        &mut self.all[FENCE..end]
    }

    fn pointer(&mut self) -> *mut T {
        self.words_mut().as_mut_ptr()
    }
}

fn lent_words(chance: &mut Chance, contents: &[u32]) -> Lent<u32> {
    Lent::new(contents, || chance.word())
}

fn any_words(chance: &mut Chance, length: usize) -> Lent<u32> {
    let contents: Vec<u32> = (0..length).map(|_| chance.word()).collect();
    lent_words(chance, &contents)
}

// Digits often stand beside the bytes of a line, so that a call that reads past its end is caught.
fn lent_bytes(chance: &mut Chance, contents: &[u8]) -> Lent<u8> {
    Lent::new(contents, || if chance.percent(60) { b'0' + chance.below(10) as u8 } else { chance.word() as u8 })
}

// The arrays of a call. crate_line does not use the last two; in a list they are its answers and buffers.
#[derive(Clone)]
struct Arrays {
    memory: Lent<u32>,
    answer: Lent<u32>,
    buffer: Lent<u32>,
}

#[derive(Clone, PartialEq)]
enum Call {
    CrateLine(u32, Lent<u8>),
    RunLine(Lent<u8>),
    Step(Lent<u32>),
    List(usize, Lent<u32>),
}

fn call_library(call: &mut Call, arrays: &mut Arrays) -> u32 {
    let (memory, memory_len) = (arrays.memory.pointer(), arrays.memory.len());
    let (answer, answer_len) = (arrays.answer.pointer(), arrays.answer.len());
    let (buffer, buffer_len) = (arrays.buffer.pointer(), arrays.buffer.len());
    unsafe {
        match call {
            Call::CrateLine(previous, line) => pagontxu_crate_line(memory, memory_len, *previous, line.pointer(), line.len()),
            Call::RunLine(line) => {
                pagontxu_run_line(memory, memory_len, line.pointer(), line.len(), answer, answer_len, buffer, buffer_len)
            }
            Call::Step(step) => {
                pagontxu_step(memory, memory_len, step.pointer(), step.len(), answer, answer_len, buffer, buffer_len)
            }
            Call::List(count, steps) => {
                pagontxu_list(memory, memory_len, *count, steps.pointer(), steps.len(), answer, answer_len, buffer, buffer_len)
            }
        }
    }
}

// ---- the same by the reference ----

// Whether a memory is fit, from 01's 'Crate memory', L6 and L7.
fn fit(memory: &[u32]) -> bool {
    memory.len() == MEMORY
        && memory[0] <= 1
        && memory[1] <= ALL_STATIONS
        && memory[2..BLOCK].iter().all(|word| *word == 0)
        && memory[BLOCK..].chunks(BLOCK).all(fit_station)
        && (1..=23).all(|n| memory[n * BLOCK + 7] == covers(&memory[(n - 1) * BLOCK..]) as u32)
        && !covers(&memory[23 * BLOCK..])
}

// Whether the module of a block fills the next station too.
fn covers(block: &[u32]) -> bool {
    block[6] == 2
}

fn fit_station(block: &[u32]) -> bool {
    let (kind, r, status, mask, head, fill) = (block[0], block[1], block[2], block[3], block[4], block[5]);
    let (wide, covered) = (block[6], block[7]);
    let registers = &block[16..];
    let right_r = match kind {
        0 => r == 0,
        4 => r == 1,
        1 | 2 | 3 | 5 => r >= 1 && r <= 16,
        _ => false,
    };
    if !right_r {
        return false;
    }
    let s = match kind {
        0 | 2 => 0,
        4 => 2,
        _ => r,
    };
    let places = if kind == 4 {
        head <= 15 && fill <= 16 && (fill..16).all(|place| registers[(head + place) as usize % 16] == 0)
    } else {
        head == 0 && fill == 0 && registers[r as usize..].iter().all(|word| *word == 0)
    };
    let width = if kind == 0 { wide == 0 } else { (wide == 1 || wide == 2) && covered == 0 };
    places
        && width
        && status >> s == 0
        && mask >> s == 0
        && block[8..16].iter().all(|word| *word == 0)
        && registers.iter().all(|word| *word <= WORD_MAX)
}

// The reference's crate of a fit memory.
fn load(memory: &[u32]) -> Crate {
    let mut model = Crate::new();
    model.inhibit = memory[0] == 1;
    model.addressed = memory[1];
    for (n, block) in memory.chunks(BLOCK).enumerate().skip(1) {
        let kind = [Kind::Empty, Kind::Scaler, Kind::Output, Kind::Input, Kind::Buffer, Kind::Counter][block[0] as usize];
        let module = &mut model.stations[n];
        *module = Module::new(kind, block[1], block[6]);
        module.status = block[2];
        module.mask = block[3];
        module.head = block[4];
        if kind == Kind::Buffer {
            module.words.extend((0..block[5]).map(|place| block[16 + (block[4] + place) as usize % 16]));
        } else {
            module.registers.copy_from_slice(&block[16..]);
        }
    }
    model
}

// The 768 words of the reference's crate.
fn save(model: &Crate, memory: &mut [u32]) {
    memory.fill(0);
    memory[0] = model.inhibit as u32;
    memory[1] = model.addressed;
    for (n, block) in memory.chunks_mut(BLOCK).enumerate().skip(1) {
        let module = &model.stations[n];
        block[0] = match module.kind {
            Kind::Empty => 0,
            Kind::Scaler => 1,
            Kind::Output => 2,
            Kind::Input => 3,
            Kind::Buffer => 4,
            Kind::Counter => 5,
        };
        block[1] = module.r;
        block[2] = module.status;
        block[3] = module.mask;
        block[4] = module.head;
        block[5] = module.words.len() as u32;
        block[6] = module.wide;
        block[7] = model.covered(n as u32) as u32;
        if module.kind == Kind::Buffer {
            for (place, word) in module.words.iter().enumerate() {
                block[16 + (module.head as usize + place) % 16] = *word;
            }
        } else {
            block[16..].copy_from_slice(&module.registers);
        }
    }
}

fn read_step(words: &[u32]) -> Option<Step> {
    let [kind, f1, f2, f3, f4, f5] = [words[0], words[1], words[2], words[3], words[4], words[5]];
    match kind {
        1 => Some(Step::Naf([f1, f2, f3, f4])),
        2 => Some(Step::Front([f1, f2, f3])),
        3 => Some(Step::Z),
        4 => Some(Step::C),
        5 => Some(Step::I([f1])),
        6 => Some(Step::Lam),
        7 => Some(Step::Scan(Entry::General, [f1, f2, f3, f4, f5])),
        8 => Some(Step::Repeat(Entry::General, [f1, f2, f3, f4, f5])),
        9 => Some(Step::Stop(Entry::General, [f1, f2, f3, f4])),
        10 => Some(Step::Put([f1, f2, f3, f4, f5])),
        11 => Some(Step::PutLent([f1, f2, f3, f4])),
        12 => Some(Step::Within([f1, f2, f3, f4])),
        17 => Some(Step::Scan(Entry::Processor, [f1, f2, f3, f4, f5])),
        18 => Some(Step::Repeat(Entry::Processor, [f1, f2, f3, f4, f5])),
        19 => Some(Step::Stop(Entry::Processor, [f1, f2, f3, f4])),
        _ => None,
    }
}

// One step on a fit memory: the four words of its answer, or its refusal.
fn run(memory: &mut [u32], step: Option<Step>, buffer: &mut [u32]) -> Result<[u32; ANSWER], u32> {
    let step = step.ok_or(GARBLED)?;
    let mut model = load(memory);
    let mut words = Vec::new();
    let answer = reference::run_step(&mut model, step, buffer, &mut words)?;
    save(&model, memory);
    buffer[..words.len()].copy_from_slice(&words);
    Ok(match answer {
        Answer::Replied(reply) => [1, reply.x, reply.q, reply.r],
        Answer::Taken(taken) => [2, taken, 0, 0],
        Answer::Done => [3, 1, 0, 0],
        Answer::Looked(l, count, first) => [4, l, count, first],
        Answer::Transferred(transfer) => [5, transfer.end, words.len() as u32, transfer.cycles],
        Answer::Wrote(transfer, used) => [6, transfer.end, used, transfer.cycles],
        Answer::Listed(count) => [7, count, 0, 0],
    })
}

// Puts an answer or a refusal into the first four words, and gives the number to return.
fn tell(result: Result<[u32; ANSWER], u32>, answer: &mut [u32]) -> u32 {
    let (words, number) = match result {
        Ok(words) => (words, 0),
        Err(number) => ([0, number, 0, 0], number),
    };
    if answer.len() >= ANSWER {
        answer[..ANSWER].copy_from_slice(&words);
    }
    number
}

fn call_reference(call: &Call, arrays: &mut Arrays) -> u32 {
    let (memory, answer, buffer) = (arrays.memory.words_mut(), arrays.answer.words_mut(), arrays.buffer.words_mut());
    let fit = fit(memory);
    match call {
        Call::CrateLine(previous, line) => {
            if !fit {
                return UNFIT_CRATE;
            }
            let mut model = load(memory);
            match reference::crate_line(&mut model, line.words(), *previous) {
                Ok(()) => {
                    save(&model, memory);
                    0
                }
                Err(number) => number,
            }
        }
        Call::RunLine(line) => {
            let result = if !fit {
                Err(UNFIT_CRATE)
            } else if answer.len() < ANSWER {
                Err(SHORT_BUFFER)
            } else {
                run(memory, reference::run_line(line.words()), buffer)
            };
            tell(result, answer)
        }
        Call::Step(step) => {
            let result = if !fit {
                Err(UNFIT_CRATE)
            } else if step.len() < STEP || answer.len() < ANSWER {
                Err(SHORT_BUFFER)
            } else {
                run(memory, read_step(step.words()), buffer)
            };
            tell(result, answer)
        }
        Call::List(count, steps) => {
            if !fit {
                return UNFIT_CRATE;
            }
            if steps.len() / STEP < *count || answer.len() / ANSWER < *count || buffer.len() / BUFFER < *count {
                return SHORT_BUFFER;
            }
            for k in 0..*count {
                let step = read_step(&steps.words()[STEP * k..STEP * (k + 1)]);
                let result = run(memory, step, &mut buffer[BUFFER * k..BUFFER * (k + 1)]);
                tell(result, &mut answer[ANSWER * k..ANSWER * (k + 1)]);
            }
            0
        }
    }
}

// ---- random memories ----

const EDGE_WORDS: [u32; 15] =
    [0, 1, 2, 5, 10, 255, 65535, 65536, 8388606, 8388607, 8388608, 8388609, 16777213, 16777214, 16777215];

// A word of 24 bits.
fn word24(chance: &mut Chance) -> u32 {
    if chance.percent(50) {
        chance.pick(&EDGE_WORDS)
    } else {
        chance.word() >> chance.from(8, 31)
    }
}

// Bits of `s` sources: none, all or any.
fn sources(chance: &mut Chance, s: u32) -> u32 {
    let any = chance.word();
    chance.pick(&[0, any, any, u32::MAX]) & ((1 << s) - 1)
}

fn register_count(chance: &mut Chance, kind: u32) -> u32 {
    let any = chance.from(1, 16);
    match kind {
        0 => 0,
        4 => 1,
        _ => chance.pick(&[1, 2, 3, any, any, 16]),
    }
}

// A module one station wide in an empty station.
fn fill_station(chance: &mut Chance, block: &mut [u32], long: bool) {
    let kind = chance.pick(&[1, 2, 3, 4, 4, 5]);
    let kind = if long && kind == 4 { 5 } else { kind };
    let r = if long { 16 } else { register_count(chance, kind) };
    block[0] = kind;
    block[1] = r;
    block[6] = 1;
    let s = match kind {
        2 => 0,
        4 => 2,
        _ => r,
    };
    block[2] = sources(chance, s);
    block[3] = sources(chance, s);
    if kind == 4 {
        let any = chance.from(0, 16);
        block[4] = chance.from(0, 15);
        block[5] = chance.pick(&[0, 1, 2, 15, 16, any, any]);
        for place in 0..block[5] {
            block[16 + (block[4] + place) as usize % 16] = word24(chance);
        }
    } else {
        for register in &mut block[16..16 + r as usize] {
            *register = word24(chance);
        }
    }
}

// A pattern of stations: none, one, all, those with a module, those without one, or any.
fn pattern(chance: &mut Chance, memory: &[u32]) -> u32 {
    let filled = (1..=23).filter(|n| memory[n * BLOCK] != 0).fold(0, |bits, n| bits | 1 << (n - 1));
    let (one, any) = (1 << chance.below(23), chance.word() & ALL_STATIONS);
    chance.pick(&[0, 0, one, one, any, any, any, filled, filled & any, ALL_STATIONS ^ filled, ALL_STATIONS])
}

fn fit_memory(chance: &mut Chance) -> Vec<u32> {
    let mut memory = vec![0; MEMORY];
    let density = chance.pick(&[0, 20, 60, 90, 90, 100]);
    let two_wide = chance.pick(&[0, 20, 20, 50, 100]);
    let long = chance.percent(10); // all modules with sixteen registers, for long scans
    memory[0] = chance.percent(20) as u32;
    for n in 1..=23 {
        let covered = covers(&memory[(n - 1) * BLOCK..]);
        let block = &mut memory[n * BLOCK..(n + 1) * BLOCK];
        if covered {
            block[7] = 1;
        } else if chance.percent(density) {
            fill_station(chance, block, long);
            if n < 23 && chance.percent(two_wide) {
                block[6] = 2;
            }
        }
    }
    memory[1] = pattern(chance, &memory);
    memory
}

// Changes one word; once in a while the memory stays fit.
fn spoil(chance: &mut Chance, memory: &mut [u32]) {
    let place = match chance.below(6) {
        0 => chance.below(MEMORY),
        1 => chance.pick(&[0, 1, 2, 31]),
        2 => chance.below(BLOCK),
        3 => BLOCK * (1 + chance.below(23)) + chance.below(6),
        4 => BLOCK * (1 + chance.below(23)) + chance.below(16),
        _ => BLOCK * (1 + chance.below(23)) + 16 + chance.below(16),
    };
    let old = memory[place];
    memory[place] = match chance.below(7) {
        0 => chance.word(),
        1 => old ^ (1 << chance.below(32)),
        2 => old.wrapping_add(1),
        3 => old.wrapping_sub(1),
        4 => old.wrapping_add(1 << 24),
        5 => chance.pick(&[1, 2, 4, 6, 15, 16, 17]),
        _ => 0,
    };
}

// Changes the Station Number Register, or a word behind it in block 0; once in a while the memory stays fit.
fn spoil_register(chance: &mut Chance, memory: &mut [u32]) {
    if chance.percent(70) {
        let old = memory[1];
        memory[1] = chance.pick(&[1 << 23, 1 << 23 | old, 1 << 31 | old, WORD_MAX, WORD_MAX + 1, u32::MAX, ALL_STATIONS]);
    } else {
        let any = 2 + chance.below(30);
        memory[chance.pick(&[2, 2, any, 31])] = chance.pick(&[1, 2, 1 << 22, 1 << 31]);
    }
}

// Changes the width or the cover of a station, or both of two neighbours; once in a while the memory stays fit.
fn spoil_widths(chance: &mut Chance, memory: &mut [u32]) {
    let any = 1 + chance.below(23);
    let n = chance.pick(&[1, 22, 23, any, any, any, any]);
    let word = |n: usize, place: usize| n * BLOCK + place;
    let covered = (0..23).map(|i| (n - 1 + i) % 23 + 1).find(|n| memory[word(*n, 7)] == 1);
    match chance.below(8) {
        0 => memory[word(n, 6)] = chance.pick(&[0, 1, 2, 3, 256, 257, 258, 1 << 31, 1 << 31 | 1, u32::MAX]),
        1 => memory[word(n, 7)] = chance.pick(&[0, 1, 1, 2, 256, 257, 1 << 31, u32::MAX]),
        2 => memory[word(n, 7)] ^= 1,
        3 => memory[word(n, 8 + chance.below(8))] = chance.pick(&[1, 2, 16, 1 << 31]),
        // two wide with its cover, whatever is in these two stations; in 23 it has no room for one
        4 | 5 => {
            memory[word(n, 6)] = 2;
            if n < 23 {
                memory[word(n + 1, 7)] = 1;
            }
        }
        // the cover goes, with or without the width
        6 => {
            if let Some(n) = covered {
                memory[word(n, 7)] = 0;
                memory[word(n - 1, 6)] = chance.pick(&[0, 1, 2]);
            }
        }
        // a module in a covered station, which stays covered
        _ => {
            if let Some(n) = covered {
                fill_station(chance, &mut memory[n * BLOCK..(n + 1) * BLOCK], false);
                memory[word(n, 6)] = chance.pick(&[0, 1, 1, 2]);
            }
        }
    }
}

// The memory with one word spoilt, the Station Number Register or widths and covers spoilt, with another length, or wholly random.
fn spoilt(chance: &mut Chance, memory: &[u32]) -> Vec<u32> {
    let mut memory = memory.to_vec();
    match chance.below(16) {
        0..=5 => spoil(chance, &mut memory),
        6..=7 => spoil_register(chance, &mut memory),
        8..=11 => spoil_widths(chance, &mut memory),
        12..=13 => {
            let any = chance.below(1600);
            let length = chance.pick(&[0, 1, 31, 32, 736, 767, 769, 800, 1536, any, any]);
            let random = chance.percent(30);
            memory.resize_with(length, || if random { chance.word() } else { 0 });
        }
        _ => {
            let shift = chance.pick(&[0, 8, 24, 28, 31]);
            memory.fill_with(|| chance.word() >> shift);
        }
    }
    memory
}

// ---- random steps ----

const FUNCTIONS: [u32; 24] = [0, 0, 2, 2, 3, 9, 16, 18, 21, 25, 25, 8, 10, 24, 26, 26, 27, 1, 1, 11, 17, 17, 19, 23];

// Past its bound, once in a while: a number near it, a good one with a higher bit set, or any.
fn perhaps_past(chance: &mut Chance, good: u32, past: &[u32]) -> u32 {
    if !chance.percent(3) {
        return good;
    }
    match chance.below(3) {
        0 => chance.pick(past),
        1 => good | 1 << chance.from(4, 31),
        _ => chance.word(),
    }
}

// A station, most often one with a module of one of these kinds, at times a covered one, and its register count.
fn station(chance: &mut Chance, memory: &[u32], kinds: &[u32]) -> (u32, u32) {
    let mut n = chance.from(1, 23);
    for _ in 0..8 {
        let block = &memory[BLOCK * n as usize..];
        if kinds.contains(&block[0]) || chance.percent(if block[7] == 1 { 20 } else { 5 }) {
            return (n, block[1]);
        }
        n = n % 23 + 1;
    }
    (n, 0)
}

fn subaddress(chance: &mut Chance, r: u32, f: u32) -> u32 {
    if [1, 11, 17, 19, 23].contains(&f) && chance.percent(90) {
        chance.pick(&[12, 12, 13, 13, 14])
    } else if r > 0 && chance.percent(80) {
        chance.from(0, r - 1)
    } else if chance.percent(30) {
        r.min(15)
    } else {
        chance.from(0, 15)
    }
}

// The functions that a command names often.
fn function(chance: &mut Chance) -> u32 {
    if chance.percent(90) { chance.pick(&FUNCTIONS) } else { chance.from(0, 31) }
}

// The commands that the controller takes: N, A and F.
const NAMED: [[u32; 3]; 13] = [
    [28, 8, 26], [28, 9, 26], [30, 9, 24], [30, 9, 24], [30, 9, 24], [30, 9, 26], [30, 9, 27], [30, 9, 27], [30, 8, 16], [30, 8, 16], [30, 8, 16],
    [30, 8, 16], [30, 8, 16],
];

// N, A, F and W of a command to many stations, to the controller as it takes it or nearly so, or to any N of 24 to 32; r is a register count.
fn controller_command(chance: &mut Chance, memory: &[u32], r: u32) -> [u32; 4] {
    let (f, word, stations) = (function(chance), word24(chance), pattern(chance, memory));
    let load = chance.pick(&[stations, stations, stations, ALL_STATIONS, ALL_STATIONS + 1, stations | 1 << 23, word, WORD_MAX]);
    match chance.below(20) {
        0..=9 => [chance.pick(&[24, 24, 26]), subaddress(chance, r, f), f, word],
        10..=15 => {
            let [n, a, f] = chance.pick(&NAMED);
            [n, a, f, load]
        }
        _ => {
            let (any_n, any_a) = (chance.from(24, 32), chance.from(0, 15));
            [chance.pick(&[28, 28, 30, 30, any_n]), chance.pick(&[8, 8, 9, 9, any_a]), chance.pick(&[16, 16, 17, 24, 26, 27, f]), load]
        }
    }
}

// The bounds of a window: a word that stands in a register from station n to `to`, or any, inside, at an edge or just outside; at times crossed, by one or more.
fn window(chance: &mut Chance, memory: &[u32], n: u32, to: u32) -> [u32; 2] {
    let block = &memory[BLOCK * chance.from(n, to) as usize..];
    let v = match block[1] {
        0 => word24(chance),
        r => block[16 + chance.below(r as usize)],
    };
    let (low, high, other) = (chance.from(0, v), chance.from(v, WORD_MAX), word24(chance));
    let (less, more) = (v.saturating_sub(1), v + 1);
    chance.pick(&[
        [v, v], [v, v], [v, v], [less, more], [v, high], [low, v], [low, high], [v.min(other), v.max(other)], [0, v], [v, WORD_MAX], [0, WORD_MAX],
        [low, less], [more, high], [more, v], [v, other], [v, WORD_MAX + 1],
    ])
}

// First words, most of them no step's.
const OTHER_KINDS: [u32; 33] = [
    0, 0, 1, 2, 3, 4, 5, 6, 7, 8, 9, 10, 11, 12, 13, 13, 14, 15, 16, 16, 17, 18, 19, 20, 20, 27, 255, 256, 257, 1 << 16 | 1, 1 << 31 | 3, u32::MAX, u32::MAX,
];

// The six words of a step; those past its fields are any. Once in a while another first word stands before these fields.
fn any_step(chance: &mut Chance, memory: &[u32]) -> [u32; STEP] {
    let mut step = [0; STEP];
    step.fill_with(|| chance.word());
    let kind = match chance.below(126) {
        0..=31 => 1,
        32..=57 => 2,
        58 => 3,
        59..=60 => 4,
        61..=66 => 5,
        67..=70 => 6,
        71..=78 => 7,
        79..=83 => 8,
        84..=88 => 9,
        89..=91 => 10,
        92..=95 => 11,
        96..=107 => 12,
        108..=115 => 17,
        116..=120 => 18,
        _ => 19,
    };
    let short = kind >= 17; // at the trigger processor's entry
    let modules: &[u32] = match kind {
        10 | 11 if chance.percent(60) => &[2, 5],
        12 if chance.percent(60) => &[1, 3, 5],
        _ => &[1, 2, 3, 4, 5],
    };
    let (n, r) = station(chance, memory, modules);
    let n_word = perhaps_past(chance, n, &[0, 24, 25, 26, 27, 28, 29, 30, 31, 32]);
    step[0] = if chance.percent(4) { chance.pick(&OTHER_KINDS) } else { kind };
    match kind {
        1 => {
            let f = function(chance);
            let command = [n_word, subaddress(chance, r, f), f, word24(chance)];
            let [n, a, f, w] = if chance.percent(30) { controller_command(chance, memory, r) } else { command };
            step[1] = n;
            step[2] = perhaps_past(chance, a, &[16, 17, 31, 255]);
            step[3] = perhaps_past(chance, f, &[32, 33, 63, 255]);
            step[4] = perhaps_past(chance, w, &[1 << 24, (1 << 24) + 1, 1 << 31, u32::MAX]);
        }
        2 => {
            let a = subaddress(chance, r, 0);
            let v = word24(chance);
            step[1] = n_word;
            step[2] = perhaps_past(chance, a, &[16, 17, 31, 255]);
            step[3] = perhaps_past(chance, v, &[1 << 24, (1 << 24) + 1, 1 << 31, u32::MAX]);
        }
        5 => {
            let v = chance.pick(&[0, 0, 0, 1]);
            step[1] = perhaps_past(chance, v, &[2, 3, 255, 256, 1 << 24, u32::MAX]);
        }
        7..=9 | 17..=19 => {
            let a = if chance.percent(50) { subaddress(chance, r, 0) } else { 0 };
            let f = chance.pick(&[0, 2, 2, 3]);
            let (some, any) = (chance.from(1, 64), chance.from(1, 512));
            let limit = chance.pick(&[1, 2, 3, 16, 17, some, some, any, 512]);
            let limit = if short && chance.percent(40) { chance.pick(&[0, 31, 32, 32, 32, 33, 34, 511, 513, u32::MAX]) } else { limit };
            let limit = perhaps_past(chance, limit, &[0, 513, 514, 1024, u32::MAX]);
            step[1] = n_word;
            step[2] = perhaps_past(chance, a, &[16, 17, 31, 255]);
            step[3] = perhaps_past(chance, f, &[1, 4, 5, 8, 9, 16, 31, 32]);
            match kind {
                7 | 17 => {
                    let to = chance.from(n, 23);
                    let to = chance.pick(&[n, to, to, 23]);
                    step[4] = perhaps_past(chance, to, &[0, n - 1, n / 2, 24, 25, 255]);
                    step[5] = limit;
                }
                8 | 18 => {
                    let (some, any) = (chance.from(1, 64), chance.from(1, 4096));
                    let edge = chance.pick(&[0, 1, 4096, 4097]);
                    let tries = chance.pick(&[1, 2, 3, 16, some, some, limit, limit.wrapping_add(1), any, edge]);
                    step[4] = limit;
                    step[5] = perhaps_past(chance, tries, &[0, 4096, 4097, 8192, u32::MAX]);
                }
                _ => step[4] = limit,
            }
        }
        10 | 11 => {
            let a = if chance.percent(50) { subaddress(chance, r, 16) } else { 0 };
            let to = chance.from(n, 23);
            let to = chance.pick(&[n, to, to, 23]);
            let (some, any) = (chance.from(1, 64), chance.from(1, 512));
            let limit = chance.pick(&[1, 2, 3, 16, 17, some, some, any, 512]);
            let w = word24(chance);
            step[1] = n_word;
            step[2] = perhaps_past(chance, a, &[16, 17, 31, 255]);
            step[3] = perhaps_past(chance, to, &[0, n - 1, n / 2, 24, 25, 255]);
            step[4] = perhaps_past(chance, limit, &[0, 513, 514, 1024, u32::MAX]);
            if kind == 10 {
                step[5] = perhaps_past(chance, w, &[1 << 24, (1 << 24) + 1, 1 << 31, u32::MAX]);
            }
        }
        12 => {
            let to = chance.from(n, 23);
            let to = chance.pick(&[n, to, to, 23]);
            let [lo, hi] = window(chance, memory, n, to);
            step[1] = n_word;
            step[2] = perhaps_past(chance, to, &[0, n - 1, n / 2, 24, 25, 255]);
            step[3] = perhaps_past(chance, lo, &[1 << 24, (1 << 24) + 1, 1 << 31, u32::MAX]);
            step[4] = perhaps_past(chance, hi, &[1 << 24, (1 << 24) + 1, 1 << 31, u32::MAX]);
        }
        _ => {}
    }
    step
}

// How many words of buffer to lend for a step: often about as many as its limit or its stations ask for.
fn lent_length(chance: &mut Chance, step: &[u32; STEP]) -> usize {
    let asked = match step[0] {
        7 | 17 => step[5],
        8 | 9 | 11 | 18 | 19 => step[4],
        12 if step[1] <= step[2] && step[2] <= 23 => 16 * (step[2] - step[1] + 1),
        _ => chance.from(0, 600),
    };
    let asked = asked.min(599) as usize;
    let any = chance.below(601);
    let about_32 = chance.pick(&[31, 32, 33]);
    chance.pick(&[asked, asked, asked, asked + 1, 512, 600, any, any, about_32, asked.saturating_sub(1), 0])
}

// ---- random lines ----

// The line of a step, if it has one; of a transfer at the trigger processor's entry, that of the general one.
fn run_text(step: &[u32; STEP]) -> String {
    let [kind, a, b, c, d, e] = *step;
    match kind {
        1 => format!("op=naf n={a} a={b} f={c} w={d}"),
        2 => format!("op=front n={a} a={b} v={c}"),
        3 => "op=z".to_string(),
        4 => "op=c".to_string(),
        5 => format!("op=i v={a}"),
        6 => "op=lam".to_string(),
        7 | 17 => format!("op=scan n={a} a={b} f={c} to={d} limit={e}"),
        8 | 18 => format!("op=repeat n={a} a={b} f={c} limit={d} tries={e}"),
        9 | 19 => format!("op=stop n={a} a={b} f={c} limit={d}"),
        10 => format!("op=put n={a} a={b} to={c} limit={d} w={e}"),
        11 => format!("op=put n={a} a={b} to={c} limit={d}"), // garbled: w is missing
        12 => format!("op=within n={a} to={b} lo={c} hi={d}"),
        _ => format!("op={kind}"),
    }
}

// A crate line, and the `previous` to hand in with it: for any station, empty, filled or covered, often beside a module two stations wide.
fn crate_text(chance: &mut Chance, memory: &[u32]) -> (String, u32) {
    let any = chance.from(1, 23);
    let near = chance.from(0, 3); // from the station before such a module to the one behind it
    let n = match (any..=23).find(|n| covers(&memory[*n as usize * BLOCK..])) {
        Some(n) if chance.percent(50) => (n + near - 1).clamp(1, 23),
        _ => chance.pick(&[any, any, any, any, 22, 23]),
    };
    let kind = chance.from(1, 5);
    let r = register_count(chance, kind);
    let any = chance.from(0, 23);
    let huge = chance.word();
    let previous = chance.pick(&[0, 0, 0, n - 1, n - 1, n - 1, any, n, n + 1, 23, 24, huge, u32::MAX]);
    let n = perhaps_past(chance, n, &[0, 24, 25, 99999999]);
    let wide = chance.pick(&[1, 1, 2]);
    let (kind, r) = match chance.below(12) {
        0 => (chance.pick(&[0, 1, 4, 5, 6, 7, 255, 257]), r),
        1 => (kind, chance.pick(&[0, 1, 2, 15, 16, 17, 18, 32, 257])),
        _ => (kind, r),
    };
    let wide = if chance.percent(8) { chance.pick(&[0, 3, 4, 257, 258, 99999999]) } else { wide };
    let end = if chance.percent(2) { String::new() } else { format!(" wide={wide}") };
    (format!("n={n} kind={kind} r={r}{end}"), previous)
}

// The line with a fault of some shape; once in a while still in form.
fn garble(chance: &mut Chance, line: &[u8]) -> Vec<u8> {
    let at = chance.below(line.len() + 1);
    let mut out = line.to_vec();
    match chance.below(17) {
        0 => out.clear(),
        1 => out.extend_from_slice(chance.pick(&[b"\r" as &[u8], b"\n", b" ", b"\t", b"\0", b"\xff", b"0", b" v=0", b"x"])),
        2 => out.splice(0..0, chance.pick(&[b" " as &[u8], b"\n", b"\xef\xbb\xbf", b"#", b"0"]).iter().copied()).for_each(drop),
        3 => out.truncate(at),
        4 => out.insert(at, chance.word() as u8),
        5 => out.splice(at..(at + 1).min(line.len()), []).for_each(drop),
        6 => out.make_ascii_uppercase(),
        7 => {
            if let Some(place) = line.iter().position(|byte| *byte == b' ') {
                out.insert(place, b' ');
            }
        }
        8 => out.retain(|byte| *byte != b' '),
        9 | 10 => {
            // another order of the fields, one dropped, one twice or an F too many
            let mut parts: Vec<&[u8]> = line.split(|byte| *byte == b' ').collect();
            let (one, two) = (chance.below(parts.len()), chance.below(parts.len()));
            match chance.below(4) {
                0 => parts.swap(one, two),
                1 => drop(parts.remove(one)),
                2 => parts.insert(two, parts[one]),
                _ => parts.insert(two, b"f=16"),
            }
            out = parts.join(&b' ');
        }
        11 => {
            // a number written otherwise
            let places: Vec<usize> = (0..line.len()).filter(|place| line[*place] == b'=').collect();
            if !places.is_empty() {
                let start = chance.pick(&places) + 1;
                let digits = line[start..].iter().take_while(|byte| byte.is_ascii_digit()).count();
                let shapes: [&[u8]; 14] = [
                    b"", b"0", b"-1", b"+1", b"00", b"01", b"000000001", b"99999999", b"100000000", b"4294967297",
                    b"18446744073709551617", b"0x1", b"1.0", b"1e1",
                ];
                out.splice(start..start + digits, chance.pick(&shapes).iter().copied()).for_each(drop);
            }
        }
        12 => {
            let length = chance.pick(&[79, 80, 81, 82, 83, 160, 256]);
            out.resize(length.max(line.len()), b' ');
        }
        13 => {
            let length = chance.pick(&[1, 79, 80, 81, 82, 83, 160, 255, 256, 1000, 4096, 65536, 65537]);
            out.splice(0..0, vec![b'x'; length]).for_each(drop);
        }
        14 => {
            let length = chance.below(100);
            out = (0..length).map(|_| chance.word() as u8).collect();
        }
        15 => {
            // the whole line again, with or without something between
            out.extend_from_slice(chance.pick(&[b"" as &[u8], b"\n", b" "]));
            out.extend_from_slice(line);
        }
        _ => {
            if at < line.len() {
                out[at] = line[at].wrapping_add(chance.pick(&[1, 255, 32, 128]));
            }
        }
    }
    out
}

fn perhaps_garbled(chance: &mut Chance, text: String) -> Lent<u8> {
    let mut line = text.into_bytes();
    if chance.percent(20) {
        line = garble(chance, &line);
    }
    lent_bytes(chance, &line)
}

// ---- random calls ----

// A length that is most often enough: at least `need` nine times in ten.
fn length_about(chance: &mut Chance, need: usize, more: usize) -> usize {
    match chance.below(10) {
        0 => chance.below(need + 1),
        1..=3 => need + chance.below(more + 1),
        _ => need,
    }
}

// The words of a buffer: any; or of 24 bits, as a put wants them, at times but for one.
fn any_buffer(chance: &mut Chance, length: usize) -> Lent<u32> {
    if length == 0 || chance.percent(20) {
        return any_words(chance, length);
    }
    let mut contents: Vec<u32> = (0..length).map(|_| word24(chance)).collect();
    if chance.percent(30) {
        let any = chance.below(length);
        let place = chance.pick(&[0, any, any, length - 1]);
        contents[place] = chance.pick(&[1 << 24, (1 << 24) + 1, 1 << 31, u32::MAX]);
    }
    lent_words(chance, &contents)
}

fn any_call(chance: &mut Chance, memory: &Lent<u32>) -> (Call, Arrays) {
    let mut answer_len = match chance.below(20) {
        0 => chance.below(ANSWER),
        1..=4 => chance.from(5, 12) as usize,
        _ => ANSWER,
    };
    let mut buffer_len = 0;
    let call = match chance.below(100) {
        0..=7 => {
            let (text, previous) = crate_text(chance, memory.words());
            Call::CrateLine(previous, perhaps_garbled(chance, text))
        }
        8..=27 => {
            let step = any_step(chance, memory.words());
            buffer_len = lent_length(chance, &step);
            Call::RunLine(perhaps_garbled(chance, run_text(&step)))
        }
        28..=95 => {
            let step = any_step(chance, memory.words());
            buffer_len = lent_length(chance, &step);
            let mut words = step.to_vec();
            match chance.below(40) {
                0 => words.truncate(chance.below(STEP)),
                1..=6 => words.resize_with(STEP + 1 + chance.below(6), || chance.word()),
                _ => {}
            }
            Call::Step(lent_words(chance, &words))
        }
        _ => {
            let most = chance.pick(&[2, 6, 6, 6, 6, 6, 6, 6, 6, 40]);
            let mut count = chance.below(most);
            let mut words: Vec<u32> = (0..count).flat_map(|_| any_step(chance, memory.words())).collect();
            let steps_len = length_about(chance, STEP * count, STEP);
            words.resize_with(steps_len, || chance.word());
            answer_len = length_about(chance, ANSWER * count, ANSWER);
            buffer_len = length_about(chance, BUFFER * count, BUFFER);
            match chance.below(30) {
                0 => count += 1 + chance.below(3),
                // counts whose lengths in words pass 64 bits
                1 => {
                    let past = [usize::MAX, 1 << 63, (1 << 63) + count, (1 << 62) + count, (1 << 55) + count, usize::MAX / 6 + 1, 1 << 32, 1 << 31];
                    count = chance.pick(&past);
                }
                2 => count = count.saturating_sub(1),
                _ => {}
            }
            Call::List(count, lent_words(chance, &words))
        }
    };
    let arrays = Arrays { memory: memory.clone(), answer: any_words(chance, answer_len), buffer: any_buffer(chance, buffer_len) };
    (call, arrays)
}

// ---- calls worked out by hand ----

// The words lent, the limit, the answer, and the registers after the put.
type HandPut = (Vec<u32>, u32, [u32; ANSWER], [u32; 4]);

// Puts of lent words into an output register in station 2 whose four registers hold 9.
fn puts_by_hand() -> [HandPut; 11] {
    const WIDE: u32 = u32::MAX;
    const AS_BEFORE: [u32; 4] = [9; 4];
    let refused = |number| [0, number, 0, 0];
    // 600 words, these first
    let long = |words: &[u32]| [words, &vec![WIDE; 600 - words.len()]].concat();
    [
        (vec![1, 2, 3, WIDE], 3, [6, 1, 3, 3], [1, 2, 3, 9]),
        (vec![1, 2, 3, WIDE], 4, refused(5), AS_BEFORE),
        (vec![WIDE, WIDE], 3, refused(8), AS_BEFORE),
        (vec![], 0, refused(7), AS_BEFORE),
        (long(&[1, 2, 3]), 3, [6, 1, 3, 3], [1, 2, 3, 9]),
        (long(&[1, 2, 3]), 4, refused(5), AS_BEFORE),
        (long(&[]), 3, refused(5), AS_BEFORE),
        (long(&[]), 0, refused(7), AS_BEFORE),
        (long(&[]), 513, refused(7), AS_BEFORE),
        (long(&[7; 511]), 512, refused(5), AS_BEFORE),
        // four words are taken, and the fifth cycle, at A4, has Q = 0
        (long(&[7; 512]), 512, [6, 2, 4, 5], [7; 4]),
    ]
}

// Repeats and Stops, each with its answer and the words that it stores, none of which changes the crate: a scaler of two registers in station 3, with 9 at
// A1, and an empty buffer memory in station 5.
const TRANSFERS_BY_HAND: [([u32; STEP], [u32; ANSWER], &[u32]); 8] = [
    // X = 1, and the tries are used up
    ([8, 3, 1, 0, 2, 1], [5, 2, 1, 1], &[9]),
    // A at r, in the last try: 3 before 2
    ([8, 3, 2, 0, 1, 1], [5, 3, 0, 1], &[]),
    // an empty station
    ([8, 4, 0, 0, 512, 4096], [5, 3, 0, 1], &[]),
    ([9, 4, 0, 3, 2, 0], [5, 3, 0, 1], &[]),
    // the empty buffer memory at A0 has X = 1, at A1 X = 0
    ([8, 5, 0, 2, 1, 3], [5, 2, 0, 3], &[]),
    ([9, 5, 0, 2, 4, 0], [5, 2, 0, 1], &[]),
    ([9, 5, 1, 2, 4, 0], [5, 3, 0, 1], &[]),
    // the limit comes first
    ([9, 3, 1, 0, 1, 0], [5, 1, 1, 1], &[9]),
];

// A front event at station 7: Inhibit; kind, r, status, mask and fill of the module there, head 0; A and v; the digit; afterwards status and fill, and a register
// with its word.
type HandFront = (u32, [u32; 5], [u32; 2], u32, [u32; 4]);

// Before each, register A, if there is one, holds 16777215; of a buffer memory, the filled places do.
const FRONTS_BY_HAND: [HandFront; 19] = [
    // a scaler: v = 0; a carry; a carry with the bit set; a carry with another bit set, all masked and none
    (0, [1, 2, 0, 0, 0], [0, 0], 1, [0, 0, 0, 16777215]),
    (0, [1, 2, 0, 0, 0], [0, 1], 2, [1, 0, 0, 0]),
    (0, [1, 2, 1, 3, 0], [0, 1], 1, [1, 0, 0, 0]),
    (0, [1, 2, 1, 0, 0], [1, 1], 2, [3, 0, 1, 0]),
    (0, [1, 2, 2, 3, 0], [0, 5], 2, [3, 0, 0, 4]),
    // an input register: the last source of sixteen, which v = 0 raises too
    (0, [3, 16, 32767, 0, 0], [15, 0], 2, [65535, 0, 15, 0]),
    (0, [3, 16, 65535, 0, 0], [15, 5], 1, [65535, 0, 15, 5]),
    // a counter at -1: to 0; to -2
    (0, [5, 1, 0, 1, 0], [0, 1], 2, [1, 0, 0, 0]),
    (0, [5, 1, 0, 1, 0], [0, 16777215], 1, [0, 0, 0, 16777214]),
    // a buffer memory: its first word; bit 0 set at fill 0; bit 0 clear with words in it; the sixteenth
    (0, [4, 1, 0, 0, 0], [0, 9], 2, [1, 1, 0, 9]),
    (0, [4, 1, 1, 3, 0], [0, 9], 1, [1, 1, 0, 9]),
    (0, [4, 1, 2, 0, 9], [0, 9], 2, [3, 10, 9, 9]),
    (0, [4, 1, 1, 0, 15], [0, 9], 1, [1, 16, 15, 9]),
    // full: lost, whether bit 1 was set or not; under Inhibit and at A1 not taken
    (0, [4, 1, 0, 0, 16], [0, 9], 3, [2, 16, 0, 16777215]),
    (0, [4, 1, 3, 3, 16], [0, 9], 3, [3, 16, 0, 16777215]),
    (1, [4, 1, 1, 0, 16], [0, 9], 0, [1, 16, 0, 16777215]),
    (0, [4, 1, 1, 0, 16], [1, 9], 0, [1, 16, 0, 16777215]),
    // an output register; an empty station
    (0, [2, 1, 0, 0, 0], [0, 9], 0, [0, 0, 0, 16777215]),
    (0, [0, 0, 0, 0, 0], [0, 9], 0, [0, 0, 0, 0]),
];

// A station of a crate: N, words 0 to 7 of its block, register 0. In station 0 the first two words are I and the Station Number Register. All other words are 0.
type Stood = (usize, [u32; 8], u32);

const COVERED: [u32; 8] = [0, 0, 0, 0, 0, 0, 0, 1];

// A scaler two stations wide in 5; an input register in 8, an output register in 23.
const WIDE_IN_5: &[Stood] =
    &[(5, [1, 2, 1, 3, 0, 0, 2, 0], 9), (6, COVERED, 0), (8, [3, 1, 1, 1, 0, 0, 1, 0], 7), (23, [2, 1, 0, 0, 0, 0, 1, 0], 4)];
// Two modules two stations wide side by side, and an input register behind them.
const WIDE_IN_4_AND_6: &[Stood] =
    &[(4, [1, 2, 1, 3, 0, 0, 2, 0], 9), (5, COVERED, 0), (6, [5, 4, 2, 2, 0, 0, 2, 0], 8), (7, COVERED, 0), (8, [3, 1, 1, 1, 0, 0, 1, 0], 7)];
// Modules in the first and the last stations, all one station wide.
const AT_THE_ENDS: &[Stood] = &[
    (1, [3, 1, 1, 1, 0, 0, 1, 0], 1),
    (2, [3, 1, 1, 1, 0, 0, 1, 0], 2),
    (3, [3, 1, 1, 1, 0, 0, 1, 0], 3),
    (22, [3, 1, 1, 1, 0, 0, 1, 0], 22),
    (23, [3, 1, 1, 1, 0, 0, 1, 0], 23),
];
// A module two stations wide in 22, and one in 21.
const WIDE_IN_22: &[Stood] = &[(21, [3, 1, 1, 1, 0, 0, 1, 0], 21), (22, [3, 1, 1, 1, 0, 0, 2, 0], 22), (23, COVERED, 0)];

// Crate lines that put a module in: the crate before, `previous`, the line, the crate after.
type HandLine = (&'static [Stood], u32, &'static str, &'static [Stood]);

const LINES_BY_HAND: &[HandLine] = &[
    // into empty stations
    (&[], 0, "n=5 kind=1 r=2 wide=2", &[(5, [1, 2, 0, 0, 0, 0, 2, 0], 0), (6, COVERED, 0)]),
    (&[], 0, "n=1 kind=4 r=1 wide=2", &[(1, [4, 1, 0, 0, 0, 0, 2, 0], 0), (2, COVERED, 0)]),
    (&[], 0, "n=23 kind=5 r=16 wide=1", &[(23, [5, 16, 0, 0, 0, 0, 1, 0], 0)]),
    // beside a module two stations wide, left and right
    (WIDE_IN_5, 3, "n=4 kind=2 r=1 wide=1", &[(4, [2, 1, 0, 0, 0, 0, 1, 0], 0), WIDE_IN_5[0], WIDE_IN_5[1], WIDE_IN_5[2], WIDE_IN_5[3]]),
    (WIDE_IN_5, 5, "n=7 kind=2 r=1 wide=1", &[WIDE_IN_5[0], WIDE_IN_5[1], (7, [2, 1, 0, 0, 0, 0, 1, 0], 0), WIDE_IN_5[2], WIDE_IN_5[3]]),
    // one wide in the place of two wide: 6 is uncovered; two wide in its place: 6 stays covered
    (WIDE_IN_5, 4, "n=5 kind=2 r=3 wide=1", &[(5, [2, 3, 0, 0, 0, 0, 1, 0], 0), WIDE_IN_5[2], WIDE_IN_5[3]]),
    (WIDE_IN_5, 4, "n=5 kind=5 r=16 wide=2", &[(5, [5, 16, 0, 0, 0, 0, 2, 0], 0), WIDE_IN_5[1], WIDE_IN_5[2], WIDE_IN_5[3]]),
    // two wide in 4, over the one in 5: 5 is empty and covered, 6 uncovered
    (WIDE_IN_5, 0, "n=4 kind=3 r=1 wide=2", &[(4, [3, 1, 0, 0, 0, 0, 2, 0], 0), (5, COVERED, 0), WIDE_IN_5[2], WIDE_IN_5[3]]),
    // two wide in 7, over the input register in 8
    (WIDE_IN_5, 6, "n=7 kind=4 r=1 wide=2", &[WIDE_IN_5[0], WIDE_IN_5[1], (7, [4, 1, 0, 0, 0, 0, 2, 0], 0), (8, COVERED, 0), WIDE_IN_5[3]]),
    // of two side by side: one wide in the place of either, two wide in the left one's, and two wide in 3 over it
    (WIDE_IN_4_AND_6, 0, "n=6 kind=1 r=1 wide=1", &[WIDE_IN_4_AND_6[0], WIDE_IN_4_AND_6[1], (6, [1, 1, 0, 0, 0, 0, 1, 0], 0), WIDE_IN_4_AND_6[4]]),
    (WIDE_IN_4_AND_6, 0, "n=4 kind=1 r=1 wide=1", &[(4, [1, 1, 0, 0, 0, 0, 1, 0], 0), WIDE_IN_4_AND_6[2], WIDE_IN_4_AND_6[3], WIDE_IN_4_AND_6[4]]),
    (WIDE_IN_4_AND_6, 0, "n=4 kind=1 r=1 wide=2", &[(4, [1, 1, 0, 0, 0, 0, 2, 0], 0), WIDE_IN_4_AND_6[1], WIDE_IN_4_AND_6[2], WIDE_IN_4_AND_6[3], WIDE_IN_4_AND_6[4]]),
    (WIDE_IN_4_AND_6, 0, "n=3 kind=1 r=1 wide=2", &[(3, [1, 1, 0, 0, 0, 0, 2, 0], 0), (4, COVERED, 0), WIDE_IN_4_AND_6[2], WIDE_IN_4_AND_6[3], WIDE_IN_4_AND_6[4]]),
    // over modules one station wide, at both ends of the crate
    (AT_THE_ENDS, 0, "n=1 kind=2 r=2 wide=2", &[(1, [2, 2, 0, 0, 0, 0, 2, 0], 0), (2, COVERED, 0), AT_THE_ENDS[2], AT_THE_ENDS[3], AT_THE_ENDS[4]]),
    (AT_THE_ENDS, 21, "n=22 kind=2 r=2 wide=2", &[AT_THE_ENDS[0], AT_THE_ENDS[1], AT_THE_ENDS[2], (22, [2, 2, 0, 0, 0, 0, 2, 0], 0), (23, COVERED, 0)]),
    (AT_THE_ENDS, 22, "n=23 kind=2 r=2 wide=1", &[AT_THE_ENDS[0], AT_THE_ENDS[1], AT_THE_ENDS[2], AT_THE_ENDS[3], (23, [2, 2, 0, 0, 0, 0, 1, 0], 0)]),
    // 23 uncovered, by one wide in 22 and by two wide in 21
    (WIDE_IN_22, 21, "n=22 kind=2 r=2 wide=1", &[WIDE_IN_22[0], (22, [2, 2, 0, 0, 0, 0, 1, 0], 0)]),
    (WIDE_IN_22, 20, "n=21 kind=2 r=2 wide=2", &[(21, [2, 2, 0, 0, 0, 0, 2, 0], 0), (22, COVERED, 0)]),
];

// Crate lines that are refused: the crate, which stays as it is, `previous`, the line, the number.
const REFUSED_BY_HAND: &[(&[Stood], u32, &str, u32)] = &[
    // a covered station, whatever the rest of the line says
    (WIDE_IN_5, 5, "n=6 kind=1 r=1 wide=1", 12),
    (WIDE_IN_5, 0, "n=6 kind=1 r=1 wide=2", 12),
    (WIDE_IN_5, 5, "n=6 kind=0 r=17 wide=3", 12),
    (WIDE_IN_4_AND_6, 4, "n=5 kind=1 r=1 wide=2", 12),
    (WIDE_IN_4_AND_6, 4, "n=7 kind=1 r=1 wide=1", 12),
    (WIDE_IN_22, 22, "n=23 kind=1 r=1 wide=2", 12),
    // 1, 2 and 11 before 12
    (WIDE_IN_5, 5, "n=6 kind=1 r=1", 1),
    (WIDE_IN_5, 8, "n=6 kind=1 r=1 wide=1", 11),
    (WIDE_IN_5, 6, "n=6 kind=1 r=1 wide=1", 11),
    (WIDE_IN_5, u32::MAX, "n=6 kind=0 r=0 wide=0", 11),
    (WIDE_IN_22, 23, "n=24 kind=1 r=1 wide=2", 2),
    (WIDE_IN_22, 0, "n=0 kind=1 r=1 wide=2", 2),
    (WIDE_IN_22, 0, "n=99999999 kind=99999999 r=99999999 wide=99999999", 2),
    // 10: widths that no module has, and two wide in 23
    (WIDE_IN_5, 5, "n=7 kind=1 r=1 wide=0", 10),
    (WIDE_IN_5, 5, "n=7 kind=1 r=1 wide=3", 10),
    (WIDE_IN_5, 5, "n=7 kind=1 r=1 wide=258", 10),
    (WIDE_IN_5, 5, "n=7 kind=0 r=0 wide=1", 10),
    (WIDE_IN_5, 5, "n=7 kind=4 r=2 wide=2", 10),
    (WIDE_IN_5, 5, "n=23 kind=1 r=1 wide=2", 10),
    (AT_THE_ENDS, 22, "n=23 kind=1 r=1 wide=2", 10),
];

// Steps on WIDE_IN_5: the answer, the words stored, the crate after. A covered station answers as an empty one.
const WIDE_STEPS_BY_HAND: &[([u32; STEP], [u32; ANSWER], &[u32], &[Stood])] = &[
    ([1, 6, 0, 0, 0, 0], [1, 0, 0, 0], &[], WIDE_IN_5),
    ([1, 6, 0, 25, 0, 0], [1, 0, 0, 0], &[], WIDE_IN_5),
    ([1, 6, 0, 16, 5, 0], [1, 0, 0, 0], &[], WIDE_IN_5),
    ([1, 6, 13, 17, 3, 0], [1, 0, 0, 0], &[], WIDE_IN_5),
    ([1, 6, 12, 1, 0, 0], [1, 0, 0, 0], &[], WIDE_IN_5),
    ([2, 6, 0, 5, 0, 0], [2, 0, 0, 0], &[], WIDE_IN_5),
    ([8, 6, 0, 0, 4, 9], [5, 3, 0, 1], &[], WIDE_IN_5),
    ([9, 6, 0, 2, 4, 0], [5, 3, 0, 1], &[], WIDE_IN_5),
    // 5 and 8 request
    ([6, 0, 0, 0, 0, 0], [4, 16 + 128, 2, 5], &[], WIDE_IN_5),
    // two registers, then Q = 0 at A2 of 5, in 6 and in 7
    ([7, 5, 0, 0, 7, 8], [5, 2, 2, 5], &[9, 0], WIDE_IN_5),
    // none of 5 to 8 takes F16
    ([10, 5, 0, 8, 4, 3], [6, 2, 0, 4], &[], WIDE_IN_5),
    // F25 at the module itself
    ([1, 5, 0, 25, 0, 0], [1, 1, 1, 0], &[], &[(5, [1, 2, 1, 3, 0, 0, 2, 0], 10), WIDE_IN_5[1], WIDE_IN_5[2], WIDE_IN_5[3]]),
    // Z and C leave width and cover
    (
        [3, 0, 0, 0, 0, 0],
        [3, 1, 0, 0],
        &[],
        &[
            (0, [1, 0, 0, 0, 0, 0, 0, 0], 0),
            (5, [1, 2, 0, 0, 0, 0, 2, 0], 0),
            (6, COVERED, 0),
            (8, [3, 1, 0, 0, 0, 0, 1, 0], 0),
            (23, [2, 1, 0, 0, 0, 0, 1, 0], 0),
        ],
    ),
    (
        [4, 0, 0, 0, 0, 0],
        [3, 1, 0, 0],
        &[],
        &[(5, [1, 2, 1, 3, 0, 0, 2, 0], 0), (6, COVERED, 0), (8, [3, 1, 1, 1, 0, 0, 1, 0], 0), (23, [2, 1, 0, 0, 0, 0, 1, 0], 0)],
    ),
];

// What C and Z make of WIDE_IN_5, but for block 0.
const WIDE_IN_5_CLEARED: &[Stood] =
    &[(5, [1, 2, 1, 3, 0, 0, 2, 0], 0), (6, COVERED, 0), (8, [3, 1, 1, 1, 0, 0, 1, 0], 0), (23, [2, 1, 0, 0, 0, 0, 1, 0], 0)];
const WIDE_IN_5_INITIALIZED: &[Stood] =
    &[(5, [1, 2, 0, 0, 0, 0, 2, 0], 0), (6, COVERED, 0), (8, [3, 1, 0, 0, 0, 0, 1, 0], 0), (23, [2, 1, 0, 0, 0, 0, 1, 0], 0)];

// Steps with the controller's N on WIDE_IN_5: I and the Station Number Register before, the step, the answer, I and the register after, the stations after.
type HandSent = ([u32; 2], [u32; STEP], [u32; ANSWER], [u32; 2], &'static [Stood]);

const SENT_BY_HAND: &[HandSent] = &[
    // N24 F0: no station; 5; the covered 6; 23; 5 and 23, 9 OR 4; all, 9 OR 7 OR 4
    ([0, 0], [1, 24, 0, 0, 0, 0], [1, 0, 0, 0], [0, 0], WIDE_IN_5),
    ([0, 16], [1, 24, 0, 0, 0, 0], [1, 1, 1, 9], [0, 16], WIDE_IN_5),
    ([1, 32], [1, 24, 0, 0, 0, 0], [1, 0, 0, 0], [1, 32], WIDE_IN_5),
    ([1, 4194304], [1, 24, 0, 0, 0, 0], [1, 1, 1, 4], [1, 4194304], WIDE_IN_5),
    ([0, 4194320], [1, 24, 0, 0, 0, 0], [1, 1, 1, 13], [0, 4194320], WIDE_IN_5),
    ([0, 8388607], [1, 24, 0, 0, 0, 0], [1, 1, 1, 15], [0, 8388607], WIDE_IN_5),
    // N24 F9 at 8 and 23 leaves 5
    (
        [1, 4194432],
        [1, 24, 0, 9, 0, 0],
        [1, 1, 1, 0],
        [1, 4194432],
        &[WIDE_IN_5[0], WIDE_IN_5[1], WIDE_IN_5_CLEARED[2], WIDE_IN_5_CLEARED[3]],
    ),
    // N26 whatever the register holds: F25 at the scaler alone, F16 at the output register alone; F17 cuts W to the sources of each
    ([1, 0], [1, 26, 0, 25, 0, 0], [1, 1, 1, 0], [1, 0], &[(5, [1, 2, 1, 3, 0, 0, 2, 0], 10), WIDE_IN_5[1], WIDE_IN_5[2], WIDE_IN_5[3]]),
    (
        [0, 1],
        [1, 26, 0, 16, 16777215, 0],
        [1, 1, 1, 0],
        [0, 1],
        &[WIDE_IN_5[0], WIDE_IN_5[1], WIDE_IN_5[2], (23, [2, 1, 0, 0, 0, 0, 1, 0], 16777215)],
    ),
    (
        [0, 0],
        [1, 26, 13, 17, 2, 0],
        [1, 1, 1, 0],
        [0, 0],
        &[(5, [1, 2, 1, 2, 0, 0, 2, 0], 9), WIDE_IN_5[1], (8, [3, 1, 1, 0, 0, 0, 1, 0], 7), WIDE_IN_5[3]],
    ),
    // F8: the one source at A1 does not request; at A0 two do. F12 and A15 are accepted nowhere
    ([0, 0], [1, 26, 1, 8, 0, 0], [1, 1, 0, 0], [0, 0], WIDE_IN_5),
    ([0, 0], [1, 26, 0, 8, 0, 0], [1, 1, 1, 0], [0, 0], WIDE_IN_5),
    ([0, 8388607], [1, 26, 0, 12, 0, 0], [1, 0, 0, 0], [0, 8388607], WIDE_IN_5),
    ([0, 8388607], [1, 24, 15, 0, 0, 0], [1, 0, 0, 0], [0, 8388607], WIDE_IN_5),
    // N28: Z and C; other A and F
    ([0, 8388607], [1, 28, 8, 26, 16777215, 0], [1, 1, 0, 0], [1, 0], WIDE_IN_5_INITIALIZED),
    ([1, 5], [1, 28, 9, 26, 0, 0], [1, 1, 0, 0], [1, 5], WIDE_IN_5_CLEARED),
    ([0, 5], [1, 28, 8, 24, 0, 0], [1, 0, 0, 0], [0, 5], WIDE_IN_5),
    ([0, 5], [1, 28, 10, 26, 0, 0], [1, 0, 0, 0], [0, 5], WIDE_IN_5),
    ([0, 5], [1, 28, 8, 16, 16777215, 0], [1, 0, 0, 0], [0, 5], WIDE_IN_5),
    // N30: I; the register; other A and F
    ([1, 5], [1, 30, 9, 24, 0, 0], [1, 1, 0, 0], [0, 5], WIDE_IN_5),
    ([0, 5], [1, 30, 9, 26, 0, 0], [1, 1, 0, 0], [1, 5], WIDE_IN_5),
    ([0, 5], [1, 30, 9, 27, 0, 0], [1, 1, 0, 0], [0, 5], WIDE_IN_5),
    ([1, 5], [1, 30, 9, 27, 0, 0], [1, 1, 1, 0], [1, 5], WIDE_IN_5),
    ([1, 5], [1, 30, 8, 16, 8388607, 0], [1, 1, 0, 0], [1, 8388607], WIDE_IN_5),
    ([0, 5], [1, 30, 8, 16, 0, 0], [1, 1, 0, 0], [0, 0], WIDE_IN_5),
    ([0, 5], [1, 30, 8, 17, 8388608, 0], [1, 0, 0, 0], [0, 5], WIDE_IN_5),
    ([0, 5], [1, 30, 9, 16, 16777215, 0], [1, 0, 0, 0], [0, 5], WIDE_IN_5),
    // Z itself
    ([0, 5], [3, 0, 0, 0, 0, 0], [3, 1, 0, 0], [1, 0], WIDE_IN_5_INITIALIZED),
    // refused: 2; 2 before 3; 3 before 5; 4 before 5; 5 at 23 bits and at 24
    ([0, 5], [1, 25, 0, 0, 0, 0], [0, 2, 0, 0], [0, 5], WIDE_IN_5),
    ([0, 5], [1, 27, 9, 26, 0, 0], [0, 2, 0, 0], [0, 5], WIDE_IN_5),
    ([0, 5], [1, 29, 8, 26, 0, 0], [0, 2, 0, 0], [0, 5], WIDE_IN_5),
    ([0, 5], [1, 31, 8, 16, 0, 0], [0, 2, 0, 0], [0, 5], WIDE_IN_5),
    ([0, 5], [1, 32, 0, 0, 0, 0], [0, 2, 0, 0], [0, 5], WIDE_IN_5),
    ([0, 5], [1, 286, 8, 16, 0, 0], [0, 2, 0, 0], [0, 5], WIDE_IN_5),
    ([0, 5], [1, 25, 16, 32, u32::MAX, 0], [0, 2, 0, 0], [0, 5], WIDE_IN_5),
    ([0, 5], [1, 30, 16, 16, u32::MAX, 0], [0, 3, 0, 0], [0, 5], WIDE_IN_5),
    ([0, 5], [1, 30, 8, 32, u32::MAX, 0], [0, 4, 0, 0], [0, 5], WIDE_IN_5),
    ([0, 5], [1, 30, 8, 16, 8388608, 0], [0, 5, 0, 0], [0, 5], WIDE_IN_5),
    ([0, 5], [1, 30, 8, 17, 16777216, 0], [0, 5, 0, 0], [0, 5], WIDE_IN_5),
    ([0, 5], [1, 24, 0, 0, 16777216, 0], [0, 5, 0, 0], [0, 5], WIDE_IN_5),
    // front events, transfers, puts and windows have stations only
    ([0, 5], [2, 24, 0, 1, 0, 0], [0, 2, 0, 0], [0, 5], WIDE_IN_5),
    ([0, 5], [7, 26, 0, 0, 26, 1], [0, 2, 0, 0], [0, 5], WIDE_IN_5),
    ([0, 5], [8, 28, 0, 0, 1, 1], [0, 2, 0, 0], [0, 5], WIDE_IN_5),
    ([0, 5], [9, 30, 0, 0, 1, 0], [0, 2, 0, 0], [0, 5], WIDE_IN_5),
    ([0, 5], [10, 24, 0, 24, 1, 0], [0, 2, 0, 0], [0, 5], WIDE_IN_5),
    ([0, 5], [11, 26, 0, 26, 1, 0], [0, 2, 0, 0], [0, 5], WIDE_IN_5),
    ([0, 5], [12, 28, 28, 0, 0, 0], [0, 2, 0, 0], [0, 5], WIDE_IN_5),
];

// A scaler of two registers in station 3 and a buffer memory with one word in 5; and with that word taken.
const WORD_IN_5: &[Stood] = &[(3, [1, 2, 0, 0, 0, 0, 1, 0], 0), (5, [4, 1, 1, 0, 0, 1, 1, 0], 9)];
const NONE_IN_5: &[Stood] = &[(3, [1, 2, 0, 0, 0, 0, 1, 0], 0), (5, [4, 1, 0, 0, 1, 0, 1, 0], 0)];

// Steps on WORD_IN_5, with 7 at A1 of station 3: the words lent, the answer, the words stored, the stations after.
type HandShort = ([u32; STEP], usize, [u32; ANSWER], &'static [u32], &'static [Stood]);

// The trigger processor's entry, and the general one beside it.
const SHORT_BY_HAND: &[HandShort] = &[
    // a scan: two registers, Q = 0 at A2 and in 4, the word in 5, Q = 0 at A1
    ([17, 3, 0, 0, 5, 32], 32, [5, 2, 3, 6], &[0, 7, 9], WORD_IN_5),
    ([17, 3, 0, 0, 5, 33], 33, [0, 13, 0, 0], &[], WORD_IN_5),
    ([7, 3, 0, 0, 5, 33], 33, [5, 2, 3, 6], &[0, 7, 9], WORD_IN_5),
    ([17, 3, 0, 0, 5, 1], 1, [5, 1, 1, 1], &[0], WORD_IN_5),
    ([17, 3, 1, 0, 5, 2], 2, [5, 1, 2, 4], &[7, 9], WORD_IN_5),
    // a Repeat: F2 takes the word, then Q = 0; of F0 at A1 it stores 32
    ([18, 5, 0, 2, 32, 3], 32, [5, 2, 1, 3], &[9], NONE_IN_5),
    ([18, 3, 1, 0, 32, 4096], 33, [5, 1, 32, 32], &[7; 32], WORD_IN_5),
    ([18, 3, 1, 0, 33, 4096], 33, [0, 13, 0, 0], &[], WORD_IN_5),
    ([8, 3, 1, 0, 33, 4096], 34, [5, 1, 33, 33], &[7; 33], WORD_IN_5),
    // a Stop: X = 0 in the empty station; Q = 0 after the word; 32 words
    ([19, 4, 0, 0, 32, 0], 32, [5, 3, 0, 1], &[], WORD_IN_5),
    ([19, 5, 0, 2, 2, 0], 2, [5, 2, 1, 2], &[9], NONE_IN_5),
    ([19, 3, 1, 0, 32, 0], 32, [5, 1, 32, 32], &[7; 32], WORD_IN_5),
    ([19, 3, 1, 0, 33, 0], 33, [0, 13, 0, 0], &[], WORD_IN_5),
    ([9, 3, 1, 0, 33, 0], 33, [5, 1, 33, 33], &[7; 33], WORD_IN_5),
    // 8 asks for `limit` words, after 13
    ([17, 3, 0, 0, 3, 32], 31, [0, 8, 0, 0], &[], WORD_IN_5),
    ([17, 3, 0, 0, 3, 32], 32, [5, 2, 2, 3], &[0, 7], WORD_IN_5),
    ([17, 3, 0, 0, 3, 33], 0, [0, 13, 0, 0], &[], WORD_IN_5),
    ([7, 3, 0, 0, 3, 33], 32, [0, 8, 0, 0], &[], WORD_IN_5),
    ([18, 3, 0, 0, 2, 1], 1, [0, 8, 0, 0], &[], WORD_IN_5),
    ([19, 4, 0, 0, 1, 0], 0, [0, 8, 0, 0], &[], WORD_IN_5),
    // 2, 3, 4 and 6 before 13
    ([17, 24, 16, 1, 2, 33], 0, [0, 2, 0, 0], &[], WORD_IN_5),
    ([17, 3, 16, 1, 2, 33], 0, [0, 3, 0, 0], &[], WORD_IN_5),
    ([17, 3, 0, 1, 2, 33], 0, [0, 4, 0, 0], &[], WORD_IN_5),
    ([17, 3, 0, 0, 2, 33], 0, [0, 6, 0, 0], &[], WORD_IN_5),
    // the limit: 13 up to 512; 7 above, and at 0
    ([17, 3, 0, 0, 5, 512], 512, [0, 13, 0, 0], &[], WORD_IN_5),
    ([17, 3, 0, 0, 5, 513], 600, [0, 7, 0, 0], &[], WORD_IN_5),
    ([17, 3, 0, 0, 5, u32::MAX], 0, [0, 7, 0, 0], &[], WORD_IN_5),
    ([17, 3, 0, 0, 5, 0], 0, [0, 7, 0, 0], &[], WORD_IN_5),
    ([19, 4, 0, 0, 0, 0], 0, [0, 7, 0, 0], &[], WORD_IN_5),
    ([19, 4, 0, 0, 513, 0], 600, [0, 7, 0, 0], &[], WORD_IN_5),
    // of a Repeat it is judged before the tries, these before 8
    ([18, 5, 0, 2, 40, 0], 40, [0, 13, 0, 0], &[], WORD_IN_5),
    ([18, 5, 0, 2, 33, 4097], 0, [0, 13, 0, 0], &[], WORD_IN_5),
    ([18, 5, 0, 2, 513, 0], 600, [0, 7, 0, 0], &[], WORD_IN_5),
    ([18, 5, 0, 2, 32, 0], 0, [0, 7, 0, 0], &[], WORD_IN_5),
    ([18, 5, 0, 2, 32, 4097], 32, [0, 7, 0, 0], &[], WORD_IN_5),
    // no steps
    ([16, 3, 0, 0, 5, 32], 32, [0, 1, 0, 0], &[], WORD_IN_5),
    ([20, 3, 0, 0, 5, 32], 32, [0, 1, 0, 0], &[], WORD_IN_5),
    ([27, 3, 0, 0, 5, 32], 32, [0, 1, 0, 0], &[], WORD_IN_5),
];

// I and the Station Number Register set; a scaler of two registers in 3, an output register of two in 4, a counter of three in 5, a buffer memory with one word
// in 7, an input register two stations wide in 8, a scaler in 23.
const IN_A_WINDOW: &[Stood] = &[
    (0, [1, 5, 0, 0, 0, 0, 0, 0], 0),
    (3, [1, 2, 0, 3, 0, 0, 1, 0], 0),
    (4, [2, 2, 0, 0, 0, 0, 1, 0], 5),
    (5, [5, 3, 7, 0, 0, 0, 1, 0], 0),
    (7, [4, 1, 1, 1, 0, 1, 1, 0], 5),
    (8, [3, 1, 1, 1, 0, 0, 2, 0], 7),
    (9, COVERED, 0),
    (23, [1, 1, 0, 0, 0, 0, 1, 0], 5),
];
// Its registers behind the first that are not 0, each by station, place in its block, and value.
const BEHIND_THE_FIRST: &[(usize, usize, u32)] = &[(3, 17, 5), (4, 17, 6), (5, 17, 6), (5, 18, 16777215)];

// Windows on IN_A_WINDOW, which stays as it is: the step, the words lent, the answer, the numbers listed.
type HandWindow = ([u32; STEP], usize, [u32; ANSWER], &'static [u32]);

const WINDOWS_BY_HAND: &[HandWindow] = &[
    // 5 and about it: A1 of 3, and A0 of 23; the output register and the buffer memory hold it too, and are not listed
    ([12, 3, 7, 5, 5, 0], 80, [7, 1, 0, 0], &[49]),
    ([12, 1, 23, 5, 5, 0], 368, [7, 2, 0, 0], &[49, 368]),
    ([12, 1, 23, 4, 5, 0], 512, [7, 2, 0, 0], &[49, 368]),
    ([12, 1, 23, 5, 6, 0], 512, [7, 3, 0, 0], &[49, 81, 368]),
    ([12, 1, 23, 6, 7, 0], 600, [7, 2, 0, 0], &[81, 128]),
    ([12, 1, 23, 1, 4, 0], 368, [7, 0, 0, 0], &[]),
    ([12, 1, 22, 5, 5, 0], 352, [7, 1, 0, 0], &[49]),
    ([12, 23, 23, 5, 5, 0], 16, [7, 1, 0, 0], &[368]),
    // a word more than is asked for stays, as do all behind the list
    ([12, 23, 23, 5, 5, 0], 17, [7, 1, 0, 0], &[368]),
    // the sixth word is not looked at
    ([12, 23, 23, 5, 5, u32::MAX], 16, [7, 1, 0, 0], &[368]),
    // 0: A2 of 3 and A3 of 5 are no registers
    ([12, 3, 7, 0, 0, 0], 80, [7, 2, 0, 0], &[48, 80]),
    ([12, 3, 3, 0, 4, 0], 16, [7, 1, 0, 0], &[48]),
    // all words
    ([12, 3, 9, 0, 16777215, 0], 112, [7, 6, 0, 0], &[48, 49, 80, 81, 82, 128]),
    ([12, 5, 5, 0, 16777215, 0], 512, [7, 3, 0, 0], &[80, 81, 82]),
    // -1 of the counter is 16777215
    ([12, 1, 23, 16777215, 16777215, 0], 368, [7, 1, 0, 0], &[82]),
    ([12, 1, 23, 8388608, 16777215, 0], 512, [7, 1, 0, 0], &[82]),
    ([12, 5, 5, 0, 16777214, 0], 16, [7, 2, 0, 0], &[80, 81]),
    ([12, 5, 5, 8388607, 16777214, 0], 16, [7, 0, 0, 0], &[]),
    // nothing is listed of an output register, a buffer memory, a covered station, empty ones
    ([12, 4, 4, 0, 16777215, 0], 16, [7, 0, 0, 0], &[]),
    ([12, 7, 7, 0, 16777215, 0], 16, [7, 0, 0, 0], &[]),
    ([12, 9, 9, 0, 16777215, 0], 16, [7, 0, 0, 0], &[]),
    ([12, 10, 22, 0, 16777215, 0], 512, [7, 0, 0, 0], &[]),
    // 8: sixteen words a station, whatever the list's length
    ([12, 3, 7, 5, 5, 0], 79, [0, 8, 0, 0], &[]),
    ([12, 3, 7, 5, 5, 0], 1, [0, 8, 0, 0], &[]),
    ([12, 23, 23, 5, 5, 0], 15, [0, 8, 0, 0], &[]),
    ([12, 1, 23, 5, 5, 0], 367, [0, 8, 0, 0], &[]),
    ([12, 10, 11, 0, 0, 0], 31, [0, 8, 0, 0], &[]),
    ([12, 10, 10, 0, 0, 0], 0, [0, 8, 0, 0], &[]),
    // 14, before 8
    ([12, 3, 7, 6, 5, 0], 80, [0, 14, 0, 0], &[]),
    ([12, 3, 7, 1, 0, 0], 512, [0, 14, 0, 0], &[]),
    ([12, 3, 7, 16777215, 16777214, 0], 79, [0, 14, 0, 0], &[]),
    ([12, 3, 7, 16777215, 0, 0], 0, [0, 14, 0, 0], &[]),
    // 5 for either bound, before 14 and 8
    ([12, 3, 7, 16777216, 16777215, 0], 80, [0, 5, 0, 0], &[]),
    ([12, 3, 7, 16777216, 0, 0], 0, [0, 5, 0, 0], &[]),
    ([12, 3, 7, 0, 16777216, 0], 512, [0, 5, 0, 0], &[]),
    ([12, 3, 7, 5, 16777221, 0], 0, [0, 5, 0, 0], &[]),
    ([12, 3, 7, 0, 99999999, 0], 80, [0, 5, 0, 0], &[]),
    ([12, 3, 7, 16777217, 16777216, 0], 80, [0, 5, 0, 0], &[]),
    // 6, before 5, 14 and 8
    ([12, 3, 2, 16777216, 16777216, 0], 512, [0, 6, 0, 0], &[]),
    ([12, 3, 24, 6, 5, 0], 512, [0, 6, 0, 0], &[]),
    ([12, 3, 0, 5, 5, 0], 0, [0, 6, 0, 0], &[]),
    ([12, 23, 24, 5, 5, 0], 32, [0, 6, 0, 0], &[]),
    ([12, 3, 263, 5, 5, 0], 512, [0, 6, 0, 0], &[]),
    ([12, 1, 99999999, 0, 16777216, 0], 0, [0, 6, 0, 0], &[]),
    // 2, before all these; 24, 26, 28 and 30 are no stations
    ([12, 0, 7, 5, 5, 0], 512, [0, 2, 0, 0], &[]),
    ([12, 0, 24, 6, 16777216, 0], 0, [0, 2, 0, 0], &[]),
    ([12, 24, 2, 16777216, 5, 0], 0, [0, 2, 0, 0], &[]),
    ([12, 24, 24, 5, 5, 0], 512, [0, 2, 0, 0], &[]),
    ([12, 25, 25, 6, 5, 0], 512, [0, 2, 0, 0], &[]),
    ([12, 26, 26, 5, 5, 0], 512, [0, 2, 0, 0], &[]),
    ([12, 28, 23, 5, 5, 0], 512, [0, 2, 0, 0], &[]),
    ([12, 30, 30, 5, 5, 0], 512, [0, 2, 0, 0], &[]),
    ([12, 259, 263, 5, 5, 0], 512, [0, 2, 0, 0], &[]),
    ([12, 99999999, 99999999, 6, 5, 0], 512, [0, 2, 0, 0], &[]),
    // no steps
    ([13, 3, 7, 5, 5, 0], 512, [0, 1, 0, 0], &[]),
    ([28, 3, 7, 5, 5, 0], 512, [0, 1, 0, 0], &[]),
    ([268, 24, 2, 6, 5, 0], 0, [0, 1, 0, 0], &[]),
];

// Windows on a full crate whose registers, sixteen a station, hold each its own number: the step, the words lent, the first and the last number listed.
const FULL_BY_HAND: &[([u32; STEP], usize, [u32; 2])] = &[
    ([12, 1, 23, 0, 16777215, 0], 368, [16, 383]),
    ([12, 1, 23, 16, 383, 0], 512, [16, 383]),
    ([12, 1, 23, 17, 382, 0], 369, [17, 382]),
    ([12, 1, 1, 0, 16777215, 0], 16, [16, 31]),
    ([12, 2, 22, 31, 368, 0], 512, [32, 367]),
    ([12, 3, 5, 79, 80, 0], 48, [79, 80]),
    ([12, 23, 23, 383, 383, 0], 600, [383, 383]),
];

// Words of WIDE_IN_5 set so that it stays fit, each by station, place in its block, and value.
const FIT_BY_HAND: &[&[(usize, usize, u32)]] = &[
    &[],
    // the input register in 8 two wide, with its cover
    &[(8, 6, 2), (9, 7, 1)],
    // the scaler one wide, without
    &[(5, 6, 1), (6, 7, 0)],
    // a Station Number Register of 23 bits
    &[(0, 1, 1)],
    &[(0, 1, 8388607)],
    &[(0, 0, 1), (0, 1, 4194304)],
];

// The same, so that it is not fit.
const UNFIT_BY_HAND: &[&[(usize, usize, u32)]] = &[
    // two wide without its cover, and a cover that is 2
    &[(6, 7, 0)],
    &[(6, 7, 2)],
    // a cover behind one wide, behind an empty station, in station 1, and behind the covered one
    &[(9, 7, 1)],
    &[(12, 7, 1)],
    &[(1, 7, 1)],
    &[(7, 7, 1)],
    // on the module itself, or before it
    &[(5, 7, 1)],
    &[(4, 7, 1)],
    &[(6, 7, 0), (5, 7, 1)],
    // two wide in 23
    &[(23, 6, 2)],
    // a module in the covered station, still covered or not
    &[(6, 0, 1), (6, 1, 1), (6, 6, 1)],
    &[(6, 0, 1), (6, 1, 1), (6, 6, 1), (6, 7, 0)],
    &[(7, 0, 1), (7, 1, 1), (7, 6, 2), (8, 7, 1)],
    // width 0 with a module
    &[(8, 6, 0)],
    &[(5, 6, 0), (6, 7, 0)],
    // a width in an empty station and in the covered one
    &[(12, 6, 1)],
    &[(12, 6, 2), (13, 7, 1)],
    &[(6, 6, 1)],
    &[(6, 6, 2), (7, 7, 1)],
    // widths that no module has
    &[(8, 6, 3)],
    &[(8, 6, 3), (9, 7, 1)],
    &[(8, 6, 1 << 31)],
    &[(5, 6, 258)],
    // words 8 to 15
    &[(5, 8, 1)],
    &[(6, 15, 1)],
    &[(12, 8, 1)],
    &[(8, 15, 1 << 31)],
    // block 0 as if it covered station 1, or were covered
    &[(0, 6, 2)],
    &[(0, 6, 2), (1, 7, 1)],
    &[(0, 7, 1)],
    // a Station Number Register of more than 23 bits, and words of block 0 behind it
    &[(0, 1, 8388608)],
    &[(0, 1, 16777215)],
    &[(0, 1, u32::MAX)],
    &[(0, 1, 1), (0, 2, 1)],
    &[(0, 31, 1)],
];

fn memory_of(stations: &[Stood]) -> Vec<u32> {
    let mut memory = vec![0; MEMORY];
    for (n, words, register) in stations {
        memory[n * BLOCK..n * BLOCK + 8].copy_from_slice(words);
        memory[n * BLOCK + 16] = *register;
    }
    memory
}

fn lent_by_hand<T: Copy + Default>(contents: &[T]) -> Lent<T> {
    Lent::new(contents, T::default)
}

// Asserts that library and reference both do the call as the hand has it: the number returned, the answer, memory and buffer, each as it was before and as
// it is after. Before it the answer is 0.
fn try_by_hand(mut call: Call, number: u32, answer: [u32; ANSWER], memory: [&[u32]; 2], buffer: [&[u32]; 2]) {
    let call_before = call.clone();
    let mut reference = Arrays { memory: lent_by_hand(memory[0]), answer: lent_by_hand(&[0; ANSWER]), buffer: lent_by_hand(buffer[0]) };
    let mut library = reference.clone();
    let shown = match &call {
        Call::CrateLine(previous, line) => format!("crate line {} after {previous}", line.words().escape_ascii()),
        Call::RunLine(line) => format!("run line {}", line.words().escape_ascii()),
        Call::Step(step) => format!("step {:?}, {} words lent", step.words(), buffer[0].len()),
        Call::List(count, _) => format!("list of {count} steps"),
    };

    assert_eq!(call_reference(&call, &mut reference), number, "reference, returned, {shown}");
    assert_eq!(call_library(&mut call, &mut library), number, "library, returned, {shown}");
    assert!(call == call_before, "library, step or line, {shown}");
    for (name, after) in [("reference", reference), ("library", library)] {
        assert!(after.answer == lent_by_hand(&answer), "{name}, answer {:?}, {shown}", after.answer.words());
        assert!(after.memory == lent_by_hand(memory[1]), "{name}, memory, {shown}");
        assert!(after.buffer == lent_by_hand(buffer[1]), "{name}, buffer, {shown}");
    }
}

fn try_step(step: [u32; STEP], answer: [u32; ANSWER], memory: [&[u32]; 2], buffer: [&[u32]; 2]) {
    let number = if answer[0] == 0 { answer[1] } else { 0 };
    try_by_hand(Call::Step(lent_by_hand(&step)), number, answer, memory, buffer);
}

// A window as a step, as a line, and, where as many words are lent as a step of a list has, as a list of one step.
fn try_window(step: [u32; STEP], lent: usize, answer: [u32; ANSWER], memory: &[u32], listed: &[u32]) {
    let number = if answer[0] == 0 { answer[1] } else { 0 };
    let buffer = vec![77; lent];
    let after = [listed, &buffer[listed.len()..]].concat();
    try_step(step, answer, [memory, memory], [&buffer, &after]);
    try_by_hand(Call::RunLine(lent_by_hand(run_text(&step).as_bytes())), number, answer, [memory, memory], [&buffer, &after]);
    if lent == BUFFER {
        try_by_hand(Call::List(1, lent_by_hand(&step)), 0, answer, [memory, memory], [&buffer, &after]);
    }
}

fn try_line(previous: u32, line: &str, number: u32, memory: [&[u32]; 2]) {
    try_by_hand(Call::CrateLine(previous, lent_by_hand(line.as_bytes())), number, [0; ANSWER], memory, [&[], &[]]);
}

// All of them, each from its crate.
fn try_all_by_hand() {
    let station = |n: usize| n * BLOCK;
    for (words, limit, answer, registers) in puts_by_hand() {
        let mut before = memory_of(&[(2, [2, 4, 0, 0, 0, 0, 1, 0], 9)]);
        before[station(2) + 16..station(2) + 20].fill(9);
        let mut after = before.clone();
        after[station(2) + 16..station(2) + 20].copy_from_slice(&registers);
        try_step([11, 2, 0, 2, limit, u32::MAX], answer, [&before, &after], [&words, &words]);
    }
    for (step, answer, stored) in TRANSFERS_BY_HAND {
        let mut memory = memory_of(&[(3, [1, 2, 0, 0, 0, 0, 1, 0], 0), (5, [4, 1, 0, 0, 0, 0, 1, 0], 0)]);
        memory[station(3) + 17] = 9;
        let buffer = vec![77; 512];
        let after = [stored, &buffer[stored.len()..]].concat();
        try_step(step, answer, [&memory, &memory], [&buffer, &after]);
    }
    for (inhibit, [kind, r, status, mask, fill], [a, v], digit, [status_after, fill_after, place, word]) in FRONTS_BY_HAND {
        let register = |place: u32| station(7) + 16 + place as usize;
        let held = match kind {
            0 => 0..0,
            4 => register(0)..register(fill),
            _ => register(a)..register(a + 1),
        };
        let mut before = memory_of(&[(7, [kind, r, status, mask, 0, fill, (kind != 0) as u32, 0], 0)]);
        before[0] = inhibit;
        before[held].fill(16777215);
        let mut after = before.clone();
        after[station(7) + 2] = status_after;
        after[station(7) + 5] = fill_after;
        after[register(place)] = word;
        try_step([2, 7, a, v, 0, 0], [2, digit, 0, 0], [&before, &after], [&[77], &[77]]);
    }
    for (before, previous, line, after) in LINES_BY_HAND {
        try_line(*previous, line, 0, [&memory_of(before), &memory_of(after)]);
    }
    for (stations, previous, line, number) in REFUSED_BY_HAND {
        let memory = memory_of(stations);
        try_line(*previous, line, *number, [&memory, &memory]);
    }
    for (step, answer, stored, after) in WIDE_STEPS_BY_HAND {
        let buffer = vec![77; 16];
        let buffer_after = [stored, &buffer[stored.len()..]].concat();
        try_step(*step, *answer, [&memory_of(WIDE_IN_5), &memory_of(after)], [&buffer, &buffer_after]);
    }
    for ([inhibit, register], step, answer, [inhibit_after, register_after], after) in SENT_BY_HAND {
        let with_block_0 = |i, register, stations| {
            let mut memory = memory_of(stations);
            memory[..2].copy_from_slice(&[i, register]);
            memory
        };
        let (before, after) = (with_block_0(*inhibit, *register, WIDE_IN_5), with_block_0(*inhibit_after, *register_after, *after));
        try_step(*step, *answer, [&before, &after], [&[77], &[77]]);
    }
    for (step, lent, answer, stored, after) in SHORT_BY_HAND {
        let with_register_1 = |stations| {
            let mut memory = memory_of(stations);
            memory[station(3) + 17] = 7;
            memory
        };
        let buffer = vec![77; *lent];
        let buffer_after = [stored, &buffer[stored.len()..]].concat();
        try_step(*step, *answer, [&with_register_1(WORD_IN_5), &with_register_1(*after)], [&buffer, &buffer_after]);
    }
    let mut in_a_window = memory_of(IN_A_WINDOW);
    BEHIND_THE_FIRST.iter().for_each(|(n, place, value)| in_a_window[station(*n) + place] = *value);
    for (step, lent, answer, listed) in WINDOWS_BY_HAND {
        try_window(*step, *lent, *answer, &in_a_window, listed);
    }
    let mut full = vec![0; MEMORY];
    for n in 1..=23 {
        full[station(n)..station(n) + 8].copy_from_slice(&[[1, 3, 5][n % 3], 16, 0, 0, 0, 0, 1, 0]);
        (0..16).for_each(|a| full[station(n) + 16 + a] = (n * 16 + a) as u32);
    }
    for (step, lent, [first, last]) in FULL_BY_HAND {
        let listed: Vec<u32> = (*first..=*last).collect();
        try_window(*step, *lent, [7, last - first + 1, 0, 0], &full, &listed);
    }
    // F0 at the empty station 20, a long transfer of the trigger processor, a crossed window, a crate line for 20, a run line and a list of no steps
    for (sets, fit) in FIT_BY_HAND.iter().map(|sets| (sets, true)).chain(UNFIT_BY_HAND.iter().map(|sets| (sets, false))) {
        let mut memory = memory_of(WIDE_IN_5);
        sets.iter().for_each(|(n, place, value)| memory[station(*n) + place] = *value);
        let mut placed = memory.clone();
        if fit {
            placed[station(20)..station(20) + 8].copy_from_slice(&[1, 1, 0, 0, 0, 0, 1, 0]);
        }
        let number = if fit { 0 } else { UNFIT_CRATE };
        let answer = if fit { [1, 0, 0, 0] } else { [0, UNFIT_CRATE, 0, 0] };
        let lam = if fit { [4, 16 + 128, 2, 5] } else { answer };
        try_step([1, 20, 0, 0, 0, 0], answer, [&memory, &memory], [&[], &[]]);
        try_step([17, 20, 0, 0, 20, 33], if fit { [0, 13, 0, 0] } else { answer }, [&memory, &memory], [&[], &[]]);
        try_step([12, 20, 20, 1, 0, 0], if fit { [0, 14, 0, 0] } else { answer }, [&memory, &memory], [&[], &[]]);
        try_line(19, "n=20 kind=1 r=1 wide=1", number, [&memory, &placed]);
        try_by_hand(Call::RunLine(lent_by_hand(b"op=lam")), number, lam, [&memory, &memory], [&[], &[]]);
        try_by_hand(Call::List(0, lent_by_hand(&[])), number, [0; ANSWER], [&memory, &memory], [&[], &[]]);
    }
    println!("worked out by hand, 0 differ:");
    println!("  {} puts, {} Repeats and Stops, {} front events", puts_by_hand().len(), TRANSFERS_BY_HAND.len(), FRONTS_BY_HAND.len());
    println!(
        "  {} crate lines and {} refused, {} steps beside a covered station, {} memories fit and {} unfit",
        LINES_BY_HAND.len(), REFUSED_BY_HAND.len(), WIDE_STEPS_BY_HAND.len(), FIT_BY_HAND.len(), UNFIT_BY_HAND.len()
    );
    println!(
        "  {} steps with the controller's N, {} about the trigger processor's entry, {} about windows",
        SENT_BY_HAND.len(), SHORT_BY_HAND.len(), WINDOWS_BY_HAND.len() + FULL_BY_HAND.len()
    );
}

// ---- what is printed of a difference ----

fn show_call(call: &Call) {
    match call {
        Call::CrateLine(previous, line) => println!("pagontxu_crate_line, previous {previous}, line \"{}\"", line.words().escape_ascii()),
        Call::RunLine(line) => println!("pagontxu_run_line, line \"{}\"", line.words().escape_ascii()),
        Call::Step(step) => println!("pagontxu_step, step {:?}", step.words()),
        Call::List(count, steps) => {
            println!("pagontxu_list, count {count}, {} words of steps", steps.len());
            steps.words().chunks(STEP).for_each(|step| println!("  {step:?}"));
        }
    }
}

fn show_memory(memory: &[u32]) {
    println!("memory before: {} words; those not 0, by blocks:", memory.len());
    for (n, block) in memory.chunks(BLOCK).enumerate() {
        if block.iter().any(|word| *word != 0) {
            println!("  {n}: {block:?}");
        }
    }
}

// The places where two arrays differ; a place below 0 or past the length was not lent.
fn show_difference<T: Copy + PartialEq + Debug>(name: &str, before: &Lent<T>, reference: &Lent<T>, library: &Lent<T>) {
    let mut shown = 0;
    for place in 0..before.all.len() {
        if reference.all[place] != library.all[place] {
            if shown < 20 {
                println!(
                    "{name} ({} lent) word {}: before {:?}, reference {:?}, library {:?}",
                    before.len(), place as i64 - FENCE as i64, before.all[place], reference.all[place], library.all[place]
                );
            }
            shown += 1;
        }
    }
    if shown > 20 {
        println!("{name}: {} more words differ", shown - 20);
    }
}

// ---- the program ----

fn main() {
    let numbers: Vec<u64> = std::env::args().skip(1).filter_map(|word| word.parse().ok()).collect();
    let [seed, count] = match numbers[..] {
        [seed, count] => [seed, count],
        _ => {
            eprintln!("library SEED COUNT");
            std::process::exit(2);
        }
    };
    try_all_by_hand();
    let mut chance = Chance(seed);
    let mut memory = lent_words(&mut chance, &[]);
    let mut left = 0; // calls until a new memory is made
    let mut by_function = [0u64; 4];
    let mut by_number = [0u64; NUMBERS];
    for place in 1..=count {
        if left == 0 {
            let contents = fit_memory(&mut chance);
            memory = lent_words(&mut chance, &contents);
            left = 1 + chance.below(100);
        }
        left -= 1;
        let (call, mut before) = any_call(&mut chance, &memory);
        if chance.percent(6) {
            let contents = spoilt(&mut chance, memory.words());
            before.memory = lent_words(&mut chance, &contents);
        }
        let mut reference = before.clone();
        let mut library = before.clone();
        let mut call_after = call.clone();
        let number_reference = call_reference(&call, &mut reference);
        let number_library = call_library(&mut call_after, &mut library);

        let same = number_reference == number_library
            && reference.memory == library.memory
            && reference.answer == library.answer
            && reference.buffer == library.buffer
            && call == call_after
            && fit(before.memory.words()) == fit(library.memory.words());
        if !same {
            println!("DIFFERENT: call {place} of seed {seed}; bench/library.sh {place} {seed} repeats it");
            show_call(&call);
            println!("answer of {} words, buffer of {} words", before.answer.len(), before.buffer.len());
            show_memory(before.memory.words());
            println!("returned: reference {number_reference}, library {number_library}");
            show_difference("memory", &before.memory, &reference.memory, &library.memory);
            show_difference("answer", &before.answer, &reference.answer, &library.answer);
            show_difference("buffer", &before.buffer, &reference.buffer, &library.buffer);
            if call != call_after {
                println!("the library changed the step or line that it was lent to read");
            }
            if fit(before.memory.words()) != fit(library.memory.words()) {
                println!("the library left a fit crate unfit, or an unfit one fit");
            }
            println!("{place} calls, 1 differs");
            std::process::exit(1);
        }
        let function = match call {
            Call::Step(_) => 0,
            Call::RunLine(_) => 1,
            Call::CrateLine(..) => 2,
            Call::List(..) => 3,
        };
        by_function[function] += 1;
        by_number[number_library as usize] += 1;
        // The next call gets what this one left, or the memory from before it was spoilt.
        if fit(library.memory.words()) {
            memory = library.memory;
        }
    }
    let [steps, run_lines, crate_lines, lists] = by_function;
    println!("steps {steps}, run lines {run_lines}, crate lines {crate_lines}, lists {lists}");
    print!("returned 0: {}; refusals", by_number[0]);
    (1..NUMBERS).for_each(|number| print!(" {number}: {}", by_number[number]));
    println!();
    println!("{count} calls, 0 differ");
}
