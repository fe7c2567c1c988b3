// The crate, its steps and its lines in plain Rust, written from document 01 and requests L1, L3, L4 and L6 to L9 of document 02, read as docs/RULES.md has them.
// It shares no code with the proved library, so that library.rs can compare the two call by call.

use std::collections::VecDeque;

const STATIONS: u32 = 23;
const LONGEST_LINE: usize = 80;
const MODULUS: u32 = 1 << 24;
const WORD_MAX: u32 = MODULUS - 1;
const BUFFER_PLACES: usize = 16;
const PROCESSOR_WORDS: u32 = 32; // that the trigger processor can hold

pub const GARBLED: u32 = 1;
const NO_SUCH_STATION: u32 = 2;
const NO_SUCH_SUBADDRESS: u32 = 3;
const NO_SUCH_FUNCTION: u32 = 4;
const OVERWIDE_WORD: u32 = 5;
const CROSSED_RANGE: u32 = 6;
const BAD_LENGTH: u32 = 7;
pub const SHORT_BUFFER: u32 = 8;
const BAD_MODULE: u32 = 10;
const OUT_OF_ORDER: u32 = 11;
const COVERED_STATION: u32 = 12;
const LONG_TRANSFER: u32 = 13;
const CROSSED_WINDOW: u32 = 14;

// ---- modules ----

#[derive(Clone, Copy, PartialEq)]
pub enum Kind {
    Empty,
    Scaler,
    Output,
    Input,
    Buffer,
    Counter,
}

#[derive(Clone)]
pub struct Module {
    pub kind: Kind,
    pub r: u32,
    pub wide: u32, // stations that it fills
    pub status: u32,
    pub mask: u32,
    pub registers: [u32; 16], // of a buffer memory not used
    // The words of a buffer memory, the oldest first, and the place of the oldest. Head is never printed.
    pub words: VecDeque<u32>,
    pub head: u32,
}

pub struct Crate {
    pub inhibit: bool,
    pub addressed: u32, // the Station Number Register: bit n - 1 for station n
    pub stations: Vec<Module>, // place n is station n; place 0, left of station 1, stays empty
}

#[derive(Clone, Copy)]
pub struct Reply {
    pub x: u32,
    pub q: u32,
    pub r: u32,
}

const NOT_ACCEPTED: Reply = Reply { x: 0, q: 0, r: 0 };
const DONE: Reply = Reply { x: 1, q: 1, r: 0 };
const OBEYED: Reply = Reply { x: 1, q: 0, r: 0 }; // by the controller

fn read_word(word: u32) -> Reply {
    Reply { x: 1, q: 1, r: word }
}

fn test(bit: bool) -> Reply {
    Reply { x: 1, q: bit as u32, r: 0 }
}

fn complement(word: u32) -> u32 {
    WORD_MAX - word
}

// A 24-bit word as a signed number.
fn signed(word: u32) -> i64 {
    if word < MODULUS / 2 {
        word as i64
    } else {
        word as i64 - MODULUS as i64
    }
}

impl Module {
    pub fn empty() -> Module {
        Module::new(Kind::Empty, 0, 0)
    }

    pub fn new(kind: Kind, r: u32, wide: u32) -> Module {
        Module { kind, r, wide, status: 0, mask: 0, registers: [0; 16], words: VecDeque::new(), head: 0 }
    }

    fn sources(&self) -> u32 {
        match self.kind {
            Kind::Empty | Kind::Output => 0,
            Kind::Buffer => 2,
            Kind::Scaler | Kind::Input | Kind::Counter => self.r,
        }
    }

    fn command(&mut self, a: u32, f: u32, w: u32) -> Reply {
        match f {
            0 | 2 | 3 | 9 => {
                if self.kind == Kind::Buffer {
                    self.buffer_command(a, f)
                } else {
                    self.register_command(a, f)
                }
            }
            16 | 18 | 21 => self.write_command(a, f, w),
            25 => self.increment(a),
            8 | 10 | 24 | 26 | 27 => self.lam_command(a, f),
            1 | 11 | 17 | 19 | 23 => self.group_2_command(a, f, w),
            _ => NOT_ACCEPTED,
        }
    }

    // F0, F2, F3, F9 at kinds 1, 2, 3, 5. An empty station has r = 0.
    fn register_command(&mut self, a: u32, f: u32) -> Reply {
        if a >= self.r {
            return NOT_ACCEPTED;
        }
        let register = &mut self.registers[a as usize];
        let old = *register;
        match f {
            0 => read_word(old),
            2 => {
                *register = 0;
                read_word(old)
            }
            3 => read_word(complement(old)),
            _ => {
                *register = 0;
                DONE
            }
        }
    }

    // F0, F2, F3, F9 at a buffer memory.
    fn buffer_command(&mut self, a: u32, f: u32) -> Reply {
        if a != 0 {
            return NOT_ACCEPTED;
        }
        if f == 9 {
            self.words.clear();
            self.head = 0;
            self.status &= !1;
            return DONE;
        }
        let oldest = match self.words.front() {
            Some(word) => *word,
            None => return Reply { x: 1, q: 0, r: 0 },
        };
        if f == 3 {
            return read_word(complement(oldest));
        }
        if f == 2 {
            self.words.pop_front();
            self.head = (self.head + 1) % BUFFER_PLACES as u32;
            if self.words.is_empty() {
                self.status &= !1;
            }
        }
        read_word(oldest)
    }

    fn write_command(&mut self, a: u32, f: u32, w: u32) -> Reply {
        let takes = match f {
            16 => self.kind == Kind::Output || self.kind == Kind::Counter,
            _ => self.kind == Kind::Output,
        };
        if !takes || a >= self.r {
            return NOT_ACCEPTED;
        }
        let register = &mut self.registers[a as usize];
        *register = match f {
            16 => w,
            18 => *register | w,
            _ => *register & !w,
        };
        DONE
    }

    // F25, which does not look at Inhibit.
    fn increment(&mut self, a: u32) -> Reply {
        if self.kind != Kind::Scaler || a >= self.r {
            return NOT_ACCEPTED;
        }
        self.count(a, 1);
        DONE
    }

    // Sets a status bit; says whether it was 0.
    fn raise(&mut self, bit: u32) -> bool {
        let was_down = self.status >> bit & 1 == 0;
        self.status |= 1 << bit;
        was_down
    }

    // A scaler's sum, with the carry into its status bit; says whether that bit rose.
    fn count(&mut self, a: u32, v: u32) -> bool {
        let sum = self.registers[a as usize] + v;
        self.registers[a as usize] = sum % MODULUS;
        sum >= MODULUS && self.raise(a)
    }

    fn lam_command(&mut self, a: u32, f: u32) -> Reply {
        if a >= self.sources() {
            return NOT_ACCEPTED;
        }
        let bit = 1 << a;
        match f {
            8 => return test(self.status & self.mask & bit != 0),
            27 => return test(self.status & bit != 0),
            10 => self.status &= !bit,
            24 => self.mask &= !bit,
            _ => self.mask |= bit,
        }
        DONE
    }

    fn group_2_command(&mut self, a: u32, f: u32, w: u32) -> Reply {
        let s = self.sources();
        if s == 0 {
            return NOT_ACCEPTED;
        }
        let w = w % (1 << s);
        match (f, a) {
            (1, 12) => return read_word(self.status),
            (1, 13) => return read_word(self.mask),
            (1, 14) => return read_word(self.status & self.mask),
            (11, 12) => self.status = 0,
            (11, 13) => self.mask = 0,
            (17, 13) => self.mask = w,
            (19, 13) => self.mask |= w,
            (23, 12) => self.status &= !w,
            (23, 13) => self.mask &= !w,
            _ => return NOT_ACCEPTED,
        }
        DONE
    }

    // A front event with Inhibit at 0: 0 not taken, 1 taken, 2 taken and a status bit rose, 3 the word is lost.
    fn front(&mut self, a: u32, v: u32) -> u32 {
        if a >= self.r {
            return 0;
        }
        let rose = match self.kind {
            Kind::Empty | Kind::Output => return 0,
            Kind::Scaler => self.count(a, v),
            Kind::Input => {
                self.registers[a as usize] = v;
                self.raise(a)
            }
            Kind::Counter => {
                let old = signed(self.registers[a as usize]);
                let sum = old + signed(v);
                let outside = sum < -8_388_608 || sum > 8_388_607;
                self.registers[a as usize] = sum.rem_euclid(MODULUS as i64) as u32;
                (outside || (sum == 0 && old != 0)) && self.raise(a)
            }
            Kind::Buffer => {
                if self.words.len() == BUFFER_PLACES {
                    self.raise(1);
                    return 3;
                }
                self.words.push_back(v);
                self.raise(0)
            }
        };
        if rose { 2 } else { 1 }
    }
}

// ---- the crate ----

// The answer of a transfer; its words are in the list handed in.
pub struct Transfer {
    pub end: u32,
    pub cycles: u32,
}

impl Crate {
    pub fn new() -> Crate {
        Crate { inhibit: false, addressed: 0, stations: vec![Module::empty(); STATIONS as usize + 1] }
    }

    // Whether the module to its left fills station n too.
    pub fn covered(&self, n: u32) -> bool {
        self.stations[n as usize - 1].wide == 2
    }

    // Puts a module into station n, which is not covered. What stood in the stations that it fills is taken out, and covers nothing any more.
    fn put_in(&mut self, n: u32, module: Module) {
        if module.wide == 2 {
            self.stations[n as usize + 1] = Module::empty();
        }
        self.stations[n as usize] = module;
    }

    fn command(&mut self, n: u32, a: u32, f: u32, w: u32) -> Reply {
        self.stations[n as usize].command(a, f, w)
    }

    // The command to every station that is addressed: each of X, Q and R has the bits that one of their answers has.
    fn command_each(&mut self, addressed: impl Fn(u32) -> bool, a: u32, f: u32, w: u32) -> Reply {
        let replies: Vec<Reply> = (1..=STATIONS).filter(|n| addressed(*n)).map(|n| self.command(n, a, f, w)).collect();
        let any = |part: fn(&Reply) -> u32| replies.iter().map(part).fold(0, |bits, more| bits | more);
        Reply { x: any(|reply| reply.x), q: any(|reply| reply.q), r: any(|reply| reply.r) }
    }

    // A command to any N that is good: a station, those of the Station Number Register (24), all of them (26), or the controller itself.
    fn send(&mut self, n: u32, a: u32, f: u32, w: u32) -> Reply {
        match (n, a, f) {
            (1..=STATIONS, _, _) => self.command(n, a, f, w),
            (24, _, _) => {
                let register = self.addressed;
                self.command_each(|n| register & 1 << (n - 1) != 0, a, f, w)
            }
            (26, _, _) => self.command_each(|_| true, a, f, w),
            (28, 8, 26) => {
                self.initialize();
                OBEYED
            }
            (28, 9, 26) => {
                self.clear();
                OBEYED
            }
            (30, 9, 24 | 26) => {
                self.inhibit = f == 26;
                OBEYED
            }
            (30, 9, 27) => test(self.inhibit),
            (30, 8, 16) => {
                self.addressed = w;
                OBEYED
            }
            _ => NOT_ACCEPTED,
        }
    }

    fn front(&mut self, n: u32, a: u32, v: u32) -> u32 {
        if self.inhibit { 0 } else { self.stations[n as usize].front(a, v) }
    }

    fn initialize(&mut self) {
        for module in &mut self.stations {
            *module = Module::new(module.kind, module.r, module.wide);
        }
        self.inhibit = true;
        self.addressed = 0;
    }

    fn clear(&mut self) {
        for module in &mut self.stations {
            for a in 0..module.r {
                module.command(a, 9, 0);
            }
        }
    }

    fn look_at_me(&self) -> (u32, u32, u32) {
        let (mut l, mut count, mut first) = (0, 0, 0);
        for n in 1..=STATIONS {
            let module = &self.stations[n as usize];
            if module.status & module.mask != 0 {
                l |= 1 << (n - 1);
                count += 1;
                if first == 0 {
                    first = n;
                }
            }
        }
        (l, count, first)
    }

    // One cycle of a transfer: a command, whose word is stored when Q = 1.
    fn cycle(&mut self, n: u32, a: u32, f: u32, words: &mut Vec<u32>) -> Reply {
        let reply = self.command(n, a, f, 0);
        if reply.q == 1 {
            words.push(reply.r);
        }
        reply
    }

    fn scan(&mut self, n: u32, a: u32, f: u32, to: u32, limit: u32, words: &mut Vec<u32>) -> Transfer {
        let (mut n, mut a, mut cycles) = (n, a, 0);
        loop {
            if words.len() == limit as usize {
                return Transfer { end: 1, cycles };
            }
            if n > to {
                return Transfer { end: 2, cycles };
            }
            cycles += 1;
            if self.cycle(n, a, f, words).q == 1 && a < 15 {
                a += 1;
            } else {
                n += 1;
                a = 0;
            }
        }
    }

    // A put: the scan's path, each cycle F16 with the first word not used up; Q = 1 uses it up. Answers also how many words were used up.
    fn put(&mut self, n: u32, a: u32, to: u32, offered: &[u32]) -> (Transfer, u32) {
        let (mut n, mut a, mut cycles, mut used) = (n, a, 0, 0);
        loop {
            if used == offered.len() {
                return (Transfer { end: 1, cycles }, used as u32);
            }
            if n > to {
                return (Transfer { end: 2, cycles }, used as u32);
            }
            cycles += 1;
            let q = self.command(n, a, 16, offered[used]).q;
            used += q as usize;
            if q == 1 && a < 15 {
                a += 1;
            } else {
                n += 1;
                a = 0;
            }
        }
    }

    fn repeat(&mut self, n: u32, a: u32, f: u32, limit: u32, tries: u32, words: &mut Vec<u32>) -> Transfer {
        let mut cycles = 0;
        loop {
            if words.len() == limit as usize {
                return Transfer { end: 1, cycles };
            }
            if cycles == tries {
                return Transfer { end: 2, cycles };
            }
            cycles += 1;
            if self.cycle(n, a, f, words).x == 0 {
                return Transfer { end: 3, cycles };
            }
        }
    }

    fn stop(&mut self, n: u32, a: u32, f: u32, limit: u32, words: &mut Vec<u32>) -> Transfer {
        let mut cycles = 0;
        loop {
            if words.len() == limit as usize {
                return Transfer { end: 1, cycles };
            }
            cycles += 1;
            let reply = self.cycle(n, a, f, words);
            if reply.x == 0 {
                return Transfer { end: 3, cycles };
            }
            if reply.q == 0 {
                return Transfer { end: 2, cycles };
            }
        }
    }

    // The registers from station n to `to` whose unsigned value lies from lo to hi, both included, each as its number. Output registers and buffer memories
    // have none that is listed.
    fn within(&self, n: u32, to: u32, lo: u32, hi: u32) -> Vec<u32> {
        let mut numbers = Vec::new();
        for station in n..=to {
            let module = &self.stations[station as usize];
            let registers = match module.kind {
                Kind::Scaler | Kind::Input | Kind::Counter => &module.registers[..module.r as usize],
                Kind::Empty | Kind::Output | Kind::Buffer => &[],
            };
            for (a, value) in registers.iter().enumerate() {
                if (lo..=hi).contains(value) {
                    numbers.push(station * 16 + a as u32);
                }
            }
        }
        numbers
    }
}

// ---- judging ----

fn judge(refused: bool, number: u32) -> Result<(), u32> {
    if refused {
        Err(number)
    } else {
        Ok(())
    }
}

fn judge_station(n: u32) -> Result<(), u32> {
    judge(n < 1 || n > STATIONS, NO_SUCH_STATION)
}

// Of a command, whose N may be the controller's.
fn judge_command_station(n: u32) -> Result<(), u32> {
    if [24, 26, 28, 30].contains(&n) { Ok(()) } else { judge_station(n) }
}

fn judge_subaddress(a: u32) -> Result<(), u32> {
    judge(a > 15, NO_SUCH_SUBADDRESS)
}

fn judge_word(w: u32) -> Result<(), u32> {
    judge(w > WORD_MAX, OVERWIDE_WORD)
}

fn judge_range(n: u32, to: u32) -> Result<(), u32> {
    judge(to < n || to > STATIONS, CROSSED_RANGE)
}

fn judge_limit(limit: u32) -> Result<(), u32> {
    judge(limit < 1 || limit > 512, BAD_LENGTH)
}

// Of a scan, Repeat or Stop.
fn judge_stored(entry: Entry, limit: u32) -> Result<(), u32> {
    judge_limit(limit)?;
    match entry {
        Entry::General => Ok(()),
        Entry::Processor => judge(limit > PROCESSOR_WORDS, LONG_TRANSFER),
    }
}

fn judge_lent(lent: usize, wanted: u32) -> Result<(), u32> {
    judge(lent < wanted as usize, SHORT_BUFFER)
}

// The first three fields of every transfer.
fn judge_transfer(n: u32, a: u32, f: u32) -> Result<(), u32> {
    judge_station(n)?;
    judge_subaddress(a)?;
    judge(f != 0 && f != 2 && f != 3, NO_SUCH_FUNCTION)
}

// The fields that both puts have.
fn judge_put(n: u32, a: u32, to: u32, limit: u32) -> Result<(), u32> {
    judge_station(n)?;
    judge_subaddress(a)?;
    judge_range(n, to)?;
    judge_limit(limit)
}

// ---- steps ----

// Where a scan, Repeat or Stop is asked for: the trigger processor has an entry of its own, for transfers that it can hold.
#[derive(Clone, Copy)]
pub enum Entry {
    General,
    Processor,
}

// A step, with its fields in the order of its line. A line is always at the general entry.
#[derive(Clone, Copy)]
pub enum Step {
    Naf([u32; 4]),
    Front([u32; 3]),
    Z,
    C,
    I([u32; 1]),
    Lam,
    Scan(Entry, [u32; 5]),
    Repeat(Entry, [u32; 5]),
    Stop(Entry, [u32; 4]),
    Put([u32; 5]),
    PutLent([u32; 4]), // of the buffer's words; it has no line
    Within([u32; 4]),
}

pub enum Answer {
    Replied(Reply),
    Taken(u32),
    Done,
    Looked(u32, u32, u32),
    Transferred(Transfer),
    Wrote(Transfer, u32), // a put, and how many words were used up
    Listed(u32), // how many registers are inside the window; their numbers are in the list handed in
}

// One step on a fit crate, lent the words of `buffer`. `words` is empty before it and takes those that a transfer stores or a window lists. A refused step changes nothing.
pub fn run_step(memory: &mut Crate, step: Step, buffer: &[u32], words: &mut Vec<u32>) -> Result<Answer, u32> {
    let lent = buffer.len();
    match step {
        Step::Naf([n, a, f, w]) => {
            judge_command_station(n)?;
            judge_subaddress(a)?;
            judge(f > 31, NO_SUCH_FUNCTION)?;
            judge_word(w)?;
            // the Station Number Register has 23 bits
            judge([n, a, f] == [30, 8, 16] && w >> STATIONS != 0, OVERWIDE_WORD)?;
            Ok(Answer::Replied(memory.send(n, a, f, w)))
        }
        Step::Front([n, a, v]) => {
            judge_station(n)?;
            judge_subaddress(a)?;
            judge_word(v)?;
            Ok(Answer::Taken(memory.front(n, a, v)))
        }
        Step::Z => {
            memory.initialize();
            Ok(Answer::Done)
        }
        Step::C => {
            memory.clear();
            Ok(Answer::Done)
        }
        Step::I([v]) => {
            judge(v > 1, OVERWIDE_WORD)?;
            memory.inhibit = v == 1;
            Ok(Answer::Done)
        }
        Step::Lam => {
            let (l, count, first) = memory.look_at_me();
            Ok(Answer::Looked(l, count, first))
        }
        Step::Scan(entry, [n, a, f, to, limit]) => {
            judge_transfer(n, a, f)?;
            judge_range(n, to)?;
            judge_stored(entry, limit)?;
            judge_lent(lent, limit)?;
            Ok(Answer::Transferred(memory.scan(n, a, f, to, limit, words)))
        }
        Step::Repeat(entry, [n, a, f, limit, tries]) => {
            judge_transfer(n, a, f)?;
            judge_stored(entry, limit)?;
            judge(tries < 1 || tries > 4096, BAD_LENGTH)?;
            judge_lent(lent, limit)?;
            Ok(Answer::Transferred(memory.repeat(n, a, f, limit, tries, words)))
        }
        Step::Stop(entry, [n, a, f, limit]) => {
            judge_transfer(n, a, f)?;
            judge_stored(entry, limit)?;
            judge_lent(lent, limit)?;
            Ok(Answer::Transferred(memory.stop(n, a, f, limit, words)))
        }
        Step::Put([n, a, to, limit, w]) => {
            judge_put(n, a, to, limit)?;
            judge_word(w)?;
            let (transfer, used) = memory.put(n, a, to, &vec![w; limit as usize]);
            Ok(Answer::Wrote(transfer, used))
        }
        Step::PutLent([n, a, to, limit]) => {
            judge_put(n, a, to, limit)?;
            judge_lent(lent, limit)?;
            let offered = &buffer[..limit as usize];
            for w in offered {
                judge_word(*w)?;
            }
            let (transfer, used) = memory.put(n, a, to, offered);
            Ok(Answer::Wrote(transfer, used))
        }
        Step::Within([n, to, lo, hi]) => {
            judge_station(n)?;
            judge_range(n, to)?;
            judge_word(lo)?;
            judge_word(hi)?;
            judge(lo > hi, CROSSED_WINDOW)?;
            judge_lent(lent, 16 * (to - n + 1))?; // whatever the list's length
            *words = memory.within(n, to, lo, hi);
            Ok(Answer::Listed(words.len() as u32))
        }
    }
}

// ---- lines ----

// The numbers of a line that is `head` followed by exactly these fields.
fn fields<const COUNT: usize>(line: &[u8], head: &str, names: [&str; COUNT]) -> Option<[u32; COUNT]> {
    if line.len() > LONGEST_LINE {
        return None;
    }
    let mut rest = line.strip_prefix(head.as_bytes())?;
    let mut numbers = [0; COUNT];
    for (place, name) in names.iter().enumerate() {
        rest = rest.strip_prefix(name.as_bytes())?;
        let digits = rest.iter().take_while(|byte| byte.is_ascii_digit()).count();
        if digits < 1 || digits > 8 || (digits > 1 && rest[0] == b'0') {
            return None;
        }
        for digit in &rest[..digits] {
            numbers[place] = numbers[place] * 10 + (digit - b'0') as u32;
        }
        rest = &rest[digits..];
    }
    if rest.is_empty() {
        Some(numbers)
    } else {
        None
    }
}

// One line of crate.txt on a fit crate, after a line for station `previous` (0 before the first). A refused one changes nothing.
pub fn crate_line(memory: &mut Crate, line: &[u8], previous: u32) -> Result<(), u32> {
    let [n, kind, r, wide] = fields(line, "", ["n=", " kind=", " r=", " wide="]).ok_or(GARBLED)?;
    judge_station(n)?;
    judge(n <= previous, OUT_OF_ORDER)?;
    judge(memory.covered(n), COVERED_STATION)?;
    let (kind, most) = match kind {
        1 => (Kind::Scaler, 16),
        2 => (Kind::Output, 16),
        3 => (Kind::Input, 16),
        4 => (Kind::Buffer, 1),
        5 => (Kind::Counter, 16),
        _ => return Err(BAD_MODULE),
    };
    judge(r < 1 || r > most, BAD_MODULE)?;
    judge(wide != 1 && wide != 2, BAD_MODULE)?;
    judge(wide == 2 && n == STATIONS, BAD_MODULE)?;
    memory.put_in(n, Module::new(kind, r, wide));
    Ok(())
}

// One line of run.txt; none when it is garbled.
pub fn run_line(line: &[u8]) -> Option<Step> {
    if let Some(fields) = fields(line, "op=naf", [" n=", " a=", " f=", " w="]) {
        return Some(Step::Naf(fields));
    }
    if let Some(fields) = fields(line, "op=front", [" n=", " a=", " v="]) {
        return Some(Step::Front(fields));
    }
    if fields(line, "op=z", []).is_some() {
        return Some(Step::Z);
    }
    if fields(line, "op=c", []).is_some() {
        return Some(Step::C);
    }
    if let Some(fields) = fields(line, "op=i", [" v="]) {
        return Some(Step::I(fields));
    }
    if fields(line, "op=lam", []).is_some() {
        return Some(Step::Lam);
    }
    if let Some(fields) = fields(line, "op=scan", [" n=", " a=", " f=", " to=", " limit="]) {
        return Some(Step::Scan(Entry::General, fields));
    }
    if let Some(fields) = fields(line, "op=repeat", [" n=", " a=", " f=", " limit=", " tries="]) {
        return Some(Step::Repeat(Entry::General, fields));
    }
    if let Some(fields) = fields(line, "op=stop", [" n=", " a=", " f=", " limit="]) {
        return Some(Step::Stop(Entry::General, fields));
    }
    if let Some(fields) = fields(line, "op=put", [" n=", " a=", " to=", " limit=", " w="]) {
        return Some(Step::Put(fields));
    }
    if let Some(fields) = fields(line, "op=within", [" n=", " to=", " lo=", " hi="]) {
        return Some(Step::Within(fields));
    }
    None
}
