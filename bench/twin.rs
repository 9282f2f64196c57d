//! The machine by hand in Rust: the same instructions with the same effects, to compare its time.
//!
//!     twin CODE TURNS
//!
//! Runs one of the codes once, and prints how the run ended and the cells from 15 on. With
//! `--cfg unchecked` no access to a list tests a bound, and no push tests for room.

mod codes;

use std::fmt::Write as _;
use std::process::ExitCode;

/// A kind of integer.
#[derive(Clone, Copy, Debug, PartialEq, Eq)]
pub enum Kind {
    Byte,
    Word,
    Dword,
    Qword,
    Int,
    Long,
    Int64,
    Char,
}

impl Kind {
    /// How many bytes a number of the kind has.
    fn size(self) -> usize {
        match self {
            Kind::Byte | Kind::Char => 1,
            Kind::Word | Kind::Int => 2,
            Kind::Dword | Kind::Long => 4,
            Kind::Qword | Kind::Int64 => 8,
        }
    }

    /// The number of the kind that is congruent to `n` modulo 2 to the width.
    #[inline]
    fn wrap(self, n: i128) -> i128 {
        match self {
            Kind::Byte | Kind::Char => i128::from(n as u8),
            Kind::Word => i128::from(n as u16),
            Kind::Dword => i128::from(n as u32),
            Kind::Qword => i128::from(n as u64),
            Kind::Int => i128::from(n as i16),
            Kind::Long => i128::from(n as i32),
            Kind::Int64 => i128::from(n as i64),
        }
    }

    /// By how many places a shift by `n` moves.
    #[inline]
    fn places(self, n: i128) -> u32 {
        n as u32 & (8 * self.size() as u32 - 1)
    }
}

/// A binary operator.
#[derive(Clone, Copy, Debug, PartialEq, Eq)]
#[allow(dead_code)]
pub enum BinOp {
    OrElse,
    AndAlso,
    Or,
    Xor,
    And,
    Equal,
    NotEqual,
    Less,
    LessEqual,
    Greater,
    GreaterEqual,
    Shl,
    Shr,
    Add,
    Sub,
    Mul,
    Div,
    Rem,
}

/// Where a signal lies in a payload.
#[derive(Clone, Copy, Debug, PartialEq, Eq)]
pub struct Layout {
    pub start: u16,
    pub len: u16,
    pub big: bool,
    pub signed: bool,
}

impl Layout {
    /// The payload as a word in the signal's order.
    fn word(&self, payload: [u8; 8]) -> u64 {
        if self.big {
            u64::from_be_bytes(payload)
        } else {
            u64::from_le_bytes(payload)
        }
    }

    /// The place of the least significant bit in that word.
    fn lowest(&self) -> u16 {
        if self.big {
            8 * (7 - self.start / 8) + self.start % 8 + 1 - self.len
        } else {
            self.start
        }
    }

    /// As many ones as the signal has bits.
    fn ones(&self) -> u64 {
        u64::MAX >> (64 - self.len)
    }

    /// The number of the signal.
    fn get(&self, payload: [u8; 8]) -> i128 {
        let bits = self.word(payload) >> self.lowest() & self.ones();
        let sign = if self.signed {
            bits >> (self.len - 1)
        } else {
            0
        };
        i128::from(bits) - (i128::from(sign) << self.len)
    }

    /// The payload in which the signal has the lowest bits of a number.
    fn put(&self, payload: [u8; 8], n: i128) -> [u8; 8] {
        let ones = self.ones();
        let lowest = self.lowest();
        let word = self.word(payload) & !(ones << lowest) | (n as u64 & ones) << lowest;
        if self.big {
            word.to_be_bytes()
        } else {
            word.to_le_bytes()
        }
    }
}

/// One instruction.
#[derive(Clone, Copy, Debug, PartialEq, Eq)]
#[allow(dead_code)]
pub enum Instr {
    Push(i128),
    Load(u32),
    Store(u32),
    Check(u32),
    Elem(u32, u32),
    SetElem(u32, u32),
    Bytes(Kind, u32),
    SetBytes(Kind, u32),
    Sig(Layout, u32),
    SetSig(Layout, u32),
    SetField(u8, u32),
    Bin(BinOp, Kind),
    Neg(Kind),
    Inv(Kind),
    Conv(Kind),
    Not,
    Dup,
    Drop,
    Jump(u32),
    Zero(u32),
    Case(u32, i128),
    Back(u32),
    Turn,
    Call(u32),
    Ret,
    Write(u32),
    Send(u32),
    Copy(u32, u32),
    Stop,
    Set(u32, bool),
    Cancel(u32),
    Active(u32),
    Now,
}

/// A function: its first place.
#[derive(Clone, Copy, Debug)]
pub struct Function {
    pub start: usize,
}

/// A piece of a line.
#[allow(dead_code)]
enum Piece {
    Text(&'static str),
    Number(Kind),
}

/// Code with its tables.
pub struct Code {
    instrs: Vec<Instr>,
    functions: Vec<Function>,
    cells: Vec<Kind>,
    timers: Vec<u64>,
    formats: Vec<Vec<Piece>>,
}

/// Why a run was ended by a trap.
#[derive(Clone, Copy, Debug, PartialEq, Eq)]
enum Trap {
    ZeroDivisor,
    Index,
}

/// How a run ends.
#[derive(Clone, Copy, Debug, PartialEq, Eq)]
enum Outcome {
    Done,
    Trapped(Trap),
    Cut,
}

/// What takes the effects of a run.
trait Host {
    fn line(&mut self, text: &str) -> Result<(), String>;
    fn send(&mut self, message: &[i128]) -> Result<(), String>;
    fn stop(&mut self);
    fn set_timer(&mut self, timer: u32, micros: u64, cyclic: bool);
    fn cancel(&mut self, timer: u32);
    fn active(&self, timer: u32) -> bool;
    fn now(&self) -> u64;
}

/// A host that keeps the last effect of each sort.
#[derive(Default)]
struct Bench {
    text: String,
    frame: Vec<i128>,
    timer: Option<(u32, u64, bool)>,
    stopped: bool,
}

impl Host for Bench {
    fn line(&mut self, text: &str) -> Result<(), String> {
        self.text.push_str(text);
        Ok(())
    }

    fn send(&mut self, message: &[i128]) -> Result<(), String> {
        self.frame = message.to_vec();
        Ok(())
    }

    fn stop(&mut self) {
        self.stopped = true;
    }

    fn set_timer(&mut self, timer: u32, micros: u64, cyclic: bool) {
        self.timer = Some((timer, micros, cyclic));
    }

    fn cancel(&mut self, _: u32) {
        self.timer = None;
    }

    fn active(&self, timer: u32) -> bool {
        self.timer.is_some_and(|set| set.0 == timer)
    }

    fn now(&self) -> u64 {
        1250
    }
}

/// The item of a place.
#[inline]
fn item<T: Copy>(items: &[T], place: usize) -> T {
    #[cfg(unchecked)]
    // SAFETY: the codes keep their bounds, which the run with tests shows.
    return unsafe { *items.get_unchecked(place) };
    #[cfg(not(unchecked))]
    items[place]
}

/// The item of a place, to be set.
#[inline]
fn item_mut<T>(items: &mut [T], place: usize) -> &mut T {
    #[cfg(unchecked)]
    // SAFETY: as of `item`.
    return unsafe { items.get_unchecked_mut(place) };
    #[cfg(not(unchecked))]
    &mut items[place]
}

/// The numbers of a run, the last one on top.
struct Stack(Vec<i128>);

impl Stack {
    #[inline]
    fn push(&mut self, n: i128) {
        #[cfg(unchecked)]
        // SAFETY: the codes need less room than was reserved.
        unsafe {
            let top = self.0.len();
            self.0.as_mut_ptr().add(top).write(n);
            self.0.set_len(top + 1);
        }
        #[cfg(not(unchecked))]
        self.0.push(n);
    }

    #[inline]
    fn pop(&mut self) -> i128 {
        #[cfg(unchecked)]
        // SAFETY: the codes take no more than they gave.
        return unsafe { self.0.pop().unwrap_unchecked() };
        #[cfg(not(unchecked))]
        self.0.pop().expect("a number")
    }

    #[inline]
    fn top(&mut self) -> &mut i128 {
        let last = self.0.len().wrapping_sub(1);
        item_mut(&mut self.0, last)
    }
}

/// A number as an index below a length.
#[inline]
fn index(n: i128, len: usize) -> Result<usize, Outcome> {
    if n >= 0 && n < len as i128 {
        Ok(n as usize)
    } else {
        Err(Outcome::Trapped(Trap::Index))
    }
}

/// The value of an operator.
#[inline]
fn operate(op: BinOp, kind: Kind, a: i128, b: i128) -> Result<i128, Outcome> {
    Ok(match op {
        BinOp::Or => kind.wrap(a | b),
        BinOp::Xor => kind.wrap(a ^ b),
        BinOp::And => kind.wrap(a & b),
        BinOp::Equal => i128::from(kind.wrap(a) == kind.wrap(b)),
        BinOp::NotEqual => i128::from(kind.wrap(a) != kind.wrap(b)),
        BinOp::Less => i128::from(kind.wrap(a) < kind.wrap(b)),
        BinOp::LessEqual => i128::from(kind.wrap(a) <= kind.wrap(b)),
        BinOp::Greater => i128::from(kind.wrap(a) > kind.wrap(b)),
        BinOp::GreaterEqual => i128::from(kind.wrap(a) >= kind.wrap(b)),
        BinOp::Shl => kind.wrap(a << kind.places(b)),
        BinOp::Shr => kind.wrap(a) >> kind.places(b),
        BinOp::Add => kind.wrap(a + b),
        BinOp::Sub => kind.wrap(a - b),
        BinOp::Mul => kind.wrap(a.wrapping_mul(b)),
        BinOp::Div | BinOp::Rem => {
            let (a, b) = (kind.wrap(a), kind.wrap(b));
            if b == 0 {
                return Err(Outcome::Trapped(Trap::ZeroDivisor));
            }
            kind.wrap(if op == BinOp::Div { a / b } else { a % b })
        }
        BinOp::OrElse | BinOp::AndAlso => unreachable!("no operator of an instruction"),
    })
}

/// The payload of the message that begins at a cell.
#[inline]
fn payload(cells: &[i128], at: u32) -> [u8; 8] {
    std::array::from_fn(|i| item(cells, at as usize + 6 + i) as u8)
}

/// Puts bytes in the payload of the message that begins at a cell, from one of its bytes on.
#[inline]
fn put_bytes(cells: &mut [i128], at: u32, first: usize, bytes: &[u8]) {
    for (i, byte) in bytes.iter().enumerate() {
        *item_mut(cells, at as usize + 6 + first + i) = i128::from(*byte);
    }
}

/// What is written to a field of a message that is given a number.
fn written(field: u8, n: i128) -> i128 {
    let id = n as u32;
    match field {
        0 if id >> 31 == 1 => i128::from(id & 0x9fff_ffff),
        0 => i128::from(id & 0x7ff),
        1 => i128::from((n as u8).min(8)),
        2 => i128::from((n as u8).min(1)),
        _ => i128::from(n as u16),
    }
}

/// The line of a format, whose numbers are taken from the stack.
fn line(format: &[Piece], stack: &mut Stack) -> String {
    let count = format
        .iter()
        .filter(|piece| matches!(piece, Piece::Number(_)))
        .count();
    let mut numbers = stack.0.split_off(stack.0.len() - count).into_iter();
    let mut line = String::new();
    for piece in format {
        match piece {
            Piece::Text(text) => line.push_str(text),
            Piece::Number(kind) => {
                let n = kind.wrap(numbers.next().expect("a number"));
                write!(line, "{n}").expect("a text takes what is written");
            }
        }
    }
    line
}

/// Runs code from a place on, with so many turns, over these cells.
///
/// The inner answer is how the run ended, the outer one what the host refused.
fn run<H: Host>(
    code: &Code,
    start: usize,
    cells: &mut [i128],
    host: &mut H,
    mut turns: u64,
) -> Result<Outcome, String> {
    let mut stack = Stack(Vec::with_capacity(code.instrs.len()));
    let mut calls: Vec<usize> = Vec::with_capacity(code.functions.len());
    let mut place = start;
    macro_rules! or_end {
        ($answer:expr) => {
            match $answer {
                Ok(n) => n,
                Err(outcome) => return Ok(outcome),
            }
        };
    }
    macro_rules! take_turn {
        () => {
            match turns.checked_sub(1) {
                Some(left) => turns = left,
                None => return Ok(Outcome::Cut),
            }
        };
    }
    loop {
        #[cfg(unchecked)]
        // SAFETY: as of `item`.
        let instr = unsafe { code.instrs.get_unchecked(place) };
        #[cfg(not(unchecked))]
        let instr = &code.instrs[place];
        place += 1;
        match *instr {
            Instr::Push(n) => stack.push(n),
            Instr::Load(cell) => stack.push(item(cells, cell as usize)),
            Instr::Store(cell) => {
                let top = stack.top();
                *top = item(&code.cells, cell as usize).wrap(*top);
                *item_mut(cells, cell as usize) = *top;
            }
            Instr::Check(len) => {
                or_end!(index(*stack.top(), len as usize));
            }
            Instr::Elem(base, len) => {
                let top = stack.top();
                let i = or_end!(index(*top, len as usize));
                *top = item(cells, base as usize + i);
            }
            Instr::SetElem(base, len) => {
                let n = stack.pop();
                let top = stack.top();
                let cell = base as usize + or_end!(index(*top, len as usize));
                *top = item(&code.cells, cell).wrap(n);
                *item_mut(cells, cell) = *top;
            }
            Instr::Bytes(kind, at) => {
                let top = stack.top();
                let first = or_end!(index(*top, 9 - kind.size()));
                let word = u64::from_le_bytes(payload(cells, at)) >> (8 * first);
                *top = kind.wrap(i128::from(word));
            }
            Instr::SetBytes(kind, at) => {
                let n = stack.pop();
                let top = stack.top();
                let first = or_end!(index(*top, 9 - kind.size()));
                put_bytes(cells, at, first, &(n as u64).to_le_bytes()[..kind.size()]);
                *top = kind.wrap(n);
            }
            Instr::Sig(ref layout, at) => stack.push(layout.get(payload(cells, at))),
            Instr::SetSig(ref layout, at) => {
                let top = stack.top();
                let bytes = layout.put(payload(cells, at), *top);
                *top = layout.get(bytes);
                put_bytes(cells, at, 0, &bytes);
            }
            Instr::SetField(field, at) => {
                let top = stack.top();
                *top = written(field, *top);
                *item_mut(cells, at as usize + usize::from(field)) = *top;
            }
            Instr::Bin(op, kind) => {
                let b = stack.pop();
                let top = stack.top();
                *top = or_end!(operate(op, kind, *top, b));
            }
            Instr::Neg(kind) => *stack.top() = kind.wrap(-*stack.top()),
            Instr::Inv(kind) => *stack.top() = kind.wrap(!*stack.top()),
            Instr::Conv(kind) => *stack.top() = kind.wrap(*stack.top()),
            Instr::Not => *stack.top() = i128::from(*stack.top() == 0),
            Instr::Dup => {
                let n = *stack.top();
                stack.push(n);
            }
            Instr::Drop => {
                stack.pop();
            }
            Instr::Jump(target) => place = target as usize,
            Instr::Zero(target) => {
                if stack.pop() == 0 {
                    place = target as usize;
                }
            }
            Instr::Case(target, label) => {
                if *stack.top() == label {
                    stack.pop();
                    place = target as usize;
                }
            }
            Instr::Back(target) => {
                if stack.pop() != 0 {
                    take_turn!();
                    place = target as usize;
                }
            }
            Instr::Turn => take_turn!(),
            Instr::Call(f) => {
                take_turn!();
                calls.push(place);
                place = item(&code.functions, f as usize).start;
            }
            Instr::Ret => match calls.pop() {
                Some(back) => place = back,
                None => return Ok(Outcome::Done),
            },
            Instr::Write(f) => host.line(&line(&code.formats[f as usize], &mut stack))?,
            Instr::Send(at) => {
                let mut message = cells[at as usize..][..14].to_vec();
                for (field, cell) in message[..4].iter_mut().enumerate() {
                    *cell = written(field as u8, *cell);
                }
                host.send(&message)?;
            }
            Instr::Copy(to, from) => {
                cells.copy_within(from as usize..from as usize + 14, to as usize);
            }
            Instr::Stop => host.stop(),
            Instr::Set(timer, cyclic) => {
                let duration = Kind::Long.wrap(stack.pop()).max(1) as u64;
                host.set_timer(timer, duration * item(&code.timers, timer as usize), cyclic);
            }
            Instr::Cancel(timer) => host.cancel(timer),
            Instr::Active(timer) => stack.push(i128::from(host.active(timer))),
            Instr::Now => stack.push(Kind::Dword.wrap(i128::from(host.now() / 10))),
        }
    }
}

/// The kinds of the cells: those of the event, longs, and a message.
fn kinds() -> Vec<Kind> {
    let mut message = vec![
        Kind::Dword,
        Kind::Byte,
        Kind::Byte,
        Kind::Word,
        Kind::Byte,
        Kind::Dword,
    ];
    message.extend([Kind::Byte; 8]);
    let mut cells = message.clone();
    cells.push(Kind::Char);
    cells.extend([Kind::Long; 9]);
    cells.extend(message);
    cells
}

fn main() -> ExitCode {
    let words: Vec<String> = std::env::args().skip(1).collect();
    let [name, turns] = words.as_slice() else {
        return ExitCode::from(2);
    };
    let (Some((functions, instrs)), Ok(turns)) = (codes::code(name), turns.parse::<i128>()) else {
        return ExitCode::from(2);
    };
    let code = Code {
        instrs: instrs
            .iter()
            .map(|instr| {
                if *instr == Instr::Push(codes::TURNS) {
                    Instr::Push(turns)
                } else {
                    *instr
                }
            })
            .collect(),
        functions: functions
            .iter()
            .map(|start| Function {
                start: *start as usize,
            })
            .collect(),
        cells: kinds(),
        timers: vec![1000],
        formats: vec![vec![Piece::Text("go")]],
    };
    let mut cells = vec![0; code.cells.len()];
    let start = code.functions.last().map_or(0, |function| function.start);
    match run(&code, start, &mut cells, &mut Bench::default(), u64::MAX) {
        Ok(outcome) => {
            println!("{outcome:?} {:?}", &cells[15..]);
            ExitCode::SUCCESS
        }
        Err(_) => ExitCode::FAILURE,
    }
}
