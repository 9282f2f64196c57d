//! A replay by hand in Rust, to compare its time: a log is read line by line, and its frames go over a bus.
//!
//!     walker log|check LOG INTERFACE BIT [buffered]
//!
//! Each entry of the interface asks at its stamp less its length, in microseconds from 0, and none before the
//! entry before it. On the bus are no other frames, so each begins when it asks or when the bus is free. Where
//! one waits, the next waits behind it, without arbitration: the walker is right for logs whose frames do not
//! meet, and fast for all. `log` writes the line of each frame that ends, by a call of its own or, with
//! `buffered`, many at once; `check` only reads. Lines that are no entries end it.

use std::fs::File;
use std::io::Write;
use std::os::fd::AsFd;
use std::process::ExitCode;

/// A frame of a log.
struct Frame {
    id: u32,
    extended: bool,
    remote: bool,
    length: u8,
    data: [u8; 8],
}

/// The bits of a frame from SOF to the CRC, as they are counted: the CRC, and the stuffed bits.
struct Counter {
    crc: u16,
    last: bool,
    run: u32,
    bits: u64,
}

impl Counter {
    /// Takes a bit, with the bit that is stuffed behind five equal ones.
    fn put(&mut self, bit: bool) {
        self.run = if bit == self.last { self.run + 1 } else { 1 };
        self.last = bit;
        self.bits += 1;
        if self.run == 5 {
            (self.last, self.run) = (!bit, 1);
            self.bits += 1;
        }
    }

    /// Takes the last bits of a number, the most significant first, which the CRC covers.
    fn field(&mut self, number: u32, width: u32) {
        for place in (0..width).rev() {
            let bit = number >> place & 1 == 1;
            let carry = (self.crc >> 14 & 1 == 1) != bit;
            self.crc = (self.crc << 1 & 0x7fff) ^ if carry { 0x4599 } else { 0 };
            self.put(bit);
        }
    }
}

impl Frame {
    /// How many bits the frame has on the bus, from SOF to EOF.
    fn bits(&self) -> u64 {
        let mut count = Counter {
            crc: 0,
            last: true,
            run: 0,
            bits: 0,
        };
        count.field(0, 1);
        if self.extended {
            count.field(self.id >> 18, 11);
            count.field(3, 2);
            count.field(self.id & 0x3ffff, 18);
        } else {
            count.field(self.id, 11);
        }
        count.field(u32::from(self.remote), 1);
        count.field(0, 2);
        count.field(u32::from(self.length), 4);
        if !self.remote {
            for byte in &self.data[..usize::from(self.length)] {
                count.field(u32::from(*byte), 8);
            }
        }
        let crc = count.crc;
        for place in (0..15).rev() {
            count.put(crc >> place & 1 == 1);
        }
        count.bits + 10
    }
}

/// The number of decimal digits.
fn decimal(digits: &[u8]) -> Option<u64> {
    digits.iter().try_fold(0_u64, |n, digit| {
        digit
            .is_ascii_digit()
            .then(|| 10 * n + u64::from(digit - b'0'))
    })
}

/// The number of hexadecimal digits.
fn hexadecimal(digits: &[u8]) -> Option<u32> {
    digits.iter().try_fold(0_u32, |n, digit| {
        char::from(*digit).to_digit(16).map(|it| n << 4 | it)
    })
}

/// The frame of a field of a line.
fn frame(field: &[u8]) -> Option<Frame> {
    let place = field.iter().position(|byte| *byte == b'#')?;
    let payload = &field[place + 1..];
    let mut it = Frame {
        id: hexadecimal(&field[..place])?,
        extended: place == 8,
        remote: payload.first() == Some(&b'R'),
        length: 0,
        data: [0; 8],
    };
    if it.remote {
        it.length = payload.get(1).map_or(0, |digit| digit - b'0');
        return Some(it);
    }
    for pair in payload.chunks(2) {
        *it.data.get_mut(usize::from(it.length))? = hexadecimal(pair)? as u8;
        it.length += 1;
    }
    Some(it)
}

/// The stamp in microseconds, the interface and the frame of a line.
fn entry(line: &[u8]) -> Option<(u64, &[u8], Frame)> {
    let mut fields = line
        .split(|byte| *byte == b' ' || *byte == b'\t')
        .filter(|it| !it.is_empty());
    let stamp = fields.next()?.strip_prefix(b"(")?.strip_suffix(b")")?;
    let point = stamp.len().checked_sub(7)?;
    let micros = 1_000_000 * decimal(&stamp[..point])? + decimal(&stamp[point + 1..])?;
    Some((micros, fields.next()?, frame(fields.next()?)?))
}

/// Writes the line of a frame that ended.
fn line(
    out: &mut impl Write,
    text: &mut Vec<u8>,
    end: u64,
    interface: &str,
    it: &Frame,
) -> std::io::Result<()> {
    text.clear();
    write!(
        text,
        "({:010}.{:06}) {interface} ",
        end / 1_000_000,
        end % 1_000_000
    )?;
    if it.extended {
        write!(text, "{:08X}#", it.id)?;
    } else {
        write!(text, "{:03X}#", it.id)?;
    }
    if it.remote {
        text.push(b'R');
        if it.length > 0 {
            text.push(b'0' + it.length);
        }
    } else {
        for byte in &it.data[..usize::from(it.length)] {
            write!(text, "{byte:02X}")?;
        }
    }
    text.push(b'\n');
    out.write_all(text)
}

/// Sends the frames of a log, and writes the lines of those that end.
fn replay(log: &[u8], interface: &str, bit: u64, mut out: Option<&mut dyn Write>) -> Option<()> {
    let (mut asked, mut free, mut text) = (0, 0, Vec::new());
    for row in log.split(|byte| *byte == b'\n') {
        if row.is_empty() {
            continue;
        }
        let (stamp, on, it) = entry(row)?;
        if on != interface.as_bytes() {
            continue;
        }
        let length = it.bits() * bit;
        asked = stamp.saturating_sub(length).max(asked);
        let end = asked.max(free) + length;
        free = end + 3 * bit;
        if let Some(out) = out.as_mut() {
            line(out, &mut text, end, interface, &it).ok()?;
        }
    }
    out.map_or(Some(()), |it| it.flush().ok())
}

/// What the words ask for.
fn run(words: &[String]) -> Option<()> {
    let [command, name, interface, bit, rest @ ..] = words else {
        return None;
    };
    let log = std::fs::read(name).ok()?;
    let bit = bit.parse().ok()?;
    // Standard output of the library holds lines back; a file does not.
    let mut plain = File::from(std::io::stdout().as_fd().try_clone_to_owned().ok()?);
    let mut buffered = std::io::BufWriter::with_capacity(1 << 16, &plain);
    match command.as_str() {
        "check" => replay(&log, interface, bit, None),
        _ if rest.is_empty() => {
            drop(buffered);
            replay(&log, interface, bit, Some(&mut plain))
        }
        _ => replay(&log, interface, bit, Some(&mut buffered)),
    }
}

fn main() -> ExitCode {
    let words: Vec<String> = std::env::args().skip(1).collect();
    match run(&words) {
        Some(()) => ExitCode::SUCCESS,
        None => ExitCode::FAILURE,
    }
}
