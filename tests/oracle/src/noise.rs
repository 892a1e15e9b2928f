//! Lines that are written oddly: rightly, or so that they are bad.

use crate::generate::Generator;

/// Words that look like numbers to a careless reader.
const BAD_NUMBERS: [&str; 20] = [
    "+1",
    "-1",
    "1_000",
    "0X10",
    "0x",
    "0xg1",
    "x10",
    "1.0",
    "1e3",
    "12a",
    "0b1",
    "00x1",
    "''",
    "18446744073709551616",
    "0x10000000000000000",
    "99999999999999999999999",
    "1,000",
    "10h",
    "$1",
    "0x1_0",
];

const UNKNOWN: [&str; 12] = [
    "begin",
    "Start",
    "START",
    "start-",
    "start0",
    "create",
    "delete",
    "delete-sq1 1",
    "show",
    "poke65",
    "?",
    "exit",
];

impl Generator {
    /// The same line in other clothes: hexadecimal numbers, leading zeros, tabs, a comment,
    /// a CR.
    pub fn dress(&mut self, text: &str) -> Vec<u8> {
        let mut line = Vec::new();
        if self.random.chance(30) {
            line.extend_from_slice(self.random.pick(&[b" ".as_slice(), b"\t", b"  \t "]));
        }
        for (place, word) in text.split(' ').enumerate() {
            if place > 0 {
                line.extend_from_slice(self.random.pick(&[
                    b" ".as_slice(),
                    b" ",
                    b"\t",
                    b"  ",
                    b" \t\t",
                ]));
            }
            // The words of a trace are no numbers.
            let traced = place > 1 && text.starts_with("replay");
            let number = word.parse::<u64>();
            match number {
                Ok(number) if !traced => line.extend_from_slice(self.number(number).as_bytes()),
                _ => line.extend_from_slice(word.as_bytes()),
            }
        }
        line.extend_from_slice(self.random.pick(&[
            b"".as_slice(),
            b" ",
            b"\t",
            b"#",
            b" # x 1 2",
            b"# \xC3\xA9\r\x00 #",
        ]));
        line.extend_from_slice(self.random.pick(&[b"".as_slice(), b"", b"\r"]));
        line
    }

    /// A number in one of its spellings.
    fn number(&mut self, number: u64) -> String {
        match self.random.below(7) {
            0 => format!("0x{number:x}"),
            1 => format!("0x{number:X}"),
            2 => format!("0x{number:030x}"),
            3 => format!("0{number}"),
            4 => format!("{number:040}"),
            _ => format!("{number}"),
        }
    }

    /// A bad line, an empty one, or one that only looks bad.
    pub fn noise(&mut self) {
        let sample = self.sample();
        let line = match self.random.weighted(&[16, 18, 12, 10, 14, 10, 8, 12]) {
            0 => self.other_count(&sample),
            1 => self.other_number(&sample),
            2 => self.random.pick(&UNKNOWN).as_bytes().to_vec(),
            3 => self.other_case(&sample),
            4 => self.other_byte(&sample),
            5 => self.no_words(),
            6 => self.long(&sample),
            _ => self.above_range(),
        };
        self.raw(&line);
    }

    /// A right line that changes little, for the others to spoil.
    fn sample(&mut self) -> String {
        let (a, b, c) = (self.random.below(16), self.random.below(8), self.random.below(2));
        let next = (b + 1) % 8;
        let lines = [
            format!("show-sq {a}"),
            format!("show-cq {a}"),
            format!("show-tag {a}"),
            "show-arbiter".to_string(),
            format!("check-tail 8 {b} {b} {next}"),
            format!("check-head 8 {b} {next} {next}"),
            format!("head {a} {b}"),
            format!("peek {a} {b}"),
            format!("finish {a} {b} {c}"),
            format!("poke 1048000 {a} {b} {c}"),
            format!("poke64 1048000 {a} {b}"),
            format!("fill 1048000 {a} {b}"),
            format!("waiting 1048000 128 8 {b} {c}"),
            format!("walk {} 0 {} 0 8 4", 4 * a, b + 1),
            format!("read-cqe 1048000 {}", a + 8),
            format!("write-cqe 1048000 16 {a} {b} {c} {a} {b} {c}"),
            format!("write-sqe 1048000 64 {a} 0 0 {b} 1 0 0 0 {c} 0 0 0 0 0"),
            format!("create-cq {a} 2 {}", 4096 * b),
            format!("delete-sq {}", 16 * c),
            format!("delete-cq {}", 16 * c),
            format!("replay 16 02{a:02x}{b:02x}{:026}", 0),
            format!("replay 48 02{a:02x} {b:02x}{:026} 05", 0),
            "start".to_string(),
        ];
        let place = self.random.below(lines.len() as u64) as usize;
        lines[place].clone()
    }

    /// A word too few or too many.
    fn other_count(&mut self, sample: &str) -> Vec<u8> {
        let mut words: Vec<&str> = sample.split(' ').collect();
        match self.random.below(3) {
            0 if words.len() > 1 => {
                words.truncate(self.random.within(1, words.len() as u64 - 1) as usize)
            }
            1 => {
                words.remove(0);
            }
            _ => words.push(self.random.pick(&["0", "1", "x", "18446744073709551616"])),
        }
        words.join(" ").into_bytes()
    }

    /// One number of the line replaced by what is none.
    fn other_number(&mut self, sample: &str) -> Vec<u8> {
        let mut words: Vec<&str> = sample.split(' ').collect();
        let place = self.random.below(words.len() as u64) as usize;
        words[place] = self.random.pick(&BAD_NUMBERS);
        words.join(" ").into_bytes()
    }

    /// One letter in upper case.
    fn other_case(&mut self, sample: &str) -> Vec<u8> {
        let mut line = sample.as_bytes().to_vec();
        let place = self.random.below(4).min(line.len() as u64 - 1) as usize;
        line[place].make_ascii_uppercase();
        line
    }

    /// A byte that is not printable, or a comment sign, put anywhere into or over the line.
    fn other_byte(&mut self, sample: &str) -> Vec<u8> {
        let mut line = sample.as_bytes().to_vec();
        let any = self.random.below(256) as u8;
        let byte = self
            .random
            .pick(&[b'\r', b'\r', 0, 0x0B, 0x0C, 0x1F, 0x7F, 0x80, 0xA0, 0xFF, b'#', b'\t', any]);
        let byte = if byte == b'\n' { b'\r' } else { byte };
        let place = self.random.within(0, line.len() as u64) as usize;
        if place < line.len() && self.random.chance(30) {
            line[place] = byte;
        } else {
            line.insert(place, byte);
        }
        if self.random.chance(20) {
            line.push(b'\r');
        }
        line
    }

    fn no_words(&mut self) -> Vec<u8> {
        let lines: [&[u8]; 12] = [
            b"",
            b"",
            b" ",
            b"\t \t",
            b"\r",
            b"\r\r",
            b" \r",
            b"\r ",
            b"#",
            b"# start",
            b"  # \xE2\x82\xAC \x00\r\r",
            b"\x0C",
        ];
        self.random.pick(&lines).to_vec()
    }

    /// A right line brought to a length around 4,096 bytes.
    fn long(&mut self, sample: &str) -> Vec<u8> {
        let any = self.random.within(4095, 4200);
        let length = self.random.pick(&[4095, 4096, 4096, 4097, 4097, 4098, any]) as usize;
        let mut line = sample.as_bytes().to_vec();
        let filler = length.saturating_sub(line.len());
        match self.random.below(5) {
            0 => line.extend(vec![b' '; filler]),
            1 => {
                line.push(b'#');
                line.extend(vec![0xFF; filler.saturating_sub(1)]);
            }
            2 => {
                // Leading zeros of the first number.
                let first = sample.find(' ').map_or(0, |space| space + 1);
                line.splice(first..first, vec![b'0'; filler]);
            }
            3 => line = vec![self.random.pick(b"# \tx"); length],
            _ => {
                // As many bytes as the line holds.
                line = b"poke 1040000".to_vec();
                while line.len() + 2 <= length {
                    line.extend_from_slice(b" 7");
                }
                line.resize(length, b' ');
            }
        }
        if self.random.chance(30) {
            line.pop();
            line.push(b'\r');
        }
        line
    }

    /// Each number range overstepped, or just met.
    fn above_range(&mut self) -> Vec<u8> {
        let over = self.random.below(2);
        let lines = [
            format!("lend {}", 1_048_575 + 2 * over),
            format!("poke 1048000 {}", 255 + over),
            format!("fill 1048000 8 {}", 255 + over),
            format!("peek 1000 {}", 1024 + over),
            format!("controller 0 {}", 0xFFFF_FFFFu64 + 1),
            format!("finish 64 0 {}", 0xFFFF_FFFF + over),
            format!(
                "write-sqe 1048000 64 {} 0 0 65535 4294967295 0 0 0 0 65535 65535 4294967295 0 0",
                255 + over
            ),
            format!("write-sqe 1048000 64 1 0 0 {} 1 0 0 0 0 0 0 0 0 0", 65_535 + over),
            format!("write-sqe 1048000 64 1 0 0 1 {} 0 0 0 0 0 0 0 0 0", 0xFFFF_FFFF + over),
            format!("write-sqe 1048000 64 1 0 0 1 1 0 0 0 0 {} 0 0 0 0", 65_535 + over),
            format!("write-sqe 1048000 64 1 0 0 1 1 0 0 0 0 0 {} 0 0 0", 65_535 + over),
            format!("write-sqe 1048000 64 1 0 0 1 1 0 0 0 0 0 0 {} 0 0", 0xFFFF_FFFF + over),
            format!("write-sqe 1048000 64 1 0 0 1 1 0 0 0 0 0 0 0 0 {}", 0xFFFF_FFFF + over),
            format!("write-cqe 1048000 16 {} 0 0 0 0 0", 0xFFFF_FFFF + over),
            format!("write-cqe 1048000 16 0 {} 0 0 0 0", 65_535 + over),
            format!("write-cqe 1048000 16 0 0 {} 0 0 0", 65_535 + over),
            format!("write-cqe 1048000 16 0 0 0 {} 0 0", 65_535 + over),
            format!("walk 0 0 1 0 {} 4", 65_536 + over),
            format!("walk 0 0 1 0 8 {}", 65_536 + over),
            format!("delete-sq {}", (1 << 64) - 1 + u128::from(over)),
            format!("delete-cq {}", (1 << 64) - 1 + u128::from(over)),
            format!("show-sq {}", 15 + over),
            format!("show-cq {}", 15 + over),
            format!("show-tag {}", 63 + over),
            format!("poke {} 1", 1_048_575 + over),
            format!("poke64 {} 1", 1_048_568 + over),
            format!("fill 1048000 {} 0", 576 + over),
            format!("fill {} 0 0", 1_048_576 + over),
            format!("replay {} {:032}", 2048 + over, 0),
            format!("peek {} 0", 1_048_576 + over),
            format!("peek {} 2", 1_048_574 + over),
            format!("peek {} 1024", u64::MAX - over),
            format!("waiting {} 32 2 0 0", 1_048_544 + over),
            format!("read-sqe {} {}", u64::MAX - over, 1 + over),
            format!("read-cqe {} 16", 1_048_560 + over),
            format!("write-cqe {} 16 0 0 0 0 0 0", 1_048_560 + over),
            format!("write-sqe {} 64 1 0 0 1 1 0 0 0 0 0 0 0 0 0", 1_048_512 + over),
        ];
        let place = self.random.below(lines.len() as u64) as usize;
        lines[place].clone().into_bytes()
    }
}
