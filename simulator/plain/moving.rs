//! A move in plain Rust, as one would write it without proofs.

/// Mode, phase and length of the lane after a move.
pub type Reached = (u8, u64, usize);

/// The number and the place of a refusal.
pub type Refused = (u32, usize);

struct Line {
    number: u16,
    mode: u16,
    to: u16,
    change: Change,
}

enum Change {
    Order { top: u16, wagons: [u16; 2], count: usize },
    Notice { loses: u16, gains: u16 },
}

struct Text<'a> {
    bytes: &'a [u8],
    at: usize,
    too_large: Option<usize>,
}

impl Text<'_> {
    fn stop<T>(&self) -> Result<T, Refused> {
        Err((1, self.at + 1))
    }

    fn word(&mut self, word: &[u8]) -> Result<(), Refused> {
        for b in word {
            if self.bytes.get(self.at) != Some(b) {
                return self.stop();
            }
            self.at += 1;
        }
        Ok(())
    }

    fn number(&mut self, limit: u16) -> Result<u16, Refused> {
        let begin = self.at;
        let mut value: u16 = 0;
        while let Some(b @ b'0'..=b'9') = self.bytes.get(self.at) {
            if self.at == begin + 1 && value == 0 {
                break;
            }
            value = value.saturating_mul(10).saturating_add(u16::from(b - b'0'));
            self.at += 1;
        }
        if self.at == begin {
            return self.stop();
        }
        if value > limit && self.too_large.is_none() {
            self.too_large = Some(begin + 1);
        }
        Ok(value)
    }

    fn order(&mut self) -> Result<Line, Refused> {
        let number = self.number(63)?;
        self.word(b" (")?;
        let mode = self.number(15)?;
        self.word(b" ")?;
        let top = self.number(31)?;
        self.word(b") (")?;
        let to = self.number(15)?;
        let mut wagons = [0; 2];
        let mut count = 0;
        while count < 2 && self.bytes.get(self.at) == Some(&b' ') {
            self.at += 1;
            wagons[count] = self.number(31)?;
            count += 1;
        }
        self.word(b")")?;
        self.toll()?;
        Ok(Line { number, mode, to, change: Change::Order { top, wagons, count } })
    }

    fn notice(&mut self) -> Result<Line, Refused> {
        let number = self.number(63)?;
        self.word(b" ")?;
        let mode = self.number(15)?;
        self.word(b" ")?;
        let to = self.number(15)?;
        self.word(b" (")?;
        let loses = self.number(63)?;
        self.word(b" ")?;
        let gains = self.number(63)?;
        self.word(b")")?;
        self.toll()?;
        Ok(Line { number, mode, to, change: Change::Notice { loses, gains } })
    }

    fn toll(&mut self) -> Result<(), Refused> {
        self.word(b" (")?;
        self.number(9999)?;
        self.word(b" ")?;
        self.number(9)?;
        self.word(b"))")
    }
}

fn read(bytes: &[u8]) -> Result<Line, Refused> {
    if bytes.len() > 512 {
        return Err((1, 513));
    }
    let mut text = Text { bytes, at: 0, too_large: None };
    text.word(b"(")?;
    let line = if bytes.get(1) == Some(&b'n') {
        text.word(b"notice ")?;
        text.notice()?
    } else {
        text.word(b"order ")?;
        text.order()?
    };
    if text.at < bytes.len() {
        return text.stop();
    }
    match text.too_large {
        Some(place) => Err((2, place)),
        None => Ok(line),
    }
}

/// The move, with the checks in their order.
pub fn move_lane(
    line: &[u8],
    mode: u8,
    phase: u64,
    buffer: &mut [u8],
    len: usize,
    number: u8,
) -> Result<Reached, Refused> {
    let line = read(line)?;
    if len > buffer.len() || mode > 15 || buffer[..len].iter().any(|wagon| *wagon > 31) {
        return Err((9, 0));
    }
    if u16::from(number) != line.number {
        return Err((6, usize::from(number)));
    }
    let has = |n: u16| phase >> n & 1 == 1;
    if !has(line.number) || matches!(line.change, Change::Notice { loses, .. } if !has(loses)) {
        return Err((15, 0));
    }
    if u16::from(mode) != line.mode || len == 0 {
        return Err((16, 0));
    }
    match line.change {
        Change::Order { top, wagons, count } => {
            if u16::from(buffer[0]) != top {
                return Err((16, 0));
            }
            let after = len - 1 + count;
            if after > buffer.len() {
                return Err((17, 0));
            }
            buffer.copy_within(1..len, count);
            for (place, wagon) in buffer.iter_mut().zip(&wagons[..count]) {
                *place = *wagon as u8;
            }
            Ok((line.to as u8, phase, after))
        }
        Change::Notice { loses, gains } => Ok((line.to as u8, phase & !(1 << loses) | 1 << gains, len)),
    }
}
