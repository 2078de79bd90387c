//! The bytes of a sheet from first to last: maps, prices, and the bytes of clocks.

use super::edition::Edition;
use super::limits;
use super::refusal::Refusal;
use super::Bytes;

pub struct Reader<'a> {
    pub bytes: &'a [u8],
    pub at: usize,
    /// The record that is being read, as "edge 3".
    pub record: String,
    pub edition: Edition,
    pub clocks: usize,
}

impl Reader<'_> {
    pub fn refuse<T>(&self, question: u8, at: usize, what: String, expected: impl Into<String>) -> Result<T, Refusal> {
        let what = if self.record.is_empty() { what } else { format!("{} {what}", self.record) };
        Err(Refusal { question, at, what, expected: expected.into() })
    }

    pub fn needs(&self, count: usize, what: &str) -> Result<(), Refusal> {
        let left = self.bytes.len() - self.at;
        if left < count {
            return self.refuse(5, self.bytes.len(), format!("ends in {what}: bytes left {left}"), format!("{count}"));
        }
        Ok(())
    }

    pub fn byte(&mut self) -> u8 {
        self.at += 1;
        self.bytes[self.at - 1]
    }

    pub fn word(&mut self) -> u16 {
        u16::from_le_bytes([self.byte(), self.byte()])
    }

    pub fn map(&mut self, width: usize, permitted: u16) -> Result<u16, Refusal> {
        self.needs(width, "its map")?;
        let at = self.at;
        let map = if width == 2 { self.word() } else { u16::from(self.byte()) };
        let wrong = map & !permitted;
        if wrong != 0 {
            return self.refuse(6, at, format!("has bit {} of its map set", wrong.trailing_zeros()), "only permitted bits");
        }
        Ok(map)
    }

    pub fn prices(&mut self, map: u16) -> Result<(i16, u16), Refusal> {
        let (mut cost, mut reward) = (0, 0);
        if map & 1 != 0 {
            cost = self.word() as i16;
            if cost == 0 || i64::from(cost).abs() > limits::PRICE {
                return self.refuse(8, self.at - 2, format!("has cost {cost}"), "-10000 to 10000 and not 0");
            }
        }
        if map & 2 != 0 {
            reward = self.word();
            if reward == 0 || i64::from(reward) > limits::PRICE {
                return self.refuse(8, self.at - 2, format!("has reward {reward}"), "1 to 10000");
            }
        }
        Ok((cost, reward))
    }

    /// A byte for each clock whose bit is set in the map, from bit `first` on.
    pub fn bytes_of(&mut self, map: u16, first: usize, least: u8, what: &str) -> Result<Bytes, Refusal> {
        let mut found = Bytes::default();
        for (j, slot) in found.iter_mut().enumerate().take(self.clocks) {
            if map >> (first + j) & 1 == 0 {
                continue;
            }
            let byte = self.byte();
            if !(least..=25).contains(&byte) {
                return self.refuse(8, self.at - 1, format!("has {what} byte {byte} of clock {j}"), format!("{least} to 25"));
            }
            *slot = Some(byte);
        }
        Ok(found)
    }
}
