//! Reading numbers and bytes that have to be 0 from an answer or a dump.

/// What is wrong with bytes that PROBE.md does not allow.
pub type Wrong = String;

/// Bytes that are read from the front; numbers are little-endian.
pub struct Bytes<'a> {
    bytes: &'a [u8],
    at: usize,
}

impl<'a> Bytes<'a> {
    pub fn new(bytes: &'a [u8]) -> Bytes<'a> {
        Bytes { bytes, at: 0 }
    }

    fn next<const N: usize>(&mut self) -> Result<[u8; N], Wrong> {
        let from = self.at;
        let part = self.bytes.get(from..from + N);
        let part = part.ok_or_else(|| format!("it ends before byte {}", from + N))?;
        self.at += N;
        Ok(part.try_into().expect("a part of N bytes"))
    }

    pub fn u8(&mut self) -> Result<u8, Wrong> {
        Ok(self.next::<1>()?[0])
    }

    pub fn u16(&mut self) -> Result<u16, Wrong> {
        Ok(u16::from_le_bytes(self.next()?))
    }

    pub fn u32(&mut self) -> Result<u32, Wrong> {
        Ok(u32::from_le_bytes(self.next()?))
    }

    pub fn i32(&mut self) -> Result<i32, Wrong> {
        Ok(i32::from_le_bytes(self.next()?))
    }

    pub fn u64(&mut self) -> Result<u64, Wrong> {
        Ok(u64::from_le_bytes(self.next()?))
    }

    /// A byte that is 0 or 1.
    pub fn flag(&mut self) -> Result<bool, Wrong> {
        match self.u8()? {
            0 => Ok(false),
            1 => Ok(true),
            other => Err(format!("byte {} is {other}, not 0 or 1", self.at - 1)),
        }
    }

    /// As many bytes as said, all of them 0.
    pub fn zeros(&mut self, count: usize) -> Result<(), Wrong> {
        for _ in 0..count {
            let byte = self.u8()?;
            self.zero(byte == 0, byte)?;
        }
        Ok(())
    }

    /// A number just read that had to be 0.
    pub fn zero<T: ToString>(&self, is_zero: bool, found: T) -> Result<(), Wrong> {
        match is_zero {
            true => Ok(()),
            false => {
                let found = found.to_string();
                Err(format!("before byte {} is {found}, not 0", self.at))
            }
        }
    }

    /// All bytes have to be read.
    pub fn end(&self) -> Result<(), Wrong> {
        match self.bytes.len() - self.at {
            0 => Ok(()),
            rest => Err(format!("{rest} bytes too many")),
        }
    }
}

#[cfg(test)]
mod tests {
    use super::*;

    #[test]
    fn numbers_are_little_endian() {
        let bytes: Vec<u8> = (1..=15).chain([255; 4]).collect();
        let mut read = Bytes::new(&bytes);
        assert_eq!(read.u8(), Ok(1));
        assert_eq!(read.u16(), Ok(0x0302));
        assert_eq!(read.u32(), Ok(0x0706_0504));
        assert_eq!(read.u64(), Ok(0x0F0E_0D0C_0B0A_0908));
        assert_eq!(read.i32(), Ok(-1));
        assert_eq!(read.end(), Ok(()));
        assert!(read.u8().is_err());
    }

    #[test]
    fn flags_and_zeros_are_checked() {
        let mut read = Bytes::new(&[0, 1, 2, 0, 0, 3]);
        assert_eq!(read.flag(), Ok(false));
        assert_eq!(read.flag(), Ok(true));
        assert!(read.flag().is_err());
        assert_eq!(read.zeros(2), Ok(()));
        assert!(read.end().is_err());
        assert!(read.zeros(1).is_err());
    }
}
