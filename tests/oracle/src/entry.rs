//! The two entries of document 01, "Entries". All numbers are little-endian.

/// "Submission, 64 bytes".
pub const SUBMISSION: usize = 64;
/// "Completion, 16 bytes".
pub const COMPLETION: usize = 16;
/// The highest 15-bit status; above it the refusal is 15.
pub const STATUS_MAX: u64 = 32_767;

/// A submission entry. FUSE and PSDT may be any number on the way to the writer.
#[derive(Clone, Copy, Default)]
pub struct Submission {
    pub opc: u64,
    pub fuse: u64,
    pub psdt: u64,
    pub cid: u64,
    pub nsid: u64,
    pub mptr: u64,
    pub prp1: u64,
    pub prp2: u64,
    pub slba: u64,
    pub nlb: u64,
    pub cdw12_upper: u64,
    pub cdw13: u64,
    pub cdw14: u64,
    pub cdw15: u64,
}

/// A completion entry. The tag may be any number on the way to the writer.
#[derive(Clone, Copy, Default)]
pub struct Completion {
    pub result: u64,
    pub sqhd: u64,
    pub sqid: u64,
    pub cid: u64,
    pub status: u64,
    pub tag: u64,
}

/// The number in the `width` bytes from `at` on.
pub fn get(bytes: &[u8], at: usize, width: usize) -> u64 {
    let part = bytes[at..at + width].iter().rev();
    part.fold(0, |number, byte| number << 8 | u64::from(*byte))
}

/// Puts the low `width` bytes of a number from `at` on.
pub fn put(bytes: &mut [u8], at: usize, width: usize, number: u64) {
    bytes[at..at + width].copy_from_slice(&number.to_le_bytes()[..width]);
}

impl Submission {
    /// "Writers and readers of both entries refuse a buffer under 64 or 16 bytes (21)
    /// and leave bytes past the entry"; "FUSE and PSDT numbers are taken modulo 4";
    /// "The writer puts 0 in bytes 8 to 15 and in the other bits of byte 1".
    pub fn write(&self, room: &mut [u8]) -> Result<(), u64> {
        let entry = room.get_mut(..SUBMISSION).ok_or(21u64)?;
        put(entry, 0, 1, self.opc);
        put(entry, 1, 1, self.fuse % 4 + (self.psdt % 4) * 64);
        put(entry, 2, 2, self.cid);
        put(entry, 4, 4, self.nsid);
        put(entry, 8, 8, 0);
        put(entry, 16, 8, self.mptr);
        put(entry, 24, 8, self.prp1);
        put(entry, 32, 8, self.prp2);
        put(entry, 40, 8, self.slba);
        put(entry, 48, 2, self.nlb);
        put(entry, 50, 2, self.cdw12_upper);
        put(entry, 52, 4, self.cdw13);
        put(entry, 56, 4, self.cdw14);
        put(entry, 60, 4, self.cdw15);
        Ok(())
    }

    /// "readers ignore reserved bits".
    pub fn read(room: &[u8]) -> Result<Submission, u64> {
        let entry = room.get(..SUBMISSION).ok_or(21u64)?;
        Ok(Submission {
            opc: get(entry, 0, 1),
            fuse: get(entry, 1, 1) % 4,
            psdt: get(entry, 1, 1) / 64,
            cid: get(entry, 2, 2),
            nsid: get(entry, 4, 4),
            mptr: get(entry, 16, 8),
            prp1: get(entry, 24, 8),
            prp2: get(entry, 32, 8),
            slba: get(entry, 40, 8),
            nlb: get(entry, 48, 2),
            cdw12_upper: get(entry, 50, 2),
            cdw13: get(entry, 52, 4),
            cdw14: get(entry, 56, 4),
            cdw15: get(entry, 60, 4),
        })
    }
}

impl Completion {
    /// "completion writer 15, 21"; "4 to 7 zero"; "14 to 15 twice the 15-bit status plus
    /// the phase tag"; "a tag modulo 2".
    pub fn write(&self, room: &mut [u8]) -> Result<(), u64> {
        if self.status > STATUS_MAX {
            return Err(15);
        }
        let entry = room.get_mut(..COMPLETION).ok_or(21u64)?;
        put(entry, 0, 4, self.result);
        put(entry, 4, 4, 0);
        put(entry, 8, 2, self.sqhd);
        put(entry, 10, 2, self.sqid);
        put(entry, 12, 2, self.cid);
        put(entry, 14, 2, 2 * self.status + self.tag % 2);
        Ok(())
    }

    pub fn read(room: &[u8]) -> Result<Completion, u64> {
        let entry = room.get(..COMPLETION).ok_or(21u64)?;
        Ok(Completion {
            result: get(entry, 0, 4),
            sqhd: get(entry, 8, 2),
            sqid: get(entry, 10, 2),
            cid: get(entry, 12, 2),
            status: get(entry, 14, 2) / 2,
            tag: get(entry, 14, 2) % 2,
        })
    }
}
