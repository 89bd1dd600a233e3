//! Records of code, call and index.
use crate::RECORD;

/// A record: 16 bytes, numbers little-endian.
#[derive(Debug, Clone, Copy, PartialEq, Eq, Hash, Default)]
pub struct Record {
    /// Byte 0: the opcode in code, 0 in a call, the kind in an index.
    pub kind: u8,
    /// Byte 1.
    pub sub: u8,
    /// Bytes 2 and 3.
    pub half: u16,
    /// Bytes 4 to 7.
    pub word: u32,
    /// Bytes 8 to 15.
    pub long: u64,
}

impl Record {
    /// A body record of code: reading of keys stops here.
    pub const BODY: Record = Record::new(64, 0, 0, 0, 0);
    /// An unbound argument of a call.
    pub const UNBOUND: Record = Record::new(0, 0, 0, 0, 0);
    /// A list as an argument of a call.
    pub const LIST: Record = Record::new(0, 5, 0, 0, 0);

    /// A record from its fields.
    pub const fn new(kind: u8, sub: u8, half: u16, word: u32, long: u64) -> Self {
        Record { kind, sub, half, word, long }
    }

    /// An atom as an argument of a call.
    pub const fn atom(bits: u64) -> Self {
        Record::new(0, 1, 0, 0, bits)
    }

    /// An integer as an argument of a call.
    pub const fn integer(bits: u64) -> Self {
        Record::new(0, 2, 0, 0, bits)
    }

    /// A float, by its bits, as an argument of a call.
    pub const fn float(bits: u64) -> Self {
        Record::new(0, 3, 0, 0, bits)
    }

    /// A structure as an argument of a call.
    pub const fn structure(name: u64, arity: u16) -> Self {
        Record::new(0, 4, arity, 0, name)
    }

    /// Code: GetConstant of an atom in a register, counted from 1.
    pub const fn atom_in(register: u32, bits: u64) -> Self {
        Record::new(18, 0, 1, register, bits)
    }

    /// Code: GetConstant of an integer in a register.
    pub const fn integer_in(register: u32, bits: u64) -> Self {
        Record::new(18, 0, 2, register, bits)
    }

    /// Code: GetConstant of a float, by its bits, in a register.
    pub const fn float_in(register: u32, bits: u64) -> Self {
        Record::new(18, 0, 3, register, bits)
    }

    /// Code: GetStructure in a register.
    pub const fn structure_in(register: u32, name: u64, arity: u16) -> Self {
        Record::new(16, 0, arity, register, name)
    }

    /// Code: GetList in a register.
    pub const fn list_in(register: u32) -> Self {
        Record::new(17, 0, 0, register, 0)
    }

    /// The record's bytes.
    pub fn to_bytes(self) -> [u8; RECORD] {
        let mut bytes = [0; RECORD];
        bytes[0] = self.kind;
        bytes[1] = self.sub;
        bytes[2..4].copy_from_slice(&self.half.to_le_bytes());
        bytes[4..8].copy_from_slice(&self.word.to_le_bytes());
        bytes[8..].copy_from_slice(&self.long.to_le_bytes());
        bytes
    }

    /// The record with these bytes.
    pub fn from_bytes(bytes: [u8; RECORD]) -> Self {
        let [kind, sub, h0, h1, w0, w1, w2, w3, long @ ..] = bytes;
        let (half, word) = (u16::from_le_bytes([h0, h1]), u32::from_le_bytes([w0, w1, w2, w3]));
        Record { kind, sub, half, word, long: u64::from_le_bytes(long) }
    }

    /// The bytes of records, one after another.
    pub fn bytes(records: &[Record]) -> Vec<u8> {
        records.iter().flat_map(|record| record.to_bytes()).collect()
    }

    /// The whole records of bytes; odd bytes at the end are left out.
    pub fn all(bytes: &[u8]) -> Vec<Record> {
        bytes.chunks_exact(RECORD).map(|chunk| Record::from_bytes(chunk.try_into().unwrap())).collect()
    }
}
