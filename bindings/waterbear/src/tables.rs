//! Made by tables.py from docs/FORMAT.md, not to be edited: the numbers of kinds, operators and forms, and the limits of a listing.

/// The first byte of a frame.
pub const INSTRUCTION: u8 = 0x01;
pub const LABEL: u8 = 0x02;
pub const VARIABLE: u8 = 0x03;
pub const COMMENT: u8 = 0x04;
pub const ORG: u8 = 0x05;
pub const BYTES: u8 = 0x06;
pub const WORDS: u8 = 0x07;
pub const PAD: u8 = 0x08;

/// The first byte of an expression.
pub const NUMBER: u8 = 0x00;
pub const NAME: u8 = 0x01;
pub const PLUS: u8 = 0x10;
pub const MINUS: u8 = 0x11;
pub const TIMES: u8 = 0x12;
pub const DIVIDE: u8 = 0x13;
pub const XOR: u8 = 0x14;
pub const AND: u8 = 0x15;
pub const OR: u8 = 0x16;
pub const UNARY_MINUS: u8 = 0x20;
pub const UPPER_BYTE: u8 = 0x21;
pub const LOWER_BYTE: u8 = 0x22;

/// Forms.
pub const ADD_I8: u8 = 0x00;
pub const ADD_D9: u8 = 0x01;
pub const ADD_RI: u8 = 0x02;
pub const ADDC_I8: u8 = 0x03;
pub const ADDC_D9: u8 = 0x04;
pub const ADDC_RI: u8 = 0x05;
pub const SUB_I8: u8 = 0x06;
pub const SUB_D9: u8 = 0x07;
pub const SUB_RI: u8 = 0x08;
pub const SUBC_I8: u8 = 0x09;
pub const SUBC_D9: u8 = 0x0A;
pub const SUBC_RI: u8 = 0x0B;
pub const INC_D9: u8 = 0x0C;
pub const INC_RI: u8 = 0x0D;
pub const DEC_D9: u8 = 0x0E;
pub const DEC_RI: u8 = 0x0F;
pub const MUL: u8 = 0x10;
pub const DIV: u8 = 0x11;
pub const AND_I8: u8 = 0x12;
pub const AND_D9: u8 = 0x13;
pub const AND_RI: u8 = 0x14;
pub const OR_I8: u8 = 0x15;
pub const OR_D9: u8 = 0x16;
pub const OR_RI: u8 = 0x17;
pub const XOR_I8: u8 = 0x18;
pub const XOR_D9: u8 = 0x19;
pub const XOR_RI: u8 = 0x1A;
pub const ROL: u8 = 0x1B;
pub const ROLC: u8 = 0x1C;
pub const ROR: u8 = 0x1D;
pub const RORC: u8 = 0x1E;
pub const LD_D9: u8 = 0x1F;
pub const LD_RI: u8 = 0x20;
pub const ST_D9: u8 = 0x21;
pub const ST_RI: u8 = 0x22;
pub const MOV_D9: u8 = 0x23;
pub const MOV_RJ: u8 = 0x24;
pub const LDC: u8 = 0x25;
pub const PUSH: u8 = 0x26;
pub const POP: u8 = 0x27;
pub const XCH_D9: u8 = 0x28;
pub const XCH_RI: u8 = 0x29;
pub const JMP: u8 = 0x2A;
pub const JMPF: u8 = 0x2B;
pub const BR: u8 = 0x2C;
pub const BRF: u8 = 0x2D;
pub const BZ: u8 = 0x2E;
pub const BNZ: u8 = 0x2F;
pub const BP: u8 = 0x30;
pub const BPC: u8 = 0x31;
pub const BN: u8 = 0x32;
pub const DBNZ_D9: u8 = 0x33;
pub const DBNZ_RI: u8 = 0x34;
pub const BE_I8: u8 = 0x35;
pub const BE_D9: u8 = 0x36;
pub const BE_RJ: u8 = 0x37;
pub const BNE_I8: u8 = 0x38;
pub const BNE_D9: u8 = 0x39;
pub const BNE_RJ: u8 = 0x3A;
pub const CALL: u8 = 0x3B;
pub const CALLF: u8 = 0x3C;
pub const CALLR: u8 = 0x3D;
pub const RET: u8 = 0x3E;
pub const RETI: u8 = 0x3F;
pub const CLR1: u8 = 0x40;
pub const SET1: u8 = 0x41;
pub const NOT1: u8 = 0x42;
pub const NOP: u8 = 0x43;
pub const LDF: u8 = 0x44;
pub const STF: u8 = 0x45;

/// Limits of a listing with source lines; a frame's is without its line.
pub const STATEMENTS: usize = 1024;
pub const FRAME: usize = 120;
pub const EXPRESSION: usize = 32;
pub const TOTAL: usize = 28672;
/// The first line of a listing with source lines.
pub const MARK: &str = "7D02";

/// Whether the last argument is a target.
pub fn is_transfer(form: u8) -> bool {
    matches!(form, 0x2A..=0x3D)
}

/// Whether it is a conditional branch.
pub fn is_branch(form: u8) -> bool {
    matches!(form, 0x2E..=0x3A)
}
