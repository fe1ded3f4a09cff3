// The same decoder in plain Rust: rv32_isa's source with its contracts taken off.
#![allow(dead_code)]

use decoding::decode;
use instruction::Instr;

mod zaamo {
    /// Which atomic memory operation: how the new word is made.
    #[derive(Clone, Copy, Debug, PartialEq, Eq)]
    pub enum AmoOp {
        Add,
        Swap,
        Xor,
        And,
        Or,
        Min,
        Max,
        MinUnsigned,
        MaxUnsigned,
    }
}

mod operands {
    // What instructions work on: registers, CSRs, amounts and immediates.

    /// A register, x0 to x31.
    #[derive(Clone, Copy, Debug, PartialEq, Eq)]
    pub struct Reg {
        number: u8,
    }

    impl Reg {
        /// The register of a number.
        #[inline(always)]
        pub fn new(number: u8) -> Self {
            Reg { number }
        }

        /// The number of the register.
        #[inline(always)]
        pub fn number(self) -> u8 {
            self.number
        }
    }

    /// A control and status register.
    #[derive(Clone, Copy, Debug, PartialEq, Eq)]
    pub struct CsrNumber {
        address: u16,
    }

    impl CsrNumber {
        /// The CSR of a number.
        #[inline(always)]
        pub fn new(address: u16) -> Self {
            CsrNumber { address }
        }

        /// The number of the CSR, of 12 bits.
        #[inline(always)]
        pub fn number(self) -> u16 {
            self.address
        }
    }

    /// By how many places an immediate shift moves.
    #[derive(Clone, Copy, Debug, PartialEq, Eq)]
    pub struct ShiftAmount {
        places: u8,
    }

    impl ShiftAmount {
        /// The shift by a number of places.
        #[inline(always)]
        pub fn new(places: u8) -> Self {
            ShiftAmount { places }
        }

        /// The number of places.
        #[inline(always)]
        pub fn places(self) -> u8 {
            self.places
        }
    }

    /// The unsigned immediate of five bits of a CSR instruction.
    #[derive(Clone, Copy, Debug, PartialEq, Eq)]
    pub struct Uimm5 {
        value: u8,
    }

    impl Uimm5 {
        /// The immediate of a value.
        #[inline(always)]
        pub fn new(value: u8) -> Self {
            Uimm5 { value }
        }

        /// The value, below 32.
        #[inline(always)]
        pub fn value(self) -> u8 {
            self.value
        }
    }

    /// A signed immediate of 12 bits, as the sign-extended word.
    #[derive(Clone, Copy, Debug, PartialEq, Eq)]
    pub struct Imm12 {
        immediate: u32,
    }

    impl Imm12 {
        /// The immediate that is this word, or `None` where it takes more than 12 bits.
        pub fn new(word: u32) -> Option<Self> {
            if word < 0x800 || word >= 0xffff_f800 {
                Some(Imm12 { immediate: word })
            } else {
                None
            }
        }

        #[inline(always)]
        pub(crate) fn from_extended(word: u32) -> Self {
            Imm12 { immediate: word }
        }

        /// The sign-extended word.
        #[inline(always)]
        pub fn word(self) -> u32 {
            self.immediate
        }
    }

    /// The offset of a branch: an even signed number of 13 bits, as the sign-extended word.
    #[derive(Clone, Copy, Debug, PartialEq, Eq)]
    pub struct BranchOffset {
        offset: u32,
    }

    impl BranchOffset {
        /// The offset that is this word, or `None` where it is odd or takes more than 13 bits.
        pub fn new(word: u32) -> Option<Self> {
            if (word < 0x1000 || word >= 0xffff_f000) && word % 2 == 0 {
                Some(BranchOffset { offset: word })
            } else {
                None
            }
        }

        #[inline(always)]
        pub(crate) fn from_extended(word: u32) -> Self {
            BranchOffset { offset: word }
        }

        /// The sign-extended word.
        #[inline(always)]
        pub fn word(self) -> u32 {
            self.offset
        }
    }

    /// The offset of a jump: an even signed number of 21 bits, as the sign-extended word.
    #[derive(Clone, Copy, Debug, PartialEq, Eq)]
    pub struct JumpOffset {
        distance: u32,
    }

    impl JumpOffset {
        /// The offset that is this word, or `None` where it is odd or takes more than 21 bits.
        pub fn new(word: u32) -> Option<Self> {
            if (word < 0x10_0000 || word >= 0xfff0_0000) && word % 2 == 0 {
                Some(JumpOffset { distance: word })
            } else {
                None
            }
        }

        #[inline(always)]
        pub(crate) fn from_extended(word: u32) -> Self {
            JumpOffset { distance: word }
        }

        /// The sign-extended word.
        #[inline(always)]
        pub fn word(self) -> u32 {
            self.distance
        }
    }

    /// An upper immediate: a word whose lowest 12 bits are 0.
    #[derive(Clone, Copy, Debug, PartialEq, Eq)]
    pub struct UpperImm {
        upper: u32,
    }

    impl UpperImm {
        /// The immediate that is this word, or `None` where one of the lowest 12 bits is set.
        pub fn new(word: u32) -> Option<Self> {
            if word % 0x1000 == 0 {
                Some(UpperImm { upper: word })
            } else {
                None
            }
        }

        #[inline(always)]
        pub(crate) fn from_upper(word: u32) -> Self {
            UpperImm { upper: word }
        }

        /// The word.
        #[inline(always)]
        pub fn word(self) -> u32 {
            self.upper
        }
    }
}

mod fields {
    // The fields of an instruction word.

    use super::operands::{
        BranchOffset, CsrNumber, Imm12, JumpOffset, Reg, ShiftAmount, Uimm5, UpperImm,
    };

    #[inline(always)]
    pub(crate) fn opcode(word: u32) -> u32 {
        word & 0x7f
    }

    #[inline(always)]
    pub(crate) fn rd(word: u32) -> Reg {
        Reg::new((word >> 7 & 0x1f) as u8)
    }

    #[inline(always)]
    pub(crate) fn funct3(word: u32) -> u32 {
        word >> 12 & 7
    }

    #[inline(always)]
    pub(crate) fn rs1(word: u32) -> Reg {
        Reg::new((word >> 15 & 0x1f) as u8)
    }

    #[inline(always)]
    pub(crate) fn rs2(word: u32) -> Reg {
        Reg::new((word >> 20 & 0x1f) as u8)
    }

    #[inline(always)]
    pub(crate) fn funct7(word: u32) -> u32 {
        word >> 25
    }

    #[inline(always)]
    pub(crate) fn funct5(word: u32) -> u32 {
        word >> 27
    }

    #[inline(always)]
    pub(crate) fn acquire(word: u32) -> bool {
        word >> 26 & 1 == 1
    }

    #[inline(always)]
    pub(crate) fn release(word: u32) -> bool {
        word >> 25 & 1 == 1
    }

    // An immediate shift has its amount where rs2 stands.
    #[inline(always)]
    pub(crate) fn shift_amount(word: u32) -> ShiftAmount {
        ShiftAmount::new((word >> 20 & 0x1f) as u8)
    }

    // A CSR instruction with an immediate has it where rs1 stands.
    #[inline(always)]
    pub(crate) fn csr_immediate(word: u32) -> Uimm5 {
        Uimm5::new((word >> 15 & 0x1f) as u8)
    }

    #[inline(always)]
    pub(crate) fn csr_number(word: u32) -> CsrNumber {
        CsrNumber::new((word >> 20) as u16)
    }

    #[inline(always)]
    pub(crate) fn immediate_i(word: u32) -> Imm12 {
        Imm12::from_extended((word.cast_signed() >> 20).cast_unsigned())
    }

    #[inline(always)]
    pub(crate) fn immediate_s(word: u32) -> Imm12 {
        let bits = word >> 25 << 5 | word >> 7 & 0x1f;
        Imm12::from_extended(if bits < 0x800 {
            bits
        } else {
            bits + 0xffff_f000
        })
    }

    #[inline(always)]
    fn branch_bits(word: u32) -> u32 {
        word >> 31 << 12
            | ((word >> 7 & 1) << 11 | ((word >> 25 & 0x3f) << 5 | (word >> 8 & 0xf) << 1))
    }

    #[inline(always)]
    pub(crate) fn immediate_b(word: u32) -> BranchOffset {
        let bits = branch_bits(word);
        BranchOffset::from_extended(if bits < 0x1000 {
            bits
        } else {
            bits + 0xffff_e000
        })
    }

    #[inline(always)]
    pub(crate) fn immediate_u(word: u32) -> UpperImm {
        UpperImm::from_upper(word & 0xffff_f000)
    }

    #[inline(always)]
    fn jump_bits(word: u32) -> u32 {
        (word >> 31 << 20)
            + ((word >> 12 & 0xff) << 12)
            + ((word >> 20 & 1) << 11)
            + ((word >> 21 & 0x3ff) << 1)
    }

    #[inline(always)]
    pub(crate) fn immediate_j(word: u32) -> JumpOffset {
        let bits = jump_bits(word);
        JumpOffset::from_extended(if bits < 0x10_0000 {
            bits
        } else {
            bits + 0xffe0_0000
        })
    }
}

mod instruction {
    // Instructions, grouped by format: kinds as enums, registers and immediates as types of their own.
    use super::operands::{
        BranchOffset, CsrNumber, Imm12, JumpOffset, Reg, ShiftAmount, Uimm5, UpperImm,
    };
    use crate::zaamo::AmoOp;

    /// What a branch compares for.
    #[derive(Clone, Copy, Debug, PartialEq, Eq)]
    pub enum Comparison {
        Equal,
        NotEqual,
        Less,
        GreaterEqual,
        LessUnsigned,
        GreaterEqualUnsigned,
    }

    /// What a load reads.
    #[derive(Clone, Copy, Debug, PartialEq, Eq)]
    pub enum LoadKind {
        Byte,
        Half,
        Word,
        ByteUnsigned,
        HalfUnsigned,
    }

    /// What a store writes.
    #[derive(Clone, Copy, Debug, PartialEq, Eq)]
    pub enum StoreKind {
        Byte,
        Half,
        Word,
    }

    /// An operation with an immediate.
    #[derive(Clone, Copy, Debug, PartialEq, Eq)]
    pub enum ImmOp {
        Add,
        SetLess,
        SetLessUnsigned,
        Xor,
        Or,
        And,
    }

    /// A shift by an immediate.
    #[derive(Clone, Copy, Debug, PartialEq, Eq)]
    pub enum ShiftOp {
        Left,
        Right,
        RightSigned,
    }

    /// An operation on two registers.
    #[derive(Clone, Copy, Debug, PartialEq, Eq)]
    pub enum RegOp {
        Add,
        Sub,
        ShiftLeft,
        SetLess,
        SetLessUnsigned,
        Xor,
        ShiftRight,
        ShiftRightSigned,
        Or,
        And,
        Mul,
        MulHigh,
        MulHighSignedUnsigned,
        MulHighUnsigned,
        Div,
        DivUnsigned,
        Rem,
        RemUnsigned,
    }

    /// What is written to a CSR.
    #[derive(Clone, Copy, Debug, PartialEq, Eq)]
    pub enum CsrOp {
        Write,
        Set,
        Clear,
    }

    /// An instruction.
    #[derive(Clone, Copy, Debug, PartialEq, Eq)]
    pub enum Instr {
        Lui {
            rd: Reg,
            imm: UpperImm,
        },
        Auipc {
            rd: Reg,
            imm: UpperImm,
        },
        Jal {
            rd: Reg,
            offset: JumpOffset,
        },
        Jalr {
            rd: Reg,
            rs1: Reg,
            imm: Imm12,
        },
        Branch {
            comparison: Comparison,
            rs1: Reg,
            rs2: Reg,
            offset: BranchOffset,
        },
        Load {
            kind: LoadKind,
            rd: Reg,
            rs1: Reg,
            imm: Imm12,
        },
        Store {
            kind: StoreKind,
            rs1: Reg,
            rs2: Reg,
            imm: Imm12,
        },
        OpImm {
            op: ImmOp,
            rd: Reg,
            rs1: Reg,
            imm: Imm12,
        },
        ShiftImm {
            op: ShiftOp,
            rd: Reg,
            rs1: Reg,
            amount: ShiftAmount,
        },
        Op {
            op: RegOp,
            rd: Reg,
            rs1: Reg,
            rs2: Reg,
        },
        Fence,
        Ecall,
        Ebreak,
        Mret,
        Wfi,
        CsrReg {
            op: CsrOp,
            rd: Reg,
            csr: CsrNumber,
            rs1: Reg,
        },
        CsrImm {
            op: CsrOp,
            rd: Reg,
            csr: CsrNumber,
            imm: Uimm5,
        },
        Amo {
            op: AmoOp,
            rd: Reg,
            rs1: Reg,
            rs2: Reg,
            acquire: bool,
            release: bool,
        },
    }
}

mod decoding {
    // The instructions of the words.

    use super::fields::{
        acquire, csr_immediate, csr_number, funct3, funct5, funct7, immediate_b, immediate_i,
        immediate_j, immediate_s, immediate_u, opcode, rd, release, rs1, rs2, shift_amount,
    };
    use super::instruction::{
        Comparison, CsrOp, ImmOp, Instr, LoadKind, RegOp, ShiftOp, StoreKind,
    };
    use crate::zaamo::AmoOp;

    #[inline(always)]
    fn comparison(funct3: u32) -> Option<Comparison> {
        match funct3 {
            0 => Some(Comparison::Equal),
            1 => Some(Comparison::NotEqual),
            4 => Some(Comparison::Less),
            5 => Some(Comparison::GreaterEqual),
            6 => Some(Comparison::LessUnsigned),
            7 => Some(Comparison::GreaterEqualUnsigned),
            _ => None,
        }
    }

    #[inline(always)]
    fn load_kind(funct3: u32) -> Option<LoadKind> {
        match funct3 {
            0 => Some(LoadKind::Byte),
            1 => Some(LoadKind::Half),
            2 => Some(LoadKind::Word),
            4 => Some(LoadKind::ByteUnsigned),
            5 => Some(LoadKind::HalfUnsigned),
            _ => None,
        }
    }

    #[inline(always)]
    fn store_kind(funct3: u32) -> Option<StoreKind> {
        match funct3 {
            0 => Some(StoreKind::Byte),
            1 => Some(StoreKind::Half),
            2 => Some(StoreKind::Word),
            _ => None,
        }
    }

    #[inline(always)]
    fn imm_op(funct3: u32) -> Option<ImmOp> {
        match funct3 {
            0 => Some(ImmOp::Add),
            2 => Some(ImmOp::SetLess),
            3 => Some(ImmOp::SetLessUnsigned),
            4 => Some(ImmOp::Xor),
            6 => Some(ImmOp::Or),
            7 => Some(ImmOp::And),
            _ => None,
        }
    }

    #[inline(always)]
    fn shift_op(funct7: u32, funct3: u32) -> Option<ShiftOp> {
        match (funct7, funct3) {
            (0b0000000, 1) => Some(ShiftOp::Left),
            (0b0000000, 5) => Some(ShiftOp::Right),
            (0b0100000, 5) => Some(ShiftOp::RightSigned),
            _ => None,
        }
    }

    #[inline(always)]
    fn base_op(funct3: u32) -> Option<RegOp> {
        match funct3 {
            0 => Some(RegOp::Add),
            1 => Some(RegOp::ShiftLeft),
            2 => Some(RegOp::SetLess),
            3 => Some(RegOp::SetLessUnsigned),
            4 => Some(RegOp::Xor),
            5 => Some(RegOp::ShiftRight),
            6 => Some(RegOp::Or),
            7 => Some(RegOp::And),
            _ => None,
        }
    }

    #[inline(always)]
    fn alternate_op(funct3: u32) -> Option<RegOp> {
        match funct3 {
            0 => Some(RegOp::Sub),
            5 => Some(RegOp::ShiftRightSigned),
            _ => None,
        }
    }

    #[inline(always)]
    fn multiply_op(funct3: u32) -> Option<RegOp> {
        match funct3 {
            0 => Some(RegOp::Mul),
            1 => Some(RegOp::MulHigh),
            2 => Some(RegOp::MulHighSignedUnsigned),
            3 => Some(RegOp::MulHighUnsigned),
            4 => Some(RegOp::Div),
            5 => Some(RegOp::DivUnsigned),
            6 => Some(RegOp::Rem),
            7 => Some(RegOp::RemUnsigned),
            _ => None,
        }
    }

    #[inline(always)]
    fn reg_op(funct7: u32, funct3: u32) -> Option<RegOp> {
        match funct7 {
            0b0000000 => base_op(funct3),
            0b0100000 => alternate_op(funct3),
            0b0000001 => multiply_op(funct3),
            _ => None,
        }
    }

    #[inline(always)]
    fn amo_op(funct5: u32) -> Option<AmoOp> {
        match funct5 {
            0b00001 => Some(AmoOp::Swap),
            0b00000 => Some(AmoOp::Add),
            0b00100 => Some(AmoOp::Xor),
            0b01100 => Some(AmoOp::And),
            0b01000 => Some(AmoOp::Or),
            0b10000 => Some(AmoOp::Min),
            0b10100 => Some(AmoOp::Max),
            0b11000 => Some(AmoOp::MinUnsigned),
            0b11100 => Some(AmoOp::MaxUnsigned),
            _ => None,
        }
    }

    #[inline(always)]
    fn jalr(word: u32) -> Option<Instr> {
        if funct3(word) != 0 {
            return None;
        }
        Some(Instr::Jalr {
            rd: rd(word),
            rs1: rs1(word),
            imm: immediate_i(word),
        })
    }

    #[inline(always)]
    fn branch(word: u32) -> Option<Instr> {
        let comparison = comparison(funct3(word))?;
        Some(Instr::Branch {
            comparison,
            rs1: rs1(word),
            rs2: rs2(word),
            offset: immediate_b(word),
        })
    }

    #[inline(always)]
    fn load(word: u32) -> Option<Instr> {
        let kind = load_kind(funct3(word))?;
        Some(Instr::Load {
            kind,
            rd: rd(word),
            rs1: rs1(word),
            imm: immediate_i(word),
        })
    }

    #[inline(always)]
    fn store(word: u32) -> Option<Instr> {
        let kind = store_kind(funct3(word))?;
        Some(Instr::Store {
            kind,
            rs1: rs1(word),
            rs2: rs2(word),
            imm: immediate_s(word),
        })
    }

    #[inline(always)]
    fn op_imm(word: u32) -> Option<Instr> {
        let funct3 = funct3(word);
        if funct3 == 1 || funct3 == 5 {
            let op = shift_op(funct7(word), funct3)?;
            Some(Instr::ShiftImm {
                op,
                rd: rd(word),
                rs1: rs1(word),
                amount: shift_amount(word),
            })
        } else {
            let op = imm_op(funct3)?;
            Some(Instr::OpImm {
                op,
                rd: rd(word),
                rs1: rs1(word),
                imm: immediate_i(word),
            })
        }
    }

    #[inline(always)]
    fn op(word: u32) -> Option<Instr> {
        let op = reg_op(funct7(word), funct3(word))?;
        Some(Instr::Op {
            op,
            rd: rd(word),
            rs1: rs1(word),
            rs2: rs2(word),
        })
    }

    #[inline(always)]
    fn fence(word: u32) -> Option<Instr> {
        if funct3(word) == 0 {
            Some(Instr::Fence)
        } else {
            None
        }
    }

    #[inline(always)]
    fn whole_word(word: u32) -> Option<Instr> {
        match word {
            0x0000_0073 => Some(Instr::Ecall),
            0x0010_0073 => Some(Instr::Ebreak),
            0x3020_0073 => Some(Instr::Mret),
            0x1050_0073 => Some(Instr::Wfi),
            _ => None,
        }
    }

    #[inline(always)]
    fn csr_reg(word: u32, op: CsrOp) -> Instr {
        Instr::CsrReg {
            op,
            rd: rd(word),
            csr: csr_number(word),
            rs1: rs1(word),
        }
    }

    #[inline(always)]
    fn csr_imm(word: u32, op: CsrOp) -> Instr {
        Instr::CsrImm {
            op,
            rd: rd(word),
            csr: csr_number(word),
            imm: csr_immediate(word),
        }
    }

    #[inline(always)]
    fn system(word: u32) -> Option<Instr> {
        match funct3(word) {
            0 => whole_word(word),
            1 => Some(csr_reg(word, CsrOp::Write)),
            2 => Some(csr_reg(word, CsrOp::Set)),
            3 => Some(csr_reg(word, CsrOp::Clear)),
            5 => Some(csr_imm(word, CsrOp::Write)),
            6 => Some(csr_imm(word, CsrOp::Set)),
            7 => Some(csr_imm(word, CsrOp::Clear)),
            _ => None,
        }
    }

    #[inline(always)]
    fn amo(word: u32) -> Option<Instr> {
        if funct3(word) != 2 {
            return None;
        }
        let op = amo_op(funct5(word))?;
        Some(Instr::Amo {
            op,
            rd: rd(word),
            rs1: rs1(word),
            rs2: rs2(word),
            acquire: acquire(word),
            release: release(word),
        })
    }

    /// The instruction that a word encodes, or `None` for an illegal word.
    #[inline(always)]
    pub fn decode(word: u32) -> Option<Instr> {
        match opcode(word) {
            0b0110111 => Some(Instr::Lui {
                rd: rd(word),
                imm: immediate_u(word),
            }),
            0b0010111 => Some(Instr::Auipc {
                rd: rd(word),
                imm: immediate_u(word),
            }),
            0b1101111 => Some(Instr::Jal {
                rd: rd(word),
                offset: immediate_j(word),
            }),
            0b1100111 => jalr(word),
            0b1100011 => branch(word),
            0b0000011 => load(word),
            0b0100011 => store(word),
            0b0010011 => op_imm(word),
            0b0110011 => op(word),
            0b0001111 => fence(word),
            0b1110011 => system(word),
            0b0101111 => amo(word),
            _ => None,
        }
    }
}

// A word for each instruction, as GNU as writes them, and five illegal words.
const WORDS: [u32; 76] = [
    0x1234_52b7,
    0x1234_5297,
    0x5565_52ef,
    0xeef5_02e7,
    0xabc5_05e3,
    0xabc5_15e3,
    0xabc5_45e3,
    0xabc5_55e3,
    0xabc5_65e3,
    0xabc5_75e3,
    0xeef5_0283,
    0xeef5_1283,
    0xeef5_2283,
    0xeef5_4283,
    0xeef5_5283,
    0xefc5_07a3,
    0xefc5_17a3,
    0xefc5_27a3,
    0xeef5_0293,
    0xeef5_2293,
    0xeef5_3293,
    0xeef5_4293,
    0xeef5_6293,
    0xeef5_7293,
    0x0135_1293,
    0x0135_5293,
    0x4135_5293,
    0x01c5_02b3,
    0x41c5_02b3,
    0x01c5_12b3,
    0x01c5_22b3,
    0x01c5_32b3,
    0x01c5_42b3,
    0x01c5_52b3,
    0x41c5_52b3,
    0x01c5_62b3,
    0x01c5_72b3,
    0x0ff0_000f,
    0x0310_000f,
    0x8330_000f,
    0x0100_000f,
    0x0000_0073,
    0x0010_0073,
    0x3415_12f3,
    0x3415_22f3,
    0x3415_32f3,
    0x341a_d2f3,
    0x341a_e2f3,
    0x341a_f2f3,
    0x03c5_02b3,
    0x03c5_12b3,
    0x03c5_22b3,
    0x03c5_32b3,
    0x03c5_42b3,
    0x03c5_52b3,
    0x03c5_62b3,
    0x03c5_72b3,
    0x09c5_22af,
    0x01c5_22af,
    0x21c5_22af,
    0x61c5_22af,
    0x41c5_22af,
    0x81c5_22af,
    0xa1c5_22af,
    0xc1c5_22af,
    0xe1c5_22af,
    0x05c5_22af,
    0x03c5_22af,
    0x07c5_22af,
    0x3020_0073,
    0x1050_0073,
    0x0000_0000,
    0x0001_0001,
    0x05c5_02b3,
    0x1005_22af,
    0x0000_8073,
];

#[inline(never)]
fn decode_all(words: &[u32], decoded: &mut [Option<Instr>]) {
    for (word, slot) in words.iter().zip(decoded.iter_mut()) {
        *slot = decode(*word);
    }
}

fn main() {
    let mut rounds = 0;
    for word in std::env::args().skip(1) {
        rounds = word.parse::<u64>().unwrap_or(0);
    }
    let mut words = WORDS;
    let mut decoded = [None; WORDS.len()];
    decode_all(&words, &mut decoded);
    for _ in 0..rounds {
        // Another immediate of LUI in each round, so that no compiler leaves a round out.
        words[0] ^= 0x0010_0000;
        decode_all(&words, &mut decoded);
    }
    if rounds == 0 {
        for instr in &decoded {
            println!("{instr:?}");
        }
    }
    let legal = decoded.iter().filter(|instr| instr.is_some()).count();
    println!("{legal} legal words");
}
