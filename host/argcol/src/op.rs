//! Opcodes by name, as the Yellow Paper has them, and later ones: TLOAD and TSTORE, BLOBHASH and BLOBBASEFEE, MCOPY,
//! CLZ.

/// Names in the order of their bytes, behind the byte of the first.
macro_rules! opcodes {
    ($($first:literal: $($name:ident)*;)*) => {
        $(opcodes!(@each $first, $($name)*);)*

        const NAMES: [Option<&str>; 256] = {
            let mut names = [None; 256];
            $($(names[$name as usize] = Some(stringify!($name));)*)*
            names
        };
    };
    (@each $byte:expr, $name:ident $($rest:ident)*) => {
        #[doc = concat!("The opcode `", stringify!($name), "`.")]
        pub const $name: u8 = $byte;
        opcodes!(@each $name + 1, $($rest)*);
    };
    (@each $byte:expr,) => {};
}

opcodes! {
    0x00: STOP ADD MUL SUB DIV SDIV MOD SMOD ADDMOD MULMOD EXP SIGNEXTEND;
    0x10: LT GT SLT SGT EQ ISZERO AND OR XOR NOT BYTE SHL SHR SAR CLZ;
    0x20: KECCAK256;
    0x30: ADDRESS BALANCE ORIGIN CALLER CALLVALUE CALLDATALOAD CALLDATASIZE CALLDATACOPY CODESIZE CODECOPY
        GASPRICE;
    0x3b: EXTCODESIZE EXTCODECOPY RETURNDATASIZE RETURNDATACOPY EXTCODEHASH;
    0x40: BLOCKHASH COINBASE TIMESTAMP NUMBER PREVRANDAO GASLIMIT CHAINID SELFBALANCE BASEFEE BLOBHASH
        BLOBBASEFEE;
    0x50: POP MLOAD MSTORE MSTORE8 SLOAD SSTORE JUMP JUMPI PC MSIZE GAS JUMPDEST TLOAD TSTORE MCOPY PUSH0;
    0x60: PUSH1 PUSH2 PUSH3 PUSH4 PUSH5 PUSH6 PUSH7 PUSH8 PUSH9 PUSH10 PUSH11 PUSH12 PUSH13 PUSH14 PUSH15 PUSH16;
    0x70: PUSH17 PUSH18 PUSH19 PUSH20 PUSH21 PUSH22 PUSH23 PUSH24 PUSH25 PUSH26 PUSH27 PUSH28 PUSH29 PUSH30
        PUSH31 PUSH32;
    0x80: DUP1 DUP2 DUP3 DUP4 DUP5 DUP6 DUP7 DUP8 DUP9 DUP10 DUP11 DUP12 DUP13 DUP14 DUP15 DUP16;
    0x90: SWAP1 SWAP2 SWAP3 SWAP4 SWAP5 SWAP6 SWAP7 SWAP8 SWAP9 SWAP10 SWAP11 SWAP12 SWAP13 SWAP14 SWAP15 SWAP16;
    0xa0: LOG0 LOG1 LOG2 LOG3 LOG4;
    0xf0: CREATE CALL CALLCODE RETURN DELEGATECALL CREATE2;
    0xfa: STATICCALL;
    0xfd: REVERT INVALID SELFDESTRUCT;
}

/// The name of an opcode, if it has one.
///
/// ```
/// use argcol::op;
///
/// assert_eq!((op::name(0x35), op::name(0x0c)), (Some("CALLDATALOAD"), None));
/// ```
pub const fn name(byte: u8) -> Option<&'static str> {
    NAMES[byte as usize]
}

/// The opcode of a name.
///
/// ```
/// use argcol::op;
///
/// assert_eq!((op::by_name("CALLDATALOAD"), op::by_name("calldataload")), (Some(op::CALLDATALOAD), None));
/// ```
pub fn by_name(name: &str) -> Option<u8> {
    (0..=u8::MAX).find(|byte| NAMES[*byte as usize] == Some(name))
}
