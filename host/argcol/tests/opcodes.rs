//! The opcodes' names of the text form, against a list of its own.

use argcol::{op, trace::Trace};

/// From the Yellow Paper's appendix H (Shanghai), each name with its byte; PUSHn, DUPn, SWAPn and LOGn are below.
const YELLOW_PAPER: &str = "
    00 STOP  01 ADD  02 MUL  03 SUB  04 DIV  05 SDIV  06 MOD  07 SMOD  08 ADDMOD  09 MULMOD  0a EXP  0b SIGNEXTEND
    10 LT  11 GT  12 SLT  13 SGT  14 EQ  15 ISZERO  16 AND  17 OR  18 XOR  19 NOT  1a BYTE  1b SHL  1c SHR  1d SAR
    20 KECCAK256
    30 ADDRESS  31 BALANCE  32 ORIGIN  33 CALLER  34 CALLVALUE  35 CALLDATALOAD  36 CALLDATASIZE  37 CALLDATACOPY
    38 CODESIZE  39 CODECOPY  3a GASPRICE  3b EXTCODESIZE  3c EXTCODECOPY  3d RETURNDATASIZE  3e RETURNDATACOPY  3f EXTCODEHASH
    40 BLOCKHASH  41 COINBASE  42 TIMESTAMP  43 NUMBER  44 PREVRANDAO  45 GASLIMIT  46 CHAINID  47 SELFBALANCE  48 BASEFEE
    50 POP  51 MLOAD  52 MSTORE  53 MSTORE8  54 SLOAD  55 SSTORE  56 JUMP  57 JUMPI  58 PC  59 MSIZE  5a GAS  5b JUMPDEST  5f PUSH0
    f0 CREATE  f1 CALL  f2 CALLCODE  f3 RETURN  f4 DELEGATECALL  f5 CREATE2  fa STATICCALL  fd REVERT  fe INVALID  ff SELFDESTRUCT";

/// Later ones: EIP-1153, EIP-4844, EIP-5656, EIP-7516 and EIP-7939.
const LATER: &str = "5c TLOAD  5d TSTORE  49 BLOBHASH  5e MCOPY  4a BLOBBASEFEE  1e CLZ";

/// The name of each byte, if it has one.
fn listed() -> Vec<Option<String>> {
    let mut names = vec![None; 256];
    let words: Vec<&str> = YELLOW_PAPER.split_whitespace().chain(LATER.split_whitespace()).collect();
    for pair in words.chunks(2) {
        let byte = usize::from_str_radix(pair[0], 16).unwrap();
        assert_eq!(names[byte].replace(pair[1].to_string()), None);
    }
    for (name, at, numbers) in
        [("PUSH", 0x5f, 1..=32), ("DUP", 0x7f, 1..=16), ("SWAP", 0x8f, 1..=16), ("LOG", 0xa0, 0..=4)]
    {
        for number in numbers {
            assert_eq!(names[at + number].replace(format!("{name}{number}")), None);
        }
    }
    names
}

#[test]
fn names_and_bytes() {
    assert_eq!((op::STOP, op::PUSH0, op::SWAP16, op::LOG4, op::SELFDESTRUCT), (0, 0x5f, 0x9f, 0xa4, 0xff));
    for (byte, name) in listed().into_iter().enumerate() {
        assert_eq!(op::name(byte as u8), name.as_deref());
        assert!(name.as_deref().is_none_or(|name| op::by_name(name) == Some(byte as u8)));
        let shown = name.unwrap_or_else(|| format!("0x{byte:x}"));
        // by its name and by its number, the text form has the name
        for text in [format!("step {shown}\n"), format!("step {byte}\n"), format!("step 0x{byte:02x}\n")] {
            let trace = Trace::from_text(&text).unwrap();
            assert_eq!((trace.steps[0].numbers[0] as usize, trace.to_text()), (byte, format!("step {shown}\n")));
        }
    }
    for text in
        ["step mul", "step SHA3", "step PUSH33", "step DUP0", "step SWAP17", "step LOG5", "step DIFFICULTY", "step"]
    {
        assert!(Trace::from_text(text).is_err(), "{text}");
    }
}
