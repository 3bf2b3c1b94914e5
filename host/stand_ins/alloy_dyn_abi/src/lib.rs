//! Solidity types as a tree, and the one other name that the published source has from this crate.

#[derive(Clone, Debug, PartialEq, Eq)]
pub enum DynSolType {
    Bool,
    Int(usize),
    Uint(usize),
    FixedBytes(usize),
    Address,
    Function,
    Bytes,
    String,
    Array(Box<DynSolType>),
    FixedArray(Box<DynSolType>, usize),
    Tuple(Vec<DynSolType>),
}

impl DynSolType {
    /// The ABI's canonical name.
    pub fn name(&self) -> String {
        // as much as a name without parts has
        let mut out = String::with_capacity(8);
        self.push_name(&mut out);
        out
    }

    /// All parts of a name go into one text, and widths without `format!`, as in the crate: the benchmarks time it.
    fn push_name(&self, out: &mut String) {
        match self {
            Self::Bool => out.push_str("bool"),
            Self::Int(bits) => push_sized(out, "int", *bits),
            Self::Uint(bits) => push_sized(out, "uint", *bits),
            Self::FixedBytes(bytes) => push_sized(out, "bytes", *bytes),
            Self::Address => out.push_str("address"),
            Self::Function => out.push_str("function"),
            Self::Bytes => out.push_str("bytes"),
            Self::String => out.push_str("string"),
            Self::Array(inner) => {
                inner.push_name(out);
                out.push_str("[]");
            }
            Self::FixedArray(inner, n) => {
                inner.push_name(out);
                push_sized(out, "[", *n);
                out.push(']');
            }
            Self::Tuple(parts) => {
                out.push('(');
                for (i, part) in parts.iter().enumerate() {
                    if i > 0 {
                        out.push(',');
                    }
                    part.push_name(out);
                }
                out.push(')');
            }
        }
    }
}

fn push_sized(out: &mut String, name: &str, size: usize) {
    out.push_str(name);
    push_number(out, size);
}

fn push_number(out: &mut String, number: usize) {
    if number >= 10 {
        push_number(out, number / 10);
    }
    out.push((b'0' + (number % 10) as u8) as char);
}

#[cfg(test)]
mod tests {
    use super::DynSolType::*;

    #[test]
    fn names_of_the_abi() {
        let pair = Tuple(vec![Uint(8), Array(Box::new(Address))]);
        assert_eq!(pair.name(), "(uint8,address[])");
        assert_eq!(Array(Box::new(Array(Box::new(pair)))).name(), "(uint8,address[])[][]");
        assert_eq!(FixedArray(Box::new(FixedBytes(32)), 3).name(), "bytes32[3]");
        assert_eq!([Bool, Int(256), Bytes, String].map(|t| t.name()).join(","), "bool,int256,bytes,string");
    }

    #[test]
    fn equal_if_spelled_alike() {
        let all = [
            Bool,
            Int(8),
            Int(16),
            Uint(8),
            FixedBytes(8),
            Address,
            Bytes,
            String,
            Array(Box::new(Bool)),
            Tuple(vec![Bool, Bool]),
        ];
        for a in &all {
            for b in &all {
                assert_eq!(a == b, a.name() == b.name());
            }
        }
    }
}
