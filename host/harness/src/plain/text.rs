//! The text call: a list of type codes as the ABI writes it.

use super::numbers::is_name;
use crate::core::TYPES;

/// The refusal's number, 0 if there is none, and the length of the text.
pub fn put_text(codes: &[u16], out: &mut [u8]) -> (u32, usize) {
    let Some(text) = Some(codes).filter(|codes| codes.len() <= TYPES).and_then(text) else {
        return (10, 0);
    };
    if text.len() > out.len() {
        return (11, 0);
    }
    out[..text.len()].copy_from_slice(text.as_bytes());
    (0, text.len())
}

/// None if the codes are no whole number of types.
fn text(codes: &[u16]) -> Option<String> {
    // each open list holds the texts of its types so far, what its code is, and how many it wants
    let mut open: Vec<(u16, usize, Vec<String>)> = vec![(0, usize::MAX, Vec::new())];
    for &code in codes {
        match code {
            5 => open.push((5, 1, Vec::new())),
            16_386.. => open.push((code, usize::from(code) - 16_384, Vec::new())),
            _ if is_name(u32::from(code)) => open.last_mut().unwrap().2.push(name_text(code)),
            _ => return None,
        }
        while let Some((code, _, texts)) = open.pop_if(|(_, wanted, texts)| texts.len() == *wanted) {
            let whole = if code == 5 { texts[0].clone() + "[]" } else { format!("({})", texts.join(",")) };
            open.last_mut().unwrap().2.push(whole);
        }
    }
    (open.len() == 1).then(|| open[0].2.join(","))
}

fn name_text(code: u16) -> String {
    match code {
        1 => "bool".into(),
        2 => "address".into(),
        3 => "bytes".into(),
        4 => "string".into(),
        _ => format!("{}{}", ["uint", "int", "bytes"][usize::from(code) / 1000 - 1], code % 1000),
    }
}
