use crate::{error::Error, layout::TYPES, raw};
use alloc::{string::String, vec};

/// The text of a list of codes: canonical names, joined by commas without blanks.
///
/// # Errors
///
/// [`Refused::NotTypes`](crate::Refused::NotTypes), and [`Error::Version`].
///
/// ```
/// assert_eq!(argcol::text(&[5, 1256, 16_386, 1, 2])?, "uint256[],(bool,address)");
/// # Ok::<(), argcol::Error>(())
/// ```
pub fn text(codes: &[u16]) -> Result<String, Error> {
    // a code writes at most a name of seven bytes and a comma
    let mut out = vec![0; 8 * codes.len().min(TYPES)];
    let length = text_into(codes, &mut out)?;
    out.truncate(length);
    String::from_utf8(out).map_err(|bad| {
        let at = bad.utf8_error().valid_up_to();
        Error::Unknown { what: "a byte of a text", number: bad.as_bytes().get(at).copied().unwrap_or_default().into() }
    })
}

/// The text in a slice of the caller's, and its length. What lies beyond keeps its value.
///
/// # Errors
///
/// [`Refused::NotTypes`](crate::Refused::NotTypes), then [`Refused::TextTooLong`](crate::Refused::TextTooLong), and
/// [`Error::Version`]; the slice is as it was.
///
/// ```
/// let mut out = *b"........";
/// assert_eq!(argcol::text_into(&[1], &mut out)?, 4);
/// assert_eq!(&out, b"bool....");
/// # Ok::<(), argcol::Error>(())
/// ```
pub fn text_into(codes: &[u16], out: &mut [u8]) -> Result<usize, Error> {
    Error::check_version()?;
    let (number, length) = raw::text(codes, out);
    Error::check(number)?;
    Ok(length)
}
