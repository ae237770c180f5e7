//! The token's two forms: packed record and flat listing.

use crate::{raw, Error, Listing, Token, LISTING_MAX, RECORD_MAX};

/// Turns a packed token record into its flat listing, and gives the listing's length.
///
/// [`LISTING_MAX`] bytes are always enough. Past the listing `out` stays as it was.
///
/// ```
/// use pirasteh::{list, pack, Listing, Token, LISTING_MAX, RECORD_MAX};
///
/// let token = [0x01, 0x00, 0x00, 0x02, 0x05, 0x00, 0x07, 0x00];
/// let mut listing = [0; LISTING_MAX];
/// let length = list(Token(&token), &mut listing)?;
/// assert_eq!(length, 32);
///
/// // And back, byte for byte.
/// let mut record = [0; RECORD_MAX];
/// let length = pack(Listing(&listing[..length]), &mut record)?;
/// assert_eq!(record[..length], token);
/// # Ok::<(), pirasteh::Error>(())
/// ```
///
/// # Errors
///
/// [`Error::TokenShape`], [`Error::TokenRule`] or [`Error::ShortBuffer`]. All of `out` is then as
/// it was.
pub fn list(token: Token<'_>, out: &mut [u8]) -> Result<usize, Error> {
    convert(raw::pirasteh_list, token.0, out)
}

/// Turns a flat listing into its packed token record, and gives the record's length.
///
/// [`RECORD_MAX`] bytes are always enough. Past the record `out` stays as it was.
///
/// ```
/// use pirasteh::{pack, Error, Listing};
///
/// // The user S-1-5-7: flags, privileges, the user's SID, no groups.
/// let listing = [
///     0, 0, 0, 0, 0, 0, 0, 0, 0, 0, 0, 0, //
///     1, 1, 0, 0, 0, 0, 0, 5, 7, 0, 0, 0, //
///     0, 0, 0, 0,
/// ];
/// let mut out = [0xEE; 8];
/// assert_eq!(pack(Listing(&listing), &mut out), Ok(7));
/// assert_eq!(out, [0x01, 0x00, 0x00, 0x01, 0x05, 0x07, 0x00, 0xEE]);
///
/// // Refused: six bytes are too few, and none is written.
/// let mut short = [0xEE; 6];
/// assert_eq!(pack(Listing(&listing), &mut short), Err(Error::ShortBuffer));
/// assert_eq!(short, [0xEE; 6]);
/// ```
///
/// # Errors
///
/// [`Error::TokenShape`], [`Error::TokenRule`] or [`Error::ShortBuffer`]. All of `out` is then as
/// it was.
pub fn pack(listing: Listing<'_>, out: &mut [u8]) -> Result<usize, Error> {
    convert(raw::pirasteh_pack, listing.0, out)
}

/// Turns a packed token record into its flat listing, in a vector of the listing's length.
///
/// ```
/// use pirasteh::{list_vec, pack_vec, Error, Listing, Token};
///
/// let token = [0x01, 0x00, 0x00, 0x02, 0x05, 0x00, 0x07, 0x00];
/// let listing = list_vec(Token(&token))?;
/// assert_eq!(pack_vec(Listing(&listing))?, token);
///
/// // Refused: the last byte is missing.
/// assert_eq!(list_vec(Token(&token[..7])), Err(Error::TokenShape));
/// # Ok::<(), pirasteh::Error>(())
/// ```
///
/// # Errors
///
/// [`Error::TokenShape`] or [`Error::TokenRule`].
pub fn list_vec(token: Token<'_>) -> Result<Vec<u8>, Error> {
    vector(LISTING_MAX, |out| list(token, out))
}

/// Turns a flat listing into its packed token record, in a vector of the record's length.
///
/// This is the way to make a token:
///
/// ```
/// use pirasteh::{attribute, list_vec, pack_vec, privilege, Listing, Token};
///
/// let user = [1, 2, 0, 0, 0, 0, 0, 5, 0, 0, 0, 0, 7, 0, 0, 0]; // S-1-5-0-7
/// let group = [1, 2, 0, 0, 0, 0, 0, 5, 32, 0, 0, 0, 0x20, 2, 0, 0]; // S-1-5-32-544
///
/// let mut listing = Vec::new();
/// listing.extend(0_u32.to_le_bytes()); // flags: not confined
/// listing.extend(privilege::SE_SECURITY.to_le_bytes());
/// listing.extend(user);
/// listing.extend(1_u32.to_le_bytes()); // one group
/// listing.extend(group);
/// listing.extend(attribute::ENABLED.to_le_bytes());
///
/// let record = pack_vec(Listing(&listing))?;
/// assert_eq!(record, [1, 0, 0x80, 2, 2, 5, 0, 7, 1, 2, 5, 32, 0xA0, 4, 4]);
/// assert_eq!(list_vec(Token(&record))?, listing);
/// # Ok::<(), pirasteh::Error>(())
/// ```
///
/// # Errors
///
/// [`Error::TokenShape`] or [`Error::TokenRule`].
pub fn pack_vec(listing: Listing<'_>) -> Result<Vec<u8>, Error> {
    vector(RECORD_MAX, |out| pack(listing, out))
}

/// One of the library's two converters.
type Converter = unsafe extern "C" fn(*const u8, usize, *mut u8, usize, *mut usize) -> u32;

fn convert(with: Converter, input: &[u8], out: &mut [u8]) -> Result<usize, Error> {
    let mut written = 0;
    // SAFETY: `with` is a converter of the library, and both take the same. Every pointer is of a
    // live reference; `out` is borrowed for writing, so nothing else shares its bytes. An empty
    // slice has a pointer that is not null.
    let status =
        unsafe { with(input.as_ptr(), input.len(), out.as_mut_ptr(), out.len(), &raw mut written) };
    Error::from_number(status).map_or(Ok(written), Err)
}

fn vector(
    most: usize,
    convert: impl FnOnce(&mut [u8]) -> Result<usize, Error>,
) -> Result<Vec<u8>, Error> {
    let mut out = vec![0; most];
    let length = convert(&mut out)?;
    out.truncate(length);
    out.shrink_to_fit();
    Ok(out)
}
