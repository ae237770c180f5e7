//! The library's functions as they are. `include/pirasteh.h` has the rules for calling them.
//!
//! Every function gives a status: 0, or the number of an [`Error`](crate::Error). The functions
//! of the crate's root do the same work and are safe to call; take those if you can.
//!
//! ```
//! use pirasteh::raw::pirasteh_list;
//!
//! let token = [0x01, 0x00, 0x00, 0x02, 0x05, 0x00, 0x07, 0x00];
//! let mut out = [0; 64];
//! let mut written = 0;
//! // SAFETY: the pointers are of live arrays and a live number, which do not overlap.
//! let status = unsafe {
//!     pirasteh_list(token.as_ptr(), token.len(), out.as_mut_ptr(), out.len(), &mut written)
//! };
//! assert_eq!((status, written), (0, 32));
//! ```

extern "C" {
    /// One question, by its parts. The three result words are written in every case.
    ///
    /// # Safety
    ///
    /// No pointer is null, also where its length is 0. Each is good for as many bytes as its
    /// length says, or for one aligned `u32`. Nothing else reads or writes the result words, and
    /// nothing writes the inputs, before the call is over.
    pub fn pirasteh_check(
        kind: u32,
        mask: u32,
        token: *const u8,
        token_len: usize,
        self_id: *const u8,
        self_len: usize,
        descriptor: *const u8,
        descriptor_len: usize,
        policy: *const u8,
        policy_len: usize,
        granted: *mut u32,
        allowed: *mut u32,
        staged: *mut u32,
    ) -> u32;

    /// One question, by the bytes of a question file. The three result words are written in every
    /// case.
    ///
    /// # Safety
    ///
    /// As for [`pirasteh_check`].
    pub fn pirasteh_question(
        file: *const u8,
        file_len: usize,
        granted: *mut u32,
        allowed: *mut u32,
        staged: *mut u32,
    ) -> u32;

    /// One question, by its parts, with the masks after each step. The seven result words are
    /// written in every case.
    ///
    /// # Safety
    ///
    /// As for [`pirasteh_check`].
    pub fn pirasteh_why(
        kind: u32,
        mask: u32,
        token: *const u8,
        token_len: usize,
        self_id: *const u8,
        self_len: usize,
        descriptor: *const u8,
        descriptor_len: usize,
        policy: *const u8,
        policy_len: usize,
        asked: *mut u32,
        normal: *mut u32,
        confined: *mut u32,
        ruled: *mut u32,
        granted: *mut u32,
        allowed: *mut u32,
        staged: *mut u32,
    ) -> u32;

    /// One question, by the bytes of a question file, with its kind and the masks after each step.
    /// The eight result words are written in every case.
    ///
    /// # Safety
    ///
    /// As for [`pirasteh_check`].
    pub fn pirasteh_why_question(
        file: *const u8,
        file_len: usize,
        kind: *mut u32,
        asked: *mut u32,
        normal: *mut u32,
        confined: *mut u32,
        ruled: *mut u32,
        granted: *mut u32,
        allowed: *mut u32,
        staged: *mut u32,
    ) -> u32;

    /// One question, by its parts, with the audit trail that it leaves. `written` and the three
    /// result words are written in every case, `trail` only if the whole trail fits.
    ///
    /// # Safety
    ///
    /// As for [`pirasteh_check`]; `trail` is good for `trail_len` bytes of writing and overlaps
    /// nothing else, and `written` is good for one aligned `usize`.
    pub fn pirasteh_trail(
        kind: u32,
        mask: u32,
        token: *const u8,
        token_len: usize,
        self_id: *const u8,
        self_len: usize,
        descriptor: *const u8,
        descriptor_len: usize,
        policy: *const u8,
        policy_len: usize,
        trail: *mut u8,
        trail_len: usize,
        written: *mut usize,
        granted: *mut u32,
        allowed: *mut u32,
        staged: *mut u32,
    ) -> u32;

    /// One question, by the bytes of a question file, with the audit trail that it leaves. Written
    /// is as by [`pirasteh_trail`].
    ///
    /// # Safety
    ///
    /// As for [`pirasteh_trail`].
    pub fn pirasteh_trail_question(
        file: *const u8,
        file_len: usize,
        trail: *mut u8,
        trail_len: usize,
        written: *mut usize,
        granted: *mut u32,
        allowed: *mut u32,
        staged: *mut u32,
    ) -> u32;

    /// Packed token record to flat listing. `written` is written in every case, `out` only if the
    /// whole listing fits.
    ///
    /// # Safety
    ///
    /// As for [`pirasteh_check`]; `out` is good for `out_len` bytes of writing and overlaps nothing
    /// else, and `written` is good for one aligned `usize`.
    pub fn pirasteh_list(
        record: *const u8,
        record_len: usize,
        out: *mut u8,
        out_len: usize,
        written: *mut usize,
    ) -> u32;

    /// Flat listing to packed token record. `written` is written in every case, `out` only if the
    /// whole record fits.
    ///
    /// # Safety
    ///
    /// As for [`pirasteh_list`].
    pub fn pirasteh_pack(
        listing: *const u8,
        listing_len: usize,
        out: *mut u8,
        out_len: usize,
        written: *mut usize,
    ) -> u32;
}
