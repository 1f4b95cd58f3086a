//! The calls of C with any number of entries a node, also one that 24 refuses, which `rust/fieldmap` has no value for.

use crate::model::Limits;

/// A layout as it is named to a call: the bits of its width, of which every number but 16 and 64 means 32, and the entries a node; and the limits
/// that a reader is given.
#[derive(Clone, Copy, Debug)]
pub struct Named {
    pub width: u8,
    pub entries: usize,
    pub limits: Limits,
}

extern "C" {
    fn fieldmap_check(
        width: u8,
        entries: usize,
        longest: usize,
        depth: usize,
        archive: *const u8,
        length: usize,
    ) -> i64;
    fn fieldmap_certify(
        width: u8,
        entries: usize,
        longest: usize,
        depth: usize,
        archive: *const u8,
        length: usize,
    ) -> i64;
    fn fieldmap_lookup(
        width: u8,
        entries: usize,
        longest: usize,
        depth: usize,
        archive: *const u8,
        length: usize,
        key: u64,
        value: *mut u64,
        position: *mut u64,
    ) -> i64;
    fn fieldmap_lookup_bytes(
        width: u8,
        entries: usize,
        longest: usize,
        depth: usize,
        archive: *const u8,
        length: usize,
        key: u64,
        start: *mut u64,
    ) -> i64;
    fn fieldmap_lookup_many(
        width: u8,
        entries: usize,
        longest: usize,
        depth: usize,
        archive: *const u8,
        length: usize,
        keys: *const u64,
        keys_length: usize,
        values: *mut u64,
        values_length: usize,
    ) -> i64;
    fn fieldmap_walk(
        width: u8,
        entries: usize,
        longest: usize,
        depth: usize,
        archive: *const u8,
        length: usize,
        keys: *mut u64,
        keys_length: usize,
        values: *mut u64,
        values_length: usize,
        count: *mut u64,
    ) -> i64;
    fn fieldmap_range(
        width: u8,
        entries: usize,
        longest: usize,
        depth: usize,
        archive: *const u8,
        length: usize,
        lower_kind: u8,
        lower: u64,
        upper_kind: u8,
        upper: u64,
        keys: *mut u64,
        keys_length: usize,
        values: *mut u64,
        values_length: usize,
        matching: *mut u64,
    ) -> i64;
    fn fieldmap_column(
        width: u8,
        entries: usize,
        longest: usize,
        depth: usize,
        archive: *const u8,
        length: usize,
        packing: u8,
        examination: u32,
        eye: u8,
        a: i8,
        b: i8,
        keys: *mut u64,
        keys_length: usize,
        values: *mut u64,
        values_length: usize,
        matching: *mut u64,
    ) -> i64;
    fn fieldmap_build(
        width: u8,
        entries: usize,
        output: *mut u8,
        length: usize,
        header: usize,
        keys: *const u64,
        keys_length: usize,
        values: *const u64,
        values_length: usize,
    ) -> i64;
    fn fieldmap_build_length(width: u8, entries: usize, count: usize, header: usize) -> i64;
}

/// What a number that a call stores holds before it.
const BEFORE: u64 = 0x7777_7777_7777_7777;

impl Named {
    /// What every reader answers about an archive: check, certify, lookup in both forms, of many keys, walk, range, column; the column's eye is
    /// one that 18 refuses.
    ///
    /// # Panics
    ///
    /// Where a call that is refused stores a number.
    pub fn readers(
        self,
        archive: &[u8],
        sought: &[u64],
        keys: &mut [u64],
        values: &mut [u64],
    ) -> [i64; 8] {
        let Self { width, entries, .. } = self;
        let Limits { longest, depth } = self.limits;
        let (start, length) = (archive.as_ptr(), archive.len());
        let (ks, kn) = (keys.as_mut_ptr(), keys.len());
        let (vs, vn) = (values.as_mut_ptr(), values.len());
        let mut stored = [BEFORE; 6];
        let [value, position, part, count, matching, in_column] = &mut stored;
        // SAFETY: the pointers are of slices of their own, each with its length, and of locals; the calls read and write nothing else.
        let answers = unsafe {
            [
                fieldmap_check(width, entries, longest, depth, start, length),
                fieldmap_certify(width, entries, longest, depth, start, length),
                fieldmap_lookup(
                    width, entries, longest, depth, start, length, 7, value, position,
                ),
                fieldmap_lookup_bytes(width, entries, longest, depth, start, length, 7, part),
                {
                    let (sought, number) = (sought.as_ptr(), sought.len());
                    fieldmap_lookup_many(
                        width, entries, longest, depth, start, length, sought, number, vs, vn,
                    )
                },
                fieldmap_walk(
                    width, entries, longest, depth, start, length, ks, kn, vs, vn, count,
                ),
                fieldmap_range(
                    width, entries, longest, depth, start, length, 2, 0, 2, 0, ks, kn, vs, vn,
                    matching,
                ),
                fieldmap_column(
                    width, entries, longest, depth, start, length, 1, 0, 2, -1, 1, ks, kn, vs, vn,
                    in_column,
                ),
            ]
        };
        let refused = answers.iter().all(|answer| *answer < 0);
        assert!(!refused || stored == [BEFORE; 6], "a refused call stores");
        answers
    }

    /// The position of a value's bytes and their number, of lookup's second form, or the refusal.
    pub fn lookup_bytes(self, archive: &[u8], key: u64) -> Result<(usize, usize), u8> {
        let (bytes, length, mut start) = (archive.as_ptr(), archive.len(), 0);
        let Self { width, entries, .. } = self;
        let Limits { longest, depth } = self.limits;
        // SAFETY: as above.
        let answer = unsafe {
            fieldmap_lookup_bytes(
                width, entries, longest, depth, bytes, length, key, &mut start,
            )
        };
        number(answer).map(|length| (start as usize, length))
    }

    /// The archive's end in the output, behind a header of so many bytes that stay, or the refusal.
    pub fn build(
        self,
        output: &mut [u8],
        header: usize,
        keys: &[u64],
        values: &[u64],
    ) -> Result<usize, u8> {
        // SAFETY: as above.
        number(unsafe {
            fieldmap_build(
                self.width,
                self.entries,
                output.as_mut_ptr(),
                output.len(),
                header,
                keys.as_ptr(),
                keys.len(),
                values.as_ptr(),
                values.len(),
            )
        })
    }

    /// The end that a build of so many entries behind a header will answer, or the refusal.
    pub fn build_length(self, count: usize, header: usize) -> Result<usize, u8> {
        // SAFETY: the call takes no pointers.
        number(unsafe { fieldmap_build_length(self.width, self.entries, count, header) })
    }
}

/// The number of an answer, or the refusal.
fn number(answer: i64) -> Result<usize, u8> {
    usize::try_from(answer).map_err(|_| -answer as u8)
}
