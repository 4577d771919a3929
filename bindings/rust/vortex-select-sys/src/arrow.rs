//! Columns in Arrow's memory: Arrow's C Data Interface, and the calls of `include/vortex_arrow.h`.
use std::os::raw::{c_char, c_int, c_void};

/// A column can be null in some rows.
pub const NULLABLE: i64 = 2;

/// `struct ArrowSchema` of Arrow's C Data Interface. Dropping it releases nothing.
#[repr(C)]
#[derive(Debug)]
pub struct ArrowSchema {
    /// The type, as a string that ends with a byte 0.
    pub format: *const c_char,
    /// The name, as a string that ends with a byte 0, or null.
    pub name: *const c_char,
    /// Pairs of strings, or null.
    pub metadata: *const c_char,
    /// Bits: ordered dictionary, nullable, sorted keys.
    pub flags: i64,
    /// How many children there are.
    pub n_children: i64,
    /// The children.
    pub children: *mut *mut ArrowSchema,
    /// The type of the dictionary's values, or null.
    pub dictionary: *mut ArrowSchema,
    /// Releases the struct; null in a released one.
    pub release: Option<unsafe extern "C" fn(*mut ArrowSchema)>,
    /// The producer's own data.
    pub private_data: *mut c_void,
}

/// `struct ArrowArray` of Arrow's C Data Interface. Dropping it releases nothing.
#[repr(C)]
#[derive(Debug)]
pub struct ArrowArray {
    /// How many rows there are.
    pub length: i64,
    /// How many rows are null, or -1.
    pub null_count: i64,
    /// How many rows of the buffers come before the first row.
    pub offset: i64,
    /// How many buffers there are.
    pub n_buffers: i64,
    /// How many children there are.
    pub n_children: i64,
    /// The buffers.
    pub buffers: *mut *const c_void,
    /// The children.
    pub children: *mut *mut ArrowArray,
    /// The dictionary's values, or null.
    pub dictionary: *mut ArrowArray,
    /// Releases the struct; null in a released one.
    pub release: Option<unsafe extern "C" fn(*mut ArrowArray)>,
    /// The producer's own data.
    pub private_data: *mut c_void,
}

/// `struct ArrowArrayStream` of Arrow's C Stream Interface. Dropping it releases nothing.
#[repr(C)]
#[derive(Debug)]
pub struct ArrowArrayStream {
    /// Writes the schema of all batches.
    pub get_schema: Option<unsafe extern "C" fn(*mut ArrowArrayStream, *mut ArrowSchema) -> c_int>,
    /// Writes the next batch; a released one at the end.
    pub get_next: Option<unsafe extern "C" fn(*mut ArrowArrayStream, *mut ArrowArray) -> c_int>,
    /// Returns the last error in words, or null.
    pub get_last_error: Option<unsafe extern "C" fn(*mut ArrowArrayStream) -> *const c_char>,
    /// Releases the struct; null in a released one.
    pub release: Option<unsafe extern "C" fn(*mut ArrowArrayStream)>,
    /// The producer's own data.
    pub private_data: *mut c_void,
}

macro_rules! released {
    ($($kind:ident)+) => {$(
        impl $kind {
            /// Returns a released struct: all numbers 0, all pointers null.
            pub fn released() -> Self {
                // SAFETY: each field is a number, a pointer or an optional function, and all of
                // these have a value whose bytes are 0.
                unsafe { std::mem::zeroed() }
            }
        }
    )+};
}

released!(ArrowSchema ArrowArray ArrowArrayStream);

/// Statuses of the calls.
pub mod status {
    /// The call is done.
    pub const DONE: u64 = 0;
    /// A node of the column isn't valid.
    pub const NO_MEANING: u64 = 1;
    /// A selected row is past the rows.
    pub const BEYOND: u64 = 2;
    /// An output is too short.
    pub const ROOM: u64 = 3;
    /// Offsets of 32 bits would pass 2^31 - 1.
    pub const OVERFLOW: u64 = 4;
    /// An allocation failed.
    pub const NO_MEMORY: u64 = 5;
    /// A step is invalid.
    pub const BROKEN: u64 = 6;
    /// The descriptor of a step is malformed.
    pub const LACKING: u64 = 7;
    /// A format isn't known.
    pub const FORMAT: u64 = 8;
    /// A null is selected of a union.
    pub const NULL_PICK: u64 = 9;
    /// Columns differ in type or dictionary.
    pub const UNLIKE: u64 = 10;
    /// A struct doesn't match its format, or is released.
    pub const SHAPE: u64 = 16;
    /// Columns are nested too deep.
    pub const DEPTH: u64 = 17;
    /// The source stream failed.
    pub const SOURCE: u64 = 18;
}

/// Kinds of steps.
pub mod kind {
    /// A range of rows.
    pub const SLICE: u64 = 0;
    /// A mask.
    pub const FILTER: u64 = 1;
    /// Indices.
    pub const TAKE: u64 = 2;
    /// Indices as strided ranges.
    pub const TAKE_PIECES: u64 = 3;
}

/// `vortex_arrow_bytes`.
#[repr(C)]
#[derive(Clone, Copy, Debug)]
pub struct Bytes {
    /// The first byte.
    pub data: *const u8,
    /// How many bytes there are.
    pub len: usize,
}

/// `vortex_arrow_step`.
#[repr(C)]
#[derive(Clone, Copy, Debug)]
pub struct Step {
    /// Which kind of step it is.
    pub kind: u64,
    /// The first row of a slice.
    pub start: u64,
    /// The row after the last one of a slice.
    pub end: u64,
    /// The type of a take's indices.
    pub ptype: u64,
    /// The first bit, index or range in its list.
    pub offset: u64,
    /// How many bits, indices or ranges there are.
    pub len: u64,
    /// How many indices the ranges have together.
    pub declared: u64,
    /// Bits of a filter, indices of a take, starts of ranges.
    pub values: Bytes,
    /// A validity bit for each; no bytes if none is null.
    pub valid: Bytes,
    /// How many indices each range has.
    pub lengths: Bytes,
    /// How far apart the indices of each range are.
    pub multipliers: Bytes,
}

/// `vortex_arrow_picks_need`.
#[repr(C)]
#[derive(Clone, Copy, Debug, Default)]
pub struct PicksNeed {
    /// How many rows are selected.
    pub places: u64,
    /// How many bytes of validity they need.
    pub valid: u64,
}

/// `vortex_arrow_answer`.
#[repr(C)]
#[derive(Clone, Copy, Debug)]
pub struct Answer {
    /// The status.
    pub status: u64,
    /// The node or the step that it is about.
    pub node_or_step: u64,
    /// What the node lacks, or why the step is invalid.
    pub what: u64,
}

/// Rows of one of several columns that follow one another: `vortex_arrow_span`.
#[repr(C)]
#[derive(Clone, Copy, Debug, PartialEq, Eq)]
pub struct Span {
    /// The number of the column.
    pub column: u64,
    /// The first row.
    pub start: u64,
    /// How many rows there are.
    pub len: u64,
}

/// `vortex_arrow_error`.
#[repr(C)]
#[derive(Clone, Copy)]
pub struct Fault {
    /// The status.
    pub status: u64,
    /// The step's number.
    pub step: u64,
    /// Why the step is invalid, or what the step or the node lacks.
    pub cause: u64,
    /// Of an invalid or malformed step: the number that is wrong.
    pub found: u64,
    /// The number that it should be, or should not pass.
    pub bound: u64,
    /// 1 if `found` is the two's complement of a negative index.
    pub is_negative: u64,
    /// The column by names from the top, and the buffer; a byte 0 ends it.
    pub place: [u8; 120],
    /// The fault in words; a byte 0 ends it.
    pub text: [u8; 240],
}

impl Fault {
    /// Returns no fault.
    pub fn none() -> Self {
        Fault {
            status: 0,
            step: 0,
            cause: 0,
            found: 0,
            bound: 0,
            is_negative: 0,
            place: [0; 120],
            text: [0; 240],
        }
    }
}

extern "C" {
    /// Returns the version of the library.
    pub fn vortex_arrow_library_version() -> u32;

    /// Returns the version of the shim.
    pub fn vortex_arrow_version() -> u32;

    /// Returns how many places and bytes of validity `vortex_arrow_compose` writes.
    pub fn vortex_arrow_count(
        len: u64,
        steps: *const Step,
        n_steps: usize,
        need: *mut PicksNeed,
    ) -> Answer;

    /// Writes the row number of each row that the steps select of `len` rows.
    pub fn vortex_arrow_compose(
        len: u64,
        steps: *const Step,
        n_steps: usize,
        places: *mut u64,
        n_places: usize,
        valid: *mut u8,
        n_valid: usize,
    ) -> Answer;

    /// Writes the numbers and the words of an answer of `vortex_arrow_count` or
    /// `vortex_arrow_compose`, given the arguments of that call.
    pub fn vortex_arrow_explain(
        len: u64,
        steps: *const Step,
        n_steps: usize,
        answer: Answer,
        error: *mut Fault,
    );

    /// Selects rows of an array.
    pub fn vortex_select_arrow(
        schema: *const ArrowSchema,
        array: *mut ArrowArray,
        steps: *const Step,
        n_steps: usize,
        out_schema: *mut ArrowSchema,
        out_array: *mut ArrowArray,
        error: *mut Fault,
    ) -> u64;

    /// Gathers rows of several arrays of one type.
    pub fn vortex_interleave_arrow(
        schema: *const ArrowSchema,
        arrays: *const *mut ArrowArray,
        n_arrays: usize,
        spans: *const Span,
        n_spans: usize,
        out: *mut ArrowArray,
        error: *mut Fault,
    ) -> u64;

    /// Tests a whole column.
    pub fn vortex_arrow_check_array(
        schema: *const ArrowSchema,
        array: *mut ArrowArray,
        error: *mut Fault,
    ) -> u64;

    /// Selects rows of a stream.
    pub fn vortex_select_arrow_stream(
        source: *mut ArrowArrayStream,
        steps: *const Step,
        n_steps: usize,
        out: *mut ArrowArrayStream,
        error: *mut Fault,
    ) -> u64;

    /// Makes `out` an array of the same rows in the same memory.
    pub fn vortex_arrow_share(array: *mut ArrowArray, out: *mut ArrowArray) -> u64;

    /// Makes `out` an array of the rows from `start` up to `end`, in the same memory.
    pub fn vortex_arrow_slice(
        schema: *const ArrowSchema,
        array: *mut ArrowArray,
        start: u64,
        end: u64,
        out: *mut ArrowArray,
        error: *mut Fault,
    ) -> u64;

    /// Makes `out` a copy of the schema.
    pub fn vortex_arrow_copy_schema(schema: *const ArrowSchema, out: *mut ArrowSchema) -> u64;
}
