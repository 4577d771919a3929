//! Structs that are made here: what each owns, and how it is released.
use super::interface::{ArrowArray, ArrowSchema};
use super::parts::Buffer;
use std::ffi::CString;
use std::os::raw::c_void;
use std::ptr::null_mut;
use vortex_select_sys::arrow as sys;

/// The structs that a struct made here leads to, each of which is a box of its own.
struct Below<T: Releases> {
    children: Vec<*mut T>,
    dictionary: *mut T,
    /// A struct made elsewhere, whose children and texts this one has.
    wrapped: Option<Box<T>>,
}

/// A struct that may be made here.
trait Releases: Sized {
    /// Takes what the struct leads to, and marks it as released, if it is made here.
    fn take_below(&mut self) -> Option<Below<Self>>;
}

impl<T: Releases> Below<T> {
    fn new(children: Vec<T>, dictionary: Option<T>) -> Self {
        let boxed = |child| Box::into_raw(Box::new(child));
        Below {
            children: children.into_iter().map(boxed).collect(),
            dictionary: dictionary.map_or(null_mut(), boxed),
            wrapped: None,
        }
    }

    fn take_boxes(&mut self) -> Vec<Box<T>> {
        let dictionary = std::mem::replace(&mut self.dictionary, null_mut());
        let places = std::mem::take(&mut self.children)
            .into_iter()
            .chain([dictionary]);
        let is_there = places.filter(|place| !place.is_null());
        // SAFETY: each was made a box of its own, and is taken once.
        let boxes = is_there.map(|place| unsafe { Box::from_raw(place) });
        boxes.chain(self.wrapped.take()).collect()
    }
}

impl<T: Releases> Drop for Below<T> {
    /// Releases what is nested, in a loop: columns may be nested deeper than the stack is.
    fn drop(&mut self) {
        let mut pending = self.take_boxes();
        while let Some(mut next) = pending.pop() {
            if let Some(mut below) = next.take_below() {
                pending.append(&mut below.take_boxes());
            }
        }
    }
}

/// What a schema made here owns.
struct HeldSchema {
    below: Below<ArrowSchema>,
    format: CString,
    name: CString,
    metadata: Option<Vec<u8>>,
}

/// What an array made here owns.
struct HeldArray {
    below: Below<ArrowArray>,
    #[allow(dead_code)] // The places lead to these.
    buffers: Vec<Option<Box<dyn Buffer>>>,
    places: Vec<*const c_void>,
}

impl Releases for ArrowSchema {
    fn take_below(&mut self) -> Option<Below<Self>> {
        if !is_made_here(self) {
            return None;
        }
        self.0.release = None;
        // SAFETY: a schema made here has such a box, which is taken once: it is released now.
        let held = unsafe { Box::from_raw(self.0.private_data.cast::<HeldSchema>()) };
        Some(held.below)
    }
}

impl Releases for ArrowArray {
    fn take_below(&mut self) -> Option<Below<Self>> {
        let release = self.0.release.map(|release| release as *const () as usize);
        if release != Some(release_array as *const () as usize) {
            return None;
        }
        self.0.release = None;
        // SAFETY: an array made here has such a box, which is taken once: it is released now.
        let held = unsafe { Box::from_raw(self.0.private_data.cast::<HeldArray>()) };
        Some(held.below)
    }
}

fn is_made_here(schema: &ArrowSchema) -> bool {
    schema
        .0
        .release
        .map(|release| release as *const () as usize)
        == Some(release_schema as *const () as usize)
}

unsafe extern "C" fn release_schema(schema: *mut sys::ArrowSchema) {
    // SAFETY: the caller hands over a schema, and the wrapper has the same layout.
    drop(unsafe { (*schema.cast::<ArrowSchema>()).take_below() });
}

unsafe extern "C" fn release_array(array: *mut sys::ArrowArray) {
    // SAFETY: the caller hands over an array, and the wrapper has the same layout.
    drop(unsafe { (*array.cast::<ArrowArray>()).take_below() });
}

/// The texts and flags of a schema.
pub(super) struct Texts {
    pub format: CString,
    pub name: CString,
    pub flags: i64,
    pub metadata: Option<Vec<u8>>,
}

impl Texts {
    /// Returns the texts of a nullable column without a name.
    ///
    /// # Panics
    /// If the format holds a byte 0.
    pub fn nullable(format: &str) -> Texts {
        Texts {
            format: CString::new(format).expect("no byte 0"),
            name: CString::default(),
            flags: sys::NULLABLE,
            metadata: None,
        }
    }
}

/// Has the pointers of a schema lead to what it owns.
fn owning(mut schema: ArrowSchema, held: HeldSchema) -> ArrowSchema {
    let mut held = Box::new(held);
    let fields = &mut schema.0;
    fields.format = held.format.as_ptr();
    fields.name = held.name.as_ptr();
    fields.metadata = held
        .metadata
        .as_ref()
        .map_or(null_mut(), |bytes| bytes.as_ptr().cast());
    if held.below.wrapped.is_none() {
        fields.n_children = held.below.children.len() as i64;
        fields.children = held.below.children.as_mut_ptr().cast();
        fields.dictionary = held.below.dictionary.cast();
    }
    fields.release = Some(release_schema);
    fields.private_data = Box::into_raw(held).cast();
    schema
}

/// Makes a schema that owns its texts and its children.
pub(super) fn made_schema(
    texts: Texts,
    children: Vec<ArrowSchema>,
    dictionary: Option<ArrowSchema>,
) -> ArrowSchema {
    let mut schema = ArrowSchema::empty();
    schema.0.flags = texts.flags;
    let held = HeldSchema {
        below: Below::new(children, dictionary),
        format: texts.format,
        name: texts.name,
        metadata: texts.metadata,
    };
    owning(schema, held)
}

/// Makes an array that owns its buffers and its children.
pub(super) fn made_array(
    [len, null_count, offset]: [i64; 3],
    buffers: Vec<Option<Box<dyn Buffer>>>,
    children: Vec<ArrowArray>,
    dictionary: Option<ArrowArray>,
) -> ArrowArray {
    let place = |buffer: &Option<Box<dyn Buffer>>| match buffer {
        Some(buffer) => buffer.data().cast(),
        None => null_mut(),
    };
    let mut held = Box::new(HeldArray {
        below: Below::new(children, dictionary),
        places: buffers.iter().map(place).collect(),
        buffers,
    });
    let mut array = ArrowArray::empty();
    let fields = &mut array.0;
    fields.length = len;
    fields.null_count = null_count;
    fields.offset = offset;
    fields.n_buffers = held.places.len() as i64;
    fields.buffers = held.places.as_mut_ptr();
    fields.n_children = held.below.children.len() as i64;
    fields.children = held.below.children.as_mut_ptr().cast();
    fields.dictionary = held.below.dictionary.cast();
    fields.release = Some(release_array);
    fields.private_data = Box::into_raw(held).cast();
    array
}

/// Gives a schema another name.
///
/// # Panics
/// If the name holds a byte 0.
pub(super) fn renamed(mut schema: ArrowSchema, name: &str) -> ArrowSchema {
    let name = CString::new(name).expect("a name without a byte 0");
    if is_made_here(&schema) {
        // SAFETY: a schema made here has such a box, which it alone leads to.
        let held = unsafe { &mut *schema.0.private_data.cast::<HeldSchema>() };
        held.name = name;
        schema.0.name = held.name.as_ptr();
        return schema;
    }
    let mut outer = ArrowSchema::empty();
    outer.0.flags = schema.0.flags;
    outer.0.n_children = schema.0.n_children;
    outer.0.children = schema.0.children;
    outer.0.dictionary = schema.0.dictionary;
    let (format, metadata) = (schema.0.format, schema.0.metadata);
    let mut below = Below::new(Vec::new(), None);
    below.wrapped = Some(Box::new(schema));
    let held = HeldSchema {
        below,
        format: CString::default(),
        name,
        metadata: None,
    };
    let mut outer = owning(outer, held);
    outer.0.format = format;
    outer.0.metadata = metadata;
    outer
}
