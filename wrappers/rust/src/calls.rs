//! The calls over slices, with their answers in numbers. What a C caller has to see to (pointers that are aligned and not null,
//! lengths that are true, buffers that don't overlap) the types of the slices settle, so none is `unsafe`. Any numbers, any
//! lengths and any contents are taken, and answered by a refusal number where need be.
use crate::raw::{self, Answer, ExportAnswer, LookAnswer, ReadAnswer, Regs, WhyAnswer};

/// Calls that may change the record and the buffers.
macro_rules! changing {
    ($($(#[$doc:meta])* $name:ident = $function:ident ($($x:ident),*);)*) => {
        $($(#[$doc])*
        pub fn $name(regs: &mut Regs, words: &mut [u32], colours: &mut [u32], bytes: &mut [u8] $(, $x: u32)*) -> Answer {
            // SAFETY: the pointers and lengths are those of live slices of the right types, which don't overlap.
            unsafe {
                raw::$function(regs, words.as_mut_ptr(), words.len(), colours.as_mut_ptr(), colours.len(), bytes.as_mut_ptr(), bytes.len() $(, $x)*)
            }
        })*
    };
}

/// Calls that change nothing.
macro_rules! seeing {
    ($($(#[$doc:meta])* $name:ident = $function:ident ($($x:ident),*) -> $answer:ty;)*) => {
        $($(#[$doc])*
        pub fn $name(regs: Regs, words: &[u32], colours: &[u32], bytes: &[u8] $(, $x: u32)*) -> $answer {
            // SAFETY: the pointers and lengths are those of live slices of the right types.
            unsafe {
                raw::$function(regs, words.as_ptr(), words.len(), colours.as_ptr(), colours.len(), bytes.as_ptr(), bytes.len() $(, $x)*)
            }
        })*
    };
}

/// Calls that change nothing of the heap, and write to a further buffer.
macro_rules! writing {
    ($($(#[$doc:meta])* $name:ident = $function:ident ($($x:ident),*);)*) => {
        $($(#[$doc])*
        pub fn $name(regs: Regs, words: &[u32], colours: &[u32], bytes: &[u8], out: &mut [u32] $(, $x: u32)*) -> ExportAnswer {
            // SAFETY: as above; out is lent to change, so it overlaps none of the others.
            unsafe {
                raw::$function(
                    regs, words.as_ptr(), words.len(), colours.as_ptr(), colours.len(), bytes.as_ptr(), bytes.len(),
                    out.as_mut_ptr(), out.len() $(, $x)*
                )
            }
        })*
    };
}

changing! {
    /// Format: a heap of m blocks, all free, at pace u. The lengths must be 8m, m and m.
    format = dergamoyne_format(m, u);
    /// Store number: word w of the block b becomes the number v.
    store_number = dergamoyne_store_number(b, w, v);
    /// Store reference: word w of the block b becomes a reference to t, or the reference 0.
    store_reference = dergamoyne_store_reference(b, w, t);
    /// Set root: the root becomes t, or none with 0.
    set_root = dergamoyne_set_root(t);
    /// Allocate: a new block for word w of the block b, or with 0, 0 for the root.
    allocate = dergamoyne_allocate(b, w);
    /// Allocate chain: a new object of n blocks, 1 to 256, for word w of the block b, or with 0, 0 for the root.
    allocate_chain = dergamoyne_allocate_chain(b, w, n);
    /// Store field number: field k of the object b becomes the number v.
    store_field_number = dergamoyne_store_field_number(b, k, v);
    /// Store field reference: field k of the object b becomes a reference to t, or the reference 0.
    store_field_reference = dergamoyne_store_field_reference(b, k, t);
    /// Work: n units, n at most 65,535.
    work = dergamoyne_work(n);
}

seeing! {
    /// Read: word w of the block b, and whether it is a reference.
    read = dergamoyne_read(b, w) -> ReadAnswer;
    /// Read field: field k of the object b, and whether it is a reference.
    read_field = dergamoyne_read_field(b, k) -> ReadAnswer;
    /// Look: where the eight words of the block b stand.
    look = dergamoyne_look(b) -> LookAnswer;
    /// State: what the number b is. The value is 1 live white, 2 doomed, 3 grey, 4 black, 5 free, 6 outside the layout.
    state = dergamoyne_state(b) -> Answer;
    /// Audit: the value is 1 for a well-formed heap, else 0.
    audit = dergamoyne_audit() -> Answer;
}

writing! {
    /// Export: the rows of the list that starts at the block start and goes on by the reference in word link, to out.
    export = dergamoyne_export(start, link);
    /// Export objects: the same for a list whose rows are objects, the first `fields` fields of each, which goes on by the reference
    /// in field link.
    export_objects = dergamoyne_export_objects(start, fields, link);
}

/// Save: the image of the heap to the front of out: 56 + 37M bytes. What is past the image stays as it was.
pub fn save(regs: Regs, words: &[u32], colours: &[u32], bytes: &[u8], out: &mut [u8]) -> Answer {
    // SAFETY: the pointers and lengths are those of live slices of the right types; out is lent to change, so it overlaps none of them.
    unsafe {
        raw::dergamoyne_save(
            regs,
            words.as_ptr(),
            words.len(),
            colours.as_ptr(),
            colours.len(),
            bytes.as_ptr(),
            bytes.len(),
            out.as_mut_ptr(),
            out.len(),
        )
    }
}

/// Load: the record and the buffers become the heap of the image, also of one that a version before 0.7.0 wrote, 52 + 37M bytes. What
/// they held is not looked at.
pub fn load(regs: &mut Regs, words: &mut [u32], colours: &mut [u32], bytes: &mut [u8], image: &[u8]) -> Answer {
    // SAFETY: the pointers and lengths are those of live slices of the right types, which don't overlap.
    unsafe {
        raw::dergamoyne_load(
            regs,
            words.as_mut_ptr(),
            words.len(),
            colours.as_mut_ptr(),
            colours.len(),
            bytes.as_mut_ptr(),
            bytes.len(),
            image.as_ptr(),
            image.len(),
        )
    }
}

/// Why: why the block b is still here. The path takes 2M numbers, a block and a word for each pair; queue and came take M each and are for
/// working. All three may be longer, and end as 0 but for the path's pairs.
#[allow(clippy::too_many_arguments)]
pub fn why(
    regs: Regs,
    words: &[u32],
    colours: &[u32],
    bytes: &[u8],
    path: &mut [u32],
    queue: &mut [u32],
    came: &mut [u32],
    b: u32,
) -> WhyAnswer {
    // SAFETY: the pointers and lengths are those of live slices of the right types, which don't overlap.
    unsafe {
        raw::dergamoyne_why(
            regs,
            words.as_ptr(),
            words.len(),
            colours.as_ptr(),
            colours.len(),
            bytes.as_ptr(),
            bytes.len(),
            path.as_mut_ptr(),
            path.len(),
            queue.as_mut_ptr(),
            queue.len(),
            came.as_mut_ptr(),
            came.len(),
            b,
        )
    }
}

/// The version of the library that is linked: 1,000,000 for each major, 1,000 for each minor, 1 for each patch.
pub fn version() -> u32 {
    // SAFETY: it takes nothing and answers a number.
    unsafe { raw::dergamoyne_version() }
}

/// Whether the library that is linked is the one that this crate is for: its version, and the size of its record.
pub fn fits_library() -> bool {
    // SAFETY: it takes nothing and answers a number.
    version() == raw::VERSION && unsafe { raw::dergamoyne_record_size() } as usize == std::mem::size_of::<Regs>()
}
