//! The library's records and functions as they are declared in include/dergamoyne.h.

/// The register record: M, U, the collector's phase, the first grey and the first free block, how many are free, where the sweep
/// stands, the root, how many cycles were begun, and the mark: the highest block handed out since Format, 1 if there is none, after
/// which the sweep ends. Registers will be added in later versions: start with `Regs::default()`, and compile again for the version
/// that you link.
#[repr(C)]
#[derive(Clone, Copy, Debug, Default, PartialEq, Eq)]
pub struct Regs {
    pub blocks: u32,
    pub pace: u32,
    pub phase: u32,
    pub grey: u32,
    pub free: u32,
    pub count: u32,
    pub position: u32,
    pub root: u32,
    pub cycle: u32,
    pub mark: u32,
}

/// What most calls answer: a refusal number or 0, a value (0 if none), and the units done.
#[repr(C)]
#[derive(Clone, Copy, Debug, PartialEq, Eq)]
pub struct Answer {
    pub refusal: u32,
    pub value: u32,
    pub units: u32,
}

/// What Read and Read field answer: reference is 1 for a word that holds a reference, else 0.
#[repr(C)]
#[derive(Clone, Copy, Debug, PartialEq, Eq)]
pub struct ReadAnswer {
    pub refusal: u32,
    pub value: u32,
    pub units: u32,
    pub reference: u32,
}

/// What Look answers: a refusal number or 0, and the index in the words of the block's first word, `u32::MAX` on a refusal.
#[repr(C)]
#[derive(Clone, Copy, Debug, PartialEq, Eq)]
pub struct LookAnswer {
    pub refusal: u32,
    pub at: u32,
}

/// What the exports answer: complete is 1 or 0; the rows written; why not complete, 1 to 4; with reason 3 a refusal.
#[repr(C)]
#[derive(Clone, Copy, Debug, PartialEq, Eq)]
pub struct ExportAnswer {
    pub complete: u32,
    pub rows: u32,
    pub reason: u32,
    pub refusal: u32,
}

/// What Why answers: a refusal number or 0; the reason, 1 free, 2 doomed, 3 reachable, 4 kept; the pairs of the path with reason 3; the
/// state with reason 4.
#[repr(C)]
#[derive(Clone, Copy, Debug, PartialEq, Eq)]
pub struct WhyAnswer {
    pub refusal: u32,
    pub reason: u32,
    pub pairs: u32,
    pub state: u32,
}

/// The version of the library that this crate is for, as `dergamoyne_version` gives it.
pub const VERSION: u32 = 8000;

// The library is for processors with lengths of 64 bits.
const _: () = assert!(std::mem::size_of::<usize>() == 8);

extern "C" {
    pub fn dergamoyne_version() -> u32;
    pub fn dergamoyne_record_size() -> u32;
    pub fn dergamoyne_format(
        regs: *mut Regs,
        words: *mut u32,
        words_length: usize,
        colours: *mut u32,
        colours_length: usize,
        bytes: *mut u8,
        bytes_length: usize,
        m: u32,
        u: u32,
    ) -> Answer;
    pub fn dergamoyne_read(
        regs: Regs,
        words: *const u32,
        words_length: usize,
        colours: *const u32,
        colours_length: usize,
        bytes: *const u8,
        bytes_length: usize,
        b: u32,
        w: u32,
    ) -> ReadAnswer;
    pub fn dergamoyne_look(
        regs: Regs,
        words: *const u32,
        words_length: usize,
        colours: *const u32,
        colours_length: usize,
        bytes: *const u8,
        bytes_length: usize,
        b: u32,
    ) -> LookAnswer;
    pub fn dergamoyne_state(
        regs: Regs,
        words: *const u32,
        words_length: usize,
        colours: *const u32,
        colours_length: usize,
        bytes: *const u8,
        bytes_length: usize,
        b: u32,
    ) -> Answer;
    pub fn dergamoyne_store_number(
        regs: *mut Regs,
        words: *mut u32,
        words_length: usize,
        colours: *mut u32,
        colours_length: usize,
        bytes: *mut u8,
        bytes_length: usize,
        b: u32,
        w: u32,
        v: u32,
    ) -> Answer;
    pub fn dergamoyne_store_reference(
        regs: *mut Regs,
        words: *mut u32,
        words_length: usize,
        colours: *mut u32,
        colours_length: usize,
        bytes: *mut u8,
        bytes_length: usize,
        b: u32,
        w: u32,
        t: u32,
    ) -> Answer;
    pub fn dergamoyne_set_root(
        regs: *mut Regs,
        words: *mut u32,
        words_length: usize,
        colours: *mut u32,
        colours_length: usize,
        bytes: *mut u8,
        bytes_length: usize,
        t: u32,
    ) -> Answer;
    pub fn dergamoyne_allocate(
        regs: *mut Regs,
        words: *mut u32,
        words_length: usize,
        colours: *mut u32,
        colours_length: usize,
        bytes: *mut u8,
        bytes_length: usize,
        b: u32,
        w: u32,
    ) -> Answer;
    pub fn dergamoyne_allocate_chain(
        regs: *mut Regs,
        words: *mut u32,
        words_length: usize,
        colours: *mut u32,
        colours_length: usize,
        bytes: *mut u8,
        bytes_length: usize,
        b: u32,
        w: u32,
        n: u32,
    ) -> Answer;
    pub fn dergamoyne_read_field(
        regs: Regs,
        words: *const u32,
        words_length: usize,
        colours: *const u32,
        colours_length: usize,
        bytes: *const u8,
        bytes_length: usize,
        b: u32,
        k: u32,
    ) -> ReadAnswer;
    pub fn dergamoyne_store_field_number(
        regs: *mut Regs,
        words: *mut u32,
        words_length: usize,
        colours: *mut u32,
        colours_length: usize,
        bytes: *mut u8,
        bytes_length: usize,
        b: u32,
        k: u32,
        v: u32,
    ) -> Answer;
    pub fn dergamoyne_store_field_reference(
        regs: *mut Regs,
        words: *mut u32,
        words_length: usize,
        colours: *mut u32,
        colours_length: usize,
        bytes: *mut u8,
        bytes_length: usize,
        b: u32,
        k: u32,
        t: u32,
    ) -> Answer;
    pub fn dergamoyne_work(
        regs: *mut Regs,
        words: *mut u32,
        words_length: usize,
        colours: *mut u32,
        colours_length: usize,
        bytes: *mut u8,
        bytes_length: usize,
        n: u32,
    ) -> Answer;
    pub fn dergamoyne_audit(
        regs: Regs,
        words: *const u32,
        words_length: usize,
        colours: *const u32,
        colours_length: usize,
        bytes: *const u8,
        bytes_length: usize,
    ) -> Answer;
    pub fn dergamoyne_export(
        regs: Regs,
        words: *const u32,
        words_length: usize,
        colours: *const u32,
        colours_length: usize,
        bytes: *const u8,
        bytes_length: usize,
        out: *mut u32,
        out_length: usize,
        start: u32,
        link: u32,
    ) -> ExportAnswer;
    pub fn dergamoyne_export_objects(
        regs: Regs,
        words: *const u32,
        words_length: usize,
        colours: *const u32,
        colours_length: usize,
        bytes: *const u8,
        bytes_length: usize,
        out: *mut u32,
        out_length: usize,
        start: u32,
        fields: u32,
        link: u32,
    ) -> ExportAnswer;
    pub fn dergamoyne_save(
        regs: Regs,
        words: *const u32,
        words_length: usize,
        colours: *const u32,
        colours_length: usize,
        bytes: *const u8,
        bytes_length: usize,
        out: *mut u8,
        out_length: usize,
    ) -> Answer;
    pub fn dergamoyne_load(
        regs: *mut Regs,
        words: *mut u32,
        words_length: usize,
        colours: *mut u32,
        colours_length: usize,
        bytes: *mut u8,
        bytes_length: usize,
        image: *const u8,
        image_length: usize,
    ) -> Answer;
    pub fn dergamoyne_why(
        regs: Regs,
        words: *const u32,
        words_length: usize,
        colours: *const u32,
        colours_length: usize,
        bytes: *const u8,
        bytes_length: usize,
        path: *mut u32,
        path_length: usize,
        queue: *mut u32,
        queue_length: usize,
        came: *mut u32,
        came_length: usize,
        b: u32,
    ) -> WhyAnswer;
}
