//! A heap that owns its record and buffers.
use crate::calls;
use crate::raw::{Answer, ExportAnswer, ReadAnswer, Regs, WhyAnswer};
use crate::refusal::{Refusal, Refused};
use std::fmt;

/// The largest M.
const MOST_BLOCKS: u32 = 16384;

/// The bytes of an image that are of no block, those of one that a version before 0.7.0 wrote, without the mark, and those of each block.
const IMAGE_FIXED: usize = 56;
const EARLIER_FIXED: usize = 52;
const IMAGE_BLOCK: usize = 37;

/// A heap of M blocks, with its record and its three buffers: 37M bytes of memory.
#[derive(Clone, Debug)]
pub struct Heap {
    regs: Regs,
    words: Vec<u32>,
    colours: Vec<u32>,
    bytes: Vec<u8>,
}

/// A word of a block, or a field of an object.
#[derive(Clone, Copy, Debug, PartialEq, Eq)]
pub enum Word {
    Number(u32),
    /// The number of a block, or 0 for none.
    Reference(u32),
}

/// A new block, or the first of a new object, and the units of collector work that were done before it was taken.
#[derive(Clone, Copy, Debug, PartialEq, Eq)]
pub struct Allocated {
    pub block: u32,
    pub units: u32,
}

/// What a number is to a call, with the number by which the library tells it.
#[derive(Clone, Copy, Debug, PartialEq, Eq)]
pub enum State {
    /// Allocated; not met by the collector in this cycle, or swept already.
    LiveWhite = 1,
    /// Allocated, but the sweep is about to free it: calls refuse it.
    Doomed = 2,
    /// Allocated; met by the collector, its references not yet.
    Grey = 3,
    /// Allocated; met by the collector, and its references too; or new.
    Black = 4,
    /// Not allocated: calls refuse it.
    Free = 5,
    /// No block; or, where something else wrote to the buffers, a block whose colour can't be.
    Outside = 6,
}

impl State {
    /// The state that `calls::state` tells by this number. Another number is none of the library's, and panics.
    pub fn of(number: u32) -> State {
        use State::*;
        [LiveWhite, Doomed, Grey, Black, Free, Outside][number as usize - 1]
    }

    /// Whether it is an allocated block that isn't doomed: one that calls take.
    pub fn is_live(self) -> bool {
        matches!(self, State::LiveWhite | State::Grey | State::Black)
    }
}

impl fmt::Display for State {
    fn fmt(&self, f: &mut fmt::Formatter<'_>) -> fmt::Result {
        f.write_str(match self {
            State::LiveWhite => "live white",
            State::Doomed => "doomed",
            State::Grey => "grey",
            State::Black => "black",
            State::Free => "free",
            State::Outside => "outside the layout",
        })
    }
}

/// Why a block is still here.
#[derive(Clone, Debug, PartialEq, Eq)]
pub enum Why {
    /// It is not in use.
    Free,
    /// Nothing leads to it from the root, and the sweep is about to free it.
    Doomed,
    /// References lead to it from the root, so it stays. The path has a block and one of its words for each step: the first block is the
    /// root, each word is a reference to the next block, and the last one names the block that was asked for. The root's path is empty.
    /// No path is shorter, and of those equally short it is the one with the smallest words from the root on.
    Reachable(Vec<(u32, u32)>),
    /// Nothing leads to it from the root any more, but the collector has not found that out. It is live white, grey or black.
    Kept(State),
}

/// What an export answers: complete with so many rows; or stopped after so many, for this reason.
#[derive(Clone, Copy, Debug, PartialEq, Eq)]
pub enum Exported {
    Complete(u32),
    Stopped(u32, Reason),
}

/// Why an export stopped.
#[derive(Clone, Copy, Debug, PartialEq, Eq)]
pub enum Reason {
    /// There are M rows, and a block more: the list runs in a circle.
    Circle,
    /// The next row doesn't fit the buffer.
    NoRoom,
    /// Read refuses the link word of the next block, or Read field a field of the next object.
    Refused(Refusal),
    /// The link of the next row holds a number.
    NoReference,
    /// A reason, by its number, that this version doesn't know.
    Unknown(u32),
}

impl Heap {
    /// A heap of m blocks, 1 to 16,384, all free, at pace u, at most 65,535; else refusal 1. Panics where the library that is
    /// linked is of another version than this crate.
    pub fn new(m: u32, u: u32) -> Result<Heap, Refused> {
        assert!(calls::fits_library(), "libdergamoyne.a is of another version than this crate");
        // Of an m that is too large nothing is lent: the call then refuses it.
        let n = if m <= MOST_BLOCKS { m as usize } else { 0 };
        let mut h = Heap { regs: Regs::default(), words: vec![0; 8 * n], colours: vec![0; n], bytes: vec![0; n] };
        done(h.changed(|r, w, c, b| calls::format(r, w, c, b, m, u)))?;
        Ok(h)
    }

    /// A call that may change the record and the buffers.
    fn changed<T>(&mut self, call: impl FnOnce(&mut Regs, &mut [u32], &mut [u32], &mut [u8]) -> T) -> T {
        call(&mut self.regs, &mut self.words, &mut self.colours, &mut self.bytes)
    }

    /// The heap of an image: exactly the one that was saved. One that a version before 0.7.0 saved has no mark, and gets the highest
    /// there can be. Refusal 10 where the bytes are not the image of a well-formed heap, or something comes after it. Panics where the
    /// library that is linked is of another version than this crate.
    pub fn load(image: &[u8]) -> Result<Heap, Refused> {
        assert!(calls::fits_library(), "libdergamoyne.a is of another version than this crate");
        // Of a length that no image has nothing is lent: the call then refuses the image. Rounded down, the shorter form tells the
        // blocks of both: they differ by less than a block.
        let n = image.len().saturating_sub(EARLIER_FIXED) / IMAGE_BLOCK;
        let n = if n <= MOST_BLOCKS as usize { n } else { 0 };
        let mut h = Heap { regs: Regs::default(), words: vec![0; 8 * n], colours: vec![0; n], bytes: vec![0; n] };
        done(h.changed(|r, w, c, b| calls::load(r, w, c, b, image)))?;
        Ok(h)
    }

    /// The image of the heap, for `load`.
    pub fn save(&self) -> Vec<u8> {
        let mut out = vec![0; IMAGE_FIXED + IMAGE_BLOCK * self.colours.len()];
        let a = calls::save(self.regs, &self.words, &self.colours, &self.bytes, &mut out);
        assert_eq!(a.refusal, 0, "a heap of this type is well-formed");
        out
    }

    /// The register record.
    pub fn regs(&self) -> Regs {
        self.regs
    }

    /// A new block, held by word w of the block b; or with 0, 0 the new root.
    pub fn allocate(&mut self, b: u32, w: u32) -> Result<Allocated, Refused> {
        let a = done(self.changed(|r, ws, cs, bs| calls::allocate(r, ws, cs, bs, b, w)))?;
        Ok(Allocated { block: a.value, units: a.units })
    }

    /// Word w of the block b.
    pub fn read(&self, b: u32, w: u32) -> Result<Word, Refused> {
        word(calls::read(self.regs, &self.words, &self.colours, &self.bytes, b, w))
    }

    /// A new object of n blocks, 1 to 256, held by word w of the block b; or with 0, 0 the new root. It goes by its first block,
    /// and has the fields 0 to 7n - 1, each the number 0. With w 7 and a block of an object, the rest of that object is let go.
    pub fn allocate_chain(&mut self, b: u32, w: u32, n: u32) -> Result<Allocated, Refused> {
        let a = done(self.changed(|r, ws, cs, bs| calls::allocate_chain(r, ws, cs, bs, b, w, n)))?;
        Ok(Allocated { block: a.value, units: a.units })
    }

    /// Field k of the object b.
    pub fn read_field(&self, b: u32, k: u32) -> Result<Word, Refused> {
        word(calls::read_field(self.regs, &self.words, &self.colours, &self.bytes, b, k))
    }

    /// Field k of the object b becomes the number v.
    pub fn store_field_number(&mut self, b: u32, k: u32, v: u32) -> Result<(), Refused> {
        done(self.changed(|r, ws, cs, bs| calls::store_field_number(r, ws, cs, bs, b, k, v)))?;
        Ok(())
    }

    /// Field k of the object b becomes a reference to the block t, or with 0 the reference to none.
    pub fn store_field_reference(&mut self, b: u32, k: u32, t: u32) -> Result<(), Refused> {
        done(self.changed(|r, ws, cs, bs| calls::store_field_reference(r, ws, cs, bs, b, k, t)))?;
        Ok(())
    }

    /// The eight words of the block b, themselves and no copy.
    pub fn look(&self, b: u32) -> Result<&[u32], Refused> {
        let a = calls::look(self.regs, &self.words, &self.colours, &self.bytes, b);
        Refused::unless_zero(a.refusal, 0)?;
        Ok(&self.words[a.at as usize..a.at as usize + 8])
    }

    /// What the number b is at this moment; any number is taken.
    pub fn state(&self, b: u32) -> Result<State, Refused> {
        Ok(State::of(done(calls::state(self.regs, &self.words, &self.colours, &self.bytes, b))?.value))
    }

    /// Why the block b is still here. Its cost, in memory too, grows with the number of blocks.
    pub fn why(&self, b: u32) -> Result<Why, Refused> {
        let m = self.colours.len();
        let (mut path, mut queue, mut came) = (vec![0; 2 * m], vec![0; m], vec![0; m]);
        let a = calls::why(self.regs, &self.words, &self.colours, &self.bytes, &mut path, &mut queue, &mut came, b);
        Refused::unless_zero(a.refusal, 0)?;
        Ok(reason_why(a, &path))
    }

    /// Word w of the block b becomes the number v.
    pub fn store_number(&mut self, b: u32, w: u32, v: u32) -> Result<(), Refused> {
        done(self.changed(|r, ws, cs, bs| calls::store_number(r, ws, cs, bs, b, w, v)))?;
        Ok(())
    }

    /// Word w of the block b becomes a reference to the block t, or with 0 the reference to none.
    pub fn store_reference(&mut self, b: u32, w: u32, t: u32) -> Result<(), Refused> {
        done(self.changed(|r, ws, cs, bs| calls::store_reference(r, ws, cs, bs, b, w, t)))?;
        Ok(())
    }

    /// The root becomes the block t, or none with 0.
    pub fn set_root(&mut self, t: u32) -> Result<(), Refused> {
        done(self.changed(|r, w, c, b| calls::set_root(r, w, c, b, t)))?;
        Ok(())
    }

    /// n units of collector work, n at most 65,535; answers the units done.
    pub fn work(&mut self, n: u32) -> Result<u32, Refused> {
        Ok(done(self.changed(|r, w, c, b| calls::work(r, w, c, b, n)))?.units)
    }

    /// Whether the heap is well-formed. Every heap of this type is, since only the calls can change it.
    pub fn audit(&self) -> bool {
        calls::audit(self.regs, &self.words, &self.colours, &self.bytes).value == 1
    }

    /// The rows of the list that starts at the block start, where 0 is the empty list, and goes on by the reference in word link,
    /// eight words a row. Exactly the rows counted are written.
    pub fn export(&self, out: &mut [u32], start: u32, link: u32) -> Exported {
        exported(calls::export(self.regs, &self.words, &self.colours, &self.bytes, out, start, link))
    }

    /// The rows of the list that starts at the object start, where 0 is the empty list, and goes on by the reference in field link: the
    /// fields 0 to `fields` - 1 of each, 1 to 1,792, in order. Exactly the rows counted are written. With fields or link out of range no
    /// row is, and the reason is refusal 3.
    pub fn export_objects(&self, out: &mut [u32], start: u32, fields: u32, link: u32) -> Exported {
        exported(calls::export_objects(self.regs, &self.words, &self.colours, &self.bytes, out, start, fields, link))
    }
}

/// The answer of a call that is done, or its refusal with the units that stand.
fn done(a: Answer) -> Result<Answer, Refused> {
    Refused::unless_zero(a.refusal, a.units)?;
    Ok(a)
}

/// The word that was read, or the refusal.
fn word(a: ReadAnswer) -> Result<Word, Refused> {
    Refused::unless_zero(a.refusal, a.units)?;
    Ok(if a.reference == 1 { Word::Reference(a.value) } else { Word::Number(a.value) })
}

/// An export's answer by its numbers.
fn exported(a: ExportAnswer) -> Exported {
    match (a.reason, Refusal::of(a.refusal)) {
        (0, _) => Exported::Complete(a.rows),
        (1, _) => Exported::Stopped(a.rows, Reason::Circle),
        (2, _) => Exported::Stopped(a.rows, Reason::NoRoom),
        (3, Some(refusal)) => Exported::Stopped(a.rows, Reason::Refused(refusal)),
        (4, _) => Exported::Stopped(a.rows, Reason::NoReference),
        (other, _) => Exported::Stopped(a.rows, Reason::Unknown(other)),
    }
}

/// The answer of a Why that is not refused, by its numbers. Another reason is none of the library's, and panics.
fn reason_why(a: WhyAnswer, path: &[u32]) -> Why {
    match a.reason {
        1 => Why::Free,
        2 => Why::Doomed,
        3 => Why::Reachable(path.chunks(2).take(a.pairs as usize).map(|pair| (pair[0], pair[1])).collect()),
        4 => Why::Kept(State::of(a.state)),
        other => panic!("the library gives the reason {other}, which is none"),
    }
}

#[cfg(test)]
mod tests {
    use super::*;

    /// Each reason by its number; one that isn't known stays a stop, with its number.
    #[test]
    fn reasons() {
        let of = |reason, refusal| exported(ExportAnswer { complete: 0, rows: 7, reason, refusal });
        assert_eq!(of(1, 0), Exported::Stopped(7, Reason::Circle));
        assert_eq!(of(2, 0), Exported::Stopped(7, Reason::NoRoom));
        assert_eq!(of(3, 5), Exported::Stopped(7, Reason::Refused(Refusal::BlockGone)));
        assert_eq!(of(4, 0), Exported::Stopped(7, Reason::NoReference));
        assert_eq!(of(5, 0), Exported::Stopped(7, Reason::Unknown(5)));
        assert_eq!(of(3, 0), Exported::Stopped(7, Reason::Unknown(3)));
    }
}
