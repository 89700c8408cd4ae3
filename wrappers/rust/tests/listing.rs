//! Document 01's listing, its refusals, the exports, and an object longer than a block, by `Heap` and by the calls over slices.
use dergamoyne::{calls, Allocated, Exported, Heap, Reason, Refusal, Refused, Regs, State, Why, Word};

fn by(refusal: Refusal) -> Refused {
    Refused { refusal, units: 0 }
}

/// The heap after the listing's first seven lines: block 3 is doomed.
fn seven_lines() -> Heap {
    let mut h = Heap::new(3, 1).unwrap();
    assert_eq!(h.allocate(0, 0), Ok(Allocated { block: 2, units: 1 }));
    assert_eq!(h.allocate(2, 0), Ok(Allocated { block: 3, units: 1 }));
    assert_eq!(h.work(3), Ok(3));
    assert_eq!(h.read(2, 0), Ok(Word::Reference(3)));
    assert_eq!(h.store_reference(2, 0, 0), Ok(()));
    assert_eq!(h.work(4), Ok(4));
    h
}

#[test]
fn listing() {
    let h = seven_lines();
    assert_eq!(h.read(3, 0), Err(by(Refusal::BlockGone)));
    assert!(h.audit());
}

/// The listing over slices prints what the program listing prints.
#[test]
fn listing_over_slices() {
    let (mut regs, mut words, mut colours, mut bytes) = (Regs::default(), [0; 24], [0; 3], [0; 3]);
    let (r, w, c, b) = (&mut regs, &mut words[..], &mut colours[..], &mut bytes[..]);
    let mut said = String::new();
    let mut say = |x: u32, y: u32, z: u32| said.push_str(&format!("{x} {y} {z}\n"));
    let a = calls::format(r, w, c, b, 3, 1);
    say(a.refusal, a.value, a.units);
    for (x, y) in [(0, 0), (2, 0)] {
        let a = calls::allocate(r, w, c, b, x, y);
        say(a.refusal, a.value, a.units);
    }
    let a = calls::work(r, w, c, b, 3);
    say(a.refusal, a.value, a.units);
    let a = calls::read(*r, w, c, b, 2, 0);
    say(a.refusal, a.value, a.reference);
    let a = calls::store_reference(r, w, c, b, 2, 0, 0);
    say(a.refusal, a.value, a.units);
    let a = calls::work(r, w, c, b, 4);
    say(a.refusal, a.value, a.units);
    let a = calls::read(*r, w, c, b, 3, 0);
    say(a.refusal, a.value, a.reference);
    let a = calls::audit(*r, w, c, b);
    say(a.refusal, a.value, a.units);
    assert_eq!(said, include_str!("../../../crates/listing/stdout"));
}

#[test]
fn refusals() {
    assert_eq!(Heap::new(0, 1).unwrap_err(), by(Refusal::DoesNotFit));
    assert_eq!(Heap::new(16385, 1).unwrap_err(), by(Refusal::DoesNotFit));
    assert_eq!(Heap::new(1, 65536).unwrap_err(), by(Refusal::DoesNotFit));
    assert!(Heap::new(16384, 65535).unwrap().audit());
    let mut h = seven_lines();
    let before = h.regs();
    assert_eq!(h.read(2, 8), Err(by(Refusal::NoSuchWord)));
    assert_eq!(h.look(5), Err(by(Refusal::NoSuchWord)));
    assert_eq!(h.set_root(5), Err(by(Refusal::NoSuchTarget)));
    assert_eq!(h.store_number(3, 0, 7), Err(by(Refusal::BlockGone)));
    assert_eq!(h.store_reference(2, 1, 3), Err(by(Refusal::TargetGone)));
    assert_eq!(h.work(65536), Err(by(Refusal::TooManyUnits)));
    assert_eq!(h.regs(), before);
    let mut one = Heap::new(1, 1).unwrap();
    one.allocate(0, 0).unwrap();
    assert_eq!(one.allocate(2, 0), Err(Refused { refusal: Refusal::NoFreeBlock, units: 1 }));
}

/// Refusals 2 and 8, which a `Heap` can't meet.
#[test]
fn damage() {
    let (mut regs, mut words, mut colours, mut bytes) = (Regs::default(), [0; 8], [0; 1], [0; 1]);
    assert_eq!(calls::format(&mut regs, &mut words, &mut colours, &mut bytes, 1, 1).refusal, 0);
    let wrong = Regs { phase: 3, ..regs };
    let refused = calls::look(wrong, &words, &colours, &bytes, 2);
    assert_eq!((refused.refusal, refused.at), (2, u32::MAX));
    colours[0] = 4294967293;
    assert_eq!(calls::read(regs, &words, &colours, &bytes, 2, 0).refusal, 8);
    assert_eq!(calls::audit(regs, &words, &colours, &bytes).value, 0);
    assert_eq!(calls::audit(regs, &[], &[], &[]).value, 0);
}

#[test]
fn look_and_numbers() {
    let mut h = seven_lines();
    h.store_number(2, 7, u32::MAX).unwrap();
    assert_eq!(h.look(2), Ok(&[0, 0, 0, 0, 0, 0, 0, u32::MAX][..]));
    assert_eq!(h.read(2, 7), Ok(Word::Number(u32::MAX)));
    assert_eq!(h.look(3), Err(by(Refusal::BlockGone)));
}

/// Each state, in the sweep of the listing's second cycle and on a damaged heap; of any number.
#[test]
fn states() {
    let mut h = Heap::new(3, 1).unwrap();
    assert_eq!(h.state(2), Ok(State::Free));
    h.allocate(0, 0).unwrap();
    assert_eq!(h.state(2), Ok(State::Black));
    h.allocate(2, 0).unwrap();
    h.work(3).unwrap();
    h.store_reference(2, 0, 0).unwrap();
    h.work(3).unwrap();
    let found: Vec<_> = [0, 1, 2, 3, 4, 5, u32::MAX].map(|b| h.state(b).unwrap()).into();
    let (outside, none) = (State::Outside, State::Free);
    assert_eq!(found, [outside, outside, State::LiveWhite, State::Doomed, none, outside, outside]);
    assert_eq!(found.iter().filter(|s| s.is_live()).count(), 1);
    h.work(2).unwrap();
    assert_eq!((h.state(2), h.state(3)), (Ok(State::Grey), Ok(State::Free)));
    let (regs, words, bytes) = (h.regs(), [0; 24], [0; 3]);
    let told = |regs, colours: &[u32]| {
        let a = calls::state(regs, &words, colours, &bytes, 3);
        (a.refusal, a.value, a.units)
    };
    assert_eq!(told(regs, &[3, 1, 0]), (0, State::Grey as u32, 0));
    assert_eq!(told(regs, &[0, 5, 0]), (0, State::Outside as u32, 0));
    assert_eq!(told(regs, &[0, 5]), (1, 0, 0));
    assert_eq!(told(Regs { phase: 3, ..regs }, &[0, 5, 0]), (2, 0, 0));
    for n in 1..7 {
        assert_eq!(State::of(n) as u32, n);
    }
}

/// Each reason: the root 2 names 3 by words 1 and 6; then 3 is let go, and the collector works up to the next sweep.
#[test]
fn whys() {
    let mut h = Heap::new(3, 1).unwrap();
    h.allocate(0, 0).unwrap();
    h.allocate(2, 6).unwrap();
    h.store_reference(2, 1, 3).unwrap();
    h.store_reference(3, 0, 2).unwrap();
    assert_eq!(h.why(2), Ok(Why::Reachable(vec![])));
    assert_eq!(h.why(3), Ok(Why::Reachable(vec![(2, 1)])));
    assert_eq!(h.why(4), Ok(Why::Free));
    for b in [0, 1, 5, u32::MAX] {
        assert_eq!(h.why(b), Err(by(Refusal::NoSuchWord)));
    }
    h.store_reference(2, 1, 0).unwrap();
    h.store_reference(2, 6, 0).unwrap();
    assert_eq!(h.why(3), Ok(Why::Kept(State::Black)));
    h.work(2).unwrap();
    assert_eq!(h.why(3), Ok(Why::Kept(State::LiveWhite)));
    h.work(3).unwrap();
    assert_eq!(h.why(3), Ok(Why::Doomed));
    h.set_root(0).unwrap();
    assert_eq!(h.why(2), Ok(Why::Kept(State::Black)));
}

/// The list 2, 3 while marking: the numbers, the buffers afterwards, and the refusals in order.
#[test]
fn whys_over_slices() {
    let regs = Regs { blocks: 2, phase: 1, grey: 2, root: 2, mark: 3, ..Regs::default() };
    let (mut words, bytes, mut path, mut queue, mut came) = ([0; 16], [16, 0], [7; 5], [7; 3], [7; 2]);
    words[4] = 3;
    let mut why = |regs, colours: &[u32], path: &mut [u32], queue: &mut [u32], b| {
        let a = calls::why(regs, &words, colours, &bytes, path, queue, &mut came, b);
        (a.refusal, a.reason, a.pairs, a.state)
    };
    assert_eq!(why(Regs { phase: 3, ..regs }, &[1], &mut path[..3], &mut queue, 9), (1, 0, 0, 0));
    assert_eq!(why(Regs { phase: 3, ..regs }, &[1, 0], &mut path[..3], &mut queue, 9), (10, 0, 0, 0));
    assert_eq!(why(regs, &[3, 0], &mut path[..3], &mut queue, 9), (10, 0, 0, 0));
    assert_eq!(why(regs, &[1, 0], &mut path[..3], &mut queue, 4), (3, 0, 0, 0));
    assert_eq!(why(regs, &[1, 0], &mut path[..3], &mut queue, 3), (13, 0, 0, 0));
    assert_eq!(why(regs, &[1, 0], &mut path, &mut queue[..1], 3), (13, 0, 0, 0));
    assert_eq!((path, queue), ([7; 5], [7; 3]));
    assert_eq!(why(regs, &[1, 0], &mut path, &mut queue, 3), (0, 3, 1, 0));
    assert_eq!((path, queue), ([2, 4, 0, 0, 0], [0; 3]));
    assert_eq!(why(Regs { root: 0, ..regs }, &[3, 1], &mut path, &mut queue, 3), (0, 4, 0, 3));
    assert_eq!((path, came), ([0; 5], [0; 2]));
}

/// The list 2, 3 by the links in word 0, complete and not.
#[test]
fn exports() {
    let mut h = Heap::new(2, 1).unwrap();
    for holder in [0, 2] {
        let b = h.allocate(holder, 0).unwrap().block;
        h.store_reference(b, 0, 0).unwrap();
        h.store_number(b, 1, 10 * b).unwrap();
    }
    let mut out = [7; 17];
    assert_eq!(h.export(&mut out, 2, 0), Exported::Complete(2));
    assert_eq!(out, [3, 20, 0, 0, 0, 0, 0, 0, 0, 30, 0, 0, 0, 0, 0, 0, 7]);
    assert_eq!(h.export(&mut [], 0, 0), Exported::Complete(0));
    assert_eq!(h.export(&mut out[..15], 2, 0), Exported::Stopped(1, Reason::NoRoom));
    assert_eq!(h.export(&mut out, 2, 1), Exported::Stopped(0, Reason::NoReference));
    assert_eq!(h.export(&mut out, 4, 0), Exported::Stopped(0, Reason::Refused(Refusal::NoSuchWord)));
    h.store_reference(3, 0, 2).unwrap();
    assert_eq!(h.export(&mut out, 2, 0), Exported::Stopped(2, Reason::Circle));
}

/// An object of three blocks: 21 fields, each its own; then one that finds too few blocks free.
#[test]
fn objects() {
    let mut h = Heap::new(6, 1).unwrap();
    assert_eq!(h.allocate_chain(0, 0, 3), Ok(Allocated { block: 2, units: 3 }));
    for k in 0..21 {
        assert_eq!(h.read_field(2, k), Ok(Word::Number(0)));
        h.store_field_number(2, k, 100 + k).unwrap();
    }
    h.store_field_reference(2, 20, 2).unwrap();
    assert_eq!(h.read_field(2, 19), Ok(Word::Number(119)));
    assert_eq!(h.read_field(2, 20), Ok(Word::Reference(2)));
    assert_eq!(h.look(3), Ok(&[107, 108, 109, 110, 111, 112, 113, 4][..]));
    assert_eq!(h.read_field(2, 21), Err(by(Refusal::NoSuchWord)));
    assert_eq!(h.read_field(2, 1792), Err(by(Refusal::NoSuchWord)));
    assert_eq!(h.store_field_number(5, 0, 1), Err(by(Refusal::BlockGone)));
    assert_eq!(h.store_field_reference(2, 7, 8), Err(by(Refusal::NoSuchTarget)));
    assert_eq!(h.store_field_reference(2, 7, 5), Err(by(Refusal::TargetGone)));
    assert_eq!(h.allocate_chain(2, 0, 257), Err(by(Refusal::NoSuchWord)));
    assert_eq!(h.allocate_chain(2, 0, 4), Err(Refused { refusal: Refusal::NoFreeBlock, units: 4 }));
    assert_eq!(h.allocate_chain(2, 0, 3), Ok(Allocated { block: 5, units: 3 }));
    assert!(h.audit());
}

/// The list of the objects 2 and 4, of two blocks each, by the links in field 7: nine fields of each row, complete and not.
#[test]
fn exports_of_objects() {
    let mut h = Heap::new(4, 1).unwrap();
    for (holder, word) in [(0, 0), (3, 0)] {
        let b = h.allocate_chain(holder, word, 2).unwrap().block;
        h.store_field_reference(b, 7, 0).unwrap();
        h.store_field_number(b, 8, 10 * b).unwrap();
    }
    let mut out = [7; 19];
    assert_eq!(h.export_objects(&mut out, 2, 9, 7), Exported::Complete(2));
    assert_eq!(out, [0, 0, 0, 0, 0, 0, 0, 4, 20, 0, 0, 0, 0, 0, 0, 0, 0, 40, 7]);
    assert_eq!(h.export_objects(&mut [], 0, 9, 7), Exported::Complete(0));
    assert_eq!(h.export_objects(&mut out[..17], 2, 9, 7), Exported::Stopped(1, Reason::NoRoom));
    assert_eq!(h.export_objects(&mut out, 2, 9, 8), Exported::Stopped(0, Reason::NoReference));
    let no_such = Exported::Stopped(0, Reason::Refused(Refusal::NoSuchWord));
    for (start, fields, link) in [(2, 15, 7), (6, 9, 7), (2, 9, 9), (0, 0, 0), (0, 1793, 0)] {
        assert_eq!(h.export_objects(&mut out, start, fields, link), no_such);
    }
    h.store_number(4, 7, 5).unwrap();
    assert_eq!(h.export_objects(&mut out, 2, 9, 7), Exported::Stopped(1, Reason::Refused(Refusal::NoSuchWord)));
    h.store_field_reference(2, 7, 2).unwrap();
    assert_eq!(h.export_objects(&mut [0; 36], 2, 9, 7), Exported::Stopped(4, Reason::Circle));
}

/// A heap saved in mid-cycle and loaded is the same and goes on alike; images that are none; the calls over slices.
#[test]
fn images() {
    let mut h = Heap::new(1, 1).unwrap();
    h.allocate(0, 0).unwrap();
    h.store_reference(2, 0, 2).unwrap();
    h.store_number(2, 1, 0x01020304).unwrap();
    let image = h.save();
    let mut dump = [0; 93];
    for (at, byte) in
        [(0, 10), (4, 1), (8, 1), (12, 1), (16, 1), (32, 2), (36, 1), (40, 2), (44, 1), (52, 1), (56, 1), (57, 8), (61, 2)]
    {
        dump[at] = byte;
    }
    dump[48..52].fill(255);
    dump[65..69].copy_from_slice(&[4, 3, 2, 1]);
    assert_eq!(image, dump);
    let mut spare = Heap::load(&image).unwrap();
    assert_eq!((spare.regs(), spare.look(2)), (h.regs(), h.look(2)));
    for heap in [&mut h, &mut spare] {
        assert_eq!(heap.work(5), Ok(5));
        assert!(heap.audit());
    }
    assert_eq!(h.save(), spare.save());
    for length in 0..93 {
        assert_eq!(Heap::load(&image[..length]).unwrap_err(), by(Refusal::NotWellFormed));
    }
    assert_eq!(Heap::load(&[&image[..], &[0]].concat()).unwrap_err(), by(Refusal::NotWellFormed));
    let (mut regs, mut words, mut colours, mut bytes) = (Regs::default(), [7; 8], [7; 2], [7; 1]);
    let mut load = |image: &[u8], colours: &mut [u32]| calls::load(&mut regs, &mut words, colours, &mut bytes, image).refusal;
    assert_eq!((load(&image, &mut colours), load(&[], &mut colours)), (13, 10));
    assert_eq!(load(&image, &mut colours[..1]), 0);
    let mut out = [7; 95];
    assert_eq!(calls::save(regs, &words, &colours[..1], &bytes, &mut out[..92]).refusal, 13);
    assert_eq!(out, [7; 95]);
    assert_eq!(calls::save(regs, &words, &colours[..1], &bytes, &mut out).refusal, 0);
    assert_eq!((&out[..93], &out[93..]), (&image[..], &[7; 2][..]));
    assert_eq!(calls::save(Regs { phase: 3, ..regs }, &words, &colours[..1], &bytes, &mut out).refusal, 10);
    assert_eq!(calls::save(regs, &words, &colours, &bytes, &mut out).refusal, 1);
    for n in [1, 2, 3, 4, 5, 6, 7, 8, 9, 10, 13] {
        assert_eq!(Refusal::of(n).unwrap().number(), n);
    }
}

/// An image of nine registers, as versions before 0.7.0 wrote it, loads with the mark at M + 1 and is saved with ten.
#[test]
fn earlier_images() {
    let mut h = Heap::new(3, 1).unwrap();
    h.allocate(0, 0).unwrap();
    h.allocate(2, 0).unwrap();
    let image = h.save();
    let earlier = [&[9][..], &image[1..40], &image[44..]].concat();
    assert_eq!((image.len(), earlier.len(), h.regs().mark), (167, 163, 3));
    let spare = Heap::load(&earlier).unwrap();
    assert_eq!(spare.regs(), Regs { mark: 4, ..h.regs() });
    assert_eq!((spare.look(2), spare.look(3)), (h.look(2), h.look(3)));
    let again = spare.save();
    assert_eq!((again[0], again[40], &again[44..]), (10, 4, &image[44..]));
    assert_eq!(Heap::load(&earlier[..162]).unwrap_err(), by(Refusal::NotWellFormed));
    assert_eq!(Heap::load(&[&earlier[..], &[0]].concat()).unwrap_err(), by(Refusal::NotWellFormed));
}

/// A small report on the largest heap: a cycle marks its blocks and sweeps those that were handed out.
#[test]
fn small_report() {
    let mut h = Heap::new(16384, 1).unwrap();
    assert_eq!(h.regs().mark, 1);
    for b in 1..11 {
        h.allocate(if b == 1 { 0 } else { b }, 0).unwrap();
    }
    while h.regs().phase != 0 {
        h.work(1).unwrap();
    }
    let cycle = h.regs().cycle;
    h.work(2 + 10 + 10).unwrap();
    assert_eq!((h.regs().mark, h.regs().phase, h.regs().cycle), (11, 0, cycle + 1));
}

/// Heaps in different threads don't meet.
#[test]
fn threads() {
    let runs: Vec<_> = (0..4)
        .map(|_| {
            std::thread::spawn(|| {
                let mut h = Heap::new(100, 8).unwrap();
                h.allocate(0, 0).unwrap();
                for _ in 0..10_000 {
                    h.allocate(2, 0).unwrap();
                }
                assert!(h.audit());
                h.regs()
            })
        })
        .collect();
    let ends: Vec<Regs> = runs.into_iter().map(|t| t.join().unwrap()).collect();
    assert!(ends.windows(2).all(|x| x[0] == x[1]));
}

/// The library is the one that the crate is for.
#[test]
fn version() {
    assert_eq!(calls::version(), 8000);
    assert!(calls::fits_library());
}
