//! What the forms of rattle_std do at their edges.
use rattle_std::alloc::Global;
use rattle_std::cell::{Cell, RefCell};
use rattle_std::io::{self, BufReader, BufWriter, ErrorKind, Read, Write};
use rattle_std::path::Path;
use rattle_std::rc::Rc;
use rattle_std::simd::prelude::{u8x8, u8x16};
use rattle_std::string::{String, TextForms};
use rattle_std::vec::{SliceForms, Vec};

/// What a writer does in turn: takes so many bytes, is interrupted, or fails.
struct Odd<'a> {
    turns: RefCell<std::vec::Vec<io::Result<usize>>>,
    taken: &'a RefCell<std::vec::Vec<u8>>,
    flushes: &'a Cell<u32>,
}

impl Write for Odd<'_> {
    fn write(&mut self, bytes: &[u8]) -> io::Result<usize> {
        let count = self.turns.borrow_mut().pop().unwrap_or(Ok(usize::MAX))?.min(bytes.len());
        self.taken.borrow_mut().extend_from_slice(&bytes[..count]);
        Ok(count)
    }

    fn flush(&mut self) -> io::Result<()> {
        self.flushes.set(self.flushes.get() + 1);
        Ok(())
    }
}

/// Writes these pieces with a writer that does this in turn, then flushes it: what came of it, and what was taken.
fn written(turns: &[Result<usize, ErrorKind>], pieces: &[&[u8]]) -> (io::Result<()>, std::vec::Vec<u8>, u32) {
    let (taken, flushes) = (RefCell::default(), Cell::new(0));
    let turns = turns.iter().rev().map(|it| it.map_err(io::Error::from)).collect();
    let odd = Odd { turns: RefCell::new(turns), taken: &taken, flushes: &flushes };
    let mut writer = BufWriter::new(Global, odd).unwrap();
    let ended = pieces.iter().try_for_each(|it| writer.write_all(it)).and_then(|()| writer.flush());
    drop(writer);
    (ended, taken.into_inner(), flushes.get())
}

#[test]
fn a_writer_goes_on_behind_short_and_interrupted_writes() {
    let (ended, taken, flushes) = written(&[Ok(2), Err(ErrorKind::Interrupted), Ok(1)], &[b"abc", b"defg"]);
    assert!(ended.is_ok());
    assert_eq!(taken, b"abcdefg");
    assert_eq!(flushes, 1);
}

#[test]
fn a_writer_that_takes_nothing_fails() {
    let (ended, taken, flushes) = written(&[Ok(3), Ok(0)], &[b"abcdefg"]);
    assert_eq!(ended.unwrap_err().kind(), ErrorKind::WriteZero);
    // What is held is written when the writer is dropped, and nothing twice.
    assert_eq!((taken.as_slice(), flushes), (b"abcdefg".as_slice(), 0));
}

#[test]
fn a_writer_tells_a_failure() {
    let (ended, taken, flushes) = written(&[Ok(3), Err(ErrorKind::BrokenPipe), Err(ErrorKind::BrokenPipe)], &[b"abcdefg"]);
    assert_eq!(ended.unwrap_err().kind(), ErrorKind::BrokenPipe);
    assert_eq!((taken.as_slice(), flushes), (b"abc".as_slice(), 0));
}

#[test]
fn a_writer_holds_back_8192_bytes() {
    for count in [1, 8190, 8191, 8192, 8193, 20_000] {
        let bytes: std::vec::Vec<u8> = (0..count).map(|i| i as u8).collect();
        let (ended, taken, _) = written(&[], &[b"x", &bytes, b"y"]);
        assert!(ended.is_ok());
        assert_eq!(taken, [b"x", bytes.as_slice(), b"y"].concat());
    }
}

#[test]
fn a_reader_gives_all_bytes_in_order() {
    let bytes: std::vec::Vec<u8> = (0..100).collect();
    for room in 1..20 {
        for into in 1..25 {
            let mut reader = BufReader::with_capacity(Global, room, bytes.as_slice()).unwrap();
            let (mut found, mut piece) = (std::vec::Vec::new(), [0; 25]);
            loop {
                match reader.read(&mut piece[..into]).unwrap() {
                    0 => break,
                    count => found.extend_from_slice(&piece[..count]),
                }
            }
            assert_eq!(found, bytes, "{room} {into}");
        }
    }
}

struct Told<'a>(&'a Cell<u32>);

impl Drop for Told<'_> {
    fn drop(&mut self) {
        self.0.set(self.0.get() + 1);
    }
}

#[test]
fn an_rc_drops_its_value_once_and_with_its_last_owner() {
    let drops = Cell::new(0);
    let first = Rc::new(Global, Told(&drops)).unwrap();
    let second = first.clone().unwrap();
    let third = second.clone().unwrap();
    assert!(std::ptr::eq(&*first, &*third));
    drop(first);
    drop(third);
    assert_eq!(drops.get(), 0);
    assert_eq!(second.0.get(), 0);
    drop(second);
    assert_eq!(drops.get(), 1);
}

#[test]
fn sequences_grow() {
    let mut it = Vec::from_array(Global, [1, 2, 3]).unwrap();
    it.push(4).unwrap();
    it.insert(0, 0).unwrap();
    assert_eq!(it.as_slice(), [0, 1, 2, 3, 4]);
    let mut rest = it.split_off(3).unwrap();
    assert_eq!((it.as_slice(), rest.as_slice()), ([0, 1, 2].as_slice(), [3, 4].as_slice()));
    it.append(&mut rest).unwrap();
    assert_eq!((it.len(), rest.len()), (5, 0));
    assert_eq!(it.remove(1), 1);
    it.resize(6, 9).unwrap();
    assert_eq!(it.as_slice(), [0, 2, 3, 4, 9, 9]);
    it.resize(2, 9).unwrap();
    assert_eq!(it.clone().unwrap(), it);
    assert_eq!([7u8].to_vec_by(Global).unwrap().as_slice(), [7]);
    let vast = Vec::<u8>::with_capacity(Global, usize::MAX);
    assert!(vast.is_err());
    assert!(it.reserve(usize::MAX).is_err());
    assert!(it.try_reserve_exact(usize::MAX / 2).is_err());
    assert!(Vec::from_elem(Global, 0u64, usize::MAX / 4).is_err());
}

#[test]
fn texts_grow() {
    let mut text = String::from_str(Global, "a").unwrap();
    text.push_str("é").unwrap();
    text.write_fmt(format_args!("{:03}", 7)).unwrap();
    assert_eq!(text.as_str(), "aé007");
    assert_eq!(format!("{text:>6}"), " aé007");
    assert_eq!(12.to_string_by(Global).unwrap().as_str(), "12");
}

#[test]
fn bytes_at_once_are_as_one_by_one() {
    for byte in 0..=255u8 {
        for other in [0, 9, 32, 33, 45, 97, 127, 128, 255] {
            let (all, each) = (u8x16::splat(byte), u8x16::splat(other));
            let ones = |holds: bool| if holds { 0xffff } else { 0 };
            assert_eq!(all.simd_lt(each).to_bitmask(), ones(byte < other));
            assert_eq!(all.simd_ge(each).to_bitmask(), ones(byte >= other));
            assert_eq!(all.simd_eq(each).to_bitmask(), ones(byte == other));
            assert_eq!(all.simd_ne(each).to_bitmask(), ones(byte != other));
            assert_eq!((all | each).simd_eq(u8x16::splat(byte | other)).to_bitmask(), 0xffff);
            assert_eq!((all - each).simd_eq(u8x16::splat(byte.wrapping_sub(other))).to_bitmask(), 0xffff);
        }
    }
    let bytes: [u8; 9] = [0, 1, 2, 3, 4, 5, 6, 7, 8];
    for place in 0..8 {
        let mark = u8x8::from_slice(&bytes).simd_eq(u8x8::splat(place));
        assert_eq!(mark.to_bitmask(), 1 << place);
        assert_eq!((mark | mark).to_bitmask(), (mark & mark).to_bitmask());
        assert_eq!((mark & u8x8::from_slice(&bytes).simd_ne(u8x8::splat(place))).to_bitmask(), 0);
    }
}

#[test]
fn paths_have_folders() {
    let folder = |path| Path::new(path).parent().map(Path::as_str);
    assert_eq!(folder("a/b.disk"), Some("a"));
    assert_eq!(folder("/a"), Some("/"));
    assert_eq!(folder("a"), Some(""));
    assert_eq!(folder("/"), None);
    assert_eq!(folder(""), None);
}
