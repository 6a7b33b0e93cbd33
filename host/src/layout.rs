//! The layout of every struct that crosses to the library, against what the library tells of it.
use std::fs;
use std::mem::{align_of, offset_of, size_of};
use std::path::Path;

use crate::raw::{
    Batch, Changed, Decided, Ended, File, Frames, Function, Number, Raised, Read, Resumed, RowFound, Stepped, eko_personality,
    eko_restore, eko_resume,
};
use crate::{RawUnwinding, Record, Regs, State};

/// One struct of each kind that a function returns, and the sizes and alignments of all.
#[repr(C)]
struct Layout {
    number: Number,
    file: File,
    function: Function,
    read: Read,
    changed: Changed,
    ended: Ended,
    row: RowFound,
    decided: Decided,
    stepped: Stepped,
    batch: Batch,
    raised: Raised,
    resumed: Resumed,
    sizes: [usize; 18],
    alignments: [usize; 18],
}

unsafe extern "C" {
    /// Every number in the structs is the offset at which the library has it, a byte that offset modulo 256. Every bool is the
    /// flag, but `chosen` is the other.
    safe fn eko_layout(flag: bool) -> Layout;
}

/// The sizes and alignments of types.
macro_rules! of_types {
    ($function:ident: $($type:ty),*) => { [$($function::<$type>()),*] };
}

/// All structs, in the library's order.
macro_rules! of_all {
    ($function:ident) => {
        of_types!(
            $function: Regs, Record, State, RawUnwinding, Frames, Number, File, Function, Read, Changed, Ended, RowFound, Decided,
            Stepped, Batch, Raised, Resumed, Layout
        )
    };
}

/// Each of these numbers of a struct is the offset that this crate has for it.
macro_rules! numbers {
    ($told:expr, $type:ty: $($first:ident $(. $further:ident)*),*) => {
        $(assert_eq!($told.$first $(.$further)* as usize, offset_of!($type, $first $(.$further)*));)*
    };
}

/// Each element of these arrays of a struct is the offset that this crate has for it.
macro_rules! elements {
    ($told:expr, $type:ty: $($first:ident $(. $further:ident)*),*) => {
        $(for (i, element) in $told.$first $(.$further)*.iter().enumerate() {
            assert_eq!(*element as usize, offset_of!($type, $first $(.$further)*) + i * size_of_val(element));
        })*
    };
}

#[test]
fn sizes_and_alignments_are_the_librarys() {
    let told = eko_layout(false);
    assert_eq!(told.sizes, of_all!(size_of));
    assert_eq!(told.alignments, of_all!(align_of));
}

#[test]
fn every_field_stands_where_the_library_has_it() {
    for flag in [false, true] {
        let told = eko_layout(flag);
        numbers!(told.number, Number: status, value);
        numbers!(told.file, File: status);
        elements!(told.file, File: regs.r);
        numbers!(told.function, Function: status, found.start, found.end, found.frame, found.handlers, found.program, found.limit);
        numbers!(told.function, Function: found.version);
        numbers!(told.read, Read: status, value, next);
        numbers!(told.changed, Changed: status, state.cfa_units, state.count);
        elements!(told.changed, Changed: state.regs, state.slots);
        numbers!(told.ended, Ended: status, state.cfa_units, state.count, after);
        elements!(told.ended, Ended: state.regs, state.slots);
        assert_eq!((told.changed.state.cfa_fp, told.ended.state.cfa_fp), (flag, flag));
        numbers!(told.row, RowFound: status, pad, action);
        numbers!(told.decided, Decided: status, reason);
        elements!(told.decided, Decided: regs.r);
    }
}

#[test]
fn every_field_of_a_walk_and_a_throw_stands_where_the_library_has_it() {
    for flag in [false, true] {
        let told = eko_layout(flag);
        elements!(told.stepped, Stepped: regs.r);
        numbers!(told.stepped, Stepped: function.start, function.end, function.frame, function.handlers, function.program);
        numbers!(told.stepped, Stepped: function.limit, number, status);
        assert_eq!(told.stepped.function.version, offset_of!(Stepped, function.version) as u8);
        elements!(told.batch, Batch: regs.r, frames.starts, frames.pcs, frames.sps);
        numbers!(told.batch, Batch: frames.count, number, status);
        assert_eq!((told.stepped.interrupted, told.batch.interrupted), (flag, flag));
        elements!(told.raised, Raised: unwinding.regs.r);
        numbers!(told.raised, Raised: unwinding.number, unwinding.exception, unwinding.chosen_number, unwinding.chosen_sp);
        numbers!(told.raised, Raised: number, sp, status, reason);
        elements!(told.resumed, Resumed: regs.r, unwinding.regs.r);
        numbers!(told.resumed, Resumed: unwinding.number, unwinding.exception, unwinding.chosen_number, unwinding.chosen_sp);
        numbers!(told.resumed, Resumed: number, status, reason);
        for unwinding in [told.raised.unwinding, told.resumed.unwinding] {
            assert_eq!((unwinding.interrupted, unwinding.chosen), (flag, !flag));
        }
    }
}

/// A struct as an argument: architecture 0 is refused with 28, and what was given comes back.
#[test]
fn structs_that_are_given_come_back() {
    for flag in [false, true] {
        let told = eko_layout(flag);
        let (state, unwinding, record) = (told.ended.state, told.resumed.unwinding, told.stepped.function);
        let restored = eko_restore(0, state, 3);
        assert_eq!((restored.status, restored.state), (28, state));
        let nothing: &[u8] = &[];
        let (at, regs) = (nothing.as_ptr(), unwinding.regs);
        // Safety: both slices are empty.
        let resumed = unsafe { eko_resume(at, 0, 8, at, 0, 8, 0, unwinding) };
        assert_eq!((resumed.status, resumed.unwinding), (28, unwinding));
        // Safety: both slices are empty.
        let decided = unsafe { eko_personality(at, 0, 8, at, 0, 8, 0, flag, 1, flag, record, regs) };
        assert_eq!((decided.status, decided.regs), (28, regs));
    }
}

/// What the sources of the library's crates declare, all in one, without what is derived.
fn library() -> String {
    let crates = fs::read_dir(Path::new(env!("CARGO_MANIFEST_DIR")).join("../crates")).expect("the crates");
    let folders = crates.map(|entry| entry.expect("a crate").path().join("src"));
    let files = folders.flat_map(|folder| fs::read_dir(folder).expect("its sources")).map(|entry| entry.expect("a file").path());
    files.filter(|file| file.extension().is_some_and(|end| end == "rt")).map(|file| fs::read_to_string(file).expect("text").lines().filter(|line| !line.starts_with("#[derive(")).map(|line| format!("{line}\n")).collect::<String>()).collect()
}

/// The names of a struct's fields, in the order in which a source declares them.
fn declared<'a>(source: &'a str, head: &str) -> Vec<&'a str> {
    let (_, rest) = source.split_once(&format!("#[repr(C)]\n{head} {{\n")).expect(head);
    let (fields, _) = rest.split_once("\n}").expect("its end");
    let lines = fields.lines().map(|line| line.trim().trim_start_matches("pub "));
    lines.filter(|line| !line.starts_with("//")).map(|line| line.split_once(':').expect("a field").0).collect()
}

/// An offset does not say which of two numbers of one width stands there: so the names, too, are compared.
#[test]
fn fields_are_declared_in_the_librarys_order() {
    let (library, ours) = (library(), [include_str!("raw.rs"), include_str!("lib.rs"), include_str!("unwinding.rs")].concat());
    let names = [
        "Regs", "Record", "State", "Frames", "Number", "File", "Function", "Read", "Changed", "Ended", "RowFound", "Decided",
        "Stepped", "Batch", "Raised", "Resumed",
    ];
    for name in names {
        let head = format!("pub struct {name}");
        assert_eq!(declared(&ours, &head), declared(&library, &head), "{name}");
    }
    assert_eq!(declared(&ours, "pub struct RawUnwinding"), declared(&library, "pub struct Unwinding"));
    assert_eq!(declared(include_str!("layout.rs"), "struct Layout"), declared(&library, "pub struct Layout"));
    assert_eq!(library.matches("#[repr(C)]\n").count(), names.len() + 2);
}
