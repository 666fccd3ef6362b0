//! The tree of a Tera template as text or as JSON, or its fault or layout, and what is found in several templates, by
//! the proved static library in this crate.
//!
//! ```
//! use tera_parser::{Error, Source};
//!
//! let json = Source::new("Hi {{ user.name }}").json()?;
//! assert!(json.starts_with(r#"{"parent":null"#));
//!
//! let Err(Error::Fault(fault)) = Source::new("{{ a b }}").tree() else { panic!("it has a tree") };
//! assert_eq!((fault.span.start_line, fault.span.start_col), (1, 5));
//! # Ok::<(), Error>(())
//! ```
//!
//! Nothing is kept from one call to the next. Calls may run in several threads at the same time.

use std::fmt;

/// How far a template may go, as `tera.h` says.
#[repr(C)]
#[derive(Clone, Copy, Debug, PartialEq, Eq)]
pub struct Limits {
    pub depth: usize,
    pub links: usize,
    pub subscripts: usize,
    pub arrays: usize,
    pub bodies: usize,
}

impl Default for Limits {
    fn default() -> Limits {
        Limits { depth: 40, links: 256, subscripts: 4, arrays: 2, bodies: 40 }
    }
}

/// A place: lines from 1, columns from 0 in characters, and the range in bytes.
#[repr(C)]
#[derive(Clone, Copy, Debug, Default, PartialEq, Eq)]
pub struct Span {
    pub start_line: usize,
    pub start_col: usize,
    pub end_line: usize,
    pub end_col: usize,
    pub start: usize,
    pub end: usize,
}

#[repr(C)]
#[derive(Clone, Copy, Default)]
struct RawFault {
    span: Span,
    notes: usize,
}

#[repr(C)]
struct RawFile {
    name: *const u8,
    name_length: usize,
    bytes: *const u8,
    length: usize,
}

// A call that writes a text of the tree.
type TreeCall = unsafe extern "C" fn(
    *const u8, usize, *const u8, usize, &Limits, *mut u8, usize, &mut usize,
) -> u32;

unsafe extern "C" {
    fn tera_c_tree(
        source: *const u8, source_length: usize, markers: *const u8, markers_length: usize, limits: &Limits,
        text: *mut u8, text_length: usize, needed: &mut usize,
    ) -> u32;
    fn tera_c_json(
        source: *const u8, source_length: usize, markers: *const u8, markers_length: usize, limits: &Limits,
        text: *mut u8, text_length: usize, needed: &mut usize,
    ) -> u32;
    fn tera_c_fault(
        source: *const u8, source_length: usize, markers: *const u8, markers_length: usize, limits: &Limits,
        text: *mut u8, text_length: usize, needed: &mut usize, fault: &mut RawFault,
    ) -> u32;
    fn tera_c_note(
        source: *const u8, source_length: usize, markers: *const u8, markers_length: usize, limits: &Limits,
        index: usize, text: *mut u8, text_length: usize, needed: &mut usize, span: &mut Span,
    ) -> u32;
    fn tera_c_format(
        source: *const u8, source_length: usize, markers: *const u8, markers_length: usize, text: *mut u8,
        text_length: usize, needed: &mut usize,
    ) -> u32;
    fn tera_c_check(
        files: *const RawFile, count: usize, checked: usize, faults: usize, text: *mut u8, text_length: usize,
        needed: &mut usize,
    ) -> u32;
    fn tera_c_components(
        files: *const RawFile, count: usize, text: *mut u8, text_length: usize, needed: &mut usize,
    ) -> u32;
    fn tera_c_mend(
        file: &RawFile, faults: usize, text: *mut u8, text_length: usize, needed: &mut usize,
    ) -> u32;
}

/// Why a source has no tree: a message, its place, and notes on other places.
#[derive(Clone, Debug, PartialEq, Eq)]
pub struct Fault {
    pub message: String,
    pub span: Span,
    pub notes: Vec<Note>,
}

/// Another place that a fault is about, and what is there.
#[derive(Clone, Debug, PartialEq, Eq)]
pub struct Note {
    pub label: String,
    pub span: Span,
}

/// Why there is no answer.
#[derive(Clone, Debug, PartialEq, Eq)]
#[non_exhaustive]
pub enum Error {
    /// The source has a fault, so it has no tree.
    Fault(Fault),
    NotUtf8,
    BadMarkers,
    BadLimits,
    NoMemory,
}

impl fmt::Display for Fault {
    /// `LINE:COLUMN: MESSAGE`, where both count from 1.
    fn fmt(&self, f: &mut fmt::Formatter<'_>) -> fmt::Result {
        write!(f, "{}:{}: {}", self.span.start_line, self.span.start_col + 1, self.message)
    }
}

impl fmt::Display for Error {
    fn fmt(&self, f: &mut fmt::Formatter<'_>) -> fmt::Result {
        match self {
            Error::Fault(fault) => fault.fmt(f),
            Error::NotUtf8 => f.write_str("not UTF-8"),
            Error::BadMarkers => f.write_str("no markers of a template"),
            Error::BadLimits => f.write_str("no limits of a template"),
            Error::NoMemory => f.write_str("out of memory"),
        }
    }
}

impl std::error::Error for Fault {}

impl std::error::Error for Error {}

/// A source, its six markers of two bytes one after the other, and its limits.
#[derive(Clone, Copy, Debug)]
pub struct Source<'a> {
    pub bytes: &'a [u8],
    pub markers: &'a str,
    pub limits: Limits,
}

impl<'a> Source<'a> {
    /// The source, a text or its bytes, between the usual markers and within the usual limits.
    pub fn new<T: AsRef<[u8]> + ?Sized>(source: &'a T) -> Source<'a> {
        Source { bytes: source.as_ref(), markers: "{%%}{{}}{##}", limits: Limits::default() }
    }

    /// The text of its tree.
    pub fn tree(&self) -> Result<String, Error> {
        self.of_tree(tera_c_tree, 2)
    }

    /// The JSON of its tree.
    pub fn json(&self) -> Result<String, Error> {
        self.of_tree(tera_c_json, 12)
    }

    /// Its fault, or `None` if it has a tree.
    pub fn fault(&self) -> Result<Option<Fault>, Error> {
        let (bytes, markers) = (self.bytes, self.markers);
        let mut raw = RawFault::default();
        let (status, message) = written(512, |text, needed| unsafe {
            tera_c_fault(
                bytes.as_ptr(), bytes.len(), markers.as_ptr(), markers.len(), &self.limits,
                text.as_mut_ptr(), text.len(), needed, &mut raw,
            )
        });
        match status {
            0 => {
                let notes = (0..raw.notes).map(|index| self.note(index)).collect::<Result<_, _>>()?;
                Ok(Some(Fault { message, span: raw.span, notes }))
            }
            3 => Ok(None),
            _ => Err(error_of(status)),
        }
    }

    /// Its layout; a fault if a token of it is faulty or a tag has no end. The limits are not read.
    pub fn format(&self) -> Result<String, Error> {
        let (bytes, markers) = (self.bytes, self.markers);
        let (status, text) = written(512 + 2 * bytes.len(), |text, needed| unsafe {
            tera_c_format(
                bytes.as_ptr(), bytes.len(), markers.as_ptr(), markers.len(), text.as_mut_ptr(), text.len(), needed,
            )
        });
        match status {
            0 => Ok(text),
            2 => Err(self.fault()?.map_or(Error::NoMemory, Error::Fault)),
            _ => Err(error_of(status)),
        }
    }

    // What this call writes of the tree, which is seldom longer than so many times the source.
    fn of_tree(&self, call: TreeCall, times: usize) -> Result<String, Error> {
        let (bytes, markers) = (self.bytes, self.markers);
        let (status, text) = written(512 + times * bytes.len(), |text, needed| unsafe {
            call(
                bytes.as_ptr(), bytes.len(), markers.as_ptr(), markers.len(), &self.limits,
                text.as_mut_ptr(), text.len(), needed,
            )
        });
        match status {
            0 => Ok(text),
            // The same source has no tree again, so there is a fault, unless memory ran out.
            2 => Err(self.fault()?.map_or(Error::NoMemory, Error::Fault)),
            _ => Err(error_of(status)),
        }
    }

    fn note(&self, index: usize) -> Result<Note, Error> {
        let (bytes, markers) = (self.bytes, self.markers);
        let mut span = Span::default();
        let (status, label) = written(512, |text, needed| unsafe {
            tera_c_note(
                bytes.as_ptr(), bytes.len(), markers.as_ptr(), markers.len(), &self.limits,
                index, text.as_mut_ptr(), text.len(), needed, &mut span,
            )
        });
        if status == 0 { Ok(Note { label, span }) } else { Err(error_of(status)) }
    }
}

/// A template and the name of its file.
#[derive(Clone, Copy, Debug)]
pub struct File<'a> {
    pub name: &'a str,
    pub bytes: &'a [u8],
}

/// How many faults of a file the program finds at most.
pub const USUAL_FAULTS: usize = 100;

/// What is found in the files, an object of JSON a line. Components of the library may be called, and only its faults
/// are found. At most so many faults are found in each file, as [`USUAL_FAULTS`]; with 0 it is the first fault of a
/// file, and nothing else in it.
pub fn check(files: &[File<'_>], library: &[File<'_>], faults: usize) -> Result<String, Error> {
    let raw: Vec<RawFile> = files.iter().chain(library).map(RawFile::of).collect();
    text_of(written(4096 + 512 * raw.len() + length_of(&raw), |text, needed| unsafe {
        tera_c_check(raw.as_ptr(), raw.len(), files.len(), faults, text.as_mut_ptr(), text.len(), needed)
    }))
}

/// The components that the files define, as an array of JSON.
pub fn components(files: &[File<'_>]) -> Result<String, Error> {
    let raw: Vec<RawFile> = files.iter().map(RawFile::of).collect();
    text_of(written(4096 + 12 * length_of(&raw), |text, needed| unsafe {
        tera_c_components(raw.as_ptr(), raw.len(), text.as_mut_ptr(), text.len(), needed)
    }))
}

/// The tree of the file, whatever faults it has, and these, as an object of JSON: `tree`, which is null if there is
/// none; `faults`, which are objects as those of [`check`]; and `more`, which is true if there are more faults. At most
/// so many are found, as [`USUAL_FAULTS`]; with 0 it is the first fault, and no tree beside it.
pub fn mend(file: &File<'_>, faults: usize) -> Result<String, Error> {
    let raw = RawFile::of(file);
    text_of(written(4096 + 12 * file.bytes.len(), |text, needed| unsafe {
        tera_c_mend(&raw, faults, text.as_mut_ptr(), text.len(), needed)
    }))
}

impl RawFile {
    fn of(file: &File<'_>) -> RawFile {
        RawFile {
            name: file.name.as_ptr(),
            name_length: file.name.len(),
            bytes: file.bytes.as_ptr(),
            length: file.bytes.len(),
        }
    }
}

// The length of these templates together.
fn length_of(files: &[RawFile]) -> usize {
    files.iter().map(|it| it.length).sum()
}

fn text_of((status, text): (u32, String)) -> Result<String, Error> {
    if status == 0 { Ok(text) } else { Err(error_of(status)) }
}

fn error_of(status: u32) -> Error {
    match status {
        4 => Error::NotUtf8,
        5 => Error::BadMarkers,
        6 => Error::BadLimits,
        _ => Error::NoMemory,
    }
}

// The status of a call and the text that it writes. It is made again if the text does not fit the room.
fn written(room: usize, mut call: impl FnMut(&mut [u8], &mut usize) -> u32) -> (u32, String) {
    let mut text = Vec::new();
    let mut room = room;
    loop {
        if text.try_reserve_exact(room).is_err() {
            return (7, String::new());
        }
        text.resize(room, 0);
        let mut needed = 0;
        let status = call(&mut text, &mut needed);
        if status != 1 {
            text.truncate(needed);
            return (status, String::from_utf8(text).unwrap_or_default());
        }
        (text, room) = (Vec::new(), needed);
    }
}
