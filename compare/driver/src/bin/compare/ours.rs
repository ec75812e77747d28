//! Our monitor: linked from its archive, or run as a program.

use std::io::Write;
use std::path::PathBuf;
use std::process::{Command, Stdio};
use std::thread;

pub enum Ours {
    #[cfg(archive)]
    Archive,
    Program(PathBuf),
}

/// Bytes that the monitor must leave as they are.
#[cfg(archive)]
const MARK: u8 = 0xa5;
/// Room beyond the report.
#[cfg(archive)]
const BEYOND: usize = 32;

/// A report's function in the archive.
#[cfg(archive)]
type Function = unsafe extern "C" fn(input: *const u8, input_len: u64, report: *mut u8, report_len: u64) -> u64;

#[cfg(archive)]
extern "C" {
    fn binefdar_report(input: *const u8, input_len: u64, report: *mut u8, report_len: u64) -> u64;
    fn binefdar_report_strict(input: *const u8, input_len: u64, report: *mut u8, report_len: u64) -> u64;
    fn binefdar_report_lasting(input: *const u8, input_len: u64, report: *mut u8, report_len: u64) -> u64;
    fn binefdar_report_lasting_strict(input: *const u8, input_len: u64, report: *mut u8, report_len: u64) -> u64;
}

/// How a book is loaded.
#[derive(Clone, Copy)]
pub enum Way {
    Ordinary,
    Strict,
    Lasting,
    LastingStrict,
}

impl Way {
    #[cfg(archive)]
    fn function(self) -> Function {
        match self {
            Way::Ordinary => binefdar_report,
            Way::Strict => binefdar_report_strict,
            Way::Lasting => binefdar_report_lasting,
            Way::LastingStrict => binefdar_report_lasting_strict,
        }
    }

    /// What stands before a difference.
    fn said(self) -> &'static str {
        match self {
            Way::Ordinary => "",
            Way::Strict => "loaded strictly: ",
            Way::Lasting => "in the lasting way: ",
            Way::LastingStrict => "in the lasting way, loaded strictly: ",
        }
    }
}

impl Ours {
    /// A program loads in one way, the ordinary one, and is asked in no other.
    pub fn has_every_way(&self) -> bool {
        !matches!(self, Ours::Program(_))
    }

    /// Compares every byte with the report expected in a way; in words, what differs first.
    pub fn held_to(&self, way: Way, expected: &[u8], input: &[u8]) -> Result<(), String> {
        let held = match (self, way) {
            #[cfg(archive)]
            (Ours::Archive, way) => archive_held_to(way.function(), expected, input),
            (Ours::Program(path), Way::Ordinary) => same(expected, &program_report(path, input)?),
            (Ours::Program(_), _) => Ok(()),
        };
        held.map_err(|what| format!("{}{what}", way.said()))
    }
}

fn same(expected: &[u8], ours: &[u8]) -> Result<(), String> {
    if expected == ours {
        return Ok(());
    }
    let mut lines = expected.split(|&b| b == b'\n').zip(ours.split(|&b| b == b'\n')).enumerate();
    let show = |bytes: &[u8]| String::from_utf8_lossy(bytes).into_owned();
    Err(match lines.find(|(_, (e, o))| e != o) {
        Some((line, (e, o))) => format!("line {}: expected {:?}, ours {:?}", line + 1, show(e), show(o)),
        None => format!("expected {} bytes, ours {}", expected.len(), ours.len()),
    })
}

/// The report in a buffer with room to spare, and in one that just fits or is too short.
#[cfg(archive)]
fn archive_held_to(function: Function, expected: &[u8], input: &[u8]) -> Result<(), String> {
    let room = expected.len() + BEYOND;
    let (length, bytes) = archive_report(function, input, room);
    if length == u64::MAX {
        return Err(format!("14 in a buffer of {room} bytes for a report of {}", expected.len()));
    }
    same(expected, &bytes[..room.min(length as usize)])?;
    if bytes[expected.len()..].iter().any(|&b| b != MARK) {
        return Err("bytes after the report are changed".to_string());
    }
    narrow_room(function, expected, input)
}

/// A report as long as the buffer fits; in a shorter one the length is MAX and the buffer all zeros.
#[cfg(archive)]
fn narrow_room(function: Function, expected: &[u8], input: &[u8]) -> Result<(), String> {
    let sum = input.iter().fold(0usize, |sum, &b| sum.wrapping_mul(31).wrapping_add(usize::from(b)));
    let room = [expected.len(), expected.len() - 1, 0, sum % expected.len()][sum % 4];
    let (length, bytes) = archive_report(function, input, room);
    if bytes[room..].iter().any(|&b| b != MARK) {
        return Err(format!("bytes after a buffer of {room} bytes are changed"));
    }
    if room == expected.len() {
        if length != room as u64 {
            return Err(format!("length {length} in a buffer that just fits {room} bytes"));
        }
        return same(expected, &bytes[..room]);
    }
    if length != u64::MAX || bytes[..room].iter().any(|&b| b != 0) {
        return Err(format!("a buffer of {room} bytes for a report of {}: length {length}", expected.len()));
    }
    Ok(())
}

/// What the archive's function hands back, and the buffer with the bytes beyond it.
#[cfg(archive)]
fn archive_report(function: Function, input: &[u8], room: usize) -> (u64, Vec<u8>) {
    let mut bytes = vec![MARK; room + BEYOND];
    // SAFETY: the pointers and lengths are those of a slice and of the first `room` bytes of a vector.
    let length = unsafe { function(input.as_ptr(), input.len() as u64, bytes.as_mut_ptr(), room as u64) };
    (length, bytes)
}

fn program_report(path: &PathBuf, input: &[u8]) -> Result<Vec<u8>, String> {
    let failed = |e: std::io::Error| format!("{}: {e}", path.display());
    let mut child = Command::new(path).stdin(Stdio::piped()).stdout(Stdio::piped()).spawn().map_err(failed)?;
    let mut stdin = child.stdin.take().expect("standard input is piped");
    let input = input.to_vec();
    // A program may end before it has read all of a text that is too long.
    let writer = thread::spawn(move || drop(stdin.write_all(&input)));
    let output = child.wait_with_output().map_err(failed)?;
    writer.join().expect("the writer ends");
    if output.status.success() {
        Ok(output.stdout)
    } else {
        Err(format!("{}: {}", path.display(), output.status))
    }
}
