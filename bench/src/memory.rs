//! What a node and the library take: the bytes of a head and of what is lent, those of the
//! original's node, the deepest stack, the code.

use crate::ffi;
use crate::stack;
use std::process::Command;

/// Numbers of bytes.
pub struct Facts {
    pub head: usize,
    pub lent: usize,
    /// Of the original's node: itself, and what it has on the heap behind its start.
    pub theirs: (usize, usize),
    pub deepest: (usize, &'static str),
    /// The code of the archive; none where `size` can't be run.
    pub code: Option<usize>,
}

pub fn facts() -> Facts {
    let before = heap();
    let node = theirs::fresh();
    let boxed = size_of_val(&*node);
    let theirs = (theirs::size(), heap().saturating_sub(before + boxed));
    Facts {
        head: size_of::<ffi::Head>(),
        lent: size_of::<ffi::Memory>(),
        theirs,
        deepest: stack::deepest(),
        code: code(),
    }
}

#[repr(C)]
#[derive(Default)]
struct Mallinfo2 {
    before_used: [usize; 7],
    used: usize,
    behind_used: [usize; 2],
}

unsafe extern "C" {
    fn mallinfo2() -> Mallinfo2;
}

/// The bytes of the heap in use.
fn heap() -> usize {
    // SAFETY: it only reads.
    unsafe { mallinfo2() }.used
}

/// The bytes of the sections of code in the archive.
fn code() -> Option<usize> {
    let output = Command::new("size")
        .args(["-A", env!("PLCN_ARCHIVE")])
        .output()
        .ok()?;
    let text = String::from_utf8(output.stdout).ok()?;
    let of_code = |line: &str| {
        let mut words = line.split_whitespace();
        let is_code = words.next()?.starts_with(".text");
        words.next()?.parse().ok().filter(|_: &usize| is_code)
    };
    let sum: usize = text.lines().filter_map(of_code).sum();
    (sum > 0).then_some(sum)
}
