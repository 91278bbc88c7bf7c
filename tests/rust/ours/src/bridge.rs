//! The archive's calls through `server.c` under an emulator, a server for each thread: the same symbols, so that
//! the crate groatpocket stands on them as it does on the archive.

use std::cell::RefCell;
use std::io::{Read, Write};
use std::process::{Child, ChildStdin, ChildStdout, Command, Stdio};

struct Server {
    child: Child,
    to: ChildStdin,
    from: ChildStdout,
}

impl Server {
    fn start() -> Server {
        let mut child = Command::new(env!("OURS_EMULATOR"))
            .arg(env!("OURS_SERVER"))
            .stdin(Stdio::piped())
            .stdout(Stdio::piped())
            .spawn()
            .expect("qemu-x86_64 runs");
        let (to, from) = (child.stdin.take().unwrap(), child.stdout.take().unwrap());
        Server { child, to, from }
    }
}

impl Drop for Server {
    fn drop(&mut self) {
        let _ = self.child.kill();
        let _ = self.child.wait();
    }
}

thread_local!(static SERVER: RefCell<Option<Server>> = const { RefCell::new(None) });

/// A slice lent for a call, as bytes.
pub enum Lent<'a> {
    Read(&'a [u8]),
    Changed(&'a mut [u8]),
}

impl Lent<'_> {
    fn bytes(&self) -> &[u8] {
        match self {
            Lent::Read(b) => b,
            Lent::Changed(b) => b,
        }
    }
}

/// A slice lent to be read.
///
/// SAFETY of both: u8, u32, i32 and f32 alone come here, with a slice's pointer and length.
pub unsafe fn read_only<'a, T>(at: *const T, len: usize) -> Lent<'a> {
    Lent::Read(std::slice::from_raw_parts(at.cast(), len * size_of::<T>()))
}

pub unsafe fn changed<'a, T>(at: *mut T, len: usize) -> Lent<'a> {
    Lent::Changed(std::slice::from_raw_parts_mut(at.cast(), len * size_of::<T>()))
}

fn push(out: &mut Vec<u8>, words: &[u32]) {
    for w in words {
        out.extend_from_slice(&w.to_le_bytes());
    }
}

fn received(from: &mut impl Read, n: usize) -> Vec<u8> {
    let mut bytes = vec![0; n];
    from.read_exact(&mut bytes).expect("the server answers: a call must end and not fault");
    bytes
}

fn received_words(from: &mut impl Read, n: usize) -> Vec<u32> {
    received(from, 4 * n).chunks_exact(4).map(|b| u32::from_le_bytes(b.try_into().unwrap())).collect()
}

/// Sends a call and takes its answer; a guard word changed, or a slice lent to be read, ends the run.
pub fn call(which: u32, numbers: &mut [u32], mut slices: Vec<Lent>) -> u32 {
    SERVER.with(|cell| {
        // put back only after a good answer: one that faulted is replaced
        let mut server = cell.take().unwrap_or_else(Server::start);
        let mut out = vec![];
        push(&mut out, &[which, numbers.len() as u32, slices.len() as u32]);
        push(&mut out, numbers);
        slices.iter().for_each(|s| push(&mut out, &[s.bytes().len() as u32]));
        slices.iter().for_each(|s| out.extend_from_slice(s.bytes()));
        server.to.write_all(&out).expect("the server reads");
        let answer = received_words(&mut server.from, 2);
        assert_eq!(answer[1], 1, "guard bytes around the slices of call {which} were changed");
        numbers.copy_from_slice(&received_words(&mut server.from, numbers.len()));
        let all = slices.iter().map(|s| s.bytes().len()).sum();
        let back = received(&mut server.from, all);
        let mut at = 0;
        for slice in &mut slices {
            let n = slice.bytes().len();
            match slice {
                Lent::Read(b) => assert!(**b == back[at..at + n], "a slice lent to be read was changed by call {which}"),
                Lent::Changed(b) => b.copy_from_slice(&back[at..at + n]),
            }
            at += n;
        }
        cell.replace(Some(server));
        answer[0]
    })
}

#[cfg(feature = "floats")]
pub fn many(helper: u32, xs: [&[u32]; 3], out: &mut [u32]) {
    let operand = |k: usize| xs[k][..out.len()].as_ptr();
    // SAFETY: slices of words, and as many operands as answers.
    let slices = unsafe { [0, 1, 2].map(|k| read_only(operand(k), out.len())) };
    let answers = unsafe { changed(out.as_mut_ptr(), out.len()) };
    call(0, &mut [helper], slices.into_iter().chain([answers]).collect());
}
