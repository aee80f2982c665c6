//! A sorted map whose code is proved. Equal keys are allowed, and each entry has a pointer that stays valid while other entries come and go.
//!
//! ```
//! use topscedar::SortedArena;
//!
//! let mut sessions = SortedArena::new()?;
//! let token = sessions.insert(100, "ann")?;
//! sessions.insert(90, "bob")?;
//! sessions.rekey(token, 80)?;
//! assert_eq!(sessions.iter().map(|entry| *entry.value).collect::<Vec<_>>(), ["ann", "bob"]);
//! # Ok::<(), topscedar::Error>(())
//! ```

#![warn(missing_docs)]

mod arena;
mod error;
mod iter;
mod key;
mod pointer;
mod raw;

pub use arena::SortedArena;
pub use error::Error;
pub use iter::{Drain, Iter, IterMut, PopUntil};
pub use key::Key;
pub use pointer::{Entry, Pointer};

/// Runs a script on an empty arena. Returns the exit status of the program `ordrun` and the answer.
pub fn run(script: &[u8]) -> (u8, Vec<u8>) {
    let mut out = vec![0; 4096];
    loop {
        let mut length = 0;
        let room = out.len();
        // Safety: both slices have the lengths that are passed.
        let status = unsafe {
            raw::topscedar_run(
                script.as_ptr(),
                script.len(),
                out.as_mut_ptr(),
                room,
                &mut length,
            )
        };
        out.resize(length, 0);
        if length <= room {
            return (status, out);
        }
    }
}
