//! Calls the library's functions, as `bindings/c/symq.h` declares them.

#[cfg(feature = "json")]
use crate::error::Error;
use crate::error::Stop;
#[cfg(feature = "json")]
use serde_json::Value;
use std::collections::hash_map::RandomState;
use std::hash::{BuildHasher, Hasher};

mod c {
    use std::ffi::c_void;

    /// `struct symq_session`. A session whose fields are all 0 is closed.
    #[repr(C)]
    pub struct Kept {
        pub is_open: bool,
        pub kept: *mut c_void,
    }

    extern "C" {
        pub fn symq_keyed_answer(
            first_key: u64,
            second_key: u64,
            text: *const u8,
            text_length: usize,
            lines: *const u8,
            lines_length: usize,
            out: *mut u8,
            out_length: usize,
            needed: *mut usize,
        ) -> u8;
        pub fn symq_strict_keyed_answer(
            first_key: u64,
            second_key: u64,
            text: *const u8,
            text_length: usize,
            lines: *const u8,
            lines_length: usize,
            out: *mut u8,
            out_length: usize,
            needed: *mut usize,
        ) -> u8;
        pub fn symq_keyed_open(
            first_key: u64,
            second_key: u64,
            text: *const u8,
            text_length: usize,
            session: *mut Kept,
            out: *mut u8,
            out_length: usize,
            needed: *mut usize,
        ) -> u8;
        pub fn symq_strict_keyed_open(
            first_key: u64,
            second_key: u64,
            text: *const u8,
            text_length: usize,
            session: *mut Kept,
            out: *mut u8,
            out_length: usize,
            needed: *mut usize,
        ) -> u8;
        pub fn symq_ask(
            session: *mut Kept,
            lines: *const u8,
            lines_length: usize,
            out: *mut u8,
            out_length: usize,
            needed: *mut usize,
        ) -> u8;
        pub fn symq_put(
            session: *mut Kept,
            text: *const u8,
            text_length: usize,
            out: *mut u8,
            out_length: usize,
            needed: *mut usize,
        ) -> u8;
        pub fn symq_close(session: *mut Kept);
    }
}

const ROOM: usize = 1 << 16;

/// Returns the keys that maps hash with, which no writer of a graph knows: hashes by random keys of the system.
fn keys() -> (u64, u64) {
    let hash = || RandomState::new().build_hasher().finish();
    (hash(), hash())
}

/// Returns what a call writes with status 0. The call is repeated if the buffer was too small.
fn told(mut call: impl FnMut(&mut [u8], &mut usize) -> u8) -> Result<Vec<u8>, Stop> {
    let mut out = vec![0; ROOM];
    loop {
        let mut needed = 0;
        let status = call(&mut out, &mut needed);
        if needed > out.len() {
            out.resize(needed, 0);
            continue;
        }
        out.truncate(needed);
        return if status == 0 {
            Ok(out)
        } else {
            Err(Stop::new(status, &out))
        };
    }
}

fn answered(is_strict: bool, graph: &[u8], lines: &[u8]) -> Result<Vec<u8>, Stop> {
    let call = if is_strict {
        c::symq_strict_keyed_answer
    } else {
        c::symq_keyed_answer
    };
    let (first_key, second_key) = keys();
    told(|out, needed| {
        // SAFETY: each pointer and length are those of one slice, which is borrowed for the call and isn't null; `out` and `needed`
        // are borrowed alone
        unsafe {
            call(
                first_key,
                second_key,
                graph.as_ptr(),
                graph.len(),
                lines.as_ptr(),
                lines.len(),
                out.as_mut_ptr(),
                out.len(),
                needed,
            )
        }
    })
}

/// Returns the answers to query lines over the text of a graph, each with its line end.
///
/// The graph is read anew at each call, and possibly twice if the answers are long.
pub fn answer(graph: &[u8], lines: &[u8]) -> Result<Vec<u8>, Stop> {
    answered(false, graph, lines)
}

/// Returns the answers as `answer` does, by strict rules.
pub fn strict_answer(graph: &[u8], lines: &[u8]) -> Result<Vec<u8>, Stop> {
    answered(true, graph, lines)
}

/// The graph of a text, which is read once and can be queried repeatedly.
///
/// ```
/// let graph = br#"{"modules":[{"specifier":"file:///a.ts","kind":"external"}]}"#;
/// let mut session = symq::Session::open(graph)?;
/// assert_eq!(session.ask(b"[\"module\",\"file:///a.ts\"]\n")?, b"null\n");
/// # Ok::<(), symq::Stop>(())
/// ```
pub struct Session {
    kept: c::Kept,
}

// SAFETY: the state of a session may move to another thread, and a session is queried through `&mut` alone
unsafe impl Send for Session {}

impl Session {
    fn opened(is_strict: bool, graph: &[u8]) -> Result<Session, Stop> {
        let call = if is_strict {
            c::symq_strict_keyed_open
        } else {
            c::symq_keyed_open
        };
        let mut session = Session {
            kept: c::Kept {
                is_open: false,
                kept: std::ptr::null_mut(),
            },
        };
        let (first_key, second_key) = keys();
        told(|out, needed| {
            // SAFETY: as of `answered`; the session is borrowed alone, and is closed or as a call left it
            unsafe {
                call(
                    first_key,
                    second_key,
                    graph.as_ptr(),
                    graph.len(),
                    &mut session.kept,
                    out.as_mut_ptr(),
                    out.len(),
                    needed,
                )
            }
        })?;
        Ok(session)
    }

    /// Reads and checks a graph. Returns a session that answers by Deno's rules.
    pub fn open(graph: &[u8]) -> Result<Session, Stop> {
        Session::opened(false, graph)
    }

    /// Opens a session as `open` does, by strict rules.
    pub fn strict(graph: &[u8]) -> Result<Session, Stop> {
        Session::opened(true, graph)
    }

    /// Returns the answers to query lines, each with its line end.
    pub fn ask(&mut self, lines: &[u8]) -> Result<Vec<u8>, Stop> {
        told(|out, needed| {
            // SAFETY: as of `answered`; the session is borrowed alone, and is as a call left it
            unsafe {
                c::symq_ask(
                    &mut self.kept,
                    lines.as_ptr(),
                    lines.len(),
                    out.as_mut_ptr(),
                    out.len(),
                    needed,
                )
            }
        })
    }

    /// Puts a module in place of the one of its specifier, or after all. The session then answers as one opened anew.
    ///
    /// The text is that of a graph with this module alone, its resolutions, and no redirect. They replace all resolutions of that
    /// module. After an error the session is as before.
    ///
    /// ```
    /// let mut session = symq::Session::open(b"{}")?;
    /// session.put(br#"{"modules":[{"specifier":"file:///a.json","kind":"json","text":"1"}]}"#)?;
    /// assert_eq!(session.ask(b"[\"module\",\"file:///a.json\"]\n")?, b"{\"module\":\"file:///a.json\"}\n");
    /// # Ok::<(), symq::Stop>(())
    /// ```
    pub fn put(&mut self, module: &[u8]) -> Result<(), Stop> {
        told(|out, needed| {
            // SAFETY: as of `ask`
            unsafe {
                c::symq_put(
                    &mut self.kept,
                    module.as_ptr(),
                    module.len(),
                    out.as_mut_ptr(),
                    out.len(),
                    needed,
                )
            }
        })
        .map(|_| ())
    }

    /// Returns the answers to queries as values, one for each.
    #[cfg(feature = "json")]
    pub fn ask_values(&mut self, queries: &[Value]) -> Result<Vec<Value>, Error> {
        values_of(&self.ask(lines_of(queries).as_bytes())?)
    }
}

impl Drop for Session {
    fn drop(&mut self) {
        // SAFETY: the session is borrowed alone, is as a call left it, and isn't used again
        unsafe { c::symq_close(&mut self.kept) }
    }
}

#[cfg(feature = "json")]
fn lines_of(queries: &[Value]) -> String {
    queries.iter().map(|it| format!("{it}\n")).collect()
}

#[cfg(feature = "json")]
fn values_of(answers: &[u8]) -> Result<Vec<Value>, Error> {
    answers
        .split_inclusive(|&byte| byte == b'\n')
        .map(|it| serde_json::from_slice(it).map_err(Error::Json))
        .collect()
}

/// Returns the answers to queries of `docs/QUERIES.md` as values, one for each.
///
/// The graph is read as by `answer`.
#[cfg(feature = "json")]
pub fn answer_values(graph: &[u8], queries: &[Value]) -> Result<Vec<Value>, Error> {
    values_of(&answer(graph, lines_of(queries).as_bytes())?)
}

/// Returns the answers as `answer_values` does, by strict rules.
#[cfg(feature = "json")]
pub fn strict_answer_values(graph: &[u8], queries: &[Value]) -> Result<Vec<Value>, Error> {
    values_of(&strict_answer(graph, lines_of(queries).as_bytes())?)
}
