//! Landtree in a Rust program: a tree of files in memory whose clients confine themselves by Landlock's rules.
//!
//! Each function takes texts and returns a text, and keeps nothing. docs/EMBEDDING.md says what each answers.

use std::fmt;

mod ffi {
    extern "C" {
        pub fn landtree_version() -> u32;
        pub fn landtree_run(
            level: u64, nodes: usize, history: usize, strict: u32, policy: *const u8, policy_length: usize,
            profile: *const u8, profile_length: usize, script: *const u8, script_length: usize, out: *mut u8,
            capacity: usize, length: *mut usize,
        ) -> u32;
        pub fn landtree_history(
            level: u64, nodes: usize, history: usize, policy: *const u8, policy_length: usize, profile: *const u8,
            profile_length: usize, script: *const u8, script_length: usize, out: *mut u8, capacity: usize,
            length: *mut usize,
        ) -> u32;
        pub fn landtree_policy(
            policy: *const u8, policy_length: usize, out: *mut u8, capacity: usize, length: *mut usize,
        ) -> u32;
        pub fn landtree_audit(
            history: *const u8, history_length: usize, out: *mut u8, capacity: usize, length: *mut usize,
        ) -> u32;
        pub fn landtree_learn(
            client: u64, most: usize, never: *const u8, never_length: usize, beneath: *const u8,
            beneath_length: usize, name: *const u8, name_length: usize, history: *const u8, history_length: usize,
            out: *mut u8, capacity: usize, length: *mut usize,
        ) -> u32;
        pub fn landtree_why_entry(
            number: usize, history: *const u8, history_length: usize, out: *mut u8, capacity: usize,
            length: *mut usize,
        ) -> u32;
        pub fn landtree_why(
            nodes: usize, policy: *const u8, policy_length: usize, profile: *const u8, profile_length: usize,
            command: *const u8, command_length: usize, out: *mut u8, capacity: usize, length: *mut usize,
        ) -> u32;
        pub fn landtree_rights(
            nodes: usize, form: u32, policy: *const u8, policy_length: usize, profile: *const u8,
            profile_length: usize, paths: *const u8, paths_length: usize, out: *mut u8, capacity: usize,
            length: *mut usize,
        ) -> u32;
        pub fn landtree_check(
            level: u64, nodes: usize, form: u32, policy: *const u8, policy_length: usize, profile: *const u8,
            profile_length: usize, name: *const u8, name_length: usize, checks: *const u8, checks_length: usize,
            out: *mut u8, capacity: usize, length: *mut usize,
        ) -> u32;
    }
}

/// The version of the functions that this crate declares.
pub const VERSION: u32 = 1;

/// The status of an answer that the buffer has no room for.
const TOO_SHORT: u32 = 5;

/// An answer: a text, and whether it tells of an end before the script's, of a history that is illegal or teaches
/// nothing, or of a check that doesn't pass.
#[derive(Clone, Debug, PartialEq, Eq)]
pub struct Answer {
    pub text: Vec<u8>,
    pub is_ended: bool,
}

/// Why there is no answer: the status, and words for people.
#[derive(Clone, Debug, PartialEq, Eq)]
pub struct Fault {
    pub status: u32,
    pub words: String,
}

impl fmt::Display for Fault {
    fn fmt(&self, f: &mut fmt::Formatter<'_>) -> fmt::Result {
        f.write_str(self.words.trim_end())
    }
}

impl std::error::Error for Fault {}

/// What a tree is set up with. The level 0 is the newest one, a history of 0 has the room that the script may need, and
/// an empty policy or profile isn't given.
#[derive(Clone, Copy, Debug)]
pub struct Setup<'a> {
    pub level: u64,
    pub nodes: usize,
    pub history: usize,
    pub policy: &'a [u8],
    pub profile: &'a str,
}

impl Default for Setup<'_> {
    fn default() -> Self {
        Setup { level: 0, nodes: 4096, history: 0, policy: b"", profile: "" }
    }
}

/// What is learned from a saved history. The client 0 is the second that connects, or the only one; of 0 rules it is
/// 256 that a profile may have; an empty name stands for `learned`.
#[derive(Clone, Copy, Debug, Default)]
pub struct Lesson<'a> {
    pub client: u64,
    /// The most rules.
    pub most: usize,
    /// Rights that no rule may grant, with commas between.
    pub never: &'a str,
    /// Directories whose rules grant what is needed below them.
    pub beneath: &'a [&'a str],
    /// The profile's name.
    pub name: &'a str,
}

/// A policy, one of its profiles, and how many nodes the tree has room for.
#[derive(Clone, Copy, Debug)]
pub struct Asked<'a> {
    pub policy: &'a [u8],
    pub profile: &'a str,
    pub nodes: usize,
}

impl<'a> Asked<'a> {
    /// Returns the profile of the policy, in a tree with the most nodes.
    pub fn new(policy: &'a [u8], profile: &'a str) -> Self {
        Asked { policy, profile, nodes: 4096 }
    }
}

/// The form of a table of rights: what is written of a path.
#[derive(Clone, Copy, Debug, PartialEq, Eq)]
pub enum TableForm {
    /// A line with the rights that all layers grant.
    Usual = 0,
    /// And with a column for each layer.
    Layers = 1,
    /// An object of JSON on a line, with all layers.
    Json = 2,
}

/// The form of a report on checks.
#[derive(Clone, Copy, Debug, PartialEq, Eq)]
pub enum ReportForm {
    /// Lines of text: the tests that fail, and the sum.
    Usual = 0,
    /// The sum alone.
    Quiet = 1,
    /// All tests, and the sum.
    Verbose = 2,
    /// TAP, version 14.
    Tap = 3,
    /// JUnit's XML.
    Junit = 4,
    /// An object of JSON for each test, and one with the sums.
    Json = 5,
}

// Calls with a buffer until that has room for the answer.
fn ask(call: impl Fn(*mut u8, usize, *mut usize) -> u32) -> Result<Answer, Fault> {
    let mut text = vec![0; 4096];
    loop {
        let mut length = 0;
        let status = call(text.as_mut_ptr(), text.len(), &mut length);
        if status == TOO_SHORT {
            text.resize(length, 0);
            continue;
        }
        text.truncate(length);
        return match status {
            0 | 3 => Ok(Answer { text, is_ended: status == 3 }),
            status => Err(Fault { status, words: String::from_utf8_lossy(&text).into_owned() }),
        };
    }
}

/// Returns the version of the library's functions.
pub fn version() -> u32 {
    // SAFETY: it takes nothing.
    unsafe { ffi::landtree_version() }
}

/// Runs the script, and returns its transcript. A strict run ends as the program's does with `--strict`.
pub fn run(setup: Setup<'_>, script: &[u8], is_strict: bool) -> Result<Answer, Fault> {
    let Setup { level, nodes, history, policy, profile } = setup;
    // SAFETY: each pointer is a slice's, with its length; the buffer and the length are `ask`'s own.
    ask(|out, capacity, length| unsafe {
        ffi::landtree_run(
            level, nodes, history, is_strict.into(), policy.as_ptr(), policy.len(), profile.as_ptr(), profile.len(),
            script.as_ptr(), script.len(), out, capacity, length,
        )
    })
}

/// Runs the script, and returns the run's saved history.
pub fn history(setup: Setup<'_>, script: &[u8]) -> Result<Answer, Fault> {
    let Setup { level, nodes, history, policy, profile } = setup;
    // SAFETY: as above.
    ask(|out, capacity, length| unsafe {
        ffi::landtree_history(
            level, nodes, history, policy.as_ptr(), policy.len(), profile.as_ptr(), profile.len(), script.as_ptr(),
            script.len(), out, capacity, length,
        )
    })
}

/// Reports whether the text is a policy. The fault has the words on its first one.
pub fn check_policy(policy: &[u8]) -> Result<(), Fault> {
    // SAFETY: as above.
    ask(|out, capacity, length| unsafe {
        ffi::landtree_policy(policy.as_ptr(), policy.len(), out, capacity, length)
    })
    .map(|_| ())
}

/// Judges a saved history.
pub fn audit(history: &[u8]) -> Result<Answer, Fault> {
    // SAFETY: as above.
    ask(|out, capacity, length| unsafe {
        ffi::landtree_audit(history.as_ptr(), history.len(), out, capacity, length)
    })
}

/// Learns a profile for what a client did in a saved history, with no right to spare. Where nothing is learned, the
/// answer has one line on why.
pub fn learn(lesson: Lesson<'_>, history: &[u8]) -> Result<Answer, Fault> {
    let Lesson { client, most, never, beneath, name } = lesson;
    let beneath = beneath.join("\n");
    // SAFETY: as above.
    ask(|out, capacity, length| unsafe {
        ffi::landtree_learn(
            client, most, never.as_ptr(), never.len(), beneath.as_ptr(), beneath.len(), name.as_ptr(), name.len(),
            history.as_ptr(), history.len(), out, capacity, length,
        )
    })
}

/// Tells why the entry with this number, from 1, of a saved history was answered so.
pub fn why_entry(history: &[u8], number: usize) -> Result<Answer, Fault> {
    // SAFETY: as above.
    ask(|out, capacity, length| unsafe {
        ffi::landtree_why_entry(number, history.as_ptr(), history.len(), out, capacity, length)
    })
}

/// Tells why the profile's command is answered as it is: of one or more commands, one a line, the last one.
pub fn why(asked: Asked<'_>, commands: &str) -> Result<Answer, Fault> {
    let Asked { policy, profile, nodes } = asked;
    // SAFETY: as above.
    ask(|out, capacity, length| unsafe {
        ffi::landtree_why(
            nodes, policy.as_ptr(), policy.len(), profile.as_ptr(), profile.len(), commands.as_ptr(), commands.len(),
            out, capacity, length,
        )
    })
}

/// Tells which rights the profile is granted: a line for each path, or without paths for each node of the policy.
pub fn rights(asked: Asked<'_>, form: TableForm, paths: &[&str]) -> Result<Answer, Fault> {
    let Asked { policy, profile, nodes } = asked;
    if paths.iter().any(|path| path.contains('\n')) {
        return Err(Fault { status: 2, words: "landtree: not a path\n".into() });
    }
    let lines: String = paths.iter().flat_map(|path| [*path, "\n"]).collect();
    // SAFETY: as above.
    ask(|out, capacity, length| unsafe {
        ffi::landtree_rights(
            nodes, form as u32, policy.as_ptr(), policy.len(), profile.as_ptr(), profile.len(), lines.as_ptr(),
            lines.len(), out, capacity, length,
        )
    })
}

/// Checks the file of checks with this name and this text, each section in a tree of its own. The setup's history isn't
/// used: its room is what the tests need.
pub fn check(setup: Setup<'_>, name: &str, checks: &[u8], form: ReportForm) -> Result<Answer, Fault> {
    let Setup { level, nodes, policy, profile, .. } = setup;
    // SAFETY: as above.
    ask(|out, capacity, length| unsafe {
        ffi::landtree_check(
            level, nodes, form as u32, policy.as_ptr(), policy.len(), profile.as_ptr(), profile.len(), name.as_ptr(),
            name.len(), checks.as_ptr(), checks.len(), out, capacity, length,
        )
    })
}
