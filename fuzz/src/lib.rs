//! Random cases for the line watch, what they must show, and how a case that fails is made small and saved. The program beside it (`main.rs`) has the C
//! entries; here they are parameters, so that the tests can put wrong ones in their place. Another (`bin/calls.rs`) puts looks and takes to a program.
//! A model (`model.rs`) tells where a bad word is bad for a thread that is started while it runs, and for nothing else, which rows a tick touches, how often
//! each letter was met, and where a tick is beyond a limit.

#[cfg(test)]
mod branches;
pub mod calls;
pub mod compare;
pub mod follow;
pub mod grow;
pub mod limited;
pub mod limits;
pub mod model;
pub mod opened;
pub mod past;
pub mod random;
pub mod rows;
pub mod save;
pub mod several;
pub mod shrink;
pub mod threads;
pub mod totals;
pub mod windows;

/// A rule text and a trace. For looks and takes (calls.rs), the bytes of the calls stand in the place of the trace.
#[derive(Clone, Debug, PartialEq, Eq)]
pub struct Case {
    pub text: Vec<u8>,
    pub trace: Vec<u8>,
}
