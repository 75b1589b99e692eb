//! From a readable table to a trace, and from a rule text, a trace and its sheet to a waveform and to a table of the totals.
//!
//! 1. `library` calls the proved library: the sheet of a text and a trace, and the record of a word.
//! 2. `rules` asks it whether a text is accepted, and then reads the names of wires and monitors; `refusals` has the words for what is turned away.
//! 3. `table` reads a table into words, one for each tick.
//! 4. `sheet` reads a sheet back into words, the verdict and the totals, and finds the first line in which two sheets differ.
//! 5. `vcd` and `svg` write the waveform, for wave viewers and for people.
//! 6. `letters` finds each letter's place in the text, and `totals` tells how often it was met.

pub mod letters;
pub mod library;
pub mod refusals;
pub mod rules;
pub mod sheet;
pub mod svg;
pub mod table;
pub mod totals;
pub mod vcd;
