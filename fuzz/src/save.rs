//! Saves a case in the form of the folders under `cases/`: `rules.txt`, `trace.bin`, and `trace.sheet` with what `second` prints; or, with calls in the place
//! of the trace, `rules.txt`, `calls.bin` and `calls.txt`.

use crate::{calls, Case};
use std::io;
use std::path::Path;

pub fn save(folder: &Path, case: &Case) -> io::Result<()> {
    write(folder, case, "trace.bin", ("trace.sheet", &second::sheet(&case.text, &case.trace)))
}

pub fn save_calls(folder: &Path, case: &Case) -> io::Result<()> {
    write(folder, case, "calls.bin", ("calls.txt", &calls::answer(case)))
}

/// Writes the text, what is put to its watch, and what `second` prints.
fn write(folder: &Path, case: &Case, put: &str, (name, printed): (&str, &[u8])) -> io::Result<()> {
    std::fs::create_dir_all(folder)?;
    std::fs::write(folder.join("rules.txt"), &case.text)?;
    std::fs::write(folder.join(put), &case.trace)?;
    std::fs::write(folder.join(name), printed)
}

#[cfg(test)]
mod tests {
    use super::*;

    const TEXT: &[u8] = b"input a; p -> a; monitor p;";

    /// What the three files have that are written for a case.
    fn saved(save: impl Fn(&Path, &Case) -> io::Result<()>, put: &[u8], names: [&str; 3]) -> [Vec<u8>; 3] {
        let folder = std::env::temp_dir().join(format!("linewatch-save-{}-{}", names[1], std::process::id()));
        save(&folder, &Case { text: TEXT.to_vec(), trace: put.to_vec() }).expect("the folder can be written");
        let files = names.map(|name| std::fs::read(folder.join(name)).expect("the file is there"));
        std::fs::remove_dir_all(&folder).expect("the folder can be removed");
        files
    }

    #[test]
    fn all_three_files_are_written() {
        let files = saved(save, &[1, 1], ["rules.txt", "trace.bin", "trace.sheet"]);
        assert_eq!(files, [TEXT, &[1, 1], b"rows 1 letters 1\n0 0000000000000001 ok\nclean 1\nmet 0 0 1\ntotal 1\n"]);
    }

    #[test]
    fn all_three_files_of_calls_are_written() {
        let calls = b"L\0\0\0\0\0\0\0\0T\x01\0\0\0\0\0\0\0";
        let files = saved(save_calls, calls, ["rules.txt", "calls.bin", "calls.txt"]);
        assert_eq!(files, [TEXT, calls, b"rows 1 letters 1\nlook bad 0\ntake ok touched 1\nmet 0 0 1\ntotal 1\n"]);
    }
}
