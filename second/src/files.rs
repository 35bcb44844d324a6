//! A set of files for another program to be tried on.

use std::collections::BTreeMap;
use std::path::Path;
use std::{fs, io};

/// The octets of each file by its name.
pub type Data<'a> = BTreeMap<&'a str, Vec<u8>>;

/// Writes `data/NAME`, the names to `args` and the text to `stdout`.
pub fn write_set(directory: &Path, data: &Data, stdout: &str) -> io::Result<()> {
    let below = directory.join("data");
    fs::create_dir_all(&below)?;
    refuse_strangers(&below, data)?;
    for (name, octets) in data {
        fs::write(below.join(name), octets)?;
    }
    fs::write(directory.join("args"), names(data))?;
    fs::write(directory.join("stdout"), stdout)
}

/// Files of an earlier set would be in nobody's list.
fn refuse_strangers(below: &Path, data: &Data) -> io::Result<()> {
    for entry in fs::read_dir(below)? {
        let name = entry?.file_name();
        let name = name.to_string_lossy();
        if !data.contains_key(name.as_ref()) {
            return Err(io::Error::other(format!("{name} in data/ is not of this set")));
        }
    }
    Ok(())
}

fn names(data: &Data) -> String {
    data.keys().map(|name| format!("{name}\n")).collect()
}
