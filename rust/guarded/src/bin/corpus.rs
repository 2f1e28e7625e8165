//! `corpus pack DIR` prints a row for each file of a folder; `corpus unpack DIR` makes the files of the rows on standard input.

use guarded::rows;
use std::{env, fs, io};

fn main() -> io::Result<()> {
    let words: Vec<String> = env::args().skip(1).collect();
    match words.iter().map(String::as_str).collect::<Vec<_>>()[..] {
        ["pack", dir] => pack(dir),
        ["unpack", dir] => unpack(dir),
        _ => panic!("corpus pack|unpack DIR"),
    }
}

/// The rows in an order of their own, so that the same files give the same text.
fn pack(dir: &str) -> io::Result<()> {
    let files = fs::read_dir(dir)?.map(|file| fs::read(file?.path()));
    let mut all = files.map(|bytes| Ok(rows::written(&bytes?))).collect::<io::Result<Vec<String>>>()?;
    all.sort_by_cached_key(|row| row.split_once(' ').map(|(bytes, rest)| (rest.to_string(), bytes.to_string())));
    all.iter().for_each(|row| println!("{row}"));
    Ok(())
}

fn unpack(dir: &str) -> io::Result<()> {
    fs::create_dir_all(dir)?;
    for (i, line) in io::stdin().lines().enumerate() {
        let row = rows::read(&line?).expect("a row");
        fs::write(format!("{dir}/{i}"), row.bytes)?;
    }
    Ok(())
}
