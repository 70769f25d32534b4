//! Writes the recorded sample to a file: the request bytes, then the Rust's answer bytes.

use std::{env, fs};

use differential::lists::sample;

fn main() {
    let path = env::args().nth(1).expect("sample FILE");
    let list = sample();
    fs::write(&path, [list.requests, list.answers].concat()).expect("the file can be written");
}
