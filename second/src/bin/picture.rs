//! Draws the script on standard input, message by message.

use second::picture::picture;
use second::player::lines;
use std::io::{self, BufWriter, Read, Write};

fn main() -> io::Result<()> {
    let mut input = Vec::new();
    io::stdin().lock().read_to_end(&mut input)?;
    let mut out = BufWriter::new(io::stdout().lock());
    picture(lines(&input), &mut out)?;
    out.flush()
}
