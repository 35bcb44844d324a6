use dagsumilat::{cut, Window};
use std::io::{self, Read, Write};

fn main() -> Result<(), Box<dyn std::error::Error>> {
    let mut dump = Vec::new();
    io::stdin().read_to_end(&mut dump)?;
    let window = Window { from: 1_772_366_400_011_000, to: 1_772_366_403_000_000 };
    let clip = cut(&dump, window, &[64_499])?; // or the fault and its place
    io::stdout().write_all(&clip)?;
    Ok(())
}
