use std::io::{self, Read, Write};

fn main() -> Result<(), Box<dyn std::error::Error>> {
    let (mut octets, mut out) = (Vec::new(), [0; 64]);
    io::stdin().read_to_end(&mut octets)?;
    if let Some(record) = dagsumilat::read(&octets, None)? {
        let size = record.fields.write(None, &mut out)?; // or the fault, and nothing is written
        io::stdout().write_all(&out[..size])?;
    }
    Ok(())
}
