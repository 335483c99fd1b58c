//! What the program `bridge` must print for this standard input, by the reference.

use std::io::Read;

fn main() -> std::io::Result<()> {
    let mut input = Vec::new();
    std::io::stdin().read_to_end(&mut input)?;
    print!("{}", reference::lines::printed(&input));
    Ok(())
}
