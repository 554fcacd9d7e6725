//! Pages through the keys of an image: page FILE. A page has twenty keys at most, and each is a walk of its own: the first from the empty
//! key on, every other above the last key of the page before. Nothing is kept from page to page but that key.
use punchbronze::{check, Bound, Declined, Walk};

const PAGE: usize = 20;

/// One page; how many keys it has.
fn page(image: &[u8], mut walk: Walk, last: &mut Vec<u8>) -> Result<usize, Declined> {
    for n in 0..PAGE {
        let Some(found) = walk.step(image)?.found else { return Ok(n) };
        *last = walk.key(found).to_vec();
        let hex: String = last.iter().map(|b| format!("{b:02x}")).collect();
        println!("={hex} {}", found.value);
    }
    Ok(PAGE)
}

fn pages(image: &[u8]) -> Result<(), Declined> {
    check(image)?;
    let mut last = Vec::new();
    let mut keys = page(image, Walk::from(image, b"", Bound::Unbounded)?, &mut last)?;
    while keys == PAGE {
        println!("--");
        keys = page(image, Walk::above(image, &last, Bound::Unbounded)?, &mut last)?;
    }
    Ok(())
}

fn main() {
    let Some(name) = std::env::args().nth(1) else {
        eprintln!("usage: page FILE");
        std::process::exit(2);
    };
    let image = std::fs::read(&name).expect("the file can be read");
    if let Err(Declined(n)) = pages(&image) {
        println!("refused {n}");
        std::process::exit(1);
    }
}
