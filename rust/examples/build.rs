//! Builds an image from a sheet and lists it: build SHEET IMAGE. The image goes into the file IMAGE; each line printed is a key's bytes in hex,
//! and its value, as the image has them. A sheet that the builder declines prints `refused` and its number, and no file is written.
use punchbronze::{build, check, Bound, Declined, Walk};

/// An image's longest length.
const LONGEST: usize = 16_777_216;

fn print_keys(image: &[u8]) -> Result<(), Declined> {
    let mut walk = Walk::from(image, b"", Bound::Unbounded)?;
    while let Some(found) = walk.step(image)?.found {
        let hex: String = walk.key(found).iter().map(|b| format!("{b:02x}")).collect();
        println!("={hex} {}", found.value);
    }
    // The check accepts what the builder wrote, and every value slot of it is a key of the sheet.
    assert_eq!(check(image)?.value_slots, walk.count());
    Ok(())
}

fn build_and_list(sheet: &[u8], name: &str) -> Result<(), Declined> {
    let mut out = vec![0; LONGEST];
    let len = build(sheet, &mut out)?;
    let image = &out[..len];
    std::fs::write(name, image).expect("the file can be written");
    print_keys(image)
}

fn main() {
    let names: Vec<String> = std::env::args().skip(1).collect();
    let [sheet, image] = &names[..] else {
        eprintln!("usage: build SHEET IMAGE");
        std::process::exit(2);
    };
    let sheet = std::fs::read(sheet).expect("the file can be read");
    if let Err(Declined(n)) = build_and_list(&sheet, image) {
        println!("refused {n}");
        std::process::exit(1);
    }
}
