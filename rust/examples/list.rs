//! Lists the keys of an image: list FILE. The first line has the check's three numbers, the last one the moves; between them each line is a
//! key's bytes in hex, and its value. An image that the check declines prints `refused` and its number.
use punchbronze::{check, tally, Bound, Declined, Walk};

fn list(image: &[u8]) -> Result<(), Declined> {
    let counts = check(image)?;
    println!("leaves {} values {} layers {}", counts.leaves, counts.value_slots, counts.sub_layers);
    let mut walk = Walk::from(image, b"", Bound::Unbounded)?;
    let mut moves = 0;
    let mut keys = Vec::new();
    loop {
        let step = walk.step(image)?;
        moves += step.moves;
        let Some(found) = step.found else { break };
        let key = walk.key(found).to_vec();
        let hex: String = key.iter().map(|b| format!("{b:02x}")).collect();
        println!("={hex} {}", found.value);
        keys.push(key);
    }
    println!("moves {moves}");
    // The walk has counted its keys, and the tally counts those above the empty one; a step over bytes of another length is declined.
    assert_eq!(walk.count(), keys.len() as u64);
    let above = keys.iter().filter(|k| !k.is_empty()).count() as u64;
    assert_eq!(tally(image, b"", Bound::Unbounded), Ok(above));
    assert_eq!(walk.step(&image[1..]), Err(Declined(21)));
    Ok(())
}

fn main() {
    let Some(name) = std::env::args().nth(1) else {
        eprintln!("usage: list FILE");
        std::process::exit(2);
    };
    let image = std::fs::read(&name).expect("the file can be read");
    if let Err(Declined(n)) = list(&image) {
        println!("refused {n}");
        std::process::exit(1);
    }
}
