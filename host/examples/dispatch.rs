//! The README's example, word for word: `cargo run --example dispatch` in a folder that has the
//! samples. A test holds the two together and runs it.

fn main() -> Result<(), Box<dyn std::error::Error>> {
    let survey = std::fs::read("samples/forest-road.tbr")?;
    let vehicle = std::fs::read("samples/lorry.tbv")?;
    let judgement = tbr::judge(&survey, &vehicle)?; // a refusal says file, number, place, words
    println!("figure {} kgf/m, member {} governs", judgement.figure, judgement.governing);
    println!("{}", if judgement.passes { "pass" } else { "refuse" });
    for member in tbr::member_loads(&survey, &vehicle)? {
        println!("{}: permitted {}, vehicle {}", member.place, member.permitted, member.vehicle);
    }
    Ok(())
}
