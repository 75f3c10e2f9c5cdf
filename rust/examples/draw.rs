//! Prints the script that is drawn from a seed: `cargo run --example draw -- SEED`; or writes those of the first seeds as `N.script` to a
//! folder: `cargo run --example draw -- COUNT FOLDER`.

#[path = "../tests/drawing/mod.rs"]
mod drawing;

fn main() -> std::io::Result<()> {
    let words: Vec<String> = std::env::args().skip(1).collect();
    let number = words
        .first()
        .and_then(|word| word.parse().ok())
        .expect("a number");
    match words.get(1) {
        None => print!("{}", drawing::script(number)),
        Some(folder) => {
            for seed in 0..number {
                std::fs::write(format!("{folder}/{seed}.script"), drawing::script(seed))?;
            }
        }
    }
    Ok(())
}
