//! `generate SEED COUNT DIR`: writes so many texts of all classes to a folder.

use reference::generate::sample;
use reference::random::Random;
use std::path::Path;

fn main() {
    let arguments: Vec<String> = std::env::args().skip(1).collect();
    if let Err(fault) = generate(&arguments) {
        eprintln!("generate: {fault}");
        std::process::exit(2);
    }
}

fn generate(arguments: &[String]) -> Result<(), String> {
    let [seed, count, folder] = arguments else {
        return Err("wants SEED COUNT DIR".to_string());
    };
    let seed: u64 = seed.parse().map_err(|_| "SEED is a number")?;
    let count: usize = count.parse().map_err(|_| "COUNT is a number")?;
    std::fs::create_dir_all(folder).map_err(|fault| fault.to_string())?;
    for index in 0..count {
        let sample = sample(&mut Random::of_text(seed, index));
        let path = Path::new(folder).join(format!("{index:06}-{}.shim", sample.class));
        std::fs::write(path, sample.text).map_err(|fault| fault.to_string())?;
    }
    Ok(())
}
