// A plain walk over a folder, to compare a polling round with: each entry's kind and length, by recursion.
// usage: plain_walk FOLDER ROUNDS; it prints how many entries a round saw, and the least nanoseconds.
use std::path::Path;
use std::time::Instant;

fn walk(folder: &Path, seen: &mut (u64, u64)) -> std::io::Result<()> {
    for entry in std::fs::read_dir(folder)? {
        let path = entry?.path();
        let told = std::fs::symlink_metadata(&path)?;
        seen.0 += 1;
        seen.1 += told.len();
        if told.is_dir() {
            walk(&path, seen)?;
        }
    }
    Ok(())
}

fn main() -> std::io::Result<()> {
    let words: Vec<String> = std::env::args().collect();
    let mut least = u128::MAX;
    let mut seen = (0, 0);
    for _ in 0..words[2].parse().unwrap() {
        seen = (0, 0);
        let begun = Instant::now();
        walk(Path::new(&words[1]), &mut seen)?;
        least = least.min(begun.elapsed().as_nanos());
    }
    println!("{} {least}", seen.0);
    Ok(())
}
