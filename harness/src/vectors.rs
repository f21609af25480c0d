//! Both sides on files whose text is given.
use harness::engine;
use harness::plain;
use std::{fs, io, path::Path};

/// Clears every NAME.net of a folder and compares with NAME.out beside it. Answers how many differ.
pub fn run(folder: &Path) -> io::Result<u64> {
    let (mut agreed, mut differed) = (0, 0);
    let mut buffer = Vec::new();
    for entry in fs::read_dir(folder)? {
        let path = entry?.path();
        if path.extension().is_none_or(|extension| extension != "net") {
            continue;
        }
        let input = fs::read(&path)?;
        let given = fs::read(path.with_extension("out"))?;
        let by_engine = engine::clear(&input, &mut buffer) == given;
        let by_plain = plain::clear(&input).as_bytes() == given;
        if by_engine && by_plain {
            agreed += 1;
        } else {
            differed += 1;
            println!(
                "{}: engine agrees: {by_engine}, plain Rust agrees: {by_plain}",
                path.display()
            );
        }
    }
    if agreed + differed == 0 {
        return Err(io::Error::other("the folder has no NAME.net"));
    }
    println!("{agreed} vectors agree, {differed} differ");
    Ok(differed)
}
