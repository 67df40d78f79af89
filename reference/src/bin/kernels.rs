//! Program: writes example kernel files. Arguments: the folder, then `listing` for their level 2 listings and pages as
//! well.

use reference::{examples, slow};
use std::path::Path;
use std::{env, fs, io};

fn main() -> io::Result<()> {
    let words: Vec<String> = env::args().skip(1).collect();
    let Some(folder) = words.first() else {
        eprintln!("kernels FOLDER [listing]");
        return Ok(());
    };
    let listed = words.get(1).is_some_and(|word| word == "listing");
    for (name, file) in examples::kernels() {
        let path = Path::new(folder).join(name);
        fs::write(path.with_extension("kernel"), &file)?;
        if listed {
            fs::write(path.with_extension("listing"), slow::listing(&file))?;
            fs::write(path.with_extension("page"), slow::page_listing(&file))?;
        }
    }
    Ok(())
}
