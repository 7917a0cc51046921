//! A program that ends and is started again goes on where it was: here both runs are in one, over a file that lasts between them.

use std::fs::{self, OpenOptions};
use std::io::{self, Write};
use std::path::Path;

use wanzoche::Options;

const SLOT: &str = "resource slot cell operation deposit, remove path deposit ; remove end end";

/// One run: a deposit, or if that isn't its turn a removal. It ends within its operation if it is told so, as by a crash.
fn run(file: &Path, crashes: bool) -> Result<(), Box<dyn std::error::Error>> {
    let lines = fs::read_to_string(file).or_else(|error| match error.kind() {
        io::ErrorKind::NotFound => Ok(String::new()),
        _ => Err(error),
    })?;
    let paths = Options::new().resume(SLOT, &lines)?;
    let mut log = OpenOptions::new().append(true).create(true).open(file)?;
    log.set_len(paths.resumed())?;
    for guard in paths.recover()? {
        println!("{} wasn't finished", paths.name(guard.op())?);
    }
    let (deposit, remove) = (paths.op("deposit")?, paths.op("remove")?);
    let guard = match paths.why(deposit)? {
        None => paths.enter(deposit)?,
        Some(why) => {
            println!("{why}");
            paths.enter(remove)?
        }
    };
    if guard.op() == deposit {
        guard.put(7)?;
    }
    println!("{} with {}", paths.name(guard.op())?, guard.look()?);
    if crashes {
        std::mem::forget(guard);
    } else {
        drop(guard);
    }
    log.write_all(paths.journal()?.as_bytes())?;
    Ok(())
}

fn main() -> Result<(), Box<dyn std::error::Error>> {
    let file = std::env::temp_dir().join(format!("wanzoche-resumed-{}.log", std::process::id()));
    run(&file, true)?;
    run(&file, false)?;
    fs::remove_file(&file)?;
    Ok(())
}
