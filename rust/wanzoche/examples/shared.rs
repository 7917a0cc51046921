//! Two programs that share paths over a file: services that query, at most three at once in all processes together, and a backup that runs
//! alone.
//!
//!     shared FILE query     makes a hundred queries
//!     shared FILE backup    makes one backup
//!     shared                begins four of the first and one of the second, over a file of its own

use std::env;
use std::error::Error;
use std::path::Path;
use std::process::Command;
use std::thread::sleep;
use std::time::Duration;

use wanzoche::{store, Error as Refused, Store};

const POOL: &str = "
    resource pool cell
    operation query, backup
    path { query : 3 } , backup end
    end
";

/// A pool of connections goes down with the machine, so nobody waits for the disk.
fn open(file: &Path) -> Result<Store, Refused> {
    store::Options::new().without_sync().limit(Duration::from_secs(60)).open(POOL, file)
}

/// One that comes too late says so, and goes on.
fn query(pool: &Store) -> Result<(), Refused> {
    let query = pool.op("query")?;
    for _ in 0..100 {
        match pool.enter_timeout(query, Duration::from_millis(500)) {
            Ok(_connection) => sleep(Duration::from_micros(100)),
            Err(why @ (Refused::Hindered(_) | Refused::Late)) => eprintln!("later: {why}"),
            Err(other) => return Err(other),
        }
    }
    Ok(())
}

fn backup(pool: &Store) -> Result<(), Refused> {
    let mut alone = pool.enter(pool.op("backup")?)?;
    println!("a backup: nobody queries");
    alone.leave().map(drop)
}

/// Both programs at once. A backup that has waited for 5 ms isn't passed by queries that come then.
fn both() -> Result<(), Box<dyn Error>> {
    let folder = env::temp_dir().join(format!("shared-{}", std::process::id()));
    std::fs::create_dir_all(&folder)?;
    let (program, file) = (env::current_exe()?, folder.join("pool.log"));
    let begin = |what: &&str| Command::new(&program).arg(&file).arg(what).spawn();
    let programs: Vec<_> = ["query", "query", "backup", "query", "query"].iter().map(begin).collect();
    for begun in programs {
        if !begun?.wait()?.success() {
            return Err("one has failed".into());
        }
    }
    println!("all queries made, journal {}", open(&file)?.audit()?);
    std::fs::remove_dir_all(&folder)?;
    Ok(())
}

fn main() -> Result<(), Box<dyn Error>> {
    let words: Vec<String> = env::args().skip(1).collect();
    match words.iter().map(String::as_str).collect::<Vec<_>>()[..] {
        [] => both(),
        [file, "query"] => Ok(query(&open(file.as_ref())?)?),
        [file, "backup"] => Ok(backup(&open(file.as_ref())?)?),
        _ => Err("shared FILE query, or shared FILE backup".into()),
    }
}
