//! How many entries processes make at a store, an enter and the drop of its guard each, beside the same by hand: two turns by flock with a
//! line each, which keep nothing and ask nobody; and how many a task awaits. Each in turn, for so many processes at once and for SECONDS.
//! Lines go to a file in FOLDER, without syncs. Told are the medians of nine rounds.
//!
//!     store FOLDER SECONDS

use std::env;
use std::error::Error;
use std::fs::{self, File, OpenOptions};
use std::future::Future;
use std::io::{self, Write};
use std::os::raw::c_int;
use std::os::unix::io::AsRawFd;
use std::path::Path;
use std::pin::Pin;
use std::process::{Command, Stdio};
use std::sync::Arc;
use std::task::{Context, Poll, Wake};
use std::thread::{self, Thread};
use std::time::{Duration, Instant};

use wanzoche::store::Options;
use wanzoche::{Op, Store};

const BOOK: &str = "resource book cell operation read, write path { read } , write end end";

extern "C" {
    fn flock(file: c_int, how: c_int) -> c_int;
}

const ROUNDS: usize = 9;

type Done = Result<(), Box<dyn Error>>;

/// A line under the lock of the file.
fn put_line(lines: &File, line: &str) -> io::Result<()> {
    // SAFETY: it only reads numbers.
    let lock = |how| if unsafe { flock(lines.as_raw_fd(), how) } == 0 { Ok(()) } else { Err(io::Error::last_os_error()) };
    lock(2)?;
    let mut to = lines;
    to.write_all(line.as_bytes())?;
    lock(8)
}

fn by_hand(lines: &File, count: u64) -> Done {
    put_line(lines, &format!("+1 start read: started {count}\n"))?;
    Ok(put_line(lines, &format!("+1 finish {count}: finished\n"))?)
}

fn entered(store: &Store, op: Op) -> Done {
    drop(store.enter(op)?);
    Ok(())
}

struct Unparks(Thread);

impl Wake for Unparks {
    fn wake(self: Arc<Self>) {
        self.0.unpark();
    }
}

fn awaited(store: &Store, op: Op) -> Done {
    let waker = Arc::new(Unparks(thread::current())).into();
    let mut enters = store.enter_async(op);
    loop {
        match Pin::new(&mut enters).poll(&mut Context::from_waker(&waker)) {
            Poll::Ready(guard) => return Ok(guard.map(drop)?),
            Poll::Pending => thread::park(),
        }
    }
}

/// Makes entries for so long: how many.
fn count(time: Duration, entry: impl Fn(u64) -> Done) -> Result<u64, Box<dyn Error>> {
    let (end, mut made) = (Instant::now() + time, 0);
    while Instant::now() < end {
        entry(made)?;
        made += 1;
    }
    Ok(made)
}

fn count_so(how: &str, file: &Path, time: Duration) -> Result<u64, Box<dyn Error>> {
    if how == "hand" {
        let lines = OpenOptions::new().append(true).create(true).open(file)?;
        return count(time, |made| by_hand(&lines, made));
    }
    let store = Options::new().without_sync().open(BOOK, file)?;
    let (read, write) = (store.op("read")?, store.op("write")?);
    match how {
        "tasks" => count(time, |_| awaited(&store, read)),
        "writes" => count(time, |made| entered(&store, if made % 2 == 0 { read } else { write })),
        _ => count(time, |_| entered(&store, read)),
    }
}

/// Entries a second of so many processes together.
fn rate(how: &str, processes: usize, folder: &str, seconds: &str) -> Result<f64, Box<dyn Error>> {
    let place = Path::new(folder).join("bench_store");
    fs::create_dir_all(&place)?;
    let begin = || Command::new(env::current_exe()?).args([folder, seconds, how]).stdout(Stdio::piped()).spawn();
    let begun: Vec<_> = (0..processes).map(|_| begin()).collect::<Result<_, _>>()?;
    let mut sum = 0.0;
    for each in begun {
        sum += String::from_utf8(each.wait_with_output()?.stdout)?.trim().parse::<f64>()?;
    }
    fs::remove_dir_all(&place)?;
    Ok(sum / seconds.parse::<f64>()?)
}

/// The medians of some rounds, in each of which all are counted in turn.
fn medians(processes: usize, folder: &str, seconds: &str) -> Result<String, Box<dyn Error>> {
    let all = ["hand", "reads", "writes", "tasks"];
    let mut rates = all.map(|_| Vec::new());
    for _ in 0..ROUNDS {
        for (how, rates) in all.iter().zip(&mut rates) {
            rates.push(rate(how, processes, folder, seconds)?);
        }
    }
    let median = |rates: &mut Vec<f64>| {
        rates.sort_by(f64::total_cmp);
        rates[ROUNDS / 2]
    };
    Ok(all.iter().zip(&mut rates).map(|(how, rates)| format!(" {how} {:.0} a second", median(rates))).collect())
}

fn main() -> Done {
    let words: Vec<String> = env::args().skip(1).collect();
    match words.iter().map(String::as_str).collect::<Vec<_>>()[..] {
        [folder, seconds, how] => {
            let file = Path::new(folder).join("bench_store").join("book.log");
            println!("{}", count_so(how, &file, Duration::from_secs_f64(seconds.parse()?))?);
        }
        [folder, seconds] => {
            for processes in [1, 2, 8, 32] {
                println!("{processes:2} processes:{}", medians(processes, folder, seconds)?);
            }
        }
        _ => return Err("store FOLDER SECONDS".into()),
    }
    Ok(())
}
