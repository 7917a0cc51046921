//! A pool of three connections, and maintenance that waits until all are back and lets nobody in meanwhile.

use std::sync::atomic::{AtomicU32, Ordering::Relaxed};
use std::thread;
use std::time::Duration;

use wanzoche::{Error, Op, Paths};

const POOL: &str = "
    resource pool cell
    operation query, maintain
    path { query : 3 } , maintain end
    end
";

struct Pool {
    paths: Paths,
    query: Op,
    maintain: Op,
    answers: AtomicU32,
}

impl Pool {
    fn new() -> Result<Pool, Error> {
        let paths = Paths::open(POOL)?;
        Ok(Pool { query: paths.op("query")?, maintain: paths.op("maintain")?, paths, answers: AtomicU32::new(0) })
    }

    fn query(&self) -> Result<(), Error> {
        let _connection = self.paths.enter(self.query)?;
        self.answers.fetch_add(1, Relaxed);
        Ok(())
    }

    fn maintain(&self) -> Result<(), Error> {
        let _alone = self.paths.enter(self.maintain)?;
        if let Err(Error::Timeout(why)) = self.paths.enter_timeout(self.query, Duration::from_millis(10)) {
            println!("a query has to wait: {}", why.text());
        }
        Ok(())
    }
}

fn main() -> Result<(), Error> {
    let pool = Pool::new()?;
    thread::scope(|scope| {
        let queries: Vec<_> = (0..40).map(|_| scope.spawn(|| pool.query())).collect();
        let maintenance = scope.spawn(|| pool.maintain());
        queries.into_iter().chain([maintenance]).try_for_each(|thread| thread.join().expect("no thread panics"))
    })?;
    println!("{} answers, journal {}", pool.answers.into_inner(), pool.paths.audit(&pool.paths.journal()?)?);
    Ok(())
}
