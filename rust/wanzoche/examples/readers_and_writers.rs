//! Readers together, a writer alone: no reader sees a half-written book, though nothing locks the two words of it together.

use std::sync::atomic::{AtomicU32, Ordering::Relaxed};
use std::thread;

use wanzoche::{Error, Op, Options, Paths};

/// A book that is whole if the number on its cover is that of its pages.
struct Book {
    paths: Paths,
    read: Op,
    write: Op,
    cover: AtomicU32,
    pages: AtomicU32,
}

impl Book {
    fn new() -> Result<Book, Error> {
        // Room for the lines of the whole run, so that the journal is audited from its beginning.
        let paths = Options::new().room(100_000).open("resource book cell operation read, write path { read } , write end end")?;
        let (read, write) = (paths.op("read")?, paths.op("write")?);
        Ok(Book { paths, read, write, cover: AtomicU32::new(0), pages: AtomicU32::new(0) })
    }

    fn write(&self, pages: u32) -> Result<(), Error> {
        let _alone = self.paths.enter(self.write)?;
        self.cover.store(pages, Relaxed);
        thread::yield_now();
        self.pages.store(pages, Relaxed);
        Ok(())
    }

    fn is_whole(&self) -> Result<bool, Error> {
        let _beside_others = self.paths.enter(self.read)?;
        Ok(self.cover.load(Relaxed) == self.pages.load(Relaxed))
    }
}

/// Reads a thousand times, and writes at every tenth. How often the book was torn.
fn work(book: &Book, number: u32) -> Result<u32, Error> {
    let mut torn = 0;
    for n in 0..1000 {
        if n % 10 == number {
            book.write(n)?;
        } else if !book.is_whole()? {
            torn += 1;
        }
    }
    Ok(torn)
}

fn main() -> Result<(), Error> {
    let book = Book::new()?;
    let torn: Result<u32, Error> = thread::scope(|scope| {
        let book = &book;
        let threads: Vec<_> = (0..8).map(|number| scope.spawn(move || work(book, number))).collect();
        threads.into_iter().map(|thread| thread.join().expect("no thread panics")).sum()
    });
    let live = book.paths.report()?.matches("\nlive ").count();
    println!("torn: {}; in progress: {live}; journal {}", torn?, book.paths.audit(&book.paths.journal()?)?);
    Ok(())
}
