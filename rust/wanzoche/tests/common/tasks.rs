//! An executor written by hand, and tasks that are polled by hand.

#![allow(dead_code)]

use std::collections::VecDeque;
use std::future::Future;
use std::pin::Pin;
use std::sync::atomic::{AtomicU32, Ordering::SeqCst};
use std::sync::{Arc, Mutex};
use std::task::{Context, Poll, Wake, Waker};

/// Counts how often it is woken.
#[derive(Default)]
pub struct Counter(AtomicU32);

impl Counter {
    pub fn new() -> Arc<Counter> {
        Arc::default()
    }

    pub fn woken(&self) -> u32 {
        self.0.load(SeqCst)
    }
}

impl Wake for Counter {
    fn wake(self: Arc<Self>) {
        self.0.fetch_add(1, SeqCst);
    }
}

/// A future that is polled by hand, with who is woken for it.
pub struct Polled<F> {
    pub future: F,
    pub counter: Arc<Counter>,
}

impl<F: Future + Unpin> Polled<F> {
    pub fn new(future: F) -> Polled<F> {
        Polled { future, counter: Counter::new() }
    }

    pub fn poll(&mut self) -> Poll<F::Output> {
        poll_by(&mut self.future, &Arc::clone(&self.counter).into())
    }

    pub fn is_pending(&mut self) -> bool {
        self.poll().is_pending()
    }

    /// What it is ready with.
    pub fn ready(&mut self) -> F::Output {
        match self.poll() {
            Poll::Ready(output) => output,
            Poll::Pending => panic!("it is pending"),
        }
    }
}

pub fn poll_by<F: Future + Unpin>(future: &mut F, waker: &Waker) -> Poll<F::Output> {
    Pin::new(future).poll(&mut Context::from_waker(waker))
}

type Task<'a> = Pin<Box<dyn Future<Output = ()> + 'a>>;

/// Runs tasks in one thread, each that was woken in turn.
#[derive(Default)]
pub struct Executor<'a> {
    tasks: Vec<Option<Task<'a>>>,
    ready: Arc<Mutex<VecDeque<usize>>>,
}

struct Ready {
    task: usize,
    ready: Arc<Mutex<VecDeque<usize>>>,
}

impl Wake for Ready {
    fn wake(self: Arc<Self>) {
        let mut ready = self.ready.lock().unwrap();
        if !ready.contains(&self.task) {
            ready.push_back(self.task);
        }
    }
}

impl<'a> Executor<'a> {
    pub fn spawn(&mut self, task: impl Future<Output = ()> + 'a) {
        self.ready.lock().unwrap().push_back(self.tasks.len());
        self.tasks.push(Some(Box::pin(task)));
    }

    /// Polls tasks until none is woken any more, and says how many aren't done.
    pub fn run(mut self) -> usize {
        while let Some(task) = self.next() {
            let waker = Waker::from(Arc::new(Ready { task, ready: Arc::clone(&self.ready) }));
            let polled = self.tasks[task].as_mut().map(|future| future.as_mut().poll(&mut Context::from_waker(&waker)));
            if polled.map_or(false, |polled| polled.is_ready()) {
                self.tasks[task] = None;
            }
        }
        self.tasks.iter().flatten().count()
    }

    fn next(&self) -> Option<usize> {
        self.ready.lock().unwrap().pop_front()
    }
}

/// A future that lets the other tasks of an executor go first, once.
#[derive(Default)]
pub struct GivesWay(bool);

impl Future for GivesWay {
    type Output = ();

    fn poll(mut self: Pin<&mut Self>, context: &mut Context<'_>) -> Poll<()> {
        if self.0 {
            return Poll::Ready(());
        }
        self.0 = true;
        context.waker().wake_by_ref();
        Poll::Pending
    }
}
