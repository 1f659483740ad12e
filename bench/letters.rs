//! The threads of a hash-distributed A* (Kishimoto, Fukunaga, Botea 2009): each owns states, and
//! sends offers of other states to their owners, in batches. hash_distributed.rs and
//! strips_owners.rs say what an owner does with an offer.
use std::sync::atomic::{AtomicI64, AtomicU32, Ordering};
use std::sync::mpsc::{channel, Receiver, Sender};
use std::thread;
use std::time::Duration;

/// What all threads share. `active` counts threads that have work and batches under way; when it
/// is 0, no thread will ever have work again.
pub struct Shared {
    pub incumbent: AtomicU32,
    active: AtomicI64,
}

impl Shared {
    pub fn of(owners: usize) -> Self {
        Self { incumbent: AtomicU32::new(u32::MAX), active: AtomicI64::new(owners as i64) }
    }

    pub fn bound(&self) -> u32 {
        self.incumbent.load(Ordering::Relaxed)
    }
}

/// What an owner is to send to the others.
pub struct Outbox<'a, O> {
    pub shared: &'a Shared,
    pub me: usize,
    outgoing: Vec<Vec<O>>,
    senders: Vec<Sender<Vec<O>>>,
}

impl<O> Outbox<'_, O> {
    pub fn owners(&self) -> usize {
        self.senders.len()
    }

    pub fn push(&mut self, to: usize, offer: O) {
        self.outgoing[to].push(offer);
        if self.outgoing[to].len() >= 64 {
            self.send(to);
        }
    }

    fn send(&mut self, to: usize) {
        if !self.outgoing[to].is_empty() {
            self.shared.active.fetch_add(1, Ordering::SeqCst);
            let batch = std::mem::take(&mut self.outgoing[to]);
            self.senders[to].send(batch).expect("an owner that listens");
        }
    }
}

/// A thread's own states.
pub trait Owner<'a, O: 'a> {
    fn outbox(&mut self) -> &mut Outbox<'a, O>;

    fn take(&mut self, offer: O);

    /// Expands the first open row; false if none is left below the incumbent.
    fn expand(&mut self) -> bool;

    /// Works until no thread has work. While it waits it isn't counted as active; a batch that
    /// wakes it was counted, and hands its count over.
    fn work(&mut self, inbox: &Receiver<Vec<O>>) {
        let shared = self.outbox().shared;
        loop {
            while let Ok(batch) = inbox.try_recv() {
                batch.into_iter().for_each(|offer| self.take(offer));
                shared.active.fetch_sub(1, Ordering::SeqCst);
            }
            if (0..16).all(|_| self.expand()) {
                continue;
            }
            (0..self.outbox().owners()).for_each(|to| self.outbox().send(to));
            shared.active.fetch_sub(1, Ordering::SeqCst);
            loop {
                if let Ok(batch) = inbox.recv_timeout(Duration::from_micros(200)) {
                    batch.into_iter().for_each(|offer| self.take(offer));
                    break;
                }
                if shared.active.load(Ordering::SeqCst) == 0 {
                    return;
                }
            }
        }
    }
}

/// Makes an owner for each thread, and lets all work; the owners as they are at the end.
pub fn run<'a, O: Send + 'a, W: Owner<'a, O> + Send>(
    shared: &'a Shared,
    owners: usize,
    make: impl Fn(Outbox<'a, O>) -> W,
) -> Vec<W> {
    let (senders, inboxes): (Vec<_>, Vec<_>) = (0..owners).map(|_| channel()).unzip();
    thread::scope(|scope| {
        let start = |(me, inbox): (usize, Receiver<_>)| {
            let outgoing = (0..owners).map(|_| Vec::new()).collect();
            let mut owner = make(Outbox { shared, me, outgoing, senders: senders.clone() });
            scope.spawn(move || {
                owner.work(&inbox);
                owner
            })
        };
        let threads: Vec<_> = inboxes.into_iter().enumerate().map(start).collect();
        threads.into_iter().map(|thread| thread.join().expect("an owner")).collect()
    })
}
