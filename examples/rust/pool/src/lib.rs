//! A work-stealing pool in a house, for you to copy. Its workers work only while they have a core, and block otherwise.
//!
//! The tasks of a worker without a core are stolen, so all tasks end, whatever cores come and go. The application wants
//! as many cores as workers aren't idle. No task waits for another: tasks spawn tasks. In a closed house workers go on.

use crossbeam_deque::{Injector, Steal, Stealer, Worker};
use std::iter;
use std::panic::{catch_unwind, AssertUnwindSafe};
use std::sync::atomic::{fence, AtomicUsize, Ordering::SeqCst};
use std::sync::{Arc, Condvar, Mutex};
use std::thread::{self, JoinHandle};
use voldazpe::house::{Application, Seat};

type Task = Box<dyn FnOnce(&Scope) + Send>;

/// A pool, which is an application of a house. Dropping it waits until all its tasks have ended.
pub struct Pool {
    shared: Arc<Shared>,
    workers: Vec<JoinHandle<()>>,
}

/// Lets a task spawn further tasks, into its worker's queue, from which other workers steal.
pub struct Scope<'worker>(&'worker Shared, &'worker Worker<Task>);

struct Shared {
    application: Application,
    level: u32,
    spawned: Injector<Task>,
    stealers: Vec<Stealer<Task>>,
    idle: AtomicUsize,    // workers that have found no task; written under the lock
    unended: AtomicUsize, // tasks that were spawned and haven't ended
    ending: Mutex<bool>,
    woken: Condvar,
    all_ended: Condvar,
}

impl Pool {
    /// Starts `workers` workers, at most 32, which want cores at one level. Panics if a thread can't be started.
    pub fn start(application: Application, level: u32, workers: usize) -> Pool {
        let queues: Vec<Worker<Task>> = iter::repeat_with(Worker::new_fifo).take(workers).collect();
        let shared = Arc::new(Shared {
            application,
            level,
            spawned: Injector::new(),
            stealers: queues.iter().map(Worker::stealer).collect(),
            idle: AtomicUsize::new(workers),
            unended: AtomicUsize::new(0),
            ending: Mutex::new(false),
            woken: Condvar::new(),
            all_ended: Condvar::new(),
        });
        let started = queues.into_iter().map(|queue| {
            let shared = Arc::clone(&shared);
            thread::spawn(move || shared.work(&queue))
        });
        Pool { workers: started.collect(), shared }
    }

    /// Spawns a task, from any thread.
    pub fn spawn(&self, task: impl FnOnce(&Scope) + Send + 'static) {
        self.shared.unended.fetch_add(1, SeqCst);
        self.shared.spawned.push(Box::new(task));
        self.shared.wake_one();
    }

    /// Waits until all tasks have ended. A task must not call this.
    pub fn wait(&self) {
        let ending = self.shared.ending.lock().unwrap();
        drop(self.shared.all_ended.wait_while(ending, |_| self.shared.unended.load(SeqCst) > 0).unwrap());
    }
}

impl Drop for Pool {
    fn drop(&mut self) {
        self.wait();
        *self.shared.ending.lock().unwrap() = true;
        self.shared.woken.notify_all();
        self.workers.drain(..).for_each(|worker| drop(worker.join()));
    }
}

impl Scope<'_> {
    /// Spawns a task.
    pub fn spawn(&self, task: impl FnOnce(&Scope) + Send + 'static) {
        self.0.unended.fetch_add(1, SeqCst);
        self.1.push(Box::new(task));
        self.0.wake_one();
    }
}

impl Shared {
    /// Runs a worker until the pool's end.
    fn work(&self, queue: &Worker<Task>) {
        let seat = self.application.register().ok();
        while self.sleep() {
            loop {
                // one load, if the core may be kept; an error in a closed house
                let _ = seat.as_ref().map(|seat| seat.wait(None));
                let Some(task) = self.find(queue) else { break };
                self.run(task, queue);
            }
            let _ = seat.as_ref().map(Seat::give_back);
            let _lock = self.ending.lock().unwrap();
            self.count(1);
        }
    }

    /// Sleeps until there are tasks. False at the pool's end.
    fn sleep(&self) -> bool {
        let ending = self.ending.lock().unwrap();
        let no_tasks = || self.spawned.is_empty() && self.stealers.iter().all(Stealer::is_empty);
        let ending = self.woken.wait_while(ending, |ending| no_tasks() && !*ending).unwrap();
        self.count(-1);
        !*ending
    }

    /// Counts one idle worker more or less. Under the lock, so that what is wanted is what was counted last.
    fn count(&self, more: isize) {
        let idle = self.idle.load(SeqCst).wrapping_add_signed(more);
        self.idle.store(idle, SeqCst);
        let _ = self.application.want(self.level, (self.stealers.len() - idle) as u32);
    }

    fn wake_one(&self) {
        fence(SeqCst); // a worker is counted before it looks for tasks once more
        if self.idle.load(SeqCst) > 0 {
            drop(self.ending.lock().unwrap()); // a worker that has looked already sleeps now
            self.woken.notify_one();
        }
    }

    fn find(&self, queue: &Worker<Task>) -> Option<Task> {
        let stolen = || self.stealers.iter().map(|other| other.steal_batch_and_pop(queue)).collect::<Steal<Task>>();
        let steal = || self.spawned.steal_batch_and_pop(queue).or_else(stolen);
        let task = queue.pop().or_else(|| iter::repeat_with(steal).find(|steal| !steal.is_retry())?.success())?;
        if !queue.is_empty() {
            self.wake_one(); // there are more tasks
        }
        Some(task)
    }

    fn run(&self, task: Task, queue: &Worker<Task>) {
        let _ = catch_unwind(AssertUnwindSafe(|| task(&Scope(self, queue)))); // a panic has printed its message
        if self.unended.fetch_sub(1, SeqCst) == 1 {
            drop(self.ending.lock().unwrap());
            self.all_ended.notify_all();
        }
    }
}
