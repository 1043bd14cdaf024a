//! Interrupts, and the queues of immediate and deferred function calls.

use super::thread::{Duty, Stage, ThreadIndex, Waiting};
use super::Kernel;
use crate::entry::{Actor, Effect, Holder, Step};
use crate::name::Name;
use crate::script::{Operation, Script};
use std::collections::{HashMap, VecDeque};

/// The priority of a burial in the supervisor's queue.
const BURIAL_PRIORITY: u8 = 7;

/// The calls that wait to run.
pub struct CallQueues {
    immediate: VecDeque<ImmediateItem>,
    /// The supervisor's queue, and then those of the script. Calls stand in order of arrival.
    queues: Vec<Vec<QueuedCall>>,
    immediate_calls: HashMap<Name, usize>,
    deferred_calls: HashMap<Name, usize>,
    /// The queue of each deferred call, whether it is queued anywhere, and whether each immediate call is.
    queue_of: Vec<usize>,
    is_queued: Vec<bool>,
    is_immediate_queued: Vec<bool>,
}

/// An item of the immediate queue: a call, or a deferred call on its way to its own queue.
#[derive(Clone, Copy)]
pub enum ImmediateItem {
    Run(usize),
    Move(usize),
}

struct QueuedCall {
    priority: u8,
    work: Work,
}

#[derive(Clone, Copy)]
enum Work {
    Deferred(usize),
    Burial(ThreadIndex),
}

impl CallQueues {
    pub fn new(script: &Script) -> CallQueues {
        let place_of = |name: &Name| script.queues.iter().position(|queue| queue.name == *name);
        CallQueues {
            immediate: VecDeque::new(),
            queues: (0..=script.queues.len()).map(|_| Vec::new()).collect(),
            immediate_calls: script.immediate.iter().enumerate().map(|(place, call)| (call.name, place)).collect(),
            deferred_calls: script.deferred.iter().enumerate().map(|(place, call)| (call.name, place)).collect(),
            queue_of: script.deferred.iter().map(|call| place_of(&call.queue).map_or(0, |place| place + 1)).collect(),
            is_queued: vec![false; script.deferred.len()],
            is_immediate_queued: vec![false; script.immediate.len()],
        }
    }

    /// Takes the oldest item of the immediate queue.
    pub fn take_immediate(&mut self) -> Option<ImmediateItem> {
        self.immediate.pop_front()
    }

    /// Whether a queue has a call.
    pub fn has_call(&self, queue: usize) -> bool {
        !self.queues[queue].is_empty()
    }

    /// Takes the call of the greatest priority that came first.
    fn take_call(&mut self, queue: usize) -> Option<Work> {
        let calls = &mut self.queues[queue];
        let greatest = calls.iter().map(|call| call.priority).max()?;
        let first = calls.iter().position(|call| call.priority == greatest)?;
        Some(calls.remove(first).work)
    }
}

impl Kernel<'_> {
    /// An interrupt queues the calls of its body that aren't queued yet.
    pub(super) fn interrupt(&mut self, number: u8) {
        self.entry.actor = Actor::Interrupt(number);
        self.entry.step = Step::Interrupt;
        let script = self.script;
        let calls = &mut self.calls;
        let bodies = script.interrupts.iter().filter(|interrupt| interrupt.number == number);
        for operation in bodies.flat_map(|interrupt| &interrupt.body) {
            match operation {
                Operation::Immediate(name) => {
                    let call = calls.immediate_calls[name];
                    if !std::mem::replace(&mut calls.is_immediate_queued[call], true) {
                        calls.immediate.push_back(ImmediateItem::Run(call));
                    }
                }
                Operation::Deferred(name) => {
                    let call = calls.deferred_calls[name];
                    if !std::mem::replace(&mut calls.is_queued[call], true) {
                        calls.immediate.push_back(ImmediateItem::Move(call));
                    }
                }
                _ => (),
            }
        }
    }

    /// An item of the immediate queue runs, or moves to its own queue.
    pub(super) fn immediate(&mut self, item: ImmediateItem) {
        let script = self.script;
        match item {
            ImmediateItem::Run(call) => {
                self.calls.is_immediate_queued[call] = false;
                let call = &script.immediate[call];
                self.entry.step = Step::Run(call.name);
                self.run_body(&call.body);
            }
            ImmediateItem::Move(call) => {
                self.entry.step = Step::Move(script.deferred[call].name);
                self.join_queue(call);
            }
        }
    }

    fn run_body(&mut self, body: &[Operation]) {
        for operation in body {
            match operation {
                Operation::SignalThread(name) => {
                    let thread = self.threads_by_name[name];
                    if self.threads[thread].is_live() {
                        self.signal_fast(thread);
                    }
                }
                Operation::CompleteDevice(device, code) => {
                    if let Some(request) = self.devices[usize::from(*device)].take() {
                        self.signal(request.thread, request.status, *code);
                    }
                }
                Operation::Queue(name) => {
                    self.queue_call(name);
                }
                Operation::Immediate(_) | Operation::Deferred(_) => (),
            }
        }
    }

    /// Queues a deferred call, and tells whether it wasn't queued yet.
    pub(super) fn queue_call(&mut self, name: &Name) -> bool {
        let call = self.calls.deferred_calls[name];
        let joins = !std::mem::replace(&mut self.calls.is_queued[call], true);
        if joins {
            self.join_queue(call);
        }
        joins
    }

    fn join_queue(&mut self, call: usize) {
        let priority = self.script.deferred[call].priority;
        self.join(self.calls.queue_of[call], QueuedCall { priority, work: Work::Deferred(call) });
    }

    /// Queues the burial of a thread.
    pub(super) fn queue_burial(&mut self, thread: ThreadIndex) {
        self.join(0, QueuedCall { priority: BURIAL_PRIORITY, work: Work::Burial(thread) });
    }

    /// The threads that serve queues are the first ones, in the order of the queues.
    fn join(&mut self, queue: usize, call: QueuedCall) {
        self.calls.queues[queue].push(call);
        self.changed.push(queue);
    }

    /// The thread of a queue runs the call that comes next.
    pub(super) fn run_call(&mut self, thread: ThreadIndex, queue: usize) {
        self.changed.push(thread);
        match self.calls.take_call(queue) {
            Some(Work::Deferred(call)) => {
                self.calls.is_queued[call] = false;
                let script = self.script;
                let call = &script.deferred[call];
                self.entry.step = Step::Run(call.name);
                self.run_body(&call.body);
            }
            Some(Work::Burial(dead)) => {
                self.entry.step = Step::Bury;
                self.threads[dead].stage = Stage::Buried;
                let object = self.object_of(dead);
                self.tell(Effect::Bury(object));
                self.threads[thread].duties.push_back(Duty::Close(Holder::Kernel, object));
            }
            None => unreachable!("a queue with a call"),
        }
    }

    /// Signals the fast semaphore of a thread.
    pub(super) fn signal_fast(&mut self, thread: ThreadIndex) {
        if self.threads[thread].waiting == Waiting::FastSignal {
            self.wake(thread);
        } else {
            self.threads[thread].fast_signals += 1;
        }
    }
}
