//! What stands before the first entry.

use super::deferred::CallQueues;
use super::objects::{Body, Objects};
use super::ready::ReadyQueues;
use super::thread::{Process, ProcessIndex, Thread, ThreadIndex};
use super::{Kernel, DEVICES};
use crate::entry::{Actor, Entry, Step};
use crate::name::Name;
use crate::script::builder::{KERNEL, SUPERVISOR};
use crate::script::Script;
use std::collections::HashMap;

/// The priority of the supervisor.
const SUPERVISOR_PRIORITY: u8 = 48;

impl<'s> Kernel<'s> {
    /// A kernel with the processes and threads of a script.
    pub fn new(script: &'s Script) -> Kernel<'s> {
        let mut kernel = Kernel {
            script,
            objects: Objects::new(script.version == 2),
            processes: Vec::new(),
            threads: Vec::new(),
            threads_by_name: HashMap::new(),
            ready: ReadyQueues::new(),
            calls: CallQueues::new(script),
            fast_mutexes: vec![None; usize::from(script.fast)],
            devices: [None; DEVICES],
            logons: Vec::new(),
            accepted: 0,
            pool_used: 0,
            changed: Vec::new(),
            entry: Entry { actor: Actor::Idle, step: Step::Wait, effects: Vec::new(), answer: None },
        };
        kernel.add_kernel_process();
        for (place, name) in script.processes.iter().enumerate() {
            let process = kernel.add_process(*name);
            kernel.add_threads(process, Some(place));
        }
        kernel.settle();
        kernel
    }

    /// The process `kernel` with the supervisor, the threads of queues and the kernel threads.
    fn add_kernel_process(&mut self) {
        let kernel = self.add_process(Name::of(KERNEL).unwrap_or_default());
        let supervisor = self.add_thread(kernel, Name::of(SUPERVISOR).unwrap_or_default(), SUPERVISOR_PRIORITY);
        self.threads[supervisor].serves = Some(0);
        let script = self.script;
        for (place, queue) in script.queues.iter().enumerate() {
            let thread = self.add_thread(kernel, queue.name, queue.priority);
            self.threads[thread].serves = Some(place + 1);
        }
        self.add_threads(kernel, None);
    }

    /// The threads of a process of the script, or the kernel threads.
    fn add_threads(&mut self, process: ProcessIndex, of: Option<usize>) {
        let script = self.script;
        for declared in script.threads.iter().filter(|thread| thread.process == of) {
            let thread = self.add_thread(process, declared.name, declared.priority);
            self.threads[thread].instructions = &declared.instructions;
            self.threads[thread].suspensions = u8::from(declared.held);
        }
    }

    fn add_process(&mut self, name: Name) -> ProcessIndex {
        let index = self.processes.len();
        let object = self.objects.make(name, Body::Process);
        self.processes.push(Process::new(object));
        index
    }

    /// A thread, to which the kernel refers, and which refers to its process.
    fn add_thread(&mut self, process: ProcessIndex, name: Name, priority: u8) -> ThreadIndex {
        let index = self.threads.len();
        let object = self.objects.make(name, Body::Thread(index));
        self.objects.at_mut(object).references += 1;
        self.objects.at_mut(self.processes[process].object).references += 1;
        self.processes[process].threads += 1;
        self.threads.push(Thread::new(object, process, priority));
        self.threads_by_name.insert(name, index);
        self.changed.push(index);
        index
    }
}
