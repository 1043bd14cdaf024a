//! References: who gets them, who gives them up, and what is owed then.

use super::objects::Body;
use super::thread::{Duty, ThreadIndex};
use super::Kernel;
use crate::entry::{Effect, Holder, ObjectNumber, Step};

impl Kernel<'_> {
    /// A holder gets a reference.
    pub(super) fn plus(&mut self, holder: Holder, object: ObjectNumber) {
        self.objects.at_mut(object).references += 1;
        self.tell(Effect::Plus(holder, object));
    }

    /// A holder gives its reference up. If it was the last one, the acting thread owes the close of the object's link
    /// and the sweep.
    pub(super) fn minus(&mut self, actor: ThreadIndex, holder: Holder, object: ObjectNumber) {
        self.tell(Effect::Minus(holder, object));
        let row = self.objects.at_mut(object);
        row.references -= 1;
        if !row.is_dead() {
            return;
        }
        let link = match row.body {
            Body::Thread(thread) => Some(self.processes[self.threads[thread].process].object),
            Body::Session(_) => self.unlink(object),
            _ => None,
        };
        self.tell(Effect::Dead(object));
        if let Some(linked) = link {
            self.owe(actor, Duty::Close(Holder::Link(object), linked));
        }
        self.owe(actor, Duty::Sweep(object));
    }

    pub(super) fn owe(&mut self, thread: ThreadIndex, duty: Duty) {
        self.threads[thread].duties.push_back(duty);
    }

    /// A thread does what it owes.
    pub(super) fn do_duty(&mut self, thread: ThreadIndex, duty: Duty) {
        if self.threads[thread].serves.is_some() {
            self.changed.push(thread);
        }
        match duty {
            Duty::Close(holder, object) => {
                self.entry.step = Step::Drop;
                self.minus(thread, holder, object);
            }
            Duty::Sweep(object) => {
                self.entry.step = Step::Sweep;
                self.objects.sweep(object);
                self.tell(Effect::Swept(object));
            }
        }
    }
}
