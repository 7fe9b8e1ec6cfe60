//! Labels that stand, labels that are awaited, and what they declare.

use super::Author;
use crate::make::wild;
use crate::program::{Boxed, Entry, Kind, Stmt};
use crate::typing;

impl Author<'_> {
    /// An environment that covers this one; what is known of `held` stays.
    pub(super) fn weakened(&mut self, env: &[Entry], held: Option<u32>) -> Vec<Entry> {
        let much = self.rng.pick(&[10, 40, 90]);
        let mut label = env.to_vec();
        for (var, entry) in label.iter_mut().enumerate() {
            if held == Some(var as u32) {
                continue;
            }
            if self.rng.chance(much) {
                entry.tag = None;
            }
            if self.program.vars[var].kind != Kind::Int {
                entry.boxed = if self.rng.chance(much) { Boxed::Any } else { entry.boxed };
                entry.offset = if self.rng.chance(much / 4) { None } else { entry.offset };
            }
        }
        label
    }

    fn new_label(&mut self, env: &[Entry]) -> u32 {
        self.program.entries.extend_from_slice(env);
        self.labels += 1;
        self.labels - 1
    }

    /// A label that a jump with this environment may go to; one that stands
    /// already only as often as `back` says.
    pub(super) fn target(&mut self, env: &[Entry], back: usize) -> u32 {
        let mut labels = self.pending.clone();
        if self.rng.chance(back) {
            labels.extend(&self.placed);
        }
        let stray = self.strays();
        let covers =
            |&at: &usize| stray || typing::covered(env, self.program.label(labels[at])).is_ok();
        match self.rng.pick_where(labels.len(), covers) {
            Some(at) if self.rng.chance(50) || self.labels > 12 => labels[at],
            _ => self.awaited(env, None),
        }
    }

    /// A new label that is yet to be placed.
    pub(super) fn awaited(&mut self, env: &[Entry], held: Option<u32>) -> u32 {
        let env = self.weakened(env, held);
        let label = self.new_label(&env);
        self.pending.push(label);
        label
    }

    pub(super) fn place(&mut self, label: u32) {
        if self.keep(Stmt::Label(label)) {
            self.pending.retain(|&waiting| waiting != label);
            self.placed.push(label);
        }
    }

    pub(super) fn place_new(&mut self, env: &[Entry]) -> u32 {
        let label = self.new_label(env);
        self.place(label);
        label
    }

    /// A label that waits, or one that nothing reaches.
    pub(super) fn resume(&mut self) {
        if !self.pending.is_empty() && self.rng.chance(90) {
            let label = self.rng.pick(&self.pending);
            return self.place(label);
        }
        let kinds = self.program.vars.iter().map(|decl| decl.kind);
        let env: Vec<Entry> = kinds.map(|kind| wild::entry(self.rng, kind)).collect();
        self.place_new(&env);
    }
}
