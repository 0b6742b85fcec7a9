//! The checks that are still to be made, which the workers share.

use std::sync::{Condvar, Mutex};

/// A check of one crate, by the number of its plan.
#[derive(Clone, Debug, PartialEq, Eq)]
pub enum Task {
    /// The crate as it stands.
    Control(usize),
    /// Some edits of the crate, tried together.
    Edits(usize, Vec<usize>),
}

impl Task {
    /// Controls come first, since they let others begin; then what takes longest.
    fn weight(&self) -> usize {
        match self {
            Task::Control(_) => usize::MAX,
            Task::Edits(_, members) => members.len(),
        }
    }
}

pub struct Board {
    tasks: Mutex<Tasks>,
    changed: Condvar,
}

struct Tasks {
    open: Vec<Task>,
    running: usize,
}

impl Board {
    pub fn new(open: Vec<Task>) -> Board {
        Board { tasks: Mutex::new(Tasks { open, running: 0 }), changed: Condvar::new() }
    }

    /// The next task that can begin, once there is one; none when all are done.
    pub fn take(&self, can_begin: impl Fn(&Task) -> bool) -> Option<Task> {
        let mut tasks = self.tasks.lock().unwrap();
        while !tasks.open.is_empty() || tasks.running > 0 {
            let mut best: Option<usize> = None;
            for (at, task) in tasks.open.iter().enumerate() {
                let better = best.is_none_or(|best| tasks.open[best].weight() < task.weight());
                if better && can_begin(task) {
                    best = Some(at);
                }
            }
            if let Some(at) = best {
                tasks.running += 1;
                return Some(tasks.open.remove(at));
            }
            tasks = self.changed.wait(tasks).unwrap();
        }
        None
    }

    /// A task that was taken is done, and these follow from it.
    pub fn done(&self, more: Vec<Task>) {
        let mut tasks = self.tasks.lock().unwrap();
        tasks.running -= 1;
        tasks.open.extend(more);
        self.changed.notify_all();
    }

    /// Nothing more is begun.
    pub fn stop(&self) {
        let mut tasks = self.tasks.lock().unwrap();
        *tasks = Tasks { open: Vec::new(), running: 0 };
        self.changed.notify_all();
    }
}

#[cfg(test)]
mod tests {
    use super::*;
    use Task::{Control, Edits};

    #[test]
    fn controls_come_first_and_large_groups_before_small_ones() {
        let board = Board::new(vec![Edits(0, vec![1]), Edits(0, vec![2, 3]), Control(1)]);
        let next = || board.take(|_| true);
        assert_eq!(next(), Some(Control(1)));
        assert_eq!(next(), Some(Edits(0, vec![2, 3])));
        board.done(vec![Edits(1, vec![0, 1])]);
        assert_eq!(next(), Some(Edits(1, vec![0, 1])));
        assert_eq!(next(), Some(Edits(0, vec![1])));
        for _ in 0..3 {
            board.done(Vec::new());
        }
        assert_eq!(next(), None);
    }

    #[test]
    fn what_cannot_begin_is_left() {
        let board = Board::new(vec![Control(0), Edits(1, vec![0])]);
        let second = |task: &Task| !matches!(task, Control(_));
        assert_eq!(board.take(second), Some(Edits(1, vec![0])));
        board.stop();
        assert_eq!(board.take(|_| true), None);
    }
}
