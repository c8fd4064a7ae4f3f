//! Stand-in for sat/: what custom_constraints.rs names. Nothing here is ever called.
use std::ops::Not;

#[derive(Clone, Copy, PartialEq, Eq, PartialOrd, Ord, Debug)]
pub struct Lit(i32);

impl Not for Lit {
    type Output = Lit;

    fn not(self) -> Lit {
        Lit(self.0 ^ 1)
    }
}

pub trait SolverManipulator {
    unsafe fn add_watch(&mut self, lit: Lit);
    unsafe fn value(&self, lit: Lit) -> Option<bool>;
    unsafe fn is_current_level(&self, lit: Lit) -> bool;
}

impl SolverManipulator for crate::backend::glucose::GlucoseSolverManipulator {
    unsafe fn add_watch(&mut self, _: Lit) {}

    unsafe fn value(&self, _: Lit) -> Option<bool> {
        None
    }

    unsafe fn is_current_level(&self, _: Lit) -> bool {
        false
    }
}

/// # Safety
/// As custom_constraints.rs writes it; nothing here relies on it.
pub unsafe trait CustomPropagator<M: SolverManipulator> {
    fn initialize(&mut self, solver: &mut M) -> bool;
    fn propagate(&mut self, solver: &mut M, p: Lit, num_pending_propagations: i32) -> bool;
    fn calc_reason(&mut self, solver: &mut M, p: Option<Lit>, extra: Option<Lit>) -> Vec<Lit>;
    fn undo(&mut self, solver: &mut M, p: Lit);
}
