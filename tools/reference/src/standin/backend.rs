//! Stand-in for backend/: custom constraints are left out, only the names are needed.

pub mod glucose {
    pub struct GlucoseSolverManipulator;
}
