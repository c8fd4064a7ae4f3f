//! Stand-in for propagators/: GraphDivision is left out, only its name is needed.

pub mod graph_division {
    #[derive(Clone, Debug)]
    pub struct GraphDivisionOptions;
}
