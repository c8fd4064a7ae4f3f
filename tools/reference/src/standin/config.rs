//! Stand-in for config.rs: the settings that the listed files read.

pub struct Config {
    pub merge_equivalent_variables: bool,
    pub alldifferent_bijection_constraints: bool,
    pub use_native_extension_supports: bool,
    pub verbose: bool,
}

impl Config {
    /// The settings of document 01's first paragraph, and document 02's for AllDifferent (2.1).
    pub fn documents() -> Config {
        Config {
            merge_equivalent_variables: false,
            alldifferent_bijection_constraints: true,
            use_native_extension_supports: false,
            verbose: false,
        }
    }
}
