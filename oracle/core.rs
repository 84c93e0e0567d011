// The module tree that the published files expect.
pub mod filters;
#[allow(dead_code)]
pub mod scalar;
