//! Timing readers: what is read (`cases`), how long it takes (`measure`), on
//! which machine (`machine`), and the Markdown tables that are printed (`report`).

pub mod cases;
pub mod machine;
pub mod measure;
pub mod report;
