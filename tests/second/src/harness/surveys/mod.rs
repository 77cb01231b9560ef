//! Random plans of kinds that planners draw, and tables of what is answered for them.

pub mod every_lists;
pub mod grades;
pub mod meshes;
