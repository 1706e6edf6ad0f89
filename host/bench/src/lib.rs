//! What the measuring programs share: a [`route`] with both guards on a [`stage`]
//! before it, [`timing`], the plot's [`points`] and a [`scratch`] directory.

pub mod points;
pub mod route;
pub mod scratch;
pub mod stage;
pub mod timing;
