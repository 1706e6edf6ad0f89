//! State files: what is saved comes back, and nothing else is taken for one.

mod bytes;
mod files;
mod saving;
