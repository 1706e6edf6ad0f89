//! Hosts in C: the header, the examples, the page for hosts and the installed
//! library, by programs that a C compiler builds here.

mod calls;
mod compiler;
mod contract;
mod examples;
mod install;
mod journals;
mod key_search;
mod locks;
mod page;
mod state;
mod warnings;
