//! What the commands do on a machine in memory, and what scripts print.

mod acting;
mod adding;
mod commands;
mod host;
mod looking;
mod machine;
mod making;
mod opened;
mod reasons;
mod runs;
mod streams;
mod typed;
