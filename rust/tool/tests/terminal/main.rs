//! The tool, as a shell or another program runs it.

mod arguments;
mod books;
mod complaints;
mod draw;
mod explain;
mod json;
mod machines;
mod page;
mod profiles;
mod progress;
mod run;
mod statuses;
mod texts;
mod whole_files;
mod written;
