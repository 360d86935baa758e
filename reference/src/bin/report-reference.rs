//! Reads a domain and sheets from standard input and prints the figures over
//! those that are accepted.

use waroth_reference::program::Program;

fn main() -> std::io::Result<()> {
    Program::Report.main()
}
