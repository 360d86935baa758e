//! Reads a domain and a sheet from standard input and prints the verdict.

use waroth_reference::program::Program;

fn main() -> std::io::Result<()> {
    Program::Waroth.main()
}
