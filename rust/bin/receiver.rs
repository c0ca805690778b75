//! The program `receiver`: see its --help.

mod start;

fn main() -> impl std::process::Termination {
    seldomplough::run_receiver()
}
