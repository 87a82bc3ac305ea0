//! The command `oracle`.

fn main() {
    oracle::cli::main();
}
