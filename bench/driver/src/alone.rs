//! Oddrafisk alone, for machines on which the Rust cannot be built.

fn main() {
    driver::run(&[&driver::side::Oddrafisk::of_environment()]);
}
