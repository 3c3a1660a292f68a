//! Prints the further bench cases.

fn main() {
    print!("{}", cases::all());
}
