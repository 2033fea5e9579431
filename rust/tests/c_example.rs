//! The C example, compiled against the header and the library, prints what it should.
mod commands;

use commands::{place, printed, top, EXAMPLE_PRINTS};
use std::process::Command;

#[test]
fn the_c_example_repairs_and_opens() {
    let program = place("c_example").join("example");
    let mut gcc = Command::new("gcc");
    gcc.args(["-std=c11", "-Wall", "-Wextra", "-Werror", "-I"]).arg(top().join("include"));
    gcc.arg(top().join("examples/example.c")).arg(env!("HMSR_LIBRARY")).arg("-o").arg(&program);
    printed(&mut gcc);
    assert_eq!(printed(&mut Command::new(program)), EXAMPLE_PRINTS);
}
