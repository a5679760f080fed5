//! The library is for x86-64. On another processor a program that is linked with it runs under an emulator.
use std::env;
use std::process::Command;

/// A command for such a program: by itself, or under the emulator that `NYOTMELANG_RUNNER` names.
pub fn command(program: &str) -> Command {
    let Some(emulator) = env::var_os("NYOTMELANG_RUNNER") else {
        return Command::new(program);
    };
    let mut command = Command::new(emulator);
    command.arg(program);
    command
}
