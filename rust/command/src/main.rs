use std::process::ExitCode;

fn main() -> ExitCode {
    ExitCode::from(pmn_command::run(std::env::args_os().skip(1).collect()))
}
