//! spotcard: cards of spots, over the proved spot table.

mod args;
mod card;
mod changes;
mod commands;
mod digest;
mod input;
mod kind;
mod lock;
mod output;
mod picture;
mod problem;
mod sheet;
mod spot;
mod store;
#[cfg(test)]
mod tests;
mod titles;
mod tree;
mod words;

use std::process::ExitCode;

fn main() -> ExitCode {
    let cli = args::Cli::read();
    let done = store::on_deep_stack(move || commands::run(cli.command));
    match done.map_err(anyhow::Error::from).and_then(|result| result) {
        Ok(()) => ExitCode::SUCCESS,
        Err(error) => ExitCode::from(problem::tell(&error)),
    }
}
