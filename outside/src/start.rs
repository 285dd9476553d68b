//! How a program here starts and ends.

use std::fmt::Display;
use std::process::ExitCode;
use std::str::FromStr;

/// The number that follows an argument.
pub fn number<N: FromStr<Err: Display>>(argument: &str, text: Option<String>) -> Result<N, String> {
    let text = text.ok_or(format!("{argument} wants a number"))?;
    text.parse().map_err(|error| format!("{argument} {text}: {error}"))
}

/// The side that is linked, or none where a program plays alone. Refused where no side is linked.
pub fn other_side<S>(alone: bool, linked: Option<S>) -> Result<Option<S>, &'static str> {
    match linked {
        _ if alone => Ok(None),
        Some(side) => Ok(Some(side)),
        None => Err("built without the feature `boundary`: there is nothing to compare with, so use --alone"),
    }
}

/// The exit code of a program that found all well or not, or that could not start, which is said.
pub fn exit(outcome: Result<bool, String>) -> ExitCode {
    match outcome {
        Ok(true) => ExitCode::SUCCESS,
        Ok(false) => ExitCode::FAILURE,
        Err(why) => {
            eprintln!("{why}");
            ExitCode::from(2)
        }
    }
}
