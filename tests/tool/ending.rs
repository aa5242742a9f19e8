// How the test tools end.
use std::process::ExitCode;

/// The report goes to standard output, or the reason to standard error.
pub fn told(result: Result<String, String>) -> ExitCode {
    match result {
        Ok(report) => {
            println!("{report}");
            ExitCode::SUCCESS
        }
        Err(why) => {
            eprintln!("{why}");
            ExitCode::FAILURE
        }
    }
}
