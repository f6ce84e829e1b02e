//! Writes vectors: `write_vectors FOLDER [SEED]`.

use nyokazerubi_host::outside;
use std::path::Path;
use std::process::ExitCode;

fn main() -> ExitCode {
    let arguments: Vec<String> = std::env::args().skip(1).collect();
    let seed = arguments.get(1).map_or(Ok(2026), |seed| seed.parse());
    let (Some(folder), Ok(seed)) = (arguments.first(), seed) else {
        eprintln!("usage: write_vectors FOLDER [SEED]");
        return ExitCode::FAILURE;
    };
    match outside::write(Path::new(folder), seed) {
        Ok(written) => {
            println!(
                "{} cases, {} traces, {} readings, {} recordings, {} bodies, {} bytes",
                written.cases, written.traces, written.readings, written.recordings, written.bodies, written.bytes
            );
            ExitCode::SUCCESS
        }
        Err(error) => {
            eprintln!("{folder}: {error}");
            ExitCode::FAILURE
        }
    }
}
