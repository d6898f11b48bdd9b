//! Serves one Bolt conversation in raw bytes from standard input to standard output, so that any listener can put it
//! on a port: `socat TCP-LISTEN:7687,fork EXEC:serve`. Its engine answers every request with success. Standard error
//! has a line for what the client sent that was refused.

use meulhaton::{Outcome, Request};
use std::io;

fn main() -> io::Result<()> {
    serve::serve(&mut io::stdin().lock(), &mut io::stdout().lock(), &mut io::stderr(), engine)
}

/// Where the engine's work would be done. It succeeds, and no batch leaves records behind.
fn engine(_request: Request) -> Outcome {
    Outcome::Success
}
