//! Writes the incident's claims, and the readable text beside every claim of the repository.

use outside::reference::check;
use outside::routines::{describe, ROUTINES};
use outside::{printed, timeout};
use std::io;
use std::path::Path;

fn main() -> io::Result<()> {
    let claims = Path::new(env!("CARGO_MANIFEST_DIR")).join("../claims");
    for (name, claim) in [
        ("timeout_retry", timeout::claim()),
        ("timeout_retry_missed", timeout::missed()),
    ] {
        let file = claim.bytes();
        std::fs::write(claims.join(format!("{name}.shc")), &file)?;
        let expected = claims.join(format!("{name}.expected"));
        std::fs::write(expected, printed(check, &file))?;
    }
    for routine in &ROUTINES {
        let file = std::fs::read(claims.join(format!("{}.shc", routine.name)))?;
        let path = claims.join(format!("{}.txt", routine.name));
        std::fs::write(path, describe(routine, &file))?;
    }
    Ok(())
}
