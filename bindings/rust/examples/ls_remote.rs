//! Lists the refs of a repository, as `git ls-remote --symref` does: `cargo run --example ls_remote -- PATH`.
mod upload_pack;

use gixp::{refs, Ref, Session, Step};
use std::io::{self, Write};
use upload_pack::upload_pack;

fn main() -> Result<(), Box<dyn std::error::Error>> {
    let path = std::env::args().nth(1).ok_or("usage: ls_remote PATH")?;
    let mut session = Session::new(["+refs/*:refs/*", "HEAD"]);
    session.answer(&upload_pack(&path, None)?);
    let Step::Request(request) = session.step()? else { return Ok(()) };
    let answer = upload_pack(&path, Some(&request))?;
    let mut out = io::BufWriter::new(io::stdout().lock());
    for found in refs(&answer) {
        let found = found?;
        let name = String::from_utf8_lossy(found.name());
        if let Ref::Symbolic { target, .. } | Ref::Unborn { target, .. } = found {
            writeln!(out, "ref: {}\t{name}", String::from_utf8_lossy(target))?;
        }
        if let Some(id) = found.id() {
            writeln!(out, "{id}\t{name}")?;
        }
        if let Ref::Peeled { object, .. } | Ref::Symbolic { object, tag: Some(_), .. } = found {
            writeln!(out, "{object}\t{name}^{{}}")?;
        }
    }
    Ok(())
}
