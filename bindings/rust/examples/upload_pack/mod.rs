//! `git upload-pack` over pipes.
use std::io::{self, Write};
use std::process::{Command, Stdio};

/// The response of `git upload-pack` to a request, or its advertisement without a request.
pub fn upload_pack(path: &str, request: Option<&[u8]>) -> io::Result<Vec<u8>> {
    let mut git = Command::new("git");
    git.env("GIT_PROTOCOL", "version=2").args(["upload-pack", "--stateless-rpc"]);
    if request.is_none() {
        git.arg("--advertise-refs");
    }
    let mut child = git.arg(path).stdin(Stdio::piped()).stdout(Stdio::piped()).spawn()?;
    child.stdin.take().unwrap().write_all(request.unwrap_or(b""))?;
    Ok(child.wait_with_output()?.stdout)
}
