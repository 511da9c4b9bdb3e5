//! Fetches a pack over the pipes of `git upload-pack`, and writes it to a file:
//! `cargo run --example fetch -- PATH PACK REFSPEC.. [--have ID..] [--depth N] [--filter SPEC]`. With a boundary it prints its ids.
mod upload_pack;

use gixp::{pieces, Id, Piece, Session, Step};
use std::fs::File;
use std::io::Write;
use upload_pack::upload_pack;

/// Writes the pack of a response to a file, and the server's progress to standard error.
fn write_pack(answer: &[u8], place: usize, to: &str) -> Result<usize, Box<dyn std::error::Error>> {
    let mut file = File::create(to)?;
    let mut count = 0;
    for piece in pieces(answer, place) {
        match piece? {
            Piece::Content(bytes) => {
                file.write_all(bytes)?;
                count += bytes.len();
            }
            Piece::Progress(line) => eprintln!("remote: {}", String::from_utf8_lossy(line).trim_end()),
            Piece::Error(line) => return Err(String::from_utf8_lossy(line).into()),
        }
    }
    Ok(count)
}

fn main() -> Result<(), Box<dyn std::error::Error>> {
    let words: Vec<String> = std::env::args().skip(1).collect();
    let [path, to, rest @ ..] = words.as_slice() else { return Err("usage: fetch PATH PACK REFSPEC..".into()) };
    let specs = rest.iter().take_while(|word| !word.starts_with("--"));
    let mut session = Session::new(specs.map(|spec| spec.as_bytes()));
    for pair in rest.windows(2) {
        match pair[0].as_str() {
            "--have" => drop(session.have(Id::from_hex(pair[1].as_bytes()).ok_or("no id")?)),
            "--depth" => drop(session.depth(pair[1].parse()?)),
            "--filter" => drop(session.filter(&pair[1])),
            _ => {}
        }
    }
    session.answer(&upload_pack(path, None)?);
    for round in 1.. {
        match session.step()? {
            Step::Request(request) => drop(session.answer(&upload_pack(path, Some(&request))?)),
            Step::Pack(pack) => {
                let count = write_pack(session.last(), pack.place, to)?;
                println!("{count} bytes after {} requests", round - 1);
                pack.boundary.iter().for_each(|id| println!("shallow {id}"));
                break;
            }
            Step::Nothing => {
                println!("nothing to fetch");
                break;
            }
        }
    }
    Ok(())
}
