//! Compares the time to read the refs of a response with that of a plain parser, and times the steps of a session with many rounds:
//! `cargo run --release --example bench -- refs FILE [RUNS]`, `.. -- rounds REFS ROUNDS`. `bench/languages.py` runs it.
use gixp::{refs, Id, Ref, Session, Step};

fn digit(byte: u8) -> Option<u8> {
    match byte {
        b'0'..=b'9' => Some(byte - b'0'),
        b'a'..=b'f' => Some(byte - b'a' + 10),
        b'A'..=b'F' => Some(byte - b'A' + 10),
        _ => None,
    }
}

fn id(text: &[u8]) -> Option<Id> {
    let mut bytes = [0; 20];
    if text.len() != 40 {
        return None;
    }
    for (byte, pair) in bytes.iter_mut().zip(text.chunks_exact(2)) {
        *byte = digit(pair[0])? << 4 | digit(pair[1])?;
    }
    Some(Id(bytes))
}

fn cut(text: &[u8], byte: u8) -> Option<(&[u8], &[u8])> {
    let at = text.iter().position(|b| *b == byte)?;
    Some((&text[..at], &text[at + 1..]))
}

/// The ref of a line, parsed in the usual way.
fn plain_ref(line: &[u8]) -> Option<Ref<'_>> {
    let line = line.trim_ascii_end();
    let (first, rest) = cut(line, b' ')?;
    let (name, mut rest) = cut(rest, b' ').unwrap_or((rest, b""));
    let (mut target, mut peeled) = (None, None);
    while !rest.is_empty() {
        let (attribute, more) = cut(rest, b' ').unwrap_or((rest, b""));
        rest = more;
        if let Some(text) = attribute.strip_prefix(b"peeled:") {
            peeled = Some(id(text)?);
        } else {
            target = Some(attribute.strip_prefix(b"symref-target:")?);
        }
    }
    Some(match (first == b"unborn", target, peeled) {
        (true, target, _) => Ref::Unborn { name, target: target? },
        (_, None, None) => Ref::Direct { name, object: id(first)? },
        (_, None, Some(object)) => Ref::Peeled { name, tag: id(first)?, object },
        (_, Some(target), None) => Ref::Symbolic { name, target, tag: None, object: id(first)? },
        (_, Some(target), Some(object)) => Ref::Symbolic { name, target, tag: Some(id(first)?), object },
    })
}

/// Reads the refs of a response. Returns `None` if it is malformed.
fn plain(mut answer: &[u8], mut each: impl FnMut(Ref<'_>)) -> Option<()> {
    loop {
        let size = usize::from_str_radix(std::str::from_utf8(answer.get(..4)?).ok()?, 16).ok()?;
        if size < 4 {
            return (size < 2).then_some(());
        }
        let line = answer.get(4..size)?;
        if line.starts_with(b"ERR ") {
            return None;
        }
        each(plain_ref(line)?);
        answer = &answer[size..];
    }
}

/// What is kept of each ref, so that nothing of it is left out.
fn weigh(sum: u64, found: Ref<'_>) -> u64 {
    let id = found.id().map_or(0, |id| u64::from(id.0[19]));
    sum.wrapping_mul(31).wrapping_add(id + found.name().len() as u64)
}

/// The CPU time of this process in seconds, from Linux.
fn processor_time() -> f64 {
    let said = std::fs::read_to_string("/proc/self/schedstat").unwrap();
    said.split(' ').next().unwrap().parse::<f64>().unwrap() / 1e9
}

fn time<T>(run: impl FnOnce() -> T) -> (f64, T) {
    let start = processor_time();
    let found = run();
    (processor_time() - start, found)
}

fn time_refs(answer: &[u8], runs: usize) {
    let (mut ours, mut others) = (f64::MAX, f64::MAX);
    for _ in 0..runs {
        let (seconds, sum) = time(|| refs(answer).fold(0, |sum, found| weigh(sum, found.unwrap())));
        ours = ours.min(seconds);
        let (seconds, other) = time(|| {
            let mut sum = 0;
            plain(answer, |found| sum = weigh(sum, found)).unwrap();
            sum
        });
        others = others.min(seconds);
        assert_eq!(sum, other);
    }
    println!("{:.1} ms, plain {:.1} ms, {:.2} of its time", ours * 1e3, others * 1e3, ours / others);
}

fn packet(text: &str) -> String {
    format!("{:04x}{text}", text.len() + 4)
}

/// Forty pseudorandom digits, like those of an id.
fn digits(n: u64) -> String {
    let mut state = n;
    let mut next = || {
        state = state.wrapping_add(0x9e37_79b9_7f4a_7c15);
        let mut z = state;
        z = (z ^ (z >> 30)).wrapping_mul(0xbf58_476d_1ce4_e5b9);
        z = (z ^ (z >> 27)).wrapping_mul(0x94d0_49bb_1331_11eb);
        z ^ (z >> 31)
    };
    format!("{:016x}{:016x}{:08x}", next(), next(), next() as u32)
}

/// Runs a session of version 2 whose server acknowledges nothing until the pack, so that each round offers more haves. Returns the
/// seconds of all steps, and of the last.
fn session(refs: u64, haves: u64, rounds: usize) -> (f64, f64) {
    let greeting = ["version 2\n", "ls-refs=unborn\n", "fetch=shallow\n"].map(packet).concat() + "0000";
    let listed: String = (0..refs).map(|n| packet(&format!("{} refs/heads/{n}\n", digits(n)))).collect();
    let mut session = Session::new(["refs/heads/*:refs/remotes/o/*"]);
    for n in 0..haves {
        session.have(Id::from_hex(digits(1 << 40 | n).as_bytes()).unwrap());
    }
    session.answer(greeting.as_bytes()).answer((listed + "0000").as_bytes());
    let none = ["acknowledgments\n", "NAK\n"].map(packet).concat() + "0000";
    let pack = ["acknowledgments\n", "NAK\n", "ready\n"].map(packet).concat() + "0001" + &packet("packfile\n");
    let (mut all, mut last) = (0.0, 0.0);
    for round in 1.. {
        let (seconds, step) = time(|| session.step().unwrap());
        last = seconds;
        all += last;
        match step {
            Step::Request(_) if round < rounds => drop(session.answer(none.as_bytes())),
            Step::Request(_) => drop(session.answer(pack.as_bytes())),
            _ => break,
        }
    }
    (all, last)
}

/// Compares all steps of a session with the last one. Splits the time of the last one into the shares of the refs, of the haves,
/// and of the rounds after the first.
fn time_rounds(refs: u64, rounds: usize) {
    const HAVES: u64 = 1 << 16;
    let mut times = [f64::MAX; 4];
    for _ in 0..5 {
        let (all, last) = session(refs, HAVES, rounds);
        let found = [all, last, session(refs, 0, 1).1, session(refs, HAVES, 1).1];
        times.iter_mut().zip(found).for_each(|(time, found)| *time = time.min(found));
    }
    let [all, last, bare, one] = times;
    let share = |seconds: f64| 100.0 * seconds / last;
    println!("{rounds} rounds: {:.1} ms in all, {:.1} ms for the last step, {:.1} times", all * 1e3, last * 1e3, all / last);
    let [refs, haves, later] = [bare, one - bare, last - one].map(share);
    println!("of the last step {refs:.0} % for the refs, {haves:.0} % for the haves, {later:.0} % for later rounds");
}

fn main() {
    let words: Vec<String> = std::env::args().collect();
    let number = |n: usize, other: usize| words.get(n).map_or(other, |word| word.parse().unwrap());
    match words.get(1).map(String::as_str) {
        Some("refs") => time_refs(&std::fs::read(&words[2]).unwrap(), number(3, 5)),
        Some("rounds") => time_rounds(number(2, 100_000) as u64, number(3, 10)),
        _ => eprintln!("usage: bench refs FILE [RUNS] | rounds [REFS [ROUNDS]]"),
    }
}
