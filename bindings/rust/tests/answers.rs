//! Tests of responses, without a network.
use gixp::{advertised, pieces, refs, Error, Id, Kind, Pack, Piece, Ref, Session, Step};

fn packet(text: &[u8]) -> Vec<u8> {
    [format!("{:04x}", text.len() + 4).as_bytes(), text].concat()
}

fn id(last: u8) -> Id {
    let mut bytes = [0; 20];
    bytes[19] = last;
    Id(bytes)
}

fn line(last: u8, rest: &str) -> Vec<u8> {
    packet(format!("{} {rest}\n", id(last)).as_bytes())
}

/// The refs before an error, and the error.
fn read(answer: &[u8]) -> (Vec<Ref<'_>>, Option<Error>) {
    let mut error = None;
    let found = refs(answer).map_while(|r| r.map_err(|e| error = Some(e)).ok()).collect();
    (found, error)
}

#[test]
fn kinds_of_refs() {
    let answer = [
        line(1, "HEAD symref-target:refs/heads/main"),
        line(2, "refs/heads/main"),
        line(3, "refs/tags/v1 peeled:0000000000000000000000000000000000000004"),
        packet(b"unborn NEW symref-target:refs/heads/new\n"),
        b"0000".to_vec(),
    ]
    .concat();
    let (found, error) = read(&answer);
    assert_eq!(error, None);
    assert_eq!(
        found,
        [
            Ref::Symbolic { name: b"HEAD", target: b"refs/heads/main", tag: None, object: id(1) },
            Ref::Direct { name: b"refs/heads/main", object: id(2) },
            Ref::Peeled { name: b"refs/tags/v1", tag: id(3), object: id(4) },
            Ref::Unborn { name: b"NEW", target: b"refs/heads/new" },
        ]
    );
}

#[test]
fn many_refs() {
    let mut answer = (0..1000).map(|n| line(n as u8, &format!("refs/heads/{n}"))).collect::<Vec<_>>().concat();
    let (found, error) = read(&answer);
    assert_eq!((found.len(), error.unwrap().kind()), (1000, Kind::Incomplete));
    answer.extend_from_slice(b"0000more");
    let mut all = refs(&answer);
    assert_eq!(all.by_ref().filter(|r| r.is_ok()).count(), 1000);
    assert_eq!(all.place(), answer.len() - 4);
    assert!(all.next().is_none());
}

#[test]
fn malformed_packet_lines() {
    let rows: [(&[u8], u32); 9] = [
        (b"zzzz", 11),
        (b"fff1xxxx", 12),
        (b"0004", 13),
        (b"0003", 14),
        (b"000aERR no", 15),
        (b"0002", 16),
        (b"", 10),
        (b"0032ab", 10),
        (b"0008a b\n", 20),
    ];
    for (bad, code) in rows {
        let answer = [line(1, "HEAD"), bad.to_vec()].concat();
        let (found, error) = read(&answer);
        let error = error.unwrap();
        assert_eq!((found.len(), error.code()), (1, code), "{error}");
        assert_eq!(error.words(), if code == 15 { b"no".as_slice() } else { b"" });
        assert!(!error.to_string().is_empty());
    }
}

#[test]
fn advertisements() {
    let first = [id(1).to_string().as_bytes(), b" HEAD\0symref=HEAD:refs/heads/main agent=git/2\n"].concat();
    let shallow = packet(format!("shallow {}", id(9)).as_bytes());
    let lines = [line(2, "refs/heads/main"), line(3, "refs/tags/v1"), line(4, "refs/tags/v1^{}"), shallow];
    for version in [vec![], packet(b"version 1\n")] {
        let whole = [version, packet(&first), lines.concat(), b"0000rest".to_vec()].concat();
        let mut all = advertised(&whole);
        let found: Vec<_> = all.by_ref().map(Result::unwrap).collect();
        assert_eq!(
            found,
            [
                Ref::Symbolic { name: b"HEAD", target: b"refs/heads/main", tag: None, object: id(1) },
                Ref::Direct { name: b"refs/heads/main", object: id(2) },
                Ref::Peeled { name: b"refs/tags/v1", tag: id(3), object: id(4) },
            ]
        );
        assert_eq!(all.place(), whole.len() - 4);
        for end in 0..whole.len() - 8 {
            let cut: Vec<_> = advertised(&whole[..end]).map_while(Result::ok).collect();
            assert_eq!(cut, found[..cut.len()]);
            assert_eq!(advertised(&whole[..end]).last().unwrap().unwrap_err().kind(), Kind::Incomplete);
        }
    }
    let many: Vec<u8> = (0..1000).flat_map(|n| line(n as u8, &format!("refs/tags/{n}"))).collect();
    let whole = [packet(&[id(1).to_string().as_bytes(), b" refs/a\0\n"].concat()), many, b"0000".to_vec()].concat();
    assert_eq!(advertised(&whole).filter(|found| found.is_ok()).count(), 1001);
    let none = [packet(&[Id::default().to_string().as_bytes(), b" capabilities^{}\0agent=git/2\n"].concat()), b"0000".to_vec()].concat();
    assert_eq!(advertised(&none).count(), 0);
    assert_eq!(advertised(b"0000").count(), 0);
    for (bad, code) in [(greeting(), 47), (packet(b"version 7\n"), 48), (line(1, "HEAD"), 46), (packet(b"ERR no\n"), 15)] {
        let error = advertised(&bad).next().unwrap().unwrap_err();
        assert_eq!((error.code(), error.words()), (code, if code == 15 { b"no".as_slice() } else { b"" }), "{error}");
    }
}

#[test]
fn bands() {
    let answer = [packet(b"\x01PACK"), packet(b"\x02half\n"), packet(b"\x01"), packet(b"\x03bad"), b"0000rest".to_vec()].concat();
    let mut all = pieces(&answer, 0);
    let found: Vec<_> = all.by_ref().map(Result::unwrap).collect();
    assert_eq!(found, [Piece::Content(b"PACK"), Piece::Progress(b"half"), Piece::Content(b""), Piece::Error(b"bad")]);
    assert_eq!(all.place(), answer.len() - 4);
    for (from, kind) in [(answer.len() + 1, Kind::BadPlace), (usize::MAX, Kind::BadPlace), (answer.len(), Kind::Incomplete)] {
        assert_eq!(pieces(&answer, from).next().unwrap().unwrap_err().kind(), kind);
    }
    assert_eq!(pieces(&packet(b"\x04"), 0).next().unwrap().unwrap_err().kind(), Kind::UnknownBand);
    assert_eq!(pieces(&answer[..12], 0).filter_map(Result::ok).count(), 1);
}

fn greeting() -> Vec<u8> {
    [packet(b"version 2\n"), packet(b"ls-refs=unborn\n"), packet(b"fetch=shallow\n"), b"0000".to_vec()].concat()
}

#[test]
fn a_session() {
    let mut session = Session::new(["refs/heads/*:refs/remotes/o/*"]);
    assert_eq!(session.step().unwrap_err().kind(), Kind::Answers);
    session.answer(&greeting());
    let Step::Request(first) = session.step().unwrap() else { panic!() };
    assert!(first.starts_with(b"0014command=ls-refs\n"));
    session.answer(&[line(5, "refs/heads/main"), b"0000".to_vec()].concat());
    let Step::Request(second) = session.step().unwrap() else { panic!() };
    assert!(second.windows(45).any(|w| w == format!("want {}", id(5)).as_bytes()));
    session.answer(&packet(b"packfile\n")[..7]);
    assert_eq!(session.step().unwrap_err().kind(), Kind::Incomplete);
    session.more(&[&packet(b"packfile\n")[7..], b"0009\x01PACK"].concat());
    assert_eq!(session.step(), Ok(Step::Pack(Pack { place: 13, ..Pack::default() })));
    let found: Vec<_> = pieces(session.last(), 13).filter_map(Result::ok).collect();
    assert_eq!(found, [Piece::Content(b"PACK")]);
    session.answer(b"0000");
    assert_eq!(session.step().unwrap_err().code(), 31);
}

fn filters() -> Vec<u8> {
    [packet(b"version 2\n"), packet(b"ls-refs=unborn\n"), packet(b"fetch=shallow filter\n"), b"0000".to_vec()].concat()
}

/// The request of a fetch with these options, and the error that a server without features causes.
fn fetch_with(options: impl Fn(&mut Session)) -> (String, Error) {
    let listed = [line(5, "refs/heads/main"), b"0000".to_vec()].concat();
    let session = |greeting: &[u8]| {
        let mut session = Session::new(["refs/heads/*:refs/remotes/o/*"]);
        options(&mut session);
        session.answer(greeting).answer(&listed).step()
    };
    let bare = [packet(b"version 2\n"), packet(b"ls-refs\n"), packet(b"fetch\n"), b"0000".to_vec()].concat();
    let Step::Request(request) = session(&filters()).unwrap() else { panic!() };
    (String::from_utf8(request).unwrap(), session(&bare).unwrap_err())
}

#[test]
fn limits_and_filters() {
    type Row = (fn(&mut Session), &'static [&'static str], u32);
    let rows: [Row; 6] = [
        (|s| drop(s.depth(3)), &["deepen 3"], 63),
        (|s| drop(s.deepen(2)), &["deepen 2", "deepen-relative"], 63),
        (|s| drop(s.since(-5)), &["deepen-since -5"], 63),
        (|s| drop(s.exclude("refs/tags/v1").exclude("old")), &["deepen-not refs/tags/v1", "deepen-not old"], 63),
        (|s| drop(s.since(7).exclude("old")), &["deepen-since 7", "deepen-not old"], 63),
        (|s| drop(s.filter("blob:none")), &["filter blob:none"], 70),
    ];
    for (options, lines, code) in rows {
        let (request, error) = fetch_with(options);
        for line in lines {
            let line = String::from_utf8(packet(format!("{line}\n").as_bytes())).unwrap();
            assert!(request.contains(&line), "{line}: {request}");
        }
        assert_eq!(request.matches("deepen").count() + request.matches("filter").count(), lines.len(), "{request}");
        assert_eq!(error.code(), code);
    }
    let refused = |options: fn(&mut Session)| {
        let mut session = Session::new(["refs/heads/*"]);
        options(&mut session);
        session.answer(&filters()).step().unwrap_err()
    };
    assert_eq!(refused(|s| drop(s.filter(b"\xff"))).to_string(), "the filter isn't UTF-8");
    assert_eq!(refused(|s| drop(s.exclude("a..b"))).kind(), Kind::BadLimit);
}

#[test]
fn boundaries() {
    let (new, old) = (id(1), id(7));
    let sections = [packet(b"shallow-info\n"), packet(format!("shallow {new}").as_bytes()), packet(format!("unshallow {old}").as_bytes())];
    let place = sections.concat().len() + 4 + 13;
    let after = |answer: &[u8], options: fn(&mut Session)| {
        let mut session = Session::new(["refs/heads/*:refs/remotes/o/*"]);
        options(session.shallow(id(7)));
        session.answer(&greeting()).answer(&[line(5, "refs/heads/main"), b"0000".to_vec()].concat()).answer(answer).step()
    };
    let plain = [packet(b"packfile\n"), b"0009\x01PACK".to_vec()].concat();
    let changed = [sections.concat(), b"0001".to_vec(), plain.clone()].concat();
    let limits: [fn(&mut Session); 4] =
        [|s| drop(s.depth(1)), |s| drop(s.deepen(1)), |s| drop(s.since(1)), |s| drop(s.exclude("a"))];
    for options in limits {
        assert_eq!(after(&changed, options), Ok(Step::Pack(Pack { place, boundary: vec![new], is_unasked: false })));
        assert_eq!(after(&plain, options), Ok(Step::Pack(Pack { place: 13, boundary: vec![old], is_unasked: false })));
    }
    assert_eq!(after(&changed, |_| ()), Ok(Step::Pack(Pack { place, boundary: vec![new], is_unasked: true })));
    assert_eq!(after(&plain, |_| ()), Ok(Step::Pack(Pack { place: 13, boundary: vec![old], is_unasked: false })));
}

#[test]
fn nothing_and_refusals() {
    let mut session = Session::new(["refs/heads/*:refs/remotes/o/*"]);
    session.have(id(5)).answer(&greeting()).answer(&[line(5, "refs/heads/main"), b"0000".to_vec()].concat());
    assert_eq!(session.step(), Ok(Step::Nothing));
    let mut session = Session::new(["refs/heads/*"]);
    session.answer(&packet(b"ERR go away\n"));
    let error = session.step().unwrap_err();
    assert_eq!((error.kind(), error.words()), (Kind::Server, b"go away".as_slice()));
    let mut session = Session::new(["refs/heads/*"]);
    session.answer(&greeting()).answer(&[line(5, "refs/heads/main"), b"0001".to_vec()].concat());
    let error = session.step().unwrap_err();
    assert_eq!((error.kind(), error.to_string().as_str()), (Kind::Refs, "expected flush after ref listing"));
    let mut session = Session::new(["a:b:c"]);
    session.answer(&greeting());
    assert_eq!(session.step().unwrap_err().kind(), Kind::BadSpec);
}

#[test]
fn white_space() {
    let step = |answers: &[Vec<u8>]| {
        let mut session = Session::new(["refs/heads/*:refs/remotes/o/*"]);
        answers.iter().for_each(|answer| drop(session.answer(answer)));
        session.step().err().map(|e| e.code())
    };
    for (name, code) in [("refs/heads/x\u{a0}", Some(21)), ("refs/heads/x \t", None), ("refs/heads/\u{a0}x", None)] {
        let listed = [line(5, name), b"0000".to_vec()].concat();
        assert_eq!(read(&listed).1.map(|e| e.code()), code, "{name}");
        assert_eq!(step(&[greeting(), listed.clone()]), code, "{name}");
        let first = [id(1).to_string().as_bytes(), b" HEAD\0multi_ack_detailed side-band-64k\n"].concat();
        let whole = [packet(&first), listed].concat();
        assert_eq!(advertised(&whole).find_map(Result::err).map(|e| e.code()), code, "{name}");
        assert_eq!(step(&[whole]), code, "{name}");
    }
}

#[test]
fn head_and_ids() {
    let first = |specs: &[&str]| {
        let Step::Request(first) = Session::new(specs).answer(&greeting()).step().unwrap() else { panic!() };
        String::from_utf8(first).unwrap()
    };
    assert_eq!(first(&["@:refs/heads/x"]), first(&["HEAD:refs/heads/x"]));
    assert!(first(&["+@"]).contains("ref-prefix HEAD"));
    let ids = [format!("{}", id(5)), format!("+{}:refs/heads/x", id(6))];
    let fetch = first(&[&ids[0], &ids[1]]);
    assert!(fetch.starts_with("0012command=fetch\n") && fetch.contains(&format!("want {}", id(5))), "{fetch}");
    assert!(first(&[&ids[0], "refs/heads/main"]).starts_with("0014command=ls-refs\n"));
}

#[test]
fn services() {
    let plain = greeting();
    let over_http = [packet(b"# service=git-upload-pack\n"), b"0000".to_vec(), plain.clone()].concat();
    assert_eq!(gixp::without_service(&over_http), plain);
    assert_eq!(gixp::without_service(&plain), plain);
    for text in [b"".as_slice(), b"00", b"zzzz", b"0000", b"ffff# service="] {
        assert_eq!(gixp::without_service(text), text);
    }
}

#[test]
fn mappings() {
    let names = ["refs/heads/main", "refs/heads/other", "refs/tags/v1"];
    let all = gixp::map(names, ["+refs/heads/*:refs/remotes/o/*", "^refs/heads/other", "refs/tags/v1"]).unwrap();
    let found: Vec<_> = all.mappings.iter().map(|m| (m.item, m.spec, m.local.as_deref())).collect();
    assert_eq!(found, [(Some(0), 0, Some(b"refs/remotes/o/main".as_slice())), (Some(2), 2, None)]);
    let all = gixp::map(names, ["refs/heads/main:refs/x", "refs/heads/other:refs/x"]).unwrap();
    assert_eq!((all.mappings.len(), all.conflicts), (0, vec![b"refs/x".to_vec()]));
    let all = gixp::map(names, ["refs/heads/main:x"]).unwrap();
    assert_eq!((all.mappings[0].local.as_deref(), all.removed.len()), (Some(b"refs/heads/x".as_slice()), 0));
    let all = gixp::map(names, ["refs/heads/*:x/*"]).unwrap();
    assert_eq!((all.mappings.len(), all.removed), (0, vec![b"x/main".to_vec(), b"x/other".to_vec()]));
    assert_eq!(gixp::map(names, ["a:b:c"]).unwrap_err().kind(), Kind::BadSpec);
    let many: Vec<_> = (0..1000).map(|n| format!("refs/heads/{n}")).collect();
    assert_eq!(gixp::map(&many, ["refs/heads/*:refs/a/much/longer/name/of/a/place/*"]).unwrap().mappings.len(), 1000);
}

#[test]
fn prefixes() {
    assert_eq!(gixp::prefixes(["refs/heads/*:refs/remotes/o/*", "^refs/heads/x"]).unwrap(), [b"refs/heads/".to_vec()]);
    assert_eq!(gixp::prefixes([format!("refs/{}", "x".repeat(999))]).unwrap()[0].len(), 1004);
    assert_eq!(gixp::prefixes(["@", "+@:refs/x"]).unwrap(), [b"HEAD".to_vec(), b"HEAD".to_vec()]);
    assert_eq!(gixp::prefixes(["a:b:c"]).unwrap_err().kind(), Kind::BadSpec);
}
