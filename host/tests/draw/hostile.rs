//! Requests that no page sends. Each has its status and words, and the server still answers after all of them.

use std::fs;
use std::process::Command;

use crate::client::Server;
use crate::common::rng::Rng;
use crate::json::Value;
use crate::{body, part, square, with_hole};

/// The paths that take a body.
pub const PATHS: [&str; 12] = [
    "/examples",
    "/first",
    "/read",
    "/write",
    "/save",
    "/thin",
    "/check",
    "/pave",
    "/picture",
    "/nearest",
    "/crosses",
    "/step",
];

/// That it still answers, and answers right.
pub fn answers(server: &mut Server) {
    assert!(server.is_running());
    assert_eq!(server.get("/").status, 200);
    let asked = body(&vec![square(2.0)], &[("size", Value::Number(1.0))]);
    let paved = server.value("/pave", &asked);
    assert_eq!(part(part(part(&paved, "mesh"), "figures"), "quads"), &Value::count(4));
}

/// A body that every path takes.
pub fn everything() -> Value {
    let points = Value::list([[1.0, 1.0], [4.0, 4.0]].into_iter().map(Value::point));
    body(
        &with_hole(),
        &[
            ("size", Value::Number(1.5)),
            ("eye", Value::text("right")),
            ("title", Value::text("A field")),
            ("text", Value::text("# A field\n0,0\n1,0\n1,1\n")),
            ("at", Value::point([1.0, 2.0])),
            ("points", points),
            ("moves", Value::List(vec![Value::count(1), Value::List(vec![Value::count(3), Value::count(4)])])),
            ("look", Value::List(vec![Value::count(5), Value::count(6)])),
        ],
    )
}

#[test]
fn hosts() {
    let mut server = Server::start();
    let port = server.port;
    let status = |hosts: &[String]| {
        let headers: Vec<(&str, &str)> = hosts.iter().map(|host| ("Host", host.as_str())).collect();
        server.ask("GET /", &headers, b"").status
    };
    let right = format!("127.0.0.1:{port}");
    for host in [right.clone(), format!("localhost:{port}"), format!("LocalHost:{port}"), format!("  {right} ")] {
        assert_eq!(status(std::slice::from_ref(&host)), 200, "{host}");
    }
    let wrong = [
        "",
        "127.0.0.1",
        "localhost",
        "evil.example",
        &format!("evil.example:{port}"),
        &format!("{right}.evil.example"),
        &format!("127.0.0.1:{}", port ^ 1),
        &format!("0.0.0.0:{port}"),
        &format!("[::1]:{port}"),
        &format!("127.0.0.2:{port}"),
        &format!("evil@{right}"),
        &format!("{right}, {right}"),
        &format!("{right}/"),
        &format!("http://{right}"),
    ]
    .map(str::to_string);
    for host in wrong {
        assert_eq!(status(std::slice::from_ref(&host)), 403, "{host}");
    }
    assert_eq!(status(&[]), 400);
    assert_eq!(status(&[right.clone(), right.clone()]), 400);
    assert_eq!(status(&[right, "evil.example".to_string()]), 400);
    answers(&mut server);
}

/// It listens on the loopback address alone.
#[test]
fn the_address() {
    let server = Server::start();
    let port = format!(":{:04X}", server.port);
    let listens = |file: &str| {
        let lines = fs::read_to_string(file).expect("Linux says who listens");
        let words = lines.lines().map(|line| line.split_whitespace().map(str::to_string).collect::<Vec<_>>());
        words
            .filter(|words| words[3] == "0A")
            .map(|words| words[1].clone())
            .filter(|at| at.ends_with(&port))
            .collect::<Vec<_>>()
    };
    assert_eq!(listens("/proc/net/tcp"), [format!("0100007F{port}")]);
    assert_eq!(listens("/proc/net/tcp6"), Vec::<String>::new());
}

#[test]
fn the_call() {
    let call = |words: &[&str]| {
        let output = Command::new(env!("CARGO_BIN_EXE_sitjorbe")).arg("draw").args(words).output().expect("built");
        let text = |bytes| String::from_utf8(bytes).expect("text");
        (output.status.code().expect("it ends"), text(output.stdout), text(output.stderr))
    };
    let (status, said, _) = call(&["--help"]);
    assert!(status == 0 && said.starts_with("sitjorbe draw [FILE] [--port N]: "), "{said}");
    for words in
        [&["nowhere.csv"][..], &["a.csv", "b.csv"], &["--port"], &["--port", "x"], &["--port", "-1"], &["--size", "3"]]
    {
        let (status, said, wrong) = call(words);
        assert!(status == 2 && said.is_empty() && wrong.starts_with("sitjorbe: "), "{words:?}: {wrong}");
    }
    for port in ["65536", "99999"] {
        let (status, _, wrong) = call(&["--port", port]);
        assert_eq!((status, wrong), (2, format!("sitjorbe: --port wants a number from 0 to 65535: {port}\n")));
    }
    let server = Server::start();
    let (status, said, wrong) = call(&["--port", &server.port.to_string()]);
    assert!(status == 2 && said.is_empty() && wrong.contains("can't be listened on"), "{wrong}");
}

#[test]
fn methods_and_paths() {
    let mut server = Server::start();
    let host = server.host();
    let ask = |line: &str| server.ask(line, &[("Host", &host)], b"");
    for path in PATHS {
        let said = ask(&format!("GET {path}"));
        assert_eq!((said.status, said.header("Allow")), (405, Some("POST")), "{path}");
    }
    for method in ["POST", "PUT", "DELETE", "OPTIONS", "TRACE", "CONNECT", "PATCH", "get", "G\"T"] {
        for page in ["/", "/masked"] {
            let said = ask(&format!("{method} {page}"));
            assert_eq!((said.status, said.header("Allow")), (405, Some("GET, HEAD")), "{method}");
        }
        let said = ask(&format!("{method} /etc/passwd"));
        assert_eq!(said.status, if method == "POST" { 404 } else { 405 }, "{method}");
    }
    let absolute = format!("http://{host}/");
    let paths = [
        "/..",
        "/../",
        "/../../etc/passwd",
        "/..%2f..%2fetc/passwd",
        "/%2e%2e/",
        "/./",
        "//",
        "/index.html",
        "/page.js",
        "/?",
        "/?x=1",
        "/#",
        "/favicon.ico",
        "/pave/",
        "/PAVE",
        "/step?x",
        "*",
        "x",
        &absolute,
        "/\\..\\",
        "/%00",
        "/~root",
        "file:///etc/passwd",
    ];
    for path in paths {
        for method in ["GET", "POST"] {
            let said = ask(&format!("{method} {path}"));
            assert_eq!(said.status, 404, "{method} {path}: {}", said.text());
            assert_eq!(said.error(), "there is no such path");
        }
    }
    answers(&mut server);
}

/// Heads that aren't ones.
#[test]
fn heads() {
    let mut server = Server::start();
    let host = format!("Host: {}\r\n", server.host());
    let padded = |length: usize| {
        let start = format!("GET / HTTP/1.1\r\n{host}X: ");
        format!("{start}{}\r\n\r\n", "x".repeat(length - start.len()))
    };
    let many = format!("GET / HTTP/1.1\r\n{host}{}\r\n", "a:\r\n".repeat(10_000));
    let cases: Vec<(Vec<u8>, u16)> = vec![
        (b"".to_vec(), 0),
        (b"\r\n\r\n".to_vec(), 400),
        (b"GET /\r\n\r\n".to_vec(), 400),
        (format!("GET / HTTP/1.1\r\n{host}").into_bytes(), 400),
        (format!("GET / HTTP/1.1\n{}\n\n", host.trim()).into_bytes(), 400),
        (format!("GET / HTTP/2.0\r\n{host}\r\n").into_bytes(), 400),
        (format!("GET / HTTP/1.1 x\r\n{host}\r\n").into_bytes(), 400),
        (format!("GET  / HTTP/1.1\r\n{host}\r\n").into_bytes(), 400),
        (format!(" GET / HTTP/1.1\r\n{host}\r\n").into_bytes(), 400),
        (format!("GET / HTTP/1.0\r\n{host}\r\n").into_bytes(), 200),
        (format!("GET / HTTP/1.1\r\n{host}no colon\r\n\r\n").into_bytes(), 400),
        (format!("GET / HTTP/1.1\r\n{host}: no name\r\n\r\n").into_bytes(), 400),
        (format!("GET / HTTP/1.1\r\n{host} folded: x\r\n\r\n").into_bytes(), 400),
        (format!("GET / HTTP/1.1\r\n{}\r\n", host.replace(':', " :")).into_bytes(), 400),
        (format!("GET / HTTP/1.1\r\n{host}a: b\nc: d\r\n\r\n").into_bytes(), 400),
        (format!("GET / HTTP/1.1\r\n{host}a: b\rc: d\r\n\r\n").into_bytes(), 400),
        (format!("GET / HTTP/1.1\r\n{host}a: b\0\r\n\r\n").into_bytes(), 400),
        (format!("GET / HTTP/1.1\r\n{host}a: é\r\n\r\n").into_bytes(), 400),
        (b"\x16\x03\x01\x02\0\x01\0\x01\xfc\x03\x03".to_vec(), 400),
        (b"PRI * HTTP/2.0\r\n\r\nSM\r\n\r\n".to_vec(), 400),
        (padded(16 << 10).into_bytes(), 200),
        (padded((16 << 10) + 1).into_bytes(), 431),
        (padded(1 << 20).into_bytes(), 431),
        (many.into_bytes(), 431),
        (vec![b'x'; 1 << 20], 431),
        (vec![0xff; 100], 400),
    ];
    for (bytes, status) in cases {
        let said = server.send(&bytes);
        assert_eq!(said.status, status, "{}", String::from_utf8_lossy(&bytes[..bytes.len().min(80)]));
    }
    answers(&mut server);
}

type Headers<'a> = Vec<(&'a str, &'a str)>;

/// Bodies by their headers: what they are, how long, and where they come from.
#[test]
fn bodies_by_their_headers() {
    let mut server = Server::start();
    let host = server.host();
    let ask = |headers: &[(&str, &str)], body: &[u8]| {
        server.ask("POST /examples", &[&[("Host", host.as_str())], headers].concat(), body)
    };
    let (json, two) = (("Content-Type", "application/json"), ("Content-Length", "2"));
    let origin = format!("http://{host}");
    let most = (1 << 20).to_string();
    let over = ((1 << 20) + 1).to_string();
    let longest = [b"{".to_vec(), vec![b' '; (1 << 20) - 2], b"}".to_vec()].concat();
    let chunked = ("Transfer-Encoding", "chunked");
    let cases: Vec<(Headers<'_>, &[u8], u16)> = vec![
        (vec![json, two], b"{}", 200),
        (vec![json, two], b"{}and more that isn't read", 200),
        (vec![json, two, ("Origin", &origin)], b"{}", 200),
        (vec![("content-type", "Application/JSON; charset=utf-8"), ("CONTENT-LENGTH", "2")], b"{}", 200),
        (vec![json, ("Content-Length", &most)], &longest, 200),
        (vec![two], b"{}", 415),
        (vec![("Content-Type", "text/plain"), two], b"{}", 415),
        (vec![("Content-Type", "application/jsonx"), two], b"{}", 415),
        (vec![("Content-Type", "text/plain; application/json"), two], b"{}", 415),
        (vec![json, json, two], b"{}", 400),
        (vec![json], b"{}", 411),
        (vec![json, chunked], b"2\r\n{}\r\n0\r\n\r\n", 411),
        (vec![json, chunked, two], b"2\r\n{}\r\n0\r\n\r\n", 411),
        (vec![json, chunked, chunked, two], b"{}", 411),
        (vec![json, two, two], b"{}", 400),
        (vec![json, two, ("Content-Length", "3")], b"{}", 400),
        (vec![json, ("Content-Length", "-2")], b"{}", 400),
        (vec![json, ("Content-Length", "+2")], b"{}", 400),
        (vec![json, ("Content-Length", "2, 2")], b"{}", 400),
        (vec![json, ("Content-Length", "0x2")], b"{}", 400),
        (vec![json, ("Content-Length", "")], b"{}", 400),
        (vec![json, ("Content-Length", "0")], b"{}", 400),
        (vec![json, ("Content-Length", "1")], b"{}", 400),
        (vec![json, ("Content-Length", "3")], b"{}", 400),
        (vec![json, ("Content-Length", &over)], b"{}", 413),
        (vec![json, ("Content-Length", "99999999999999999999999999")], b"{}", 413),
        (vec![json, two, ("Origin", "http://evil.example")], b"{}", 403),
        (vec![json, two, ("Origin", "null")], b"{}", 403),
        (vec![json, two, ("Origin", "")], b"{}", 403),
        (vec![json, two, ("Origin", "http://127.0.0.1")], b"{}", 403),
        (vec![json, two, ("Origin", &origin), ("Origin", &origin)], b"{}", 400),
    ];
    for (headers, body, status) in cases {
        let said = ask(&headers, body);
        assert_eq!(said.status, status, "{headers:?}");
        assert!(status == 200 || !said.error().is_empty());
    }
    // One that is too large is answered though it goes on.
    let said = ask(&[json, ("Content-Length", "4000000")], &vec![b' '; 4_000_000]);
    assert_eq!((said.status, said.error().as_str()), (413, "the body is longer than 1 MiB"));
    answers(&mut server);
}

/// What isn't JSON, or isn't the JSON that is wanted.
#[test]
fn bodies_by_their_contents() {
    let mut server = Server::start();
    let deep = [b"{\"loops\":".to_vec(), vec![b'['; 500_000]].concat();
    let bodies: [&[u8]; 16] = [
        b"",
        b" ",
        b"x",
        b"null",
        b"5",
        b"[]",
        b"\"text\"",
        b"{",
        b"{}}",
        b"{'loops':[]}",
        b"{\"loops\":[],}",
        b"\xff\xfe{}",
        b"{\"a\":NaN}",
        b"{\"a\":1e999}",
        b"{\"a\":\"\\ud800\"}",
        &deep,
    ];
    for path in PATHS {
        for body in bodies {
            let said = server.post(path, body);
            assert_eq!(said.status, 400, "{path}: {}", String::from_utf8_lossy(&body[..body.len().min(40)]));
            assert!(!said.error().is_empty());
        }
        let said = server.post(path, b"{}");
        let takes_nothing = ["/examples", "/first"].contains(&path);
        assert_eq!(said.status, if takes_nothing { 200 } else { 400 }, "{path}");
    }
    let with = |name: &str, value: Value| {
        let Value::Map(mut pairs) = everything() else { unreachable!() };
        pairs.retain(|(other, _)| other != name);
        pairs.push((name.to_string(), value));
        Value::Map(pairs).to_string()
    };
    let points = |value: Value| Value::List(vec![Value::map([("name", Value::text("")), ("points", value)])]);
    let (count, list) = (Value::count, |values: &[f64]| Value::list(values.iter().map(|x| Value::Number(*x))));
    let cases = [
        ("/check", with("loops", Value::Null), "loops isn't a list"),
        ("/check", with("loops", list(&[1.0])), "a loop has no list of points"),
        ("/check", with("loops", points(Value::text("0,0"))), "a loop has no list of points"),
        ("/check", with("loops", points(list(&[0.0, 0.0]))), "points: number 0, counted from 0, isn't one: 0"),
        (
            "/check",
            with("loops", points(Value::List(vec![list(&[0.0; 3])]))),
            "points: number 0, counted from 0, isn't one: [0,0,0]",
        ),
        ("/check", with("size", Value::text("3")), "size isn't a number"),
        ("/pave", with("size", Value::Null), "size isn't a number"),
        ("/pave", with("eye", Value::text("both")), "eye isn't right or left"),
        ("/picture", with("title", count(1)), "title isn't text"),
        ("/picture", with("title", Value::Text("x".repeat(201))), "a title has more than 200 characters"),
        ("/read", with("text", count(1)), "text isn't text"),
        ("/nearest", with("at", list(&[1.0])), "at isn't a point"),
        ("/crosses", with("points", count(1)), "points isn't a list"),
        ("/step", with("moves", Value::Null), "moves isn't a list"),
        ("/step", with("moves", list(&[601.0])), "moves: number 0, counted from 0, isn't one: 601"),
        ("/step", with("moves", list(&[0.5])), "moves: number 0, counted from 0, isn't one: 0.5"),
        ("/step", with("moves", list(&[1.0, -1.0])), "moves: number 1, counted from 0, isn't one: -1"),
        (
            "/step",
            with("moves", Value::List(vec![list(&[0.0, 4_294_967_296.0])])),
            "moves: number 0, counted from 0, isn't one: [0,4294967296]",
        ),
        ("/step", with("look", count(1)), "look isn't two nodes"),
    ];
    for (path, body, words) in cases {
        let said = server.post(path, body.as_bytes());
        assert_eq!((said.status, said.error().as_str()), (400, words), "{path} {body}");
    }
    answers(&mut server);
}

/// Bodies spoilt at random: bytes changed, cut out or doubled, and values put where others belong.
#[test]
fn spoilt_bodies() {
    let mut server = Server::start();
    let mut rng = Rng(31_000);
    let whole = everything().to_string().into_bytes();
    let values = [
        "null",
        "true",
        "-1",
        "0.5",
        "1e9",
        "1e-300",
        "[]",
        "{}",
        "[[]]",
        "\"\"",
        "4294967295",
        "[3,4]",
        "[[0,0],[1,0]]",
        "600",
    ];
    let mut statuses = std::collections::BTreeMap::new();
    for round in 0..900 {
        let path = PATHS[round % PATHS.len()];
        let mut body = whole.clone();
        for _ in 0..rng.between(1, 3) {
            let place = rng.below(body.len());
            match rng.below(4) {
                0 => body[place] = rng.next() as u8,
                1 => body.truncate(place),
                2 => drop(body.splice(place..(place + 20).min(whole.len()).min(body.len()), [])),
                _ => put(&mut rng, &mut body, values[round % values.len()]),
            }
            if body.is_empty() {
                break;
            }
        }
        let said = server.post(path, &body);
        assert!([200, 400].contains(&said.status), "{path}: {}: {}", said.status, String::from_utf8_lossy(&body));
        assert_eq!(said.value().get("error").is_some(), said.status != 200);
        *statuses.entry(said.status).or_insert(0) += 1;
    }
    assert!(statuses.len() == 2 && statuses.values().all(|count| *count > 50), "{statuses:?}");
    answers(&mut server);
}

/// Puts a value where one begins.
fn put(rng: &mut Rng, body: &mut Vec<u8>, value: &str) {
    let begins: Vec<usize> = (1..body.len()).filter(|k| b":,[".contains(&body[k - 1])).collect();
    if begins.is_empty() {
        return;
    }
    let from = rng.pick(&begins);
    let to = (from..body.len()).find(|k| b",]}".contains(&body[*k])).unwrap_or(body.len());
    body.splice(from..to, value.bytes());
}

/// More than there is room for is an error in words.
#[test]
fn too_much() {
    let mut server = Server::start();
    let zigzag: Vec<[f64; 2]> = (0..4_000).map(|k| [f64::from(k % 2) * 900.0, f64::from(k) * 0.2]).collect();
    for path in ["/pave", "/picture"] {
        let said =
            server.post(path, body(&vec![zigzag.clone()], &[("size", Value::Number(0.01))]).to_string().as_bytes());
        assert_eq!(said.status, 422);
        assert!(said.error().starts_with("the outline has too many samples to be paved here: "), "{}", said.error());
    }
    answers(&mut server);
}

/// HEAD is answered as GET is, without the body.
#[test]
fn heads_of_pages() {
    let server = Server::start();
    for page in ["/", "/masked"] {
        let (whole, head) = (server.get(page), server.head(page));
        assert_eq!((whole.status, head.status), (200, 200));
        assert_eq!(head.header("Content-Length"), Some(whole.body.len().to_string().as_str()));
        assert!(head.body.is_empty() && !whole.body.is_empty());
    }
    let missing = server.head("/nowhere");
    assert!(missing.status == 404 && missing.body.is_empty());
}
