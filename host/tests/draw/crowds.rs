//! Many clients, slow ones, and those that go: none keeps others waiting, and what nobody waits for any more is ended.

use std::io::{Read, Write};
use std::net::Shutdown;
use std::thread;
use std::time::{Duration, Instant};

use crate::client::{Said, Server};
use crate::hostile::{answers, everything, PATHS};
use crate::json::Value;
use crate::{body, part, square};

/// Connections that say nothing, or stop in the middle, neither keep others out nor stay.
#[test]
fn quiet_connections() {
    let mut server = Server::start();
    let head = format!(
        "POST /pave HTTP/1.1\r\nHost: {}\r\nContent-Type: application/json\r\nContent-Length: 100\r\n",
        server.host()
    );
    let began = Instant::now();
    let open: Vec<_> = (0..300)
        .map(|k| {
            let mut stream = server.connect();
            let said = match k % 4 {
                0 => "",
                1 => "GET / HT",
                2 => &head,
                _ => &format!("{head}\r\n{{\"loops\":"),
            };
            let _ = stream.write_all(said.as_bytes());
            stream
        })
        .collect();
    answers(&mut server);
    assert!(began.elapsed() < Duration::from_secs(8), "{:?}", began.elapsed());
    // The first were cut off for the later ones; of those that stay, who began to speak is told that it took too long.
    let said: Vec<(usize, Said)> = open.into_iter().enumerate().map(|(k, stream)| (k, Said::read(stream))).collect();
    assert!(
        began.elapsed() > Duration::from_secs(9) && began.elapsed() < Duration::from_secs(30),
        "{:?}",
        began.elapsed()
    );
    for (k, said) in said {
        let late = k >= 300 - 30 && k % 4 != 0;
        assert!(said.status == 408 || (!late && [0, 400].contains(&said.status)), "{k}: {}", said.status);
    }
    answers(&mut server);
}

/// One that says a byte now and then is cut off too; half a body that ends is told so.
#[test]
fn slow_connections() {
    let mut server = Server::start();
    let mut stream = server.connect();
    let began = Instant::now();
    stream.set_nonblocking(false).expect("it blocks");
    while began.elapsed() < Duration::from_secs(20) && stream.write_all(b"G").is_ok() {
        thread::sleep(Duration::from_millis(300));
        stream.set_read_timeout(Some(Duration::from_millis(10))).expect("a time");
        if !matches!(stream.peek(&mut [0]), Err(error) if error.kind() == std::io::ErrorKind::WouldBlock) {
            break;
        }
    }
    assert!(
        began.elapsed() > Duration::from_secs(9) && began.elapsed() < Duration::from_secs(14),
        "{:?}",
        began.elapsed()
    );
    let mut text = String::new();
    stream.set_read_timeout(Some(Duration::from_secs(5))).expect("a time");
    let _ = stream.read_to_string(&mut text);
    assert!(text.starts_with("HTTP/1.1 408 "), "{text}");
    let gone = server.connect();
    gone.shutdown(Shutdown::Both).expect("it ends");
    answers(&mut server);
}

/// Many requests at once, each with the answer that it has alone.
#[test]
fn many_at_once() {
    let mut server = Server::start();
    let asked = everything().to_string();
    let without_time = |said: &Said| {
        let Value::Map(mut pairs) = said.value() else { panic!("a map: {}", said.text()) };
        pairs.retain(|(name, _)| name != "seconds");
        Value::Map(pairs)
    };
    let alone: Vec<Value> = PATHS.map(|path| without_time(&server.post(path, asked.as_bytes()))).to_vec();
    let shared = &server;
    thread::scope(|scope| {
        for k in 0..32 {
            let (alone, asked) = (&alone, &asked);
            scope.spawn(move || {
                for (place, path) in PATHS.iter().enumerate().cycle().skip(k).take(PATHS.len()) {
                    let said = shared.post(path, asked.as_bytes());
                    // The thread that steps has a short queue.
                    assert!(said.status == 200 || (said.status == 503 && *path == "/step"), "{path}: {}", said.text());
                    assert!(said.status == 503 || without_time(&said) == alone[place], "{path}");
                }
            });
        }
    });
    answers(&mut server);
}

/// While fields are paved that take long, others are answered.
#[test]
fn a_long_paving_keeps_nobody_waiting() {
    let server = Server::start();
    let long = body(&vec![square(500.0)], &[("size", Value::Number(1.2))]);
    let (server, began) = (&server, Instant::now());
    thread::scope(|scope| {
        let paving = scope.spawn(|| server.post("/pave", long.to_string().as_bytes()).status);
        thread::sleep(Duration::from_millis(100));
        for _ in 0..5 {
            let near = body(&vec![square(2.0)], &[("at", Value::point([1.0, 0.5]))]);
            assert_eq!(part(&server.value("/nearest", &near), "inside"), &Value::Bool(true));
        }
        assert!(!paving.is_finished(), "it was to take longer: {:?}", began.elapsed());
        assert_eq!(paving.join().expect("it is answered"), 200);
    });
}

/// A paving that takes seconds.
fn long() -> Value {
    body(&vec![square(500.0)], &[("size", Value::Number(1.1))])
}

fn short() -> Value {
    body(&vec![square(2.0)], &[("size", Value::Number(1.0))])
}

/// Waits until the server has so many workers.
fn waits_for_workers(server: &Server, count: usize) {
    let until = Instant::now() + Duration::from_secs(20);
    while server.workers() != count {
        assert!(Instant::now() < until, "{} workers, where {count} are wanted", server.workers());
        thread::sleep(Duration::from_millis(5));
    }
}

/// The newest paving of a page takes the place of its older ones, and of nobody else's.
#[test]
fn the_newest_of_a_page_replaces_its_older_ones() {
    let mut server = Server::start();
    let other = server.posted("/pave", "other", &long());
    let mut older = vec![];
    for count in 0..6 {
        older.push(server.posted("/pave", "page", &long()));
        // The first is under way before the next comes.
        waits_for_workers(&server, if count == 0 { 2 } else { server.workers() });
    }
    // All of them have come before the newest does.
    thread::sleep(Duration::from_secs(1));
    let newest = Said::read(server.posted("/pave", "page", &short())).whole();
    assert_eq!(newest.status, 200, "{}", newest.text());
    for stream in older {
        let said = Said::read(stream).whole();
        assert_eq!(said.status, 409, "{}", said.text());
        assert!(said.error().contains("a newer request of the same page"), "{}", said.error());
    }
    assert_eq!(server.workers(), 1, "the other page's goes on");
    drop(other);
    answers(&mut server);
}

/// A hundred that go leave nothing behind: those under way are ended, and those that wait have no turn.
#[test]
fn clients_that_went_end_their_turns() {
    let mut server = Server::start();
    for _ in 0..10 {
        let streams: Vec<_> = (0..10).map(|k| server.posted("/pave", &format!("page {k}"), &long())).collect();
        thread::sleep(Duration::from_millis(20));
        drop(streams);
    }
    let began = Instant::now();
    assert_eq!(Said::read(server.posted("/pave", "last", &short())).whole().status, 200);
    assert!(began.elapsed() < Duration::from_secs(5), "{:?}", began.elapsed());
    waits_for_workers(&server, 0);
    answers(&mut server);
}

/// While all that may pave at once does, others are answered.
#[test]
fn pavings_keep_no_other_question_waiting() {
    let server = Server::start();
    let pavings: Vec<_> = (0..8).map(|k| server.posted("/pave", &format!("page {k}"), &long())).collect();
    thread::sleep(Duration::from_millis(100));
    let near = body(&vec![square(2.0)], &[("at", Value::point([1.0, 0.5]))]);
    assert_eq!(part(&server.value("/nearest", &near), "inside"), &Value::Bool(true));
    assert!(server.workers() > 0, "they were to take longer");
    drop(pavings);
}

/// Moves that nobody waits for any more are given up.
#[test]
fn steps_that_nobody_waits_for_are_given_up() {
    let server = Server::start();
    let moves = |count: usize| {
        let passes = Value::List((0..count).map(|_| Value::count(1)).collect());
        body(&vec![square(100.0)], &[("size", Value::Number(1.1)), ("moves", passes)])
    };
    let first = server.posted("/step", "page", &moves(60));
    thread::sleep(Duration::from_millis(50));
    let second = Said::read(server.posted("/step", "page", &moves(0))).whole();
    assert_eq!(Said::read(first).whole().status, 409);
    assert_eq!(second.status, 200, "{}", second.text());
}
