//! `sitjorbe draw`: a page to draw on, served to this machine alone.
//!
//! `GET /` is the page. The rest is POST with a map of JSON. A field is `"loops": [{"name", "points": [[x, y], ..]}, ..]`, the outer loop first; `"size"` is a number, `"eye"` is `"right"`,
//! `"left"` or null. Loops, points and nodes count from 0; in words points count from 1. A *refusal* is `{"number", "words", "loop", "point"}`, the last two the place that it
//! concerns, or null.
//!
//! | path | asked | answered |
//! |---|---|---|
//! | `/examples` | | `examples`: each `name`, `size`, `eye`, `loops` |
//! | `/first` | | `field` that the command was called with, as `/read` answers it, or null |
//! | `/read` | `text` of points or of a saved field, `title` | `loops`, `size`, `eye`, `title`, `digest`, `notes`; or `wrong`, words by line |
//! | `/write` | field | `text`, which `/read` reads back bit by bit; loops without points are left out |
//! | `/save` | field, `size`, `eye`, `title` | `text` of all of it, which `/read` reads back |
//! | `/thin` | field, `size` | `loops`, how many points `stay` of those `drawn`, how far the outline is `moved`, `words`; or `refusal` |
//! | `/check` | field, `size` or null | `refusal` or null; `sound` (null where refused); `faults`, each `words` and `segments`, each a loop and a place in it |
//! | `/pave` | field, `size`, `eye` | as `/check`, `seconds`, and `mesh` unless it is refused: `end`, `whole`, `verdict`, `notes`, `sentences`, `figures`, `nodes`, `origins`, `quads`, `left` |
//! | `/picture` | field, `size`, `eye`, `title` | `svg`, or `refusal` |
//! | `/nearest` | field, `at` | `loop`, `place`, `ends`, `distance`, `inside`, `where` in words, or `refusal` |
//! | `/crosses` | field, `size`, `points` | `directions`, null for a point that isn't inside; or `refusal` |
//! | `/step` | field, `size`, `moves` (`[a, b]`, a step on that edge; or a number of passes), `look` (an edge or null) | `outcomes` (a word a step, the quads placed for passes), `nodes`, `origins`, `quads`, `front`, `books`, `preview` (`outcome`, `quad`, `new_c`, `new_d`, `front`; or `refusal`); or `refusal`, with `move`, the place of the move that is refused |
//!
//! The examination's paths are those of [`exam`], and `/masked/mesh` is the masked reader's ([`masked`]).
//!
//! Where `close` is true, `/pave`, `/picture`, `/save` and the exam take the mesh that is closed, if it can be: then `mesh` has `kinds` (of each quad 0 for kept, 1 for
//! moved, 2 for new) and `closing`, its counts and share.
//!
//! A request may name its page in the header `Sitjorbe-Page`: a newer one at the same path takes its place, and it is answered 409. One whose client has gone is given up.
//!
//! `/step` is sent all moves each time: to take one back is to leave it out. Where something else is wrong, the status isn't 200 and the answer is `error`, in words.

mod answers;
mod asked;
mod books;
mod closing;
mod exam;
mod examples;
mod first;
mod http;
mod masked;
mod meshes;
mod page;
mod patience;
mod rules;
mod saved;
mod server;
mod stepping;
mod turns;
mod worker;
mod wrong;

use std::net::{Ipv4Addr, TcpListener};
use std::sync::Arc;
use std::thread;
use std::time::Duration;

use crate::args::{Args, Known};
use crate::files::{self, Failure};
use crate::{Status, DONE};

use server::Server;

pub const HELP: &str = "\
sitjorbe draw [FILE] [--port N]: serves a page to draw on, until it is ended with Ctrl-C, and says its address

    FILE                 a field that the page begins with: points (CSV), or a field or mesh (JSON) that was saved
    --port N             the port to listen on, 0 to 65535 (default: 0, any free one)

It listens on the loopback address 127.0.0.1 alone, so that no other machine reaches it, and serves pages and their answers: no file but FILE.
Open the address in a browser of this machine. The page needs no network; every mesh in it is the proved library's.
";

/// `--answer PATH` is for the server's own workers: it answers one body, that of standard input, and ends.
const OPTIONS: [Known; 4] = [("--port", true), ("--answer", true), ("--help", false), ("-h", false)];
/// How long to wait where no connection can be had.
const PAUSE: Duration = Duration::from_millis(100);

pub fn command(words: &[String]) -> Result<Status, Failure> {
    let args = Args::parse(words, &OPTIONS)?;
    if args.has("--help") || args.has("-h") {
        return files::print(HELP).map(|()| DONE);
    }
    if let Some(path) = args.value("--answer") {
        return answer_one(path);
    }
    let first = match &args.files[..] {
        [] => crate::json::Value::Null,
        [file] => first::read(file)?,
        [_, other, ..] => return Err(Failure::Cant(format!("draw takes one file: {other} is another"))),
    };
    serve(port_of(&args)?, first)
}

fn port_of(args: &Args) -> Result<u16, Failure> {
    let wrong = |word: &str| Failure::Cant(format!("--port wants a number from 0 to 65535: {word}"));
    args.value("--port").map_or(Ok(0), |word| word.parse().map_err(|_| wrong(word)))
}

fn serve(port: u16, first: crate::json::Value) -> Result<Status, Failure> {
    let cant = |error: std::io::Error| Failure::Cant(format!("port {port} of 127.0.0.1 can't be listened on: {error}"));
    let listener = TcpListener::bind((Ipv4Addr::LOCALHOST, port)).map_err(cant)?;
    let port = listener.local_addr().map_err(cant)?.port();
    let server = Arc::new(Server::new(port, first));
    files::print(&format!("http://127.0.0.1:{port}/\n"))?;
    for stream in listener.incoming() {
        match stream {
            Ok(stream) => Server::admit(&server, stream),
            Err(_) => thread::sleep(PAUSE),
        }
    }
    Ok(DONE)
}

/// Answers one body of standard input, as a worker does.
fn answer_one(path: &str) -> Result<Status, Failure> {
    worker::ends_with_its_server();
    let body = worker::asked(rules::MOST_BODY).map_err(|error| Failure::Cant(error.to_string()))?;
    files::print(&worker::write(&server::caught(|| server::text_of(path, &body)))).map(|()| DONE)
}
