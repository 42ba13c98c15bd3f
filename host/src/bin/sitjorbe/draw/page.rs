//! The page: one HTML text, with its style and script in it.

use std::collections::hash_map::RandomState;
use std::hash::BuildHasher;

use super::http::Answer;

const HTML: &str = include_str!("page/page.html");
const STYLE: &str = include_str!("page/page.css");
/// One module in parts: what begins when it is read comes after what it needs.
const SCRIPT: &str = concat!(
    include_str!("page/state.js"),
    include_str!("page/ask.js"),
    include_str!("page/view.js"),
    include_str!("page/shapes.js"),
    include_str!("page/panel.js"),
    include_str!("page/drawing.js"),
    include_str!("page/steps.js"),
    include_str!("page/files.js"),
    include_str!("page/gestures.js"),
    include_str!("page/surface.js"),
    include_str!("page/exam.js"),
    include_str!("page/exam_view.js"),
    include_str!("page/hill.js"),
    include_str!("page/exam_panel.js"),
    include_str!("page/page.js"),
);

/// What no answer may do.
pub const POLICY: &str = "default-src 'none'; base-uri 'none'; form-action 'none'; frame-ancestors 'none'";

/// A word that nobody guesses: the hash of nothing, with keys that the system gives.
fn nonce() -> String {
    [(); 2].map(|()| format!("{:016x}", RandomState::new().hash_one(()))).concat()
}

const MASKED: &str = include_str!("page/masked.html");
const MASKED_SCRIPT: &str = include_str!("page/masked.js");

/// The paths that are pages.
pub const PATHS: [&str; 2] = ["/", "/masked"];

/// A page, which may run its own script alone, and ask this server alone.
pub fn answer(path: &str) -> Answer {
    let (html, script) = if path == "/masked" { (MASKED, MASKED_SCRIPT) } else { (HTML, SCRIPT) };
    let nonce = nonce();
    let policy = format!(
        "Content-Security-Policy: {POLICY}; script-src 'nonce-{nonce}'; style-src 'nonce-{nonce}'; connect-src 'self'; img-src data: blob:"
    );
    // The nonce first: what comes into the page after it stays as it is written.
    let html = html.replace("{{nonce}}", &nonce).replace("{{style}}", STYLE).replace("{{script}}", script);
    Answer {
        status: 200,
        headers: vec!["Content-Type: text/html; charset=utf-8".to_string(), policy],
        body: html.into_bytes(),
        is_head: false,
    }
}
