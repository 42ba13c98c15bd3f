//! What every request must keep to: its host, its method and path, where it comes from, and how long it is.

use super::http::Head;
use super::wrong::Wrong;

/// Longer bodies aren't read.
pub const MOST_BODY: usize = 1 << 20;
const HTTP_PORT: u16 = 80;

/// The hosts by which a page served at a port is asked for.
pub fn hosts(port: u16) -> Vec<String> {
    let names = ["127.0.0.1", "localhost"];
    let mut hosts: Vec<String> = names.map(|name| format!("{name}:{port}")).to_vec();
    if port == HTTP_PORT {
        hosts.extend(names.map(str::to_string));
    }
    hosts
}

/// What is asked for.
#[derive(Debug, PartialEq)]
pub enum Route {
    /// A page by its path; whether its headers alone are wanted.
    Page(String, bool),
    /// A path that takes a body.
    Post(Post),
}

/// What a body is sent to.
#[derive(Debug, PartialEq)]
pub struct Post {
    pub path: String,
    pub length: usize,
    /// The page that sends it, if it says which: its newer requests take the place of the older ones.
    pub page: Option<String>,
}

/// The paths that are known: pages, and those that take a body.
pub struct Paths<'a> {
    pub pages: &'a [&'a str],
    pub posts: &'a dyn Fn(&str) -> bool,
}

/// What a request asks for, if it keeps to the rules.
pub fn check(head: &Head, hosts: &[String], paths: &Paths<'_>) -> Result<Route, Wrong> {
    let host = head.header("host")?.ok_or(Wrong::new(400, "there is no Host header"))?;
    if !hosts.iter().any(|other| other.eq_ignore_ascii_case(host)) {
        return Err(Wrong::new(403, "the Host header isn't this server's address"));
    }
    let not_allowed = |allow: &'static str| {
        Err(Wrong { allow: Some(allow), ..Wrong::new(405, &format!("the method isn't one of {allow}")) })
    };
    let (is_page, is_post) = (|path: &str| paths.pages.contains(&path), paths.posts);
    match (head.method.as_str(), head.target.as_str()) {
        (method @ ("GET" | "HEAD"), path) if is_page(path) => Ok(Route::Page(path.to_string(), method == "HEAD")),
        ("POST", path) if is_post(path) => Ok(Route::Post(post(head, host, path)?)),
        (_, path) if is_page(path) => not_allowed("GET, HEAD"),
        (_, path) if is_post(path) => not_allowed("POST"),
        ("GET" | "HEAD" | "POST", _) => Err(Wrong::new(404, "there is no such path")),
        _ => not_allowed("GET, HEAD, POST"),
    }
}

fn post(head: &Head, host: &str, path: &str) -> Result<Post, Wrong> {
    let length = length(head, host)?;
    let page = head.header("sitjorbe-page")?.map(str::to_string);
    Ok(Post { path: path.to_string(), length, page })
}

/// The length of a body that may be read.
fn length(head: &Head, host: &str) -> Result<usize, Wrong> {
    if head.header("origin")?.is_some_and(|origin| !origin.eq_ignore_ascii_case(&format!("http://{host}"))) {
        return Err(Wrong::new(403, "the request comes from another page"));
    }
    let kind = head.header("content-type")?.unwrap_or("");
    if !kind.split(';').next().unwrap_or("").trim().eq_ignore_ascii_case("application/json") {
        return Err(Wrong::new(415, "the Content-Type isn't application/json"));
    }
    let length = head.header("content-length")?;
    let Some(length) = length.filter(|_| !matches!(head.header("transfer-encoding"), Err(_) | Ok(Some(_)))) else {
        return Err(Wrong::new(411, "a Content-Length is wanted, and no Transfer-Encoding"));
    };
    if length.is_empty() || !length.bytes().all(|byte| byte.is_ascii_digit()) {
        return Err(Wrong::new(400, "the Content-Length isn't a number"));
    }
    // A number that no usize is is too large as well.
    let count = length.parse().unwrap_or(usize::MAX);
    if count > MOST_BODY {
        return Err(Wrong::new(413, "the body is longer than 1 MiB"));
    }
    Ok(count)
}
