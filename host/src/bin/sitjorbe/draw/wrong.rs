//! Why a request has no answer.

/// A status of HTTP, and words.
#[derive(Clone, Debug, PartialEq)]
pub struct Wrong {
    pub status: u16,
    pub words: String,
    /// The methods that are allowed, where another was used.
    pub allow: Option<&'static str>,
}

impl Wrong {
    pub fn new(status: u16, words: &str) -> Wrong {
        Wrong { status, words: words.to_string(), allow: None }
    }

    /// Not the JSON that is wanted.
    pub fn shape(words: &str) -> Wrong {
        Wrong::new(400, words)
    }

    /// Understood, and more than is done here.
    pub fn too_much(words: &str) -> Wrong {
        Wrong::new(422, words)
    }

    pub fn busy() -> Wrong {
        Wrong::new(503, "too much is asked at once: wait, and ask again")
    }

    /// Nobody wants the answer any more.
    pub fn given_up() -> Wrong {
        Wrong::new(409, "it was given up: a newer request of the same page took its place")
    }

    pub fn bug() -> Wrong {
        Wrong::new(500, "a bug: this request ended the thread that served it; the server goes on")
    }
}
