//! What the committed set asks, request by request: the tests that try single
//! mistakes pick from it what a mistake of theirs could matter to.

use second::cases::Writer;
use second::reader::{request_of, Reader};
use second::set::Set;
use second::world::{Request, World};
use std::sync::OnceLock;

/// What a test notes of the set, picked once for all that it tries.
pub fn picked<T: Default>(cell: &'static OnceLock<T>, note: fn(&mut T, &World, Request)) -> &'static T {
    cell.get_or_init(|| {
        let mut all = T::default();
        each(|world, request| note(&mut all, world, request));
        all
    })
}

/// Each request of the committed set, but for its products, and the world that
/// it is asked of.
fn each(mut note: impl FnMut(&World, Request)) {
    let mut questions = Vec::new();
    let mut writer = Writer::new(&mut questions, std::io::sink(), None);
    Set::new(&mut writer, 1).committed().unwrap();
    drop(writer);
    let text = String::from_utf8(questions).unwrap();
    let end = text.find("\n# products").unwrap();
    let mut reader = Reader::default();
    for line in text[..end].lines() {
        if let Some(request) = request_of(line) {
            note(&reader.world, request);
        }
        reader.line(line);
    }
}
