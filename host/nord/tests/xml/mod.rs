//! A reader of as much XML as the pictures have: it panics where an element, an attribute or a character is not as XML has it.

/// An element with its attributes, the text in it, its title's text and the class of the group it is in.
#[derive(Clone, Debug, Default)]
pub struct Element {
    pub name: String,
    pub attributes: Vec<(String, String)>,
    pub text: String,
    pub title: String,
    pub within: String,
}

impl Element {
    /// An attribute, or an empty text.
    pub fn get(&self, name: &str) -> &str {
        self.attributes.iter().find(|(own, _)| own == name).map_or("", |(_, value)| value)
    }
}

/// All elements in the order of their opening; the first is the outermost.
pub fn elements(xml: &str) -> Vec<Element> {
    let mut all: Vec<Element> = Vec::new();
    let mut open: Vec<usize> = Vec::new();
    let mut rest = xml;
    while let Some((text, after)) = rest.split_once('<') {
        note_text(&mut all, &open, text);
        let (tag, after) = after.split_once('>').expect("a tag ends");
        rest = after;
        if let Some(name) = tag.strip_prefix('/') {
            close(&mut all, open.pop().expect("an element is open"), open.last().copied(), name);
            continue;
        }
        assert!(all.is_empty() || !open.is_empty(), "one outermost element");
        let mut element = opening(tag.strip_suffix('/').unwrap_or(tag));
        element.within = open
            .iter()
            .rev()
            .map(|at| &all[*at])
            .find(|outer| outer.name == "g")
            .map_or(String::new(), |group| group.get("class").to_string());
        all.push(element);
        if !tag.ends_with('/') {
            open.push(all.len() - 1);
        }
    }
    assert!(open.is_empty() && rest.trim().is_empty() && !all.is_empty());
    all
}

fn note_text(all: &mut [Element], open: &[usize], text: &str) {
    match open.last() {
        Some(at) => all[*at].text.push_str(&plain(text)),
        None => assert!(text.trim().is_empty(), "text outside all elements"),
    }
}

/// An element ends with its own name; a title's text goes to the element it is of.
fn close(all: &mut [Element], at: usize, outer: Option<usize>, name: &str) {
    assert_eq!(all[at].name, name);
    if let (Some(outer), "title") = (outer, name) {
        assert!(all[outer].title.is_empty());
        all[outer].title = all[at].text.clone();
    }
}

/// A name, then attributes in double quotes, none twice.
fn opening(tag: &str) -> Element {
    let (name, mut rest) = tag.split_once(' ').unwrap_or((tag, ""));
    assert!(!name.is_empty() && name.chars().all(|letter| letter.is_ascii_alphabetic()), "{tag}");
    let mut element = Element {
        name: name.to_string(),
        ..Element::default()
    };
    while !rest.is_empty() {
        let (own, after) = rest.split_once("=\"").expect("an attribute has a value");
        let (value, after) = after.split_once('"').expect("a value ends");
        assert!(own.chars().all(|letter| letter.is_ascii_alphabetic() || letter == '-'), "{tag}");
        assert!(element.get(own).is_empty(), "{own} twice");
        element.attributes.push((own.to_string(), plain(value)));
        rest = after.strip_prefix(' ').unwrap_or(after);
    }
    element
}

/// Text with its entities replaced; a bare ampersand or a control character has no place in it.
fn plain(text: &str) -> String {
    assert!(text.chars().all(|letter| letter == '\n' || !letter.is_control()));
    let known = ["&amp;", "&lt;", "&gt;", "&quot;"];
    assert!(
        text.match_indices('&')
            .all(|(at, _)| known.iter().any(|entity| text[at..].starts_with(entity))),
        "{text}"
    );
    text.replace("&lt;", "<")
        .replace("&gt;", ">")
        .replace("&quot;", "\"")
        .replace("&amp;", "&")
}
