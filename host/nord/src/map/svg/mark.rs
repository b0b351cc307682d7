//! The elements a picture is made of.

/// How a piece of text looks.
pub struct Text<'a> {
    pub size: usize,
    pub bold: bool,
    pub fill: &'a str,
    /// "start", "middle" or "end" of the text lies at its place.
    pub anchor: &'a str,
}

impl Default for Text<'_> {
    fn default() -> Self {
        Text {
            size: 13,
            bold: false,
            fill: "#16191f",
            anchor: "start",
        }
    }
}

/// Text whose base line begins, ends or is centred at a place.
pub fn label(x: usize, y: usize, look: &Text, text: &str) -> String {
    let weight = if look.bold { " font-weight=\"bold\"" } else { "" };
    let anchor = if look.anchor == "start" {
        String::new()
    } else {
        format!(" text-anchor=\"{}\"", look.anchor)
    };
    let (size, fill) = (look.size, look.fill);
    format!(
        "<text x=\"{x}\" y=\"{y}\" font-size=\"{size}\" fill=\"{fill}\"{weight}{anchor}>{}</text>\n",
        escaped(text)
    )
}

/// A filled rectangle (x, y, width, height) with what is shown when it is pointed at.
pub fn rect(class: &str, [x, y, width, height]: [f64; 4], fill: &str, tip: &str) -> String {
    let [x, y, width, height] = [x, y, width, height].map(short);
    let tip = if tip.is_empty() {
        String::new()
    } else {
        format!("<title>{}</title>", escaped(tip))
    };
    format!("<rect class=\"{class}\" x=\"{x}\" y=\"{y}\" width=\"{width}\" height=\"{height}\" fill=\"{fill}\">{tip}</rect>\n")
}

/// Elements that belong together.
pub fn group(class: &str, elements: &str) -> String {
    format!("<g class=\"{class}\">\n{elements}</g>\n")
}

/// A white dot for an index block.
pub fn dot(x: f64, y: f64, cell: f64) -> String {
    let [x, y, radius] = [x, y, 0.17 * cell].map(short);
    format!("<circle class=\"mark\" cx=\"{x}\" cy=\"{y}\" r=\"{radius}\" fill=\"#ffffff\" pointer-events=\"none\"/>\n")
}

/// A white ring for a subindex block.
pub fn ring(x: f64, y: f64, cell: f64) -> String {
    let [x, y, radius, width] = [x, y, 0.24 * cell, 0.13 * cell].map(short);
    format!(
        "<circle class=\"mark\" cx=\"{x}\" cy=\"{y}\" r=\"{radius}\" fill=\"none\" stroke=\"#ffffff\" stroke-width=\"{width}\" \
         pointer-events=\"none\"/>\n"
    )
}

/// A number with at most two places.
fn short(number: f64) -> String {
    format!("{number:.2}").trim_end_matches('0').trim_end_matches('.').to_string()
}

/// Text as XML has it.
pub fn escaped(text: &str) -> String {
    text.replace('&', "&amp;")
        .replace('<', "&lt;")
        .replace('>', "&gt;")
        .replace('"', "&quot;")
}
