//! The shapes of the drawings, as SVG text: on white, so that they can be read on a dark
//! page too. Lengths are whole numbers.

use std::fmt::Write;

pub struct Svg {
    text: String,
}

/// How wide a letter of the names is, in hundredths of its size.
const LETTER: usize = 61;

/// How wide a name is in letters of a size.
pub fn name_width(name: &str, size: usize) -> usize {
    (name.chars().count() * LETTER * size).div_ceil(100)
}

impl Svg {
    /// A drawing with what it is called, what it shows, and its styles.
    pub fn new((width, height): (usize, usize), title: &str, styles: &str) -> Svg {
        let title = escaped(title);
        let text = format!(
            "<svg xmlns=\"http://www.w3.org/2000/svg\" width=\"{width}\" height=\"{height}\" \
             viewBox=\"0 0 {width} {height}\" font-family=\"sans-serif\" font-size=\"12\">\n\
             <title>{title}</title>\n\
             <style>\n{styles}</style>\n\
             <rect width=\"{width}\" height=\"{height}\" fill=\"#ffffff\"/>\n"
        );
        Svg { text }
    }

    /// A line of text, of a class.
    pub fn text(&mut self, (x, y): (usize, usize), class: &str, text: &str) {
        let text = escaped(text);
        let _ = writeln!(
            self.text,
            "<text class=\"{class}\" x=\"{x}\" y=\"{y}\">{text}</text>"
        );
    }

    /// A line of text that is made of spans.
    pub fn spans(&mut self, (x, y): (usize, usize), spans: &str) {
        let _ = writeln!(self.text, "<text x=\"{x}\" y=\"{y}\">{spans}</text>");
    }

    pub fn rect(&mut self, (x, y): (usize, usize), (width, height): (usize, usize), more: &str) {
        let _ = writeln!(
            self.text,
            "<rect x=\"{x}\" y=\"{y}\" width=\"{width}\" height=\"{height}\" {more}/>"
        );
    }

    pub fn path(&mut self, class: &str, path: &str) {
        let _ = writeln!(self.text, "<path class=\"{class}\" d=\"{path}\"/>");
    }

    pub fn finish(mut self) -> String {
        self.text += "</svg>\n";
        self.text
    }
}

pub fn escaped(text: &str) -> String {
    text.replace('&', "&amp;")
        .replace('<', "&lt;")
        .replace('>', "&gt;")
}
