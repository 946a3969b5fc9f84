//! The few elements of SVG that the picture is made of.

pub enum Anchor {
    Start,
    Middle,
    End,
}

pub fn page(width: usize, height: usize, style: &str, body: &str) -> String {
    format!(
        "<svg xmlns=\"http://www.w3.org/2000/svg\" width=\"{width}\" height=\"{height}\" viewBox=\"0 0 {width} {height}\">\n\
         <style>{style}</style>\n{}{body}</svg>\n",
        rectangle(0, 0, width, height, "#ffffff")
    )
}

pub fn text(x: usize, y: usize, class: &str, anchor: Anchor, words: &str) -> String {
    let anchor = match anchor {
        Anchor::Start => "",
        Anchor::Middle => " text-anchor=\"middle\"",
        Anchor::End => " text-anchor=\"end\"",
    };
    format!(
        "<text x=\"{x}\" y=\"{y}\" class=\"{class}\"{anchor}>{}</text>\n",
        escaped(words)
    )
}

pub fn rectangle(x: usize, y: usize, width: usize, height: usize, fill: &str) -> String {
    format!("<rect x=\"{x}\" y=\"{y}\" width=\"{width}\" height=\"{height}\" fill=\"{fill}\"/>\n")
}

/// Draws what is in it at a place, with units of its own.
pub fn scaled(x: usize, y: usize, across: &str, down: &str, body: &str) -> String {
    format!("<g transform=\"translate({x} {y}) scale({across} {down})\">\n{body}</g>\n")
}

pub fn path(attributes: &str, steps: &str) -> String {
    format!("<path {attributes} d=\"{steps}\"/>\n")
}

fn escaped(words: &str) -> String {
    words.replace('&', "&amp;").replace('<', "&lt;").replace('>', "&gt;")
}
