//! The pieces of a picture: rectangles, circles and words of an SVG file, light and dark.

/// A picture in the making.
pub struct Svg(String);

/// The colours that follow light and dark; each state's own stand with it, and are the same in both.
const STYLE: &str = "<style>
text { font: 10px 'DejaVu Sans', Verdana, sans-serif; fill: #1a1a1a }
.title { font-weight: bold; font-size: 12px }
.small { font-size: 9px }
.letter { font-size: 9px; font-weight: bold; text-anchor: middle }
.middle { text-anchor: middle }
.back { fill: #ffffff }
.tick { fill: #eceff3 }
.edge { stroke: #9aa4ae; fill: none }
.block { stroke: #8a939c; stroke-width: 0.4 }
.line { stroke: #9aa4ae; stroke-dasharray: 2 2 }
.flag { fill: #555b61 }
.count { fill: #ffffff }
.dot { fill: #111111; stroke: #ffffff; stroke-width: 0.8 }
.bad { fill: #b00020 }
@media (prefers-color-scheme: dark) {
  text { fill: #e6e6e6 }
  .back { fill: #15191e }
  .tick { fill: #242b33 }
  .edge, .block { stroke: #8a939c; stroke-width: 0.4 }
.line { stroke: #6b7681 }
  .flag { fill: #b4bcc4 }
  .count { fill: #15191e }
  .bad { fill: #ff8a9b }
}
</style>";

impl Svg {
    pub fn new() -> Svg {
        Svg(String::new())
    }

    pub fn rect(&mut self, at: (f64, f64), size: (f64, f64), look: &str, title: &str) {
        let title = if title.is_empty() { String::new() } else { format!("<title>{}</title>", escaped(title)) };
        let ((x, y), (w, h)) = (at, size);
        self.0 +=
            &format!("<rect x=\"{x:.1}\" y=\"{y:.1}\" width=\"{w:.1}\" height=\"{h:.1}\" {look}>{title}</rect>\n");
    }

    pub fn words(&mut self, x: f64, y: f64, look: &str, words: &str) {
        self.0 += &format!("<text x=\"{x:.1}\" y=\"{y:.1}\" {look}>{}</text>\n", escaped(words));
    }

    /// Words that run upwards, from below.
    pub fn upright(&mut self, x: f64, y: f64, look: &str, words: &str) {
        let turned = format!("transform=\"translate({x:.1} {y:.1}) rotate(-90)\"");
        self.0 += &format!("<text {turned} text-anchor=\"end\" {look}>{}</text>\n", escaped(words));
    }

    pub fn dot(&mut self, x: f64, y: f64, look: &str) {
        self.0 += &format!("<circle cx=\"{x:.1}\" cy=\"{y:.1}\" r=\"3\" {look}/>\n");
    }

    pub fn upright_line(&mut self, x: f64, from: f64, to: f64) {
        self.0 += &format!("<line x1=\"{x:.1}\" x2=\"{x:.1}\" y1=\"{from:.1}\" y2=\"{to:.1}\" class=\"line\"/>\n");
    }

    /// The whole file.
    pub fn file(self, width: f64, height: f64, title: &str) -> String {
        let size = format!("width=\"{width:.0}\" height=\"{height:.0}\" viewBox=\"0 0 {width:.0} {height:.0}\"");
        let title = escaped(title);
        format!(
            "<svg xmlns=\"http://www.w3.org/2000/svg\" {size} role=\"img\" aria-label=\"{title}\">\n<title>{title}</title>\n\
             {STYLE}\n<rect width=\"100%\" height=\"100%\" class=\"back\"/>\n{}</svg>\n",
            self.0
        )
    }
}

/// The width of words in letters of so many pixels, at most.
pub fn width(words: &str, size: f64) -> f64 {
    words.chars().count() as f64 * size * 0.6
}

fn escaped(words: &str) -> String {
    let words: String = words.chars().filter(|letter| !letter.is_control()).collect();
    words.replace('&', "&amp;").replace('<', "&lt;").replace('>', "&gt;").replace('"', "&quot;")
}
