//! Writing SVG.

const STYLE: &str = "\
text{font-family:Helvetica,Arial,'DejaVu Sans',sans-serif;font-size:13px;fill:#222}\
.title{font-size:20px;font-weight:bold}.sub{fill:#555}.tick{font-size:12px;fill:#555}.head{font-weight:bold}\
.end{text-anchor:end}.mid{text-anchor:middle}.small{font-size:10px;fill:#222;text-anchor:middle}.inv{fill:#fff}\
.grid{stroke:#e4e4e4;stroke-width:1;fill:none}.axis{stroke:#888;stroke-width:1;fill:none}\
.query{stroke:#000;stroke-width:2;fill:none}.fine{stroke-width:1;stroke-dasharray:4 3}";

pub struct Svg {
    out: String,
}

/// Text as XML has it; characters that XML does not allow go.
pub fn escaped(text: &str) -> String {
    let mut out = String::new();
    for c in text.chars() {
        match c {
            '&' => out.push_str("&amp;"),
            '<' => out.push_str("&lt;"),
            '>' => out.push_str("&gt;"),
            '"' => out.push_str("&quot;"),
            c if c.is_control() || matches!(c, '\u{FFFE}' | '\u{FFFF}') => out.push(' '),
            c => out.push(c),
        }
    }
    out
}

impl Svg {
    pub fn new(width: f64, height: f64, mark: &str) -> Svg {
        let size = format!("width=\"{width:.0}\" height=\"{height:.0}\" viewBox=\"0 0 {width:.0} {height:.0}\"");
        let out = format!(
            "<svg xmlns=\"http://www.w3.org/2000/svg\" {mark} {size}>\n<style>{STYLE}</style>\n<rect width=\"100%\" height=\"100%\" fill=\"#fff\"/>\n"
        );
        Svg { out }
    }

    pub fn finish(mut self) -> String {
        self.out.push_str("</svg>\n");
        self.out
    }

    pub fn text(&mut self, x: f64, y: f64, class: &str, text: &str) {
        let text = escaped(text);
        self.out.push_str(&format!("<text x=\"{x:.1}\" y=\"{y:.1}\" class=\"{class}\">{text}</text>\n"));
    }

    pub fn upright(&mut self, x: f64, y: f64, class: &str, text: &str) {
        let text = escaped(text);
        let turn = format!("transform=\"rotate(-90 {x:.1} {y:.1})\"");
        self.out.push_str(&format!("<text x=\"{x:.1}\" y=\"{y:.1}\" class=\"{class}\" {turn}>{text}</text>\n"));
    }

    pub fn rect(&mut self, x: f64, y: f64, width: f64, height: f64, look: &str) {
        self.shape("rect", &format!("x=\"{x:.1}\" y=\"{y:.1}\" width=\"{width:.1}\" height=\"{height:.1}\" {look}"), None);
    }

    /// A rectangle that shows words when the mouse rests on it.
    pub fn titled_rect(&mut self, [x, y, width, height]: [f64; 4], look: &str, title: &str) {
        self.shape("rect", &format!("x=\"{x:.1}\" y=\"{y:.1}\" width=\"{width:.1}\" height=\"{height:.1}\" {look}"), Some(title));
    }

    pub fn circle(&mut self, x: f64, y: f64, r: f64, look: &str, title: Option<&str>) {
        self.shape("circle", &format!("cx=\"{x:.1}\" cy=\"{y:.1}\" r=\"{r:.1}\" {look}"), title);
    }

    pub fn path(&mut self, d: &str, look: &str) {
        self.shape("path", &format!("d=\"{d}\" {look}"), None);
    }

    fn shape(&mut self, name: &str, attributes: &str, title: Option<&str>) {
        let line = match title {
            None => format!("<{name} {attributes}/>\n"),
            Some(title) => format!("<{name} {attributes}><title>{}</title></{name}>\n", escaped(title)),
        };
        self.out.push_str(&line);
    }
}
