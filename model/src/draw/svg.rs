//! The few shapes that the drawing is made of.

/// A box by its left and lower edge, which grows upwards.
#[derive(Clone, Copy, Debug)]
pub struct Area {
    pub left: f64,
    pub bottom: f64,
    pub width: f64,
    pub height: f64,
}

impl Area {
    pub fn top(&self) -> f64 {
        self.bottom - self.height
    }

    pub fn middle(&self) -> (f64, f64) {
        (self.left + self.width / 2.0, self.bottom - self.height / 2.0)
    }
}

pub fn rect(class: &str, area: Area, inside: &str) -> String {
    let Area { left, width, height, .. } = area;
    let top = area.top();
    format!(
        "<rect class=\"{class}\" x=\"{left:.1}\" y=\"{top:.1}\" width=\"{width:.1}\" \
         height=\"{height:.1}\">{inside}</rect>\n"
    )
}

pub fn line(class: &str, from: f64, to: f64, y: f64) -> String {
    format!(
        "<line class=\"{class}\" x1=\"{from:.1}\" x2=\"{to:.1}\" y1=\"{y:.1}\" y2=\"{y:.1}\"/>\n"
    )
}

/// The height of a line of words.
pub fn line_height(font: f64) -> f64 {
    1.25 * font
}

/// How wide words come out at most, in the fonts that the page asks for.
pub fn width(words: &str, font: f64) -> f64 {
    font * words.chars().map(glyph).sum::<f64>()
}

fn glyph(char: char) -> f64 {
    match char {
        ' ' | ',' | '.' | ':' | '\u{b7}' | 'i' | 'l' => 0.32,
        'f' | 'r' | 't' => 0.42,
        'M' | 'm' | '\u{2190}' | '\u{2192}' => 0.87,
        'A'..='Z' => 0.7,
        _ => 0.64,
    }
}

/// A text around a point, pressed together if it is wider than it may be.
pub fn text(class: &str, (x, y): (f64, f64), font: f64, widest: f64, words: &str) -> String {
    let press = if width(words, font) > widest {
        format!(" textLength=\"{widest:.1}\" lengthAdjust=\"spacingAndGlyphs\"")
    } else {
        String::new()
    };
    format!("<text class=\"{class}\" x=\"{x:.1}\" y=\"{y:.1}\" font-size=\"{font}\"{press}>{words}</text>\n")
}

/// An arrow from one point to the other, bent upwards.
pub fn arrow(from: (f64, f64), to: (f64, f64)) -> String {
    let bend = (0.18 * (to.0 - from.0).abs()).min(50.0);
    bent(from, ((from.0 + to.0) / 2.0, from.1.min(to.1) - bend), to)
}

/// An arrow from one point to another, bent towards a third.
pub fn bent((x1, y1): (f64, f64), (x, y): (f64, f64), (x2, y2): (f64, f64)) -> String {
    let way = format!("M {x1:.1} {y1:.1} Q {x:.1} {y:.1} {x2:.1} {y2:.1}");
    format!("<path class=\"halo\" d=\"{way}\"/>\n<path class=\"arrow\" d=\"{way}\"/>\n")
}
