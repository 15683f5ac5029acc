//! The few shapes that a picture is made of.

/// A place in the picture, in its own units, y downwards.
pub type Spot = (f64, f64);

/// Text that may stand in a file of this kind.
pub fn escape(text: &str) -> String {
    let mut escaped = String::new();
    for letter in text.chars() {
        match letter {
            '&' => escaped += "&amp;",
            '<' => escaped += "&lt;",
            '>' => escaped += "&gt;",
            '"' => escaped += "&quot;",
            letter if letter.is_control() => escaped.push('?'),
            letter => escaped.push(letter),
        }
    }
    escaped
}

/// A line of text; `class` says how it looks.
pub fn text(class: &str, (x, y): Spot, what: &str) -> String {
    let what = escape(what);
    format!("<text class=\"{class}\" x=\"{x:.1}\" y=\"{y:.1}\">{what}</text>\n")
}

/// A straight line.
pub fn line(class: &str, from: Spot, to: Spot) -> String {
    format!(
        "<line class=\"{class}\" x1=\"{:.1}\" y1=\"{:.1}\" x2=\"{:.1}\" y2=\"{:.1}\"/>\n",
        from.0, from.1, to.0, to.1
    )
}

/// A box with round corners around a spot.
pub fn round_box(class: &str, (x, y): Spot, (half_width, half_height): Spot, hint: &str) -> String {
    format!(
        "<rect class=\"{class}\" x=\"{:.1}\" y=\"{:.1}\" width=\"{:.1}\" height=\"{:.1}\" rx=\"9\"><title>{}</title></rect>\n",
        x - half_width,
        y - half_height,
        2.0 * half_width,
        2.0 * half_height,
        escape(hint)
    )
}

/// A line that bends to its left by `bend`, with an arrow head at its end if
/// `arrow`. The hint shows where a pointer rests on it.
pub fn bent(class: &str, from: Spot, to: Spot, bend: f64, arrow: bool, hint: &str) -> String {
    let (x, y) = control(from, to, bend);
    let head = if arrow {
        format!(" marker-end=\"url(#head-{class})\"")
    } else {
        String::new()
    };
    format!(
        "<path class=\"{class}\" d=\"M{:.1} {:.1} Q{x:.1} {y:.1} {:.1} {:.1}\"{head}><title>{}</title></path>\n",
        from.0,
        from.1,
        to.0,
        to.1,
        escape(hint)
    )
}

/// The control spot of a bent line. The line comes half as far.
pub fn control(from: Spot, to: Spot, bend: f64) -> Spot {
    let (dx, dy) = (to.0 - from.0, to.1 - from.1);
    let length = dx.hypot(dy).max(1.0);
    (
        (from.0 + to.0) / 2.0 + 2.0 * bend * dy / length,
        (from.1 + to.1) / 2.0 - 2.0 * bend * dx / length,
    )
}

/// An arrow head for the lines of one class.
pub fn head(class: &str, colour: &str) -> String {
    format!(
        "<marker id=\"head-{class}\" viewBox=\"0 0 10 10\" refX=\"9\" refY=\"5\" markerWidth=\"11\" markerHeight=\"11\" markerUnits=\"userSpaceOnUse\" orient=\"auto\"><path d=\"M0 1 L10 5 L0 9 Z\" fill=\"{colour}\"/></marker>\n"
    )
}
