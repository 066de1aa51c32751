//! What charts are drawn of: texts, marks, and the frame with the names of the rows beside what
//! scrolls.

use super::labels::escape;
use super::looks::Look;

pub fn text(class: &str, x: i32, y: i32, words: &str) -> String {
    let words = escape(words);
    format!("<text class=\"{class}\" x=\"{x}\" y=\"{y}\">{words}</text>\n")
}

pub fn mark(look: &Look, class: &str, x: i32, y: i32, title: &str) -> String {
    let (id, title) = (look.id, escape(title));
    format!(
        "<use class=\"{class}\" href=\"#{id}\" x=\"{x}\" y=\"{y}\"><title>{title}</title></use>\n"
    )
}

/// The lines under the rows.
pub fn rules(ends: &[i32], width: i32) -> String {
    let rule = |y: &i32| format!("<path class=\"rule\" d=\"M0,{y}H{width}\"/>\n");
    ends.iter().map(rule).collect()
}

/// A chart of this height as an element: the names with their width, and what is drawn with its.
pub fn frame(ends: &[i32], names: (i32, &str), drawn: (i32, &str), height: i32) -> String {
    let ((beside, names), (wide, drawn)) = (names, drawn);
    let under = rules(ends, beside);
    format!(
        "<div class=\"chart\">\n<svg class=\"names\" width=\"{beside}\" height=\"{height}\">\n{under}{names}</svg>\n\
         <div class=\"scroll\"><svg width=\"{wide}\" height=\"{height}\">\n{drawn}</svg></div>\n</div>\n"
    )
}
