//! A whole sheet beside the Rust's contours, text against text (01, 'The sheet'); the sheet's is from `inputs`, the map's is written here.
use super::boolean::leaves::Contour;
use super::boolean::Operation;
use super::entries::Refused;
use inputs::sheets::{Edge, Sheet};
use inputs::texts::{bits, LAYERS};

/// More than the text of any map takes.
pub const ROOM: u32 = 1 << 16;

pub fn is_alike(ours: &Result<String, Refused>, theirs: &Result<String, Refused>) -> bool {
    match (ours, theirs) {
        (Ok(ours), Ok(theirs)) => zeros_alike(ours) == zeros_alike(theirs),
        _ => ours == theirs,
    }
}

pub fn operation_word(operation: Operation) -> &'static str {
    match operation {
        Operation::Intersection => "intersection",
        Operation::Difference => "difference",
        Operation::Union => "union",
        Operation::Xor => "xor",
    }
}

/// The edges as a sheet lists them, subject first: their records have these numbers.
pub fn in_order(sheet: &[Edge]) -> Sheet {
    LAYERS.iter().flat_map(|(_, subject)| sheet.iter().filter(|e| e.subject == *subject).copied()).collect()
}

pub fn map_text(contours: &[Contour<f64>]) -> String {
    let mut lines = vec![format!("contours {}", contours.len())];
    for contour in contours {
        let parent = contour.hole_of.map_or("-".to_string(), |parent| parent.to_string());
        lines.push(format!("parent {parent} depth {}", contour.depth));
        lines.push(format!("holes {}", contour.hole_ids.len()));
        lines.extend(contour.hole_ids.iter().map(|hole| hole.to_string()));
        lines.push(format!("points {}", contour.points.len()));
        lines.extend(contour.points.iter().map(|p| bits(&[p.x, p.y])));
    }
    lines.iter().map(|line| line.clone() + "\n").collect()
}

fn zeros_alike(text: &str) -> String {
    text.replace("8000000000000000", "0000000000000000")
}
