// SPDX-License-Identifier: Apache-2.0
//! A picture (SVG) of turns: a line for each master, and between them who holds the bus.

use fm3130::masters::Master;

use super::{letter, Played};
use crate::drawing::style::{fitted, text, FAINT, INK, SENT_BY_DEVICE, SENT_BY_MASTER, UNHEARD};
use crate::output::say_aside;

/// The width of a turn, and of the names before the first.
const TURN: f64 = 150.0;
const LEFT: f64 = 110.0;

/// The height of the head, of a lane, and of a box in it.
const HEAD: f64 = 62.0;
const LANE: f64 = 46.0;
const BOX: f64 = 34.0;

/// Turns that stand side by side; then a new row begins.
const A_ROW: usize = 7;

/// A picture with more turns would be none any more: it stops and says so.
const MOST_TURNS: usize = 4000;

/// The three lanes of a row, from the top.
const LANES: [&str; 3] = ["a: rig", "bus held by", "b: handheld"];
const ROW: f64 = LANE * 3.0 + 24.0;

/// The colour of a master.
fn color_of(master: Master) -> &'static str {
    match master {
        Master::Rig => SENT_BY_MASTER,
        Master::Handheld => SENT_BY_DEVICE,
    }
}

/// The whole picture.
pub fn picture_of(title: &str, all: &[Played]) -> String {
    let (all, more) = all.split_at(all.len().min(MOST_TURNS));
    let mut picture = head_of(title, all.chunks(A_ROW).len().max(1));
    if !more.is_empty() {
        let words = format!("the picture stops after {MOST_TURNS} turns");
        say_aside(&words);
        picture.push_str(&text(LEFT, 58.0, 10.0, "start", REFUSED, &words));
    }
    for (index, row) in all.chunks(A_ROW).enumerate() {
        let top = HEAD + ROW * index as f64;
        picture.push_str(&format!(
            "<g transform=\"translate(0,{top})\">\n{}</g>\n",
            row_of(row)
        ));
    }
    picture.push_str("</svg>\n");
    picture
}

/// All of a picture of so many rows that is above the first.
fn head_of(title: &str, rows: usize) -> String {
    let width = LEFT + TURN * A_ROW as f64 + 20.0;
    let height = HEAD + ROW * rows as f64 + 10.0;
    let mut head = format!(
        "<?xml version=\"1.0\" encoding=\"UTF-8\"?>\n\
         <svg xmlns=\"http://www.w3.org/2000/svg\" width=\"{width}\" height=\"{height}\" \
         viewBox=\"0 0 {width} {height}\" font-family=\"DejaVu Sans, Verdana, sans-serif\">\n\
         <rect width=\"100%\" height=\"100%\" fill=\"#ffffff\"/>\n"
    );
    head.push_str(&text(20.0, 26.0, 15.0, "start", INK, title));
    let words =
        "A box is a turn. Dashed: refused by number 7. Between the masters: who holds the bus, \
                 during the turn and after it.";
    head.push_str(&text(20.0, 46.0, 10.0, "start", FAINT, words));
    head
}

/// The turns of a row.
fn row_of(row: &[Played]) -> String {
    let mut shapes = String::new();
    for (lane, name) in LANES.iter().enumerate() {
        let y = LANE * lane as f64 + 22.0;
        shapes.push_str(&text(20.0, y, 11.0, "start", INK, name));
    }
    for (index, played) in row.iter().enumerate() {
        let x = LEFT + TURN * index as f64;
        shapes.push_str(&turn_at(x, played));
        shapes.push_str(&holder_at(x, TURN * 0.7, played.during));
        shapes.push_str(&holder_at(x + TURN * 0.7, TURN * 0.3, played.after));
    }
    shapes
}

/// The box of a turn in its master's lane.
fn turn_at(x: f64, played: &Played) -> String {
    let lane = match played.master {
        Master::Rig => 0.0,
        Master::Handheld => 2.0,
    };
    let (color, dashes) = match played.answered {
        Ok(()) => (color_of(played.master), "none"),
        Err(_) => ("#ffffff", "4 3"),
    };
    let mut shapes = boxed(x + 2.0, LANE * lane, TURN - 4.0, color, dashes);
    let middle = x + TURN / 2.0;
    let words = fitted(&played.words, TURN - 12.0, 9.0);
    shapes.push_str(&text(
        middle,
        LANE * lane + 14.0,
        9.0,
        "middle",
        INK,
        &words,
    ));
    let outcome = match played.answered {
        Ok(()) => "answered".to_string(),
        Err(refusal) => format!("refused, number {}", refusal.number()),
    };
    shapes.push_str(&text(
        middle,
        LANE * lane + 28.0,
        9.0,
        "middle",
        FAINT,
        &outcome,
    ));
    shapes
}

/// Who holds the bus over a stretch.
fn holder_at(x: f64, width: f64, holder: Option<Master>) -> String {
    let (color, name) = match holder {
        None => (UNHEARD, "free"),
        Some(master) => (color_of(master), letter(master)),
    };
    let mut shapes = boxed(x, LANE, width, color, "none");
    let middle = x + width / 2.0;
    shapes.push_str(&text(middle, LANE + 21.0, 10.0, "middle", INK, name));
    shapes
}

fn boxed(x: f64, y: f64, width: f64, color: &str, dashes: &str) -> String {
    let edge = if dashes == "none" { FAINT } else { REFUSED };
    format!(
        "<rect x=\"{x:.1}\" y=\"{y:.1}\" width=\"{width:.1}\" height=\"{BOX}\" rx=\"3\" \
         fill=\"{color}\" stroke=\"{edge}\" stroke-width=\"0.8\" stroke-dasharray=\"{dashes}\"/>\n"
    )
}

/// The edge of what was refused: a strong red, so that it is seen in the row.
const REFUSED: &str = "#c02020";

#[cfg(test)]
mod tests {
    use super::*;
    use fm3130::Refusal;

    #[test]
    fn a_refused_turn_is_dashed_and_the_bus_stays_held() {
        let turn = |answered, master| Played {
            master,
            words: "[ A0".to_string(),
            answered,
            during: Some(Master::Rig),
            after: Some(Master::Rig),
        };
        let all = [
            turn(Ok(()), Master::Rig),
            turn(Err(Refusal::NotHeld), Master::Handheld),
        ];
        let picture = picture_of("two <masters>", &all);
        assert!(picture.contains("two &lt;masters&gt;"));
        assert_eq!(picture.matches("refused, number 7").count(), 1);
        assert_eq!(picture.matches("stroke-dasharray=\"4 3\"").count(), 1);
        assert_eq!(picture.matches(">a</text>").count(), 4);
        assert!(!picture.contains(">free</text>"));
    }
}
