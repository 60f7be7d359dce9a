// SPDX-License-Identifier: Apache-2.0
//! All of a drawing that is not a row: head and legend.

use fm3130::family::Select;

use super::row;
use super::style::{color_of, text, FAINT, INK, WIDTH};
use super::wires::Puller;

/// The height of title and legend.
const HEAD: f64 = 62.0;

/// The whole drawing; of a set, with the select bits of its devices.
pub fn whole(
    title: &str,
    rows: &[String],
    is_cut: bool,
    has_lamps: bool,
    set: &[Select],
) -> String {
    let foot = if is_cut { 30.0 } else { 10.0 };
    let height_of_row = row::height(has_lamps);
    let height = HEAD + height_of_row * rows.len() as f64 + foot;
    let mut page = format!(
        "<?xml version=\"1.0\" encoding=\"UTF-8\"?>\n\
         <svg xmlns=\"http://www.w3.org/2000/svg\" width=\"{WIDTH}\" height=\"{height}\" \
         viewBox=\"0 0 {WIDTH} {height}\" font-family=\"DejaVu Sans, Verdana, sans-serif\">\n\
         <rect width=\"100%\" height=\"100%\" fill=\"#ffffff\"/>\n"
    );
    page.push_str(&head(title, set));
    for (index, row) in rows.iter().enumerate() {
        let top = HEAD + height_of_row * index as f64;
        page.push_str(&format!(
            "<g transform=\"translate(0,{top})\">\n{row}</g>\n"
        ));
    }
    if is_cut {
        let words = "The drawing stops here; the run goes on.";
        page.push_str(&text(row::LEFT, height - 12.0, 11.0, "start", INK, words));
    }
    page.push_str("</svg>\n");
    page
}

/// Title and legend.
fn head(title: &str, set: &[Select]) -> String {
    let mut head = text(20.0, 26.0, 15.0, "start", INK, title);
    let words = "S Start, Sr repeated Start, P Stop. A box has the colour of whoever sends it.";
    head.push_str(&text(20.0, 46.0, 10.0, "start", FAINT, words));
    let (legend, left, step) = match set {
        [] => (legend_of_one(), 620.0, 140.0),
        set => (legend_of_set(set), 560.0, 84.0),
    };
    for (index, (puller, words)) in legend.into_iter().enumerate() {
        let x = left + step * index as f64;
        let color = color_of(puller);
        head.push_str(&format!(
            "<rect x=\"{x}\" y=\"38\" width=\"18\" height=\"4\" fill=\"{color}\"/>\n"
        ));
        head.push_str(&text(x + 24.0, 46.0, 10.0, "start", INK, &words));
    }
    head
}

fn legend_of_one() -> Vec<(Puller, String)> {
    let legend = [
        (Puller::Master, "master pulls SDA"),
        (Puller::Device(None), "device pulls SDA"),
        (Puller::Both, "both pull"),
        (Puller::Nobody, "released"),
    ];
    legend.map(|(puller, words)| (puller, words.into())).into()
}

/// Who pulls SDA in a set, in few letters: there may be four devices.
fn legend_of_set(set: &[Select]) -> Vec<(Puller, String)> {
    let mut legend = vec![(Puller::Master, "master".to_string())];
    let devices = set.iter();
    legend.extend(devices.map(|one| (Puller::Device(Some(*one)), format!("@{one}"))));
    legend.push((Puller::Both, "both".to_string()));
    legend.push((Puller::Nobody, "released".to_string()));
    legend
}
