// SPDX-License-Identifier: Apache-2.0
//! What a page and its rows are drawn with: width, colours, texts.

use fm3130::family::Select;

use super::wires::Puller;

/// The width of a page.
pub const WIDTH: f64 = 1180.0;

/// The colour of ticks.
pub const TICK: &str = "#fbf0c4";
/// The colour of edges that are counted.
pub const COUNT: &str = "#e7defa";
/// The colour of power events.
pub const POWER: &str = "#f9d2d2";
/// The colour of a byte that the master sends.
pub const SENT_BY_MASTER: &str = "#dbe9f8";
/// The colour of a byte that the device sends.
pub const SENT_BY_DEVICE: &str = "#fde3cc";
/// The colour of a byte that nobody hears.
pub const UNHEARD: &str = "#eceff3";
/// The colour of an acknowledge that is not given.
pub const NOT_ACKNOWLEDGED: &str = "#ffffff";
/// The colour of Start and Stop.
pub const EDGE: &str = "#dff0df";
/// The colour of text.
pub const INK: &str = "#1f2937";
/// The colour of text that is less important.
pub const FAINT: &str = "#6b7280";

/// The colours of the devices of a set, by their select bits: of the line, and of a byte. Every byte has the
/// select bits in words too, for whoever cannot tell four colours apart.
const DEVICES: [(&str, &str); 4] = [
    ("#d2600a", SENT_BY_DEVICE),
    ("#0f7b5f", "#d3efe4"),
    ("#a3195b", "#f6d3e6"),
    ("#6b5200", "#e9dfc3"),
];

/// The colours of a device; one that is alone has those of select bits 0.
fn colors_of(device: Option<Select>) -> (&'static str, &'static str) {
    let select = device.map_or(0, Select::bits);
    DEVICES[usize::from(select)]
}

/// The colour of a byte that a device sends.
pub fn sent_by(device: Option<Select>) -> &'static str {
    colors_of(device).1
}

/// Colours that can be told apart by all eyes and in print, those of a set's devices left out.
pub fn color_of(puller: Puller) -> &'static str {
    match puller {
        Puller::Nobody => "#8a94a3",
        Puller::Master => "#1f5fa8",
        Puller::Device(device) => colors_of(device).0,
        Puller::Both => "#7b3fa0",
    }
}

/// The colour of a lamp that is lit.
pub const LIT: &str = "#e0a100";
/// The colour of a lamp that is dark.
pub const DARK: &str = "#d5dae1";

/// A text; `anchor` is start, middle or end.
pub fn text(x: f64, y: f64, size: f64, anchor: &str, color: &str, words: &str) -> String {
    format!(
        "<text x=\"{x:.1}\" y=\"{y:.1}\" font-size=\"{size}\" text-anchor=\"{anchor}\" \
         fill=\"{color}\">{}</text>\n",
        escaped(words)
    )
}

/// A text that fits a width, cut if it must be.
pub fn fitted(words: &str, width: f64, size: f64) -> String {
    let most = (width / (size * 0.6)) as usize;
    if words.chars().count() <= most {
        return words.to_string();
    }
    let mut cut: String = words.chars().take(most.saturating_sub(1)).collect();
    cut.push('…');
    cut
}

/// A text without signs that mean something in XML, or that XML does not allow at all.
fn escaped(words: &str) -> String {
    words
        .chars()
        .map(|sign| match sign {
            '&' => "&amp;".to_string(),
            '<' => "&lt;".to_string(),
            '>' => "&gt;".to_string(),
            sign if sign.is_control() => '\u{FFFD}'.to_string(),
            sign => sign.to_string(),
        })
        .collect()
}

#[cfg(test)]
mod tests {
    use super::*;

    #[test]
    fn signs_of_xml_are_escaped() {
        assert_eq!(
            escaped("Alarm & <WP>\x1b"),
            "Alarm &amp; &lt;WP&gt;\u{FFFD}"
        );
    }

    #[test]
    fn long_words_are_cut() {
        assert_eq!(fitted("companion, write", 132.0, 9.0), "companion, write");
        assert_eq!(fitted("abcdefghij", 30.0, 10.0), "abcd…");
    }
}
