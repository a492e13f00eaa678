//! The instructions as a drawing.
//!
//! Each row is a call, each mark a way to keep names. The scale is logarithmic:
//! from one line to the next there is a factor of ten. Shapes differ as well as
//! colours, and the colours suit light and dark pages.

use crate::steps::{Figures, Step, Subject, LIBRARY, ROWS};
use crate::tables::{grouped, held_lines, whole_lines};
use std::fmt::Write;

/// Sizes of the drawing.
const WIDTH: f64 = 860.0;
const LEFT: f64 = 190.0;
const RIGHT: f64 = 40.0;
const TOP: f64 = 92.0;
const LANE: f64 = 6.0;
const GAP: f64 = 8.0;
const TITLE: f64 = 34.0;

/// The colours of the subjects on a light and on a dark page.
const COLOURS: [(&str, &str); 6] = [
    ("#c2410c", "#fb923c"),
    ("#a16207", "#facc15"),
    ("#6b7280", "#9ca3af"),
    ("#1d4ed8", "#60a5fa"),
    ("#047857", "#34d399"),
    ("#7e22ce", "#c084fc"),
];

/// A row: its head, and the instructions of each subject.
type Marks = (String, Vec<Option<f64>>);

/// The drawing.
pub fn drawing(subjects: &[Subject], figures: &Figures) -> String {
    let sections = [
        (
            "A call of its own: Mistrogu checks the whole book before it answers",
            whole_rows(subjects, figures),
        ),
        (
            "After the check, for each question",
            held_rows(subjects, figures),
        ),
    ];
    let largest = sections.iter().flat_map(|(_, rows)| rows);
    let largest = largest.flat_map(|(_, marks)| marks.iter().flatten());
    let tens = largest
        .fold(100.0, |most: f64, &mark| most.max(mark))
        .log10()
        .ceil();
    let scale = Scale { tens };

    let row_height = subjects.len() as f64 * LANE + GAP;
    let rows: usize = sections.iter().map(|(_, rows)| rows.len()).sum();
    let bottom = TOP + sections.len() as f64 * TITLE + rows as f64 * row_height;
    let height = bottom + 44.0;

    let mut text = head(height);
    text += &legend(subjects);
    text += &grid(&scale, bottom);
    let mut y = TOP;
    for (title, rows) in &sections {
        y += TITLE;
        let _ = writeln!(
            text,
            r#"<text class="title" x="12" y="{:.0}">{title}</text>"#,
            y - 10.0
        );
        for (name, marks) in rows {
            text += &row(&scale, y, row_height, name, marks);
            y += row_height;
        }
    }
    let _ = writeln!(
        text,
        r#"<text class="soft" x="{:.0}" y="{:.0}" text-anchor="middle">instructions, each line ten times the one before</text>"#,
        (LEFT + WIDTH - RIGHT) / 2.0,
        bottom + 36.0
    );
    text + "</svg>\n"
}

/// The calls that take bytes which nobody has checked.
fn whole_rows(subjects: &[Subject], figures: &Figures) -> Vec<Marks> {
    let marks = |step| {
        let all = 0..subjects.len();
        all.map(|subject| figures.whole(subject, step).map(|spread| spread.mean))
            .collect()
    };
    let lines = whole_lines().into_iter();
    lines.map(|(name, step)| (name, marks(step))).collect()
}

/// What is asked after the check.
fn held_rows(subjects: &[Subject], figures: &Figures) -> Vec<Marks> {
    let marks = |step| {
        let all = 0..subjects.len();
        all.map(|subject| figures.held(subject, step).map(|spread| spread.mean))
            .collect()
    };
    let lines = held_lines().into_iter();
    let mut rows: Vec<Marks> = lines.map(|(name, step)| (name, marks(step))).collect();
    let share = (0..subjects.len()).map(|subject| {
        let batch = figures.whole(subject, Step::Batch)?;
        Some(batch.mean / ROWS as f64)
    });
    rows.push(("batch row, check shared".to_string(), share.collect()));
    rows
}

/// From 10 instructions at the left to so many tens at the right.
struct Scale {
    tens: f64,
}

impl Scale {
    fn x(&self, number: f64) -> f64 {
        let part = (number.max(10.0).log10() - 1.0) / (self.tens - 1.0);
        LEFT + part * (WIDTH - LEFT - RIGHT)
    }
}

/// The size, and the colours for both kinds of page.
fn head(height: f64) -> String {
    let mut light = String::new();
    let mut dark = String::new();
    for (number, (on_light, on_dark)) in COLOURS.iter().enumerate() {
        let _ = write!(light, ".s{number}{{fill:{on_light};stroke:{on_light}}}");
        let _ = write!(dark, ".s{number}{{fill:{on_dark};stroke:{on_dark}}}");
    }
    format!(
        r##"<svg xmlns="http://www.w3.org/2000/svg" viewBox="0 0 {WIDTH} {height:.0}" font-family="system-ui, sans-serif" font-size="13" role="img" aria-label="Instructions of each call, of Mistrogu and of other ways to keep names">
<style>
.page{{fill:#ffffff}} text{{fill:#1f2937}} .soft{{fill:#4b5563;font-size:12px}} .title{{font-weight:600}} .line{{stroke:#d1d5db}} .rule{{stroke:#e5e7eb}}
{light}
@media (prefers-color-scheme: dark){{
.page{{fill:#0d1117}} text{{fill:#e5e7eb}} .soft{{fill:#9ca3af}} .line{{stroke:#374151}} .rule{{stroke:#1f2937}}
{dark}
}}
</style>
<rect class="page" width="100%" height="100%"/>
<text x="12" y="26" font-size="17" font-weight="600">Instructions of a call</text>
"##
    )
}

/// Which mark is whose.
fn legend(subjects: &[Subject]) -> String {
    let mut text = String::new();
    let mut x = 18.0;
    for (number, subject) in subjects.iter().enumerate() {
        text += &mark(number, x, 52.0);
        let name = escaped(&subject.name);
        let _ = writeln!(text, r#"<text x="{:.0}" y="56">{name}</text>"#, x + 11.0);
        x += 40.0 + 7.2 * subject.name.chars().count() as f64;
    }
    text
}

/// A line for each power of ten, with its number at both ends.
fn grid(scale: &Scale, bottom: f64) -> String {
    let mut text = String::new();
    for ten in 1..=scale.tens as i32 {
        let number = 10f64.powi(ten);
        let (x, shown) = (scale.x(number), shortened(number));
        let _ = writeln!(
            text,
            r#"<line class="line" x1="{x:.1}" y1="{:.0}" x2="{x:.1}" y2="{bottom:.0}"/>"#,
            TOP
        );
        for y in [TOP - 6.0, bottom + 16.0] {
            let _ = writeln!(
                text,
                r#"<text class="soft" x="{x:.1}" y="{y:.0}" text-anchor="middle">{shown}</text>"#
            );
        }
    }
    text
}

/// A power of ten, in millions where it has so many.
fn shortened(number: f64) -> String {
    if number < 1e6 {
        grouped(number)
    } else {
        format!("{} M", grouped(number / 1e6))
    }
}

/// One row: its head, a rule above it, and the marks, each in its own lane. The
/// library's has its number beside it.
fn row(scale: &Scale, y: f64, height: f64, name: &str, marks: &[Option<f64>]) -> String {
    let mut text = String::new();
    let _ = writeln!(
        text,
        r#"<line class="rule" x1="12" y1="{y:.1}" x2="{:.0}" y2="{y:.1}"/>"#,
        WIDTH - RIGHT
    );
    let _ = writeln!(
        text,
        r#"<text x="{:.0}" y="{:.1}" text-anchor="end">{}</text>"#,
        LEFT - 14.0,
        y + height / 2.0 + 4.5,
        escaped(name)
    );
    for (number, instructions) in marks.iter().enumerate() {
        let Some(instructions) = *instructions else {
            continue;
        };
        let x = scale.x(instructions);
        let lane = y + GAP / 2.0 + LANE * (number as f64 + 0.5);
        text += &mark(number, x, lane);
        if number == LIBRARY {
            let _ = writeln!(
                text,
                r#"<text class="soft" x="{:.1}" y="{:.1}">{}</text>"#,
                x + 8.0,
                lane + 4.0,
                grouped(instructions)
            );
        }
    }
    text
}

/// A subject's mark: circle, flat bar, square, diamond, triangle, cross.
fn mark(number: usize, x: f64, y: f64) -> String {
    let class = number % COLOURS.len();
    let shape = match class {
        0 => format!(r#"<circle cx="{x:.1}" cy="{y:.1}" r="4.5""#),
        1 => format!(
            r#"<rect x="{:.1}" y="{:.1}" width="10" height="3""#,
            x - 5.0,
            y - 1.5
        ),
        2 => format!(
            r#"<rect x="{:.1}" y="{:.1}" width="7" height="7""#,
            x - 3.5,
            y - 3.5
        ),
        3 => format!(
            r#"<path d="M{x:.1} {:.1}l4.5 4.5l-4.5 4.5l-4.5 -4.5z""#,
            y - 4.5
        ),
        4 => format!(r#"<path d="M{x:.1} {:.1}l4.5 8h-9z""#, y - 4.5),
        _ => format!(
            r#"<path stroke-width="2.5" d="M{:.1} {:.1}l7 7m0 -7l-7 7""#,
            x - 3.5,
            y - 3.5
        ),
    };
    format!("{shape} class=\"s{class}\"/>\n")
}

/// A text in which nothing is taken for a mark of the drawing's language.
fn escaped(text: &str) -> String {
    text.replace('&', "&amp;").replace('<', "&lt;")
}
