//! The picture: one row a server, in SVG.

use crate::sheet::{Departure, Kind, Mark, Place, Role, Row, Sheet, FRAMES_A_SECOND};
use crate::spans::{columns, heights, is_narrow, spans, thin, Scale, Shares, Span, Tenths};
use crate::words::{brief, count, escape, length, with_reason, wrap, Time};
use std::fmt::{self, Write};
use std::ops::Range;

/// In pixels: the plot, and the margins beside it.
const PLOT: u32 = 1_440;
const LEFT: u32 = 76;
const RIGHT: u32 = 44;
const WIDTH: u32 = LEFT + PLOT + RIGHT;

/// The heights within a row.
const BAR: u32 = 16;
const LANE: u32 = 13;
const TICK: u32 = 6;
const PAD: u32 = 5;

/// The least height of time on air in a column of several roles.
const LEAST_ON_AIR: u32 = 2;

/// A picture above this is drawn again, coarser.
const MOST_BYTES: usize = 1_900_000;

/// A hover text lists at most so many lines.
const MOST_LISTED: usize = 6;

const STYLE: &str = "\
text{font-family:'DejaVu Sans',Verdana,Arial,sans-serif;font-size:11px;fill:#111}\
.title{font-size:17px;font-weight:bold}.id{font-weight:bold;font-size:12px;text-anchor:end}\
.n{fill:#555}.m{text-anchor:middle}.c{font-size:9px}.r{font-size:10px;font-weight:bold;fill:#c00000}\
.note{font-weight:bold;fill:#c00000}\
.A{fill:#0b3d91}.P{fill:url(#hatch)}.B{fill:#a9cdf0}.S{fill:url(#dots)}.I{fill:#dcdcdc}\
.D{fill:none;stroke:#222;stroke-width:1.5;stroke-dasharray:5 3}.w{fill:#fff}\
.A,.P,.B{stroke:#fff;stroke-width:.6}.mix .A,.mix .P{stroke:none}.mix .B{stroke:none}\
.onA{fill:#fff;font-weight:bold;text-anchor:middle}\
.on{text-anchor:middle;stroke:#fff;stroke-width:3;stroke-linejoin:round;paint-order:stroke}\
.h{fill:none;stroke:none;pointer-events:all}\
.beat{fill:none;stroke:#111;shape-rendering:crispEdges}\
.lower{fill:none;stroke:#a0004e;stroke-width:1.3;pointer-events:all}\
.reveal{fill:#fff;stroke:#111;stroke-width:1.2}.pass{fill:#e07b00;stroke:#111}\
.cut{fill:none;stroke:#111;stroke-width:2;pointer-events:all}\
.mended{fill:none;stroke:#111;stroke-width:1.6;pointer-events:all}.refused{fill:#c00000}\
.departs{fill:none;stroke:#c00000;stroke-width:2;stroke-dasharray:7 2}\
.departed{font-weight:bold;fill:#c00000;text-anchor:middle}\
.grid{stroke:#c4c4c4;stroke-width:.7}.axis{stroke:#444;fill:none}.row{stroke:#999;stroke-width:.5}";

const PATTERNS: &str = "\
<pattern id=\"hatch\" width=\"6\" height=\"6\" patternUnits=\"userSpaceOnUse\" \
patternTransform=\"rotate(45)\"><path fill=\"#ffd45e\" d=\"M0 0h6v6h-6z\"/>\
<path fill=\"#8a5a00\" d=\"M0 0h2v6h-2z\"/></pattern>\
<pattern id=\"dots\" width=\"4\" height=\"4\" patternUnits=\"userSpaceOnUse\">\
<path fill=\"#e9efe6\" d=\"M0 0h4v4h-4z\"/><path fill=\"#5f8a50\" d=\"M1 1h1.3v1.3h-1.3z\"/></pattern>";

/// The steps of the axis in frames: between labels, and between the ticks without one.
const STEPS: [(u32, u32); 16] = [
    (1, 1),
    (5, 1),
    (25, 5),
    (50, 25),
    (125, 25),
    (250, 50),
    (500, 125),
    (750, 125),
    (1_500, 250),
    (3_000, 750),
    (7_500, 1_500),
    (15_000, 3_000),
    (22_500, 7_500),
    (45_000, 7_500),
    (90_000, 22_500),
    (180_000, 45_000),
];

macro_rules! put {
    ($out:expr, $($rest:tt)*) => {
        write!($out, $($rest)*).expect("a string takes all text")
    };
}

/// The picture of a sheet; the name goes into its title.
pub fn draw(sheet: &Sheet, name: &str) -> String {
    let mut picture = String::new();
    for coarse in [1, 2, 4, 8] {
        picture = Page::new(sheet, coarse).draw(name);
        if picture.len() <= MOST_BYTES {
            break;
        }
    }
    picture
}

/// Tenths of a pixel, as pixels.
struct Px(Tenths);

impl fmt::Display for Px {
    fn fmt(&self, f: &mut fmt::Formatter) -> fmt::Result {
        match self.0 % 10 {
            0 => write!(f, "{}", self.0 / 10),
            tenth => write!(f, "{}.{tenth}", self.0 / 10),
        }
    }
}

/// The class of a role, also its letter in a narrow span, and its name in a wide one.
fn names(role: Role) -> (&'static str, &'static str) {
    match role {
        Role::Primary => ("A", "ON AIR"),
        Role::Prospect => ("P", "prospect"),
        Role::Backup => ("B", "backup"),
        Role::Sync => ("S", "sync"),
        Role::Idle => ("I", "idle"),
        Role::Down => ("D", "down"),
    }
}

/// Whether a role's shape has the bar's whole height. The thin ones have no letter.
fn fills(role: Role) -> bool {
    matches!(role, Role::Primary | Role::Prospect | Role::Backup)
}

/// A role's shape in a bar, from x on.
fn shape(role: Role, x: Tenths, width: Tenths, top: u32) -> String {
    let (height, down) = match role {
        Role::Primary | Role::Prospect | Role::Backup => (BAR, 0),
        Role::Sync => (8, 4),
        Role::Idle => (4, 6),
        Role::Down => return format!("M{} {}h{}", Px(x), top + BAR / 2, Px(width)),
    };
    let (x, width) = (Px(x), Px(width));
    format!("M{x} {}h{width}v{height}h-{width}z", top + down)
}

/// The line under a mark that stands for several.
const SEVERAL: &str = "m-4.5 6h9";

/// The class of a mark, and its shape around a point.
fn glyph(kind: Kind) -> (&'static str, &'static str) {
    match kind {
        Kind::Beat => ("beat", "m0-3v6"),
        Kind::Lower => ("lower", "m-3-2l3 4l3-4"),
        Kind::Reveal => ("reveal", "m0-5l4.5 8h-9z"),
        Kind::Pass => ("pass", "m0-5l5 5l-5 5l-5-5z"),
        Kind::Cut => ("cut", "m-3.5-3.5l7 7m0-7l-7 7"),
        Kind::Mended => ("mended", "m-4 0a4 4 0 1 0 8 0a4 4 0 1 0-8 0"),
        Kind::Refused => ("refused", "m-4-4h8v8h-8z"),
    }
}

fn plural(kind: Kind) -> &'static str {
    match kind {
        Kind::Beat => "beats",
        Kind::Lower => "lower notes",
        Kind::Reveal => "reveals",
        Kind::Pass => "passes",
        Kind::Cut => "cuts",
        Kind::Mended => "mends",
        Kind::Refused => "refusals",
    }
}

/// A mark with its place, the text beside it and the lines it stands for.
struct Placed {
    kind: Kind,
    x: Tenths,
    label: String,
    lines: Range<usize>,
}

/// From the middle of a mark to its edge, with a little air.
const HALF: Tenths = 60;

fn label_width(label: &str, kind: Kind) -> Tenths {
    label.chars().count() as Tenths * if kind == Kind::Refused { 76 } else { 64 }
}

impl Placed {
    fn overlaps(&self, other: &Placed) -> bool {
        let end = |mark: &Placed| mark.x + HALF + label_width(&mark.label, mark.kind);
        end(self) + HALF > other.x && end(other) + HALF > self.x
    }
}

/// The text beside a mark that has this much room.
fn label(marks: &[Mark], kind: Kind, room: Tenths) -> String {
    let fits = |text: &String| label_width(text, kind) <= room;
    if kind != Kind::Refused {
        return Some(format!("×{}", marks.len()))
            .filter(|t| marks.len() > 1 && fits(t))
            .unwrap_or_default();
    }
    let first = marks[0].number;
    let mut numbers: Vec<u8> = marks.iter().map(|mark| mark.number).collect();
    numbers.sort_unstable();
    numbers.dedup();
    let whole = match (numbers.len(), marks.len()) {
        (1, 1) => first.to_string(),
        (1, times) => format!("{first}×{times}"),
        _ => numbers.iter().map(u8::to_string).collect::<Vec<_>>().join(","),
    };
    Some(whole).filter(fits).unwrap_or_else(|| format!("{first}+"))
}

/// The marks of a kind on a row, thinned out.
fn place(row: &Row, kind: Kind, scale: Scale, coarse: u32) -> Vec<Placed> {
    let marks = row.marks(kind);
    let apart = match kind {
        Kind::Refused => 360,
        Kind::Lower => 100,
        _ => 130,
    };
    let groups = thin(marks.iter().map(|mark| scale.x(mark.frame)), apart * coarse);
    let next = groups.iter().skip(1).map(|group| group.x).chain([scale.width + RIGHT * 10]);
    let list = groups.iter().zip(next).map(|(group, next)| Placed {
        kind,
        x: group.x,
        label: label(&marks[group.lines.clone()], kind, (next - group.x).saturating_sub(2 * HALF)),
        lines: group.lines.clone(),
    });
    list.collect()
}

/// The lanes above the bar, from the bar up. Kinds share a lane if none hides another.
fn lanes(row: &Row, scale: Scale, coarse: u32) -> Vec<Vec<Placed>> {
    let mut lanes: Vec<Vec<Placed>> = Vec::new();
    for kind in [Kind::Reveal, Kind::Pass, Kind::Cut, Kind::Mended, Kind::Refused] {
        let list = place(row, kind, scale, coarse);
        if list.is_empty() {
            continue;
        }
        let free = |lane: &Vec<Placed>| !lane.iter().any(|a| list.iter().any(|b| a.overlaps(b)));
        match lanes.iter().position(free) {
            Some(lane) => lanes[lane].extend(list),
            None => lanes.push(list),
        }
    }
    lanes
}

/// The frames that are drawn: from the day's start, or from near the first line if much would
/// be empty before it.
fn scale(sheet: &Sheet) -> Option<Scale> {
    let (first, last) = sheet.times?;
    let width = PLOT * 10;
    let to = last + 1;
    if first < to / 4 {
        return Some(Scale { from: 0, to, width });
    }
    let (_, step) = steps(Scale { from: first, to, width });
    Some(Scale { from: first / step * step, to, width })
}

fn steps(scale: Scale) -> (u32, u32) {
    let wide = |step: u32| u64::from(step) * u64::from(PLOT) / u64::from(scale.frames());
    let fits =
        |&&(step, _): &&(u32, u32)| wide(step) >= if step < FRAMES_A_SECOND { 92 } else { 60 };
    STEPS.iter().find(fits).copied().unwrap_or(STEPS[STEPS.len() - 1])
}

/// An axis label; no finer than the step needs.
fn axis_label(frame: u32, step: u32) -> String {
    let whole = Time(frame).to_string();
    let letters = match step {
        0..FRAMES_A_SECOND => 11,
        FRAMES_A_SECOND..1_500 => 8,
        _ => 5,
    };
    whole[..letters].to_string()
}

struct Page<'a> {
    sheet: &'a Sheet,
    /// How many times wider the columns and the gaps between marks are.
    coarse: u32,
    out: String,
}

impl<'a> Page<'a> {
    fn new(sheet: &'a Sheet, coarse: u32) -> Page<'a> {
        Page { sheet, coarse, out: String::new() }
    }

    fn draw(mut self, name: &str) -> String {
        let mut y = self.head(name);
        y = self.legend(y);
        if let Some(scale) = scale(self.sheet) {
            // room for the label of a line that departs
            let above = if self.sheet.departure.is_some() { 42 } else { 24 };
            y = self.rows(y + above, scale);
        }
        y = self.notes(y + 18);
        let head = format!(
            "<svg xmlns=\"http://www.w3.org/2000/svg\" width=\"{WIDTH}\" height=\"{y}\" \
             viewBox=\"0 0 {WIDTH} {y}\">\n<title>{}</title>\n<style>{STYLE}</style>\n\
             <defs>{PATTERNS}</defs>\n<path class=\"w\" d=\"M0 0h{WIDTH}v{y}h-{WIDTH}z\"/>\n",
            escape(name)
        );
        head + &self.out + "</svg>\n"
    }

    /// The title line; answers where it ends.
    fn head(&mut self, name: &str) -> u32 {
        let sheet = self.sheet;
        let servers = sheet.rows.iter().filter(|row| row.identity != 0).count();
        let mut title = format!("{}: ", escape(&brief(name)));
        match (sheet.times, scale(sheet)) {
            (Some((_, last)), Some(scale)) => {
                put!(title, "{} to {}, {}, ", Time(scale.from), Time(last), length(scale.frames()))
            }
            _ => title += "no time, ",
        }
        title += &count(servers, "server", "servers");
        put!(title, ", {}", count(sheet.lines, "line", "lines"));
        put!(self.out, "<text class=\"title\" x=\"16\" y=\"26\">{title}</text>\n");
        36
    }

    fn rows(&mut self, top: u32, scale: Scale) -> u32 {
        let mut y = top;
        let body = std::mem::take(&mut self.out);
        for row in &self.sheet.rows {
            y = self.row(row, y, scale);
        }
        let rows = std::mem::replace(&mut self.out, body);
        self.axis(top, y, scale);
        self.out += &rows;
        if let Some(departure) = self.sheet.departure {
            self.departure(departure, top, y, scale);
        }
        y + 22
    }

    /// A line down the rows where the sheet departs, with its label above the axis.
    fn departure(&mut self, departure: Departure, top: u32, bottom: u32, scale: Scale) {
        let x = LEFT * 10 + departure_x(departure.place, self.sheet, scale);
        let label = departure_label(departure);
        let half = label.chars().count() as Tenths * 37;
        let middle = x.clamp(half, WIDTH * 10 - half);
        put!(
            self.out,
            "<g><title>{}</title><path class=\"departs\" d=\"M{} {}V{bottom}\"/>\
             <text class=\"departed\" x=\"{}\" y=\"{}\">{label}</text></g>\n",
            escape(&departure_note(departure)),
            Px(x),
            top - 22,
            Px(middle),
            top - 26
        );
    }

    /// Grid, ticks and labels, above and below the rows.
    fn axis(&mut self, top: u32, bottom: u32, scale: Scale) {
        let (step, minor) = steps(scale);
        let first = |step: u32| scale.from.div_ceil(step) * step;
        let mut grid = String::new();
        let mut ticks = format!("M{LEFT} {top}h{PLOT}M{LEFT} {bottom}h{PLOT}");
        let mut labels = String::new();
        for frame in (first(minor)..=scale.to).step_by(minor as usize) {
            let x = Px(scale.x(frame) + LEFT * 10);
            if frame % step != 0 {
                put!(ticks, "M{x} {top}v-3M{x} {bottom}v3");
                continue;
            }
            put!(grid, "M{x} {top}V{bottom}");
            put!(ticks, "M{x} {top}v-6M{x} {bottom}v6");
            let label = axis_label(frame, step);
            for y in [top - 9, bottom + 17] {
                put!(labels, "<text class=\"m\" x=\"{x}\" y=\"{y}\">{label}</text>");
            }
        }
        put!(
            self.out,
            "<path class=\"grid\" d=\"{grid}\"/><path class=\"axis\" d=\"{ticks}\"/>{labels}\n"
        );
    }

    /// One row; answers where it ends.
    fn row(&mut self, row: &Row, top: u32, scale: Scale) -> u32 {
        let lanes = lanes(row, scale, self.coarse);
        let below = place(row, Kind::Lower, scale, self.coarse);
        let bar = PAD + lanes.len() as u32 * LANE;
        put!(self.out, "<g transform=\"translate({LEFT} {top})\">\n");
        let mut y = bar;
        if row.identity != 0 {
            self.bar(row, bar, scale);
            y += BAR + 1;
        }
        for (lane, marks) in lanes.iter().enumerate() {
            let middle = bar - 1 - lane as u32 * LANE - LANE / 2;
            self.marks(row, marks, middle);
        }
        if !row.marks(Kind::Beat).is_empty() {
            self.beats(row, y, scale);
            y += TICK;
        }
        if !below.is_empty() {
            self.marks(row, &below, y + 4);
            y += 8;
        }
        y += PAD;
        let label = match row.identity {
            0 => "end".to_string(),
            identity => identity.to_string(),
        };
        let middle = if row.identity == 0 { bar - 3 } else { bar + BAR / 2 + 4 };
        put!(self.out, "<text class=\"id\" x=\"-12\" y=\"{middle}\">{label}</text>");
        put!(self.out, "<path class=\"row\" d=\"M-{LEFT} {y}H{PLOT}\"/>\n</g>\n");
        top + y
    }

    /// The roles of a server.
    fn bar(&mut self, row: &Row, top: u32, scale: Scale) {
        let list = spans(&row.roles, scale.from, scale.to);
        let width = 2 * self.coarse;
        let count = (PLOT / width) as usize;
        let mut words = String::new();
        for span in list.iter().filter(|span| !is_narrow(span, scale, count)) {
            let (x, end) = (scale.x(span.from), scale.x(span.to));
            let (class, name) = names(span.role);
            let shape = shape(span.role, x, end - x, top);
            let title = span_title(row, span);
            if !fills(span.role) {
                let area = (Px(x), Px(end - x));
                put!(
                    self.out,
                    "<g><title>{title}</title><path class=\"h\" d=\"M{} {top}h{}v{BAR}H{}z\"/>\
                     <path class=\"{class}\" d=\"{shape}\"/></g>\n",
                    area.0,
                    area.1,
                    area.0
                );
            } else {
                put!(
                    self.out,
                    "<path class=\"{class}\" d=\"{shape}\"><title>{title}</title></path>\n"
                );
            }
            let text = match end - x {
                wide if wide >= name.len() as Tenths * 78 + 60 => name,
                wide if wide >= 120 && fills(span.role) => class,
                _ => continue,
            };
            let on = if span.role == Role::Primary { "onA" } else { "on" };
            let middle = Px((x + end) / 2);
            let y = top + BAR / 2 + 4;
            put!(words, "<text class=\"{on}\" x=\"{middle}\" y=\"{y}\" pointer-events=\"none\">{text}</text>\n");
        }
        self.mixed(row, &columns(&list, scale, count), width, top, scale);
        self.out += &words;
    }

    /// The columns that hold several roles, each filled from the bottom.
    fn mixed(&mut self, row: &Row, all: &[Option<Shares>], width: u32, top: u32, scale: Scale) {
        let mut paths: [String; Role::ALL.len()] = Default::default();
        let mut ground = String::new();
        let mut titles = String::new();
        let filled = |shares: &Option<Shares>| {
            shares.as_ref().map(|shares| heights(shares, BAR, LEAST_ON_AIR))
        };
        let parts: Vec<_> = all.iter().map(filled).collect();
        // columns of the same heights are drawn as one
        for run in runs(&parts, |a, b| a == b, usize::MAX) {
            let Some(heights) = parts[run.start] else { continue };
            let (x, wide) = (run.start as u32 * width, run.len() as u32 * width);
            put!(ground, "M{x} {top}h{wide}v{BAR}h-{wide}z");
            let mut y = top + BAR;
            for (role, height) in heights.into_iter().enumerate() {
                if height > 0 {
                    y -= height;
                    put!(paths[role], "M{x} {y}h{wide}v{height}h-{wide}z");
                }
            }
        }
        if ground.is_empty() {
            return;
        }
        for run in runs(&parts, |a, b| a.is_some() == b.is_some(), 6) {
            if parts[run.start].is_none() {
                continue;
            }
            let (x, wide) = (run.start as u32 * width, run.len() as u32 * width);
            let (from, to) = (scale.frame(x * 10), scale.frame((x + wide) * 10).min(scale.to));
            let held: u64 =
                all[run.clone()].iter().flatten().map(|s| s[Role::Primary as usize]).sum();
            let whole: u64 = all[run].iter().flatten().flatten().sum();
            let title = mixed_title(row, from..to, held as f64 * 100.0 / whole as f64);
            put!(titles, "<path class=\"h\" d=\"M{x} {top}h{wide}v{BAR}H{x}z\"><title>{title}</title></path>\n");
        }
        put!(self.out, "<g class=\"mix\"><path class=\"w\" d=\"{ground}\"/>");
        for role in Role::ALL.into_iter().filter(|&role| role != Role::Down) {
            let path = &paths[role as usize];
            if !path.is_empty() {
                put!(self.out, "<path class=\"{}\" d=\"{path}\"/>", names(role).0);
            }
        }
        put!(self.out, "\n{titles}</g>\n");
    }

    fn marks(&mut self, row: &Row, marks: &[Placed], y: u32) {
        for mark in marks {
            let (class, path) = glyph(mark.kind);
            let title = marks_title(row, mark.kind, mark.lines.clone());
            let x = Px(mark.x);
            let mut shape = format!("<path class=\"{class}\" d=\"M{x} {y}{path}");
            if mark.lines.len() > 1 {
                put!(shape, "M{x} {y}{SEVERAL}");
            }
            shape.push('"');
            if mark.label.is_empty() {
                put!(self.out, "{shape}><title>{title}</title></path>\n");
                continue;
            }
            let class = if mark.kind == Kind::Refused { "r" } else { "c" };
            put!(
                self.out,
                "<g><title>{title}</title>{shape}/><text class=\"{class}\" x=\"{}\" y=\"{}\">{}</text></g>\n",
                Px(mark.x + HALF),
                y + 4,
                mark.label
            );
        }
    }

    /// Ticks under the bar, at most one in three pixels.
    fn beats(&mut self, row: &Row, top: u32, scale: Scale) {
        let marks = row.marks(Kind::Beat);
        let ticks = thin(marks.iter().map(|mark| scale.x(mark.frame)), 30 * self.coarse);
        // the ticks that share a hover text
        for cell in thin(ticks.iter().map(|tick| tick.x), 120 * self.coarse) {
            let ticks = &ticks[cell.lines];
            let (first, last) = (&ticks[0], &ticks[ticks.len() - 1]);
            let title = marks_title(row, Kind::Beat, first.lines.start..last.lines.end);
            let start = first.x.saturating_sub(15);
            let wide = Px(last.x + 15 - start);
            put!(
                self.out,
                "<g class=\"beat\"><title>{title}</title><path class=\"h\" \
                 d=\"M{} {top}h{wide}v{TICK}h-{wide}z\"/><path d=\"",
                Px(start)
            );
            for tick in ticks {
                put!(self.out, "M{} {top}v{TICK}", Px(tick.x));
            }
            self.out += "\"/></g>\n";
        }
    }

    /// What the shapes mean, in lines from y on; answers where they end.
    fn legend(&mut self, y: u32) -> u32 {
        let mut place = (16, y);
        for role in Role::ALL {
            let (class, _) = names(role);
            let text = match role {
                Role::Primary => "A = primary, on air".to_string(),
                role if fills(role) => format!("{class} = {}", role.word()),
                role => role.word().to_string(),
            };
            let (x, y) = self.item(&mut place, 34, &text);
            let shape = shape(role, x * 10, 280, y);
            put!(self.out, "<path class=\"{class}\" d=\"{shape}\"/>\n");
        }
        let text = "roles too close to tell apart: each by its share of the time (down is blank)";
        let (x, y) = self.item(&mut place, 34, text);
        put!(self.out, "<g class=\"mix\">");
        for (column, prospect, on_air) in [(0, 4, 6), (1, 3, 3), (2, 0, 9), (3, 5, 2), (4, 3, 7)] {
            let x = x + column * 6;
            let mut top = y;
            for (role, height) in [
                (Role::Backup, BAR - prospect - on_air),
                (Role::Prospect, prospect),
                (Role::Primary, on_air),
            ] {
                let class = names(role).0;
                put!(self.out, "<path class=\"{class}\" d=\"M{x} {top}h6v{height}h-6z\"/>");
                top += height;
            }
        }
        put!(self.out, "</g>\n");
        place = (16, place.1 + 22);
        for kind in Kind::ALL {
            let text = match kind {
                Kind::Lower => "lower (a primary heard a lower server)",
                Kind::Cut => "cut (the sender's row)",
                Kind::Mended => "mended (the sender's row)",
                Kind::Refused => "refused, with its number",
                kind => kind.word(),
            };
            let wide = if kind == Kind::Refused { 30 } else { 14 };
            let (x, y) = self.item(&mut place, wide, text);
            let (class, path) = glyph(kind);
            put!(self.out, "<path class=\"{class}\" d=\"M{} {}{path}\"/>", x + 6, y + 8);
            if kind == Kind::Refused {
                put!(self.out, "<text class=\"r\" x=\"{}\" y=\"{}\">14</text>", x + 12, y + 12);
            }
            self.out.push('\n');
        }
        let text = "underlined: several in one place, ×3 where there is room";
        let (x, y) = self.item(&mut place, 14, text);
        let (class, path) = glyph(Kind::Reveal);
        put!(
            self.out,
            "<path class=\"{class}\" d=\"M{0} {1}{path}M{0} {1}{SEVERAL}\"/>\n",
            x + 6,
            y + 8
        );
        place.1 + 26
    }

    /// Room for a sample and the text after it; answers where the sample goes.
    fn item(&mut self, place: &mut (u32, u32), sample: u32, text: &str) -> (u32, u32) {
        let wide = sample + text.chars().count() as u32 * 13 / 2 + 16;
        if place.0 + wide > WIDTH {
            *place = (16, place.1 + 22);
        }
        let at = *place;
        place.0 += wide;
        put!(self.out, "<text x=\"{}\" y=\"{}\">{}</text>", at.0 + sample, at.1 + 12, escape(text));
        at
    }

    /// The text below the rows; answers where it ends.
    fn notes(&mut self, mut y: u32) -> u32 {
        let sheet = self.sheet;
        let mut note = |class: &str, text: &str| {
            for line in wrap(text, 250) {
                put!(
                    self.out,
                    "<text class=\"{class}\" x=\"16\" y=\"{y}\">{}</text>\n",
                    escape(&line)
                );
                y += 17;
            }
        };
        if let Some(departure) = sheet.departure {
            note("note", &departure_note(departure));
        }
        if let Some((line, number)) = sheet.refusal {
            note(
                "note",
                &format!(
                    "The day's line {line} was refused with {}. The sheet ends there.",
                    with_reason(number)
                ),
            );
        }
        if sheet.times.is_none() {
            note("n", "No server has a line in this sheet.");
            return y;
        }
        let refused = sheet.rows.iter().flat_map(|row| row.marks(Kind::Refused));
        let mut numbers: Vec<u8> = refused.map(|mark| mark.number).collect();
        numbers.sort_unstable();
        numbers.dedup();
        if !numbers.is_empty() {
            let list: Vec<String> = numbers.into_iter().map(with_reason).collect();
            note("", &format!("Refused: {}.", list.join("; ")));
        }
        note(
            "n",
            "Times are hours:minutes:seconds:frames, 25 frames a second. A role is held from the \
             start of the frame in which it is entered. The axis ends at the last line of the sheet; \
             a server without a line has no row.",
        );
        y
    }
}

/// Its own time, or the nearest place that is drawn.
fn departure_x(place: Place, sheet: &Sheet, scale: Scale) -> Tenths {
    let frame = match place {
        Place::Header => scale.from,
        Place::Frame(frame) => frame.clamp(scale.from, scale.to),
        Place::NoTime => sheet.times.map_or(scale.from, |(_, last)| last),
        Place::End => scale.to,
    };
    scale.x(frame)
}

fn departure_label(departure: Departure) -> String {
    let line = departure.line;
    match departure.place {
        Place::Frame(_) => format!("line {line} departs"),
        Place::Header => format!("line {line}, the header, departs"),
        Place::NoTime => format!("line {line} departs (it has no time)"),
        Place::End => format!("line {line} departs (the sheet has ended)"),
    }
}

fn departure_note(departure: Departure) -> String {
    let line = departure.line;
    let mut note = match departure.place {
        Place::Frame(frame) => {
            format!("Line {line}, {}, departs from the sheet of the day.", Time(frame))
        }
        Place::Header => format!("Line {line}, the header, departs from the sheet of the day."),
        Place::NoTime => format!(
            "Line {line} departs from the sheet of the day. It has no time, and is marked at the \
             last line before it that has one."
        ),
        Place::End => format!(
            "The sheet departs at line {line}, which it does not have: it is marked at the end."
        ),
    };
    if !departure.whole {
        note += " From there on it cannot be read as a sheet: only the lines before are drawn.";
    }
    note
}

/// The places of items that go together, in runs of at most so many.
fn runs<T>(items: &[T], same: impl Fn(&T, &T) -> bool, most: usize) -> Vec<Range<usize>> {
    let mut list: Vec<Range<usize>> = Vec::new();
    for (place, item) in items.iter().enumerate() {
        match list.last_mut() {
            Some(run) if run.len() < most && same(&items[run.start], item) => run.end = place + 1,
            _ => list.push(place..place + 1),
        }
    }
    list
}

fn span_title(row: &Row, span: &Span) -> String {
    let mut title = String::new();
    if span.lines.is_empty() {
        put!(title, "{} idle before its first line", row.identity);
    }
    for (frame, role) in &row.roles[span.lines.clone()] {
        put!(title, "{} {} {}\n", Time(*frame), row.identity, role.word());
    }
    put!(
        title,
        "{}held for {}",
        if span.lines.is_empty() { "\n" } else { "" },
        length(span.to - span.from)
    );
    title
}

fn mixed_title(row: &Row, frames: Range<u32>, on_air: f64) -> String {
    let place = |frame: u32| row.roles.partition_point(|&(at, _)| at < frame);
    let roles = &row.roles[place(frames.start)..place(frames.end)];
    if roles.len() <= MOST_LISTED {
        let line = |(frame, role): &(u32, Role)| {
            format!("{} {} {}", Time(*frame), row.identity, role.word())
        };
        return roles.iter().map(line).collect::<Vec<_>>().join("\n");
    }
    format!(
        "{} to {}: {} enters {} roles, on air {on_air:.0}%",
        Time(frames.start),
        Time(frames.end - 1),
        row.identity,
        roles.len()
    )
}

fn marks_title(row: &Row, kind: Kind, lines: Range<usize>) -> String {
    let marks = &row.marks(kind)[lines];
    let identity = row.identity;
    if marks.len() <= MOST_LISTED {
        let line = |mark: &Mark| match kind {
            Kind::Refused => {
                format!("{} {identity} refused-{}", Time(mark.frame), with_reason(mark.number))
            }
            kind => format!("{} {identity} {}", Time(mark.frame), kind.word()),
        };
        return marks.iter().map(line).collect::<Vec<_>>().join("\n");
    }
    let (first, last) = (Time(marks[0].frame), Time(marks[marks.len() - 1].frame));
    format!("{first} to {last}: {identity}, {} {}", marks.len(), plural(kind))
}

#[cfg(test)]
mod tests {
    use super::*;
    use crate::sheet::{read, read_departed};

    fn picture(lines: &str) -> String {
        let text = format!("time server what\n{lines}").replace(' ', "\t");
        draw(&read(text.as_bytes()).expect("a sheet"), "a<b>&c")
    }

    #[test]
    fn the_name_is_escaped() {
        let picture = picture("");
        assert!(picture.contains("<title>a&lt;b&gt;&amp;c</title>"));
        assert!(!picture.contains("a<b>"));
    }

    #[test]
    fn every_line_of_a_small_sheet_can_be_hovered() {
        let lines = "00:00:00:00 1 sync\n00:00:00:00 1 backup\n00:00:00:04 1 prospect\n\
                     00:00:00:04 1 reveal\n00:00:00:06 1 beat\n00:00:00:08 1 beat\n\
                     00:00:00:08 1 primary\n00:00:00:08 1 cut\n00:00:00:08 1 pass\n\
                     00:00:00:08 1 backup\n00:00:00:09 1 mended\n00:00:00:09 2 refused-14\n\
                     00:00:00:10 2 lower\n00:00:00:10 0 refused-11\n";
        let picture = picture(lines);
        for line in lines.lines() {
            assert!(picture.contains(line), "{line}");
        }
        assert!(picture.contains(">1</text>") && picture.contains(">2</text>"));
        assert!(picture.contains(">end</text>"));
    }

    /// The picture of a sheet that departs at a line.
    fn departed(lines: &str, line: usize) -> String {
        let text = format!("time server what\n{lines}").replace(' ', "\t");
        draw(&read_departed(text.as_bytes(), line).expect("a departure"), "sheet")
    }

    /// Where the mark stands, in tenths of a pixel from the plot's left edge.
    fn marked_at(picture: &str) -> Tenths {
        let path = picture.split("class=\"departs\" d=\"M").nth(1).expect("a mark");
        let x = path.split(' ').next().expect("a place");
        let (whole, tenth) = x.split_once('.').unwrap_or((x, "0"));
        let tenths = |text: &str| text.parse::<Tenths>().expect("a number");
        tenths(whole) * 10 + tenths(tenth) - LEFT * 10
    }

    const FOUR: &str = "00:00:00:00 1 sync\n00:00:00:04 1 backup\n00:00:00:09 1 cut\n\
                        line 5 refused-1\n";

    #[test]
    fn the_line_that_departs_is_marked_at_its_time() {
        for (line, place, label) in [
            (1, 0, "line 1, the header, departs"),
            (2, 0, "line 2 departs"),
            (3, 5_760, "line 3 departs"),
            (4, 12_960, "line 4 departs"),
            // the refusal has no time, and there is no line 6
            (5, 12_960, "line 5 departs (it has no time)"),
            (6, 14_400, "line 6 departs (the sheet has ended)"),
        ] {
            let picture = departed(FOUR, line);
            assert_eq!(marked_at(&picture), place, "line {line}");
            assert!(picture.contains(&format!(">{label}</text>")), "{label}");
            assert!(picture.contains("cut</title>"), "all lines are drawn");
        }
        assert!(!picture(FOUR).contains("departs</"));
        assert!(!picture(FOUR).contains("class=\"departs\""));
    }

    #[test]
    fn what_cannot_be_read_is_not_drawn() {
        let lines = "00:00:00:00 1 sync\n00:00:00:04 1 backup\n<&\0>\n00:00:00:02 1 cut\n";
        let picture = departed(lines, 4);
        assert_eq!(marked_at(&picture), 11_520);
        assert!(picture.contains("line 4 departs (it has no time)"));
        assert!(picture.contains("only the lines before are drawn"));
        assert!(!picture.contains("cut</title>") && !picture.contains('\0'));
        // a time beyond what is drawn
        let picture = departed("00:00:00:00 1 sync\n00:00:01:00 1 beat\n\0\n", 3);
        assert_eq!(marked_at(&picture), 14_400);
        // nothing is left to draw
        let picture = departed("00:00:00:04 1 sync\n00:00:01:00 1 bea\n00:00:00:05 1 lower\n", 2);
        assert!(picture.contains("Line 2, 00:00:00:04, departs"));
        assert!(!picture.contains("class=\"departs\""), "there is no axis");
    }

    #[test]
    fn a_departure_without_an_axis_is_a_note() {
        for (lines, line) in [("", 1), ("", 2), ("line 1 refused-4\n", 2), ("x\n", 2), ("x\n", 1)] {
            let picture = departed(lines, line);
            assert!(!picture.contains("class=\"departs\""));
            assert!(picture.contains("departs"), "{lines} {line}");
            assert!(picture.contains(&format!("ine {line}")), "{lines} {line}");
        }
    }

    #[test]
    fn the_label_stays_in_the_picture() {
        for line in 1..=6 {
            let picture = departed(FOUR, line);
            let label = picture.split("class=\"departed\" x=\"").nth(1).expect("a label");
            let x: f64 = label.split('"').next().expect("a place").parse().expect("a number");
            let text = label.split('>').nth(1).expect("a text").split('<').next().expect("its end");
            let half = text.chars().count() as f64 * 3.7;
            assert!(x >= half && x + half <= f64::from(WIDTH), "{text} at {x}");
        }
    }

    #[test]
    fn an_input_refusal_is_a_note() {
        let picture = picture("line 3 refused-2\n");
        assert!(picture.contains("line 3 was refused with 2: a number badly written"));
    }

    #[test]
    fn refusals_show_their_numbers() {
        let mark = |number: u8| Mark { frame: 0, number };
        let text = |numbers: &[u8], room| {
            label(&numbers.iter().copied().map(mark).collect::<Vec<_>>(), Kind::Refused, room)
        };
        assert_eq!(text(&[14], 200), "14");
        assert_eq!(text(&[14, 14, 14], 400), "14×3");
        assert_eq!(text(&[14, 12], 400), "12,14");
        assert_eq!(text(&[14, 12], 240), "14+");
        assert_eq!(label(&[mark(0)], Kind::Cut, 400), "");
        assert_eq!(label(&[mark(0); 12], Kind::Cut, 400), "×12");
        assert_eq!(label(&[mark(0); 12], Kind::Cut, 100), "");
    }

    #[test]
    fn marks_that_would_hide_each_other_get_lanes() {
        let text = "time server what\n00:00:00:00 1 cut\n00:00:00:00 1 refused-15\n\
                    00:00:00:09 1 pass\n00:00:01:00 1 backup\n";
        let sheet = read(text.replace(' ', "\t").as_bytes()).expect("a sheet");
        let lanes = lanes(&sheet.rows[0], scale(&sheet).expect("times"), 1);
        let kinds: Vec<Vec<Kind>> =
            lanes.iter().map(|lane| lane.iter().map(|mark| mark.kind).collect()).collect();
        assert_eq!(kinds, [vec![Kind::Pass, Kind::Cut], vec![Kind::Refused]]);
    }

    #[test]
    fn the_axis_suits_the_span() {
        let label = |to: u32| {
            let scale = Scale { from: 0, to, width: PLOT * 10 };
            let (step, minor) = steps(scale);
            assert!(step % minor == 0);
            assert!(to / step <= 24, "{to}");
            axis_label(0, step)
        };
        assert_eq!(label(9), "00:00:00:00");
        assert_eq!(label(250), "00:00:00");
        assert_eq!(label(90_000), "00:00");
        assert_eq!(label(2_160_000), "00:00");
    }

    #[test]
    fn a_late_sheet_begins_near_its_first_line() {
        let text = "time server what\n20:00:00:07 1 sync\n20:00:10:00 1 backup\n";
        let sheet = read(text.replace(' ', "\t").as_bytes()).expect("a sheet");
        let scale = scale(&sheet).expect("times");
        assert_eq!((scale.from, scale.to), (1_800_005, 1_800_251));
    }

    #[test]
    fn a_crowded_sheet_stays_small() {
        let mut lines = String::new();
        for frame in (0..2_160_000).step_by(120) {
            for (place, kind) in Kind::ALL.into_iter().enumerate() {
                let word = if kind == Kind::Refused { "refused-14" } else { kind.word() };
                let identity = (frame / 120 + place as u32) % 16 + 1;
                put!(lines, "{} {identity} {word}\n", Time(frame));
            }
            let role = Role::ALL[(frame / 240 % 6) as usize].word();
            put!(lines, "{} {} {role}\n", Time(frame), frame / 120 % 16 + 1);
        }
        assert!(picture(&lines).len() <= MOST_BYTES);
    }

    #[test]
    fn runs_of_the_same() {
        assert_eq!(runs(&[1, 1, 2, 2, 2], |a, b| a == b, 2), [0..2, 2..4, 4..5]);
        assert!(runs(&[], |a: &u8, b| a == b, 2).is_empty());
    }
}
