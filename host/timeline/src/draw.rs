//! The picture: runs two to a row, each with a row for every processor and, below, a row for every task.

use crate::run::{Release, Run};
use std::fmt::{Display, Write};

/// The whole picture's width, the room around and between the runs.
const WIDTH: u32 = 900;
const EDGE: u32 = 18;
const BETWEEN: u32 = 24;
/// A run's room for its row names, and for what stands behind its last tick.
const NAMES: u32 = 78;
const BEHIND: u32 = 34;
/// Heights: of the title, of a processor's row, of a task's row, of the space between these, of the legend.
const TITLE: u32 = 62;
const PROCESSOR: u32 = 34;
const TASK: u32 = 34;
const SPACE: u32 = 20;
const LEGEND: u32 = 38;

/// One colour for each task, repeated where there are more; all carry white letters.
const COLOURS: [&str; 8] = ["#2f6db3", "#c8600a", "#2e8540", "#b03a5b", "#6f4fa8", "#0f7f86", "#8a5a2b", "#5b6770"];
const INK: &str = "#1f2933";
const GREY: &str = "#7b8794";
const LINE: &str = "#d5dae0";
const IDLE: &str = "#f3f5f7";

fn colour(task: u32) -> &'static str {
    COLOURS[(task as usize + COLOURS.len() - 1) % COLOURS.len()]
}

/// All runs, two beside each other, and a legend.
pub fn picture(runs: &[Run]) -> String {
    let columns = runs.len().clamp(1, 2) as u32;
    let room = (WIDTH - 2 * EDGE - BETWEEN * (columns - 1)) / columns;
    let most = runs.iter().map(|run| run.ticks.len() as u32).max().unwrap_or(0).max(1);
    // A run too long for its room makes the picture wider.
    let cell = ((room - NAMES - BEHIND) / most).clamp(8, 44);
    let panel = room.max(NAMES + cell * most + BEHIND);
    let width = 2 * EDGE + panel * columns + BETWEEN * (columns - 1);
    let rows: Vec<u32> = runs.chunks(2).map(|pair| pair.iter().map(height).max().unwrap_or(0) + SPACE).collect();
    let whole = rows.iter().sum::<u32>() + LEGEND;

    let mut svg = Svg::new(width, whole);
    let mut top = 0;
    for (pair, height) in runs.chunks(2).zip(&rows) {
        for (place, run) in pair.iter().enumerate() {
            Panel { left: EDGE + place as u32 * (panel + BETWEEN), top, cell, run }.draw(&mut svg);
        }
        top += height;
    }
    let tasks = runs.iter().map(Run::tasks).max().unwrap_or(0);
    legend(&mut svg, top + 8, tasks.min(COLOURS.len() as u32));
    svg.end()
}

fn height(run: &Run) -> u32 {
    TITLE + PROCESSOR * run.speeds.len() as u32 + SPACE + TASK * run.tasks()
}

/// One run's part of the picture.
struct Panel<'a> {
    left: u32,
    top: u32,
    cell: u32,
    run: &'a Run,
}

impl Panel<'_> {
    /// Where a tick begins.
    fn x(&self, tick: u32) -> u32 {
        self.left + NAMES + self.cell * tick
    }

    fn end(&self) -> u32 {
        self.run.ticks.len() as u32
    }

    fn draw(&self, svg: &mut Svg) {
        let below = self.top + TITLE + PROCESSOR * self.run.speeds.len() as u32 + SPACE;
        self.title(svg);
        for (processor, speed) in self.run.speeds.iter().enumerate() {
            self.processor(svg, processor, *speed);
        }
        for task in 1..=self.run.tasks() {
            let line = below + TASK * (task - 1) + TASK - 12;
            svg.text(self.left, line + 1, 12, INK, "start", format_args!("task {task}"));
            svg.line(self.x(0), line, self.x(self.end()), line, LINE);
        }
        for release in &self.run.releases {
            self.job(svg, below + TASK * (release.task - 1) + TASK - 12, release);
        }
    }

    /// The name, the responses in list order where they fit, and the ticks.
    fn title(&self, svg: &mut Svg) {
        let responses: Vec<String> = self.run.releases.iter().map(|release| release.response.to_string()).collect();
        svg.bold(self.left, self.top + 28, 15, INK, "start", &self.run.name);
        let told = format!("responses {}", responses.join(", "));
        if responses.len() <= 12 {
            svg.text(self.x(self.end()), self.top + 28, 12, GREY, "end", told);
        }
        svg.text(self.left, self.top + TITLE - 8, 10, GREY, "start", "tick");
        // Every tick has its number where there is room for it.
        let step = 24_u32.div_ceil(self.cell).max(1);
        for tick in (0..self.end()).step_by(step as usize) {
            svg.text(self.x(tick) + self.cell / 2, self.top + TITLE - 8, 10, GREY, "middle", tick);
        }
    }

    /// A processor's row: a bar for each stretch of ticks in which one task sits there.
    fn processor(&self, svg: &mut Svg, processor: usize, speed: u32) {
        let top = self.top + TITLE + PROCESSOR * processor as u32;
        svg.text(self.left, top + 13, 12, INK, "start", format_args!("proc {}", processor + 1));
        svg.text(self.left, top + 26, 10, GREY, "start", format_args!("speed {speed}"));
        let height = PROCESSOR - 5;
        svg.rect(self.x(0), top, self.cell * self.end(), height, IDLE);
        let seats: Vec<u32> = self.run.ticks.iter().map(|table| table[processor]).collect();
        let mut from = 0;
        for stretch in seats.chunk_by(|one, next| one == next) {
            let (task, ticks) = (stretch[0], stretch.len() as u32);
            if task != 0 {
                let (left, width) = (self.x(from), self.cell * ticks);
                svg.rect(left, top, width, height, colour(task));
                let name = if width > 58 { format!("task {task}") } else { task.to_string() };
                svg.bold(left + width / 2, top + height / 2 + 4, 12, "white", "middle", name);
            }
            from += ticks;
        }
        // The ticks show through, between the names.
        for tick in 1..self.end() {
            svg.fine(self.x(tick), top, top + height);
        }
    }

    /// A job in its task's row: full where it sits on a processor, pale where it waits; a triangle at its release, a dot at
    /// the end of its completing tick and its response behind that.
    fn job(&self, svg: &mut Svg, line: u32, release: &Release) {
        if release.at >= self.end() {
            return;
        }
        let fill = colour(release.task);
        let last = if release.response == 0 { self.end() } else { release.at + release.response };
        for tick in release.at..last {
            let sits = self.run.ticks[tick as usize].contains(&release.task);
            svg.faint(self.x(tick), line - 5, self.cell, 5, fill, if sits { "0.85" } else { "0.28" });
        }
        svg.triangle(self.x(release.at), line, fill);
        if release.response > 0 {
            svg.dot(self.x(last), line - 2, fill);
            svg.bold(self.x(last) + 9, line + 2, 12, fill, "start", release.response);
        }
    }
}

/// What the colours and marks mean.
fn legend(svg: &mut Svg, top: u32, tasks: u32) {
    let mut left = EDGE;
    for task in 1..=tasks {
        svg.rect(left, top, 14, 14, colour(task));
        svg.text(left + 19, top + 11, 11, INK, "start", format_args!("task {task}"));
        left += 66;
    }
    left += 8;
    svg.triangle(left + 6, top + 12, GREY);
    svg.text(left + 17, top + 11, 11, INK, "start", "release");
    left += 70;
    svg.faint(left, top + 6, 20, 5, GREY, "0.85");
    svg.text(left + 26, top + 11, 11, INK, "start", "on a processor");
    left += 116;
    svg.faint(left, top + 6, 20, 5, GREY, "0.28");
    svg.text(left + 26, top + 11, 11, INK, "start", "waits");
    left += 70;
    svg.dot(left + 5, top + 8, GREY);
    svg.bold(left + 14, top + 12, 12, GREY, "start", "7");
    svg.text(left + 26, top + 11, 11, INK, "start", "completes, response in ticks");
}

/// A picture that is being written.
struct Svg(String);

impl Svg {
    fn new(width: u32, height: u32) -> Svg {
        let font = "ui-sans-serif, Helvetica, Arial, 'DejaVu Sans', sans-serif";
        Svg(format!(
            "<svg xmlns=\"http://www.w3.org/2000/svg\" viewBox=\"0 0 {width} {height}\" width=\"{width}\" \
             height=\"{height}\" font-family=\"{font}\">\n\
             <rect width=\"{width}\" height=\"{height}\" rx=\"6\" fill=\"white\"/>\n"
        ))
    }

    fn end(self) -> String {
        self.0 + "</svg>\n"
    }

    fn put(&mut self, element: std::fmt::Arguments) {
        writeln!(self.0, "{element}").expect("a string takes what is written to it");
    }

    fn rect(&mut self, x: u32, y: u32, width: u32, height: u32, fill: &str) {
        self.put(format_args!(
            "<rect x=\"{x}\" y=\"{y}\" width=\"{width}\" height=\"{height}\" rx=\"3\" fill=\"{fill}\"/>"
        ));
    }

    fn faint(&mut self, x: u32, y: u32, width: u32, height: u32, fill: &str, opacity: &str) {
        self.put(format_args!(
            "<rect x=\"{x}\" y=\"{y}\" width=\"{width}\" height=\"{height}\" fill=\"{fill}\" opacity=\"{opacity}\"/>"
        ));
    }

    fn line(&mut self, x: u32, y: u32, to_x: u32, to_y: u32, stroke: &str) {
        self.put(format_args!("<path d=\"M{x} {y}L{to_x} {to_y}\" stroke=\"{stroke}\"/>"));
    }

    /// A line between two ticks.
    fn fine(&mut self, x: u32, from: u32, to: u32) {
        self.put(format_args!("<path d=\"M{x} {from}V{to}\" stroke=\"white\" stroke-opacity=\"0.45\"/>"));
    }

    /// A triangle that stands on a line and points to a tick's beginning.
    fn triangle(&mut self, x: u32, line: u32, fill: &str) {
        let (left, top) = (x - 6, line - 13);
        self.put(format_args!("<path d=\"M{left} {line}h12L{x} {top}z\" fill=\"{fill}\"/>"));
    }

    fn dot(&mut self, x: u32, y: u32, fill: &str) {
        self.put(format_args!(
            "<circle cx=\"{x}\" cy=\"{y}\" r=\"5\" fill=\"{fill}\" stroke=\"white\" stroke-width=\"1.5\"/>"
        ));
    }

    fn text(&mut self, x: u32, y: u32, size: u32, fill: &str, anchor: &str, words: impl Display) {
        self.words(x, y, size, fill, anchor, "normal", words);
    }

    fn bold(&mut self, x: u32, y: u32, size: u32, fill: &str, anchor: &str, words: impl Display) {
        self.words(x, y, size, fill, anchor, "bold", words);
    }

    #[allow(clippy::too_many_arguments)]
    fn words(&mut self, x: u32, y: u32, size: u32, fill: &str, anchor: &str, weight: &str, words: impl Display) {
        let words = words.to_string().replace('&', "&amp;").replace('<', "&lt;");
        self.put(format_args!(
            "<text x=\"{x}\" y=\"{y}\" font-size=\"{size}\" fill=\"{fill}\" text-anchor=\"{anchor}\" \
             font-weight=\"{weight}\">{words}</text>"
        ));
    }
}
