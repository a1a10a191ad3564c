//! Line plots: panels with axes and ticks, and one legend for all of them.

use crate::scale::Scale;
use crate::svg::{Anchor, Pen, Svg};

pub struct Axis {
    pub label: String,
    pub scale: Scale,
}

pub struct Series {
    pub name: String,
    pub pen: Pen,
    pub points: Vec<(f64, f64)>,
}

pub struct Panel {
    pub title: String,
    pub x: Axis,
    pub y: Axis,
    pub series: Vec<Series>,
}

pub struct Picture {
    pub title: String,
    pub columns: usize,
    pub panels: Vec<Panel>,
}

const PANEL_WIDTH: f64 = 440.0;
const PANEL_HEIGHT: f64 = 320.0;
const LEFT: f64 = 92.0;
const RIGHT: f64 = 24.0;
const TOP: f64 = 36.0;
const BOTTOM: f64 = 56.0;
/// Down to the first row of the legend.
const HEAD: f64 = 52.0;
const LEGEND_ROW: f64 = 22.0;
const LEGEND_ITEM: f64 = 160.0;
const GRID: &str = "#e0e0e0";
const EDGE: &str = "#444444";

impl Picture {
    pub fn svg(&self) -> String {
        let width = PANEL_WIDTH * self.columns as f64;
        let legend = self.legend();
        let legend_rows = (legend.len() as f64 * LEGEND_ITEM / width).ceil() as usize;
        let in_row = legend.len().div_ceil(legend_rows);
        let head = HEAD + LEGEND_ROW * legend_rows as f64;
        let rows = self.panels.len().div_ceil(self.columns);
        let mut svg = Svg::new(width, head + PANEL_HEIGHT * rows as f64);
        svg.text(width / 2.0, 26.0, Anchor::Middle, 16, &self.title);
        let left = (width - in_row as f64 * LEGEND_ITEM) / 2.0;
        for (index, (name, pen)) in legend.into_iter().enumerate() {
            let x = left + (index % in_row) as f64 * LEGEND_ITEM;
            let y = HEAD + (index / in_row) as f64 * LEGEND_ROW;
            svg.curve(&[(x, y), (x + 32.0, y)], pen);
            svg.text(x + 40.0, y + 4.0, Anchor::Start, 12, name);
        }
        for (index, panel) in self.panels.iter().enumerate() {
            let x = (index % self.columns) as f64 * PANEL_WIDTH;
            let y = head + (index / self.columns) as f64 * PANEL_HEIGHT;
            panel.draw(&mut svg, x, y);
        }
        svg.finish()
    }

    /// Each name once.
    fn legend(&self) -> Vec<(&str, Pen)> {
        let mut found: Vec<(&str, Pen)> = Vec::new();
        for series in self.panels.iter().flat_map(|panel| &panel.series) {
            if found.iter().all(|(name, _)| *name != series.name) {
                found.push((&series.name, series.pen));
            }
        }
        found
    }
}

/// Where a panel's field lies, and the ranges it shows.
struct Field {
    left: f64,
    right: f64,
    top: f64,
    bottom: f64,
    x: (f64, f64),
    y: (f64, f64),
}

impl Panel {
    fn draw(&self, svg: &mut Svg, x: f64, y: f64) {
        let field = Field {
            left: x + LEFT,
            right: x + PANEL_WIDTH - RIGHT,
            top: y + TOP,
            bottom: y + PANEL_HEIGHT - BOTTOM,
            x: self.x.scale.range(self.points().map(|point| point.0)),
            y: self.y.scale.range(self.points().map(|point| point.1)),
        };
        let middle = (field.left + field.right) / 2.0;
        svg.text(middle, field.top - 12.0, Anchor::Middle, 14, &self.title);
        self.draw_ticks(svg, &field);
        svg.text(
            middle,
            field.bottom + 40.0,
            Anchor::Middle,
            12,
            &self.x.label,
        );
        svg.text_upwards(x + 18.0, (field.top + field.bottom) / 2.0, &self.y.label);
        for series in &self.series {
            let points: Vec<(f64, f64)> = series
                .points
                .iter()
                .map(|&point| self.place(&field, point))
                .collect();
            svg.curve(&points, series.pen);
        }
    }

    fn draw_ticks(&self, svg: &mut Svg, field: &Field) {
        for (value, label) in self.x.scale.ticks(field.x) {
            let x = field.left + self.x.scale.part(field.x, value) * (field.right - field.left);
            svg.line((x, field.top), (x, field.bottom), GRID);
            svg.text(x, field.bottom + 18.0, Anchor::Middle, 11, &label);
        }
        for (value, label) in self.y.scale.ticks(field.y) {
            let y = field.bottom - self.y.scale.part(field.y, value) * (field.bottom - field.top);
            svg.line((field.left, y), (field.right, y), GRID);
            svg.text(field.left - 8.0, y + 4.0, Anchor::End, 11, &label);
        }
        svg.line(
            (field.left, field.bottom),
            (field.right, field.bottom),
            EDGE,
        );
        svg.line((field.left, field.top), (field.left, field.bottom), EDGE);
    }

    fn points(&self) -> impl Iterator<Item = &(f64, f64)> {
        self.series.iter().flat_map(|series| &series.points)
    }

    fn place(&self, field: &Field, (x, y): (f64, f64)) -> (f64, f64) {
        let right = self.x.scale.part(field.x, x);
        let up = self.y.scale.part(field.y, y);
        (
            field.left + right * (field.right - field.left),
            field.bottom - up * (field.bottom - field.top),
        )
    }
}
