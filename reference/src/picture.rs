//! A picture of lines in two panels side by side, as SVG.

pub struct Line {
    pub name: String,
    pub dashed: bool,
    pub points: Vec<(f64, f64)>,
}

pub struct Panel {
    pub title: String,
    /// Whether the axis across is logarithmic.
    pub logarithmic: bool,
    /// What is marked on the axis across, its ends first and last.
    pub marks: Vec<f64>,
    pub lines: Vec<Line>,
}

const WIDTH: f64 = 400.;
const HEIGHT: f64 = 260.;
const TOP: f64 = 50.;
const LEFT: f64 = 55.;
const APART: f64 = 480.;
/// One for each operation: the line of the archive and that of the reference.
const COLOURS: [&str; 4] = ["#0b6e99", "#c2571a", "#4d7c2f", "#7a4a9e"];

impl Panel {
    fn across(&self, value: f64) -> f64 {
        let scale = |value: f64| if self.logarithmic { value.ln() } else { value };
        let [from, to] = [self.marks[0], self.marks[self.marks.len() - 1]].map(scale);
        (scale(value) - from) / (to - from) * WIDTH
    }

    /// The end of the axis upwards: above every point, and so that its four
    /// steps are round numbers.
    fn top(&self) -> f64 {
        let points = self.lines.iter().flat_map(|line| &line.points);
        let most = points.map(|point| point.1).fold(0., f64::max);
        ((most / 40.).floor() + 1.) * 40.
    }

    fn up(&self, value: f64) -> f64 {
        HEIGHT - value / self.top() * HEIGHT
    }

    fn axes(&self) -> String {
        let mut text = format!(
            "<text x=\"0\" y=\"-16\" font-weight=\"bold\">{}</text>\n\
             <path d=\"M0 0 V{HEIGHT} H{WIDTH}\" fill=\"none\" stroke=\"#333\"/>\n",
            self.title
        );
        for &mark in &self.marks {
            let x = self.across(mark);
            text += &format!(
                "<path d=\"M{x:.1} {HEIGHT} v5\" stroke=\"#333\"/>\
                 <text x=\"{x:.1}\" y=\"{}\" text-anchor=\"middle\">{mark}</text>\n",
                HEIGHT + 19.
            );
        }
        for step in 0..=4 {
            let value = self.top() * f64::from(step) / 4.;
            let y = self.up(value);
            text += &format!(
                "<path d=\"M0 {y:.1} h{WIDTH}\" stroke=\"#ddd\"/>\
                 <text x=\"-8\" y=\"{:.1}\" text-anchor=\"end\">{value}</text>\n",
                y + 4.
            );
        }
        text
    }

    fn curves(&self) -> String {
        let mut text = String::new();
        for (index, line) in self.lines.iter().enumerate() {
            if line.points.is_empty() {
                continue;
            }
            let places = line.points.iter().map(|&(x, y)| (self.across(x), self.up(y)));
            let places: Vec<String> = places.map(|(x, y)| format!("{x:.1},{y:.1}")).collect();
            text += &format!(
                "<polyline points=\"{}\" fill=\"none\" {}/>\n",
                places.join(" "),
                stroke(index, line.dashed)
            );
        }
        text
    }
}

fn stroke(index: usize, dashed: bool) -> String {
    let dashes = if dashed { " stroke-dasharray=\"5 4\"" } else { "" };
    format!("stroke=\"{}\" stroke-width=\"2\"{dashes}", COLOURS[index / 2 % COLOURS.len()])
}

/// What each line is, in rows of four.
fn legend(lines: &[Line]) -> String {
    let drawn = lines.iter().enumerate().filter(|(_, line)| !line.points.is_empty());
    let mut text = String::new();
    for (place, (index, line)) in drawn.enumerate() {
        let (x, y) = ((place % 4) as f64 * 200., (place / 4) as f64 * 20.);
        text += &format!(
            "<path d=\"M{x} {y} h30\" {}/><text x=\"{}\" y=\"{}\">{}</text>\n",
            stroke(index, line.dashed),
            x + 38.,
            y + 4.,
            line.name
        );
    }
    text
}

pub fn svg(panels: &[Panel]) -> String {
    let mut text = String::from(
        "<svg xmlns=\"http://www.w3.org/2000/svg\" viewBox=\"0 0 970 390\" \
         font-family=\"sans-serif\" font-size=\"12\">\n\
         <rect width=\"970\" height=\"390\" fill=\"#fff\"/>\n",
    );
    for (index, panel) in panels.iter().enumerate() {
        let x = LEFT + index as f64 * APART;
        let inside = panel.axes() + &panel.curves();
        text += &format!("<g transform=\"translate({x} {TOP})\">\n{inside}</g>\n");
    }
    let below = legend(&panels[0].lines);
    text + &format!("<g transform=\"translate({LEFT} 352)\">\n{below}</g>\n</svg>\n")
}
