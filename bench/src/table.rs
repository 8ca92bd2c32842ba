//! The lines of figures: the proved code, each plain opponent and how many times its figure the proved one is.

/// How wide the labels are.
const LABEL: usize = 56;

/// One figure for each code; events on bytes have no lean code.
#[derive(Clone, Copy)]
pub struct Figures {
    pub proved: f64,
    pub plain: f64,
    pub lean: Option<f64>,
}

impl Figures {
    /// From figures in the order of a job's codes.
    pub fn of(each: &[f64]) -> Figures {
        Figures {
            proved: each[0],
            plain: each[1],
            lean: each.get(2).copied(),
        }
    }

    pub fn ratio(&self) -> f64 {
        self.proved / self.plain
    }

    pub fn lean_ratio(&self) -> Option<f64> {
        self.lean.map(|lean| self.proved / lean)
    }
}

pub fn title(what: &str, with_lean: bool) {
    let lean = if with_lean {
        format!(" {:>8} {:>5}", "lean", "ratio")
    } else {
        String::new()
    };
    println!(
        "\n{what:<LABEL$} {:>8} {:>8} {:>5}{lean}",
        "proved", "plain", "ratio"
    );
}

/// A figure to two places, or to one where it is large.
fn figure(value: f64) -> String {
    let places = if value < 1000.0 { 2 } else { 1 };
    format!("{value:8.places$}")
}

fn columns(label: &str, figures: &Figures, ratio: f64, lean_ratio: Option<f64>) -> String {
    let (proved, plain) = (figure(figures.proved), figure(figures.plain));
    let lean = match (figures.lean, lean_ratio) {
        (Some(lean), Some(ratio)) => format!(" {} {ratio:5.2}", figure(lean)),
        _ => String::new(),
    };
    format!("{label:<LABEL$} {proved} {plain} {ratio:5.2}{lean}")
}

pub fn line(label: &str, figures: &Figures) {
    let told = columns(label, figures, figures.ratio(), figures.lean_ratio());
    println!("{told}");
}

fn median(mut values: Vec<f64>) -> f64 {
    values.sort_by(f64::total_cmp);
    values[values.len() / 2]
}

/// The medians of the seeds, each column by itself, and below them the least and the greatest ratios.
pub fn medians(label: &str, all: &[Figures]) {
    let column = |of: fn(&Figures) -> f64| all.iter().map(of).collect::<Vec<f64>>();
    let lean_column = |of: fn(&Figures) -> Option<f64>| {
        let values: Option<Vec<f64>> = all.iter().map(of).collect();
        values
    };
    let ratios = column(Figures::ratio);
    let lean_ratios = lean_column(Figures::lean_ratio);
    let middle = Figures {
        proved: median(column(|f| f.proved)),
        plain: median(column(|f| f.plain)),
        lean: lean_column(|f| f.lean).map(median),
    };
    let of_ratios = (median(ratios.clone()), lean_ratios.clone().map(median));
    let label = format!("{label}, median of the seeds");
    println!("{}", columns(&label, &middle, of_ratios.0, of_ratios.1));
    let lean = lean_ratios.map_or(String::new(), |ratios| format!("{:>15}", range(&ratios)));
    let (below, ratios) = ("  ratios from - to", range(&ratios));
    println!("{below:<LABEL$} {ratios:>23}{lean}");
}

fn range(ratios: &[f64]) -> String {
    let low = ratios.iter().copied().fold(f64::MAX, f64::min);
    let high = ratios.iter().copied().fold(0.0, f64::max);
    format!("{low:.2}-{high:.2}")
}
