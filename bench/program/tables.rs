//! The tables, from lines of the plan that each end with two counts: of so many calls, and of twice as many.

use std::collections::BTreeMap;

use crate::calls::Case;
use crate::books;
use crate::plan::{parse, FLOORS, GROWTH_PORT, GROWTH_RUST, SETTINGS};
use crate::states::{self, State};

/// Instructions a call, the mean over the seeds.
pub struct Counts(BTreeMap<Case, Vec<f64>>);

impl Counts {
    pub fn read(text: &str) -> Counts {
        let mut all: BTreeMap<Case, Vec<f64>> = BTreeMap::new();
        for line in text.lines() {
            let words: Vec<&str> = line.split(' ').collect();
            let (front, back) = words.split_at(5);
            let (case, _, times) = parse(front).expect("a line of the plan");
            let count = |i: usize| back[i].parse::<f64>().expect("a count");
            all.entry(case).or_default().push((count(1) - count(0)) / times as f64);
        }
        Counts(all)
    }

    fn of(&self, side: &str, call: &str, state: &str) -> Option<f64> {
        let case = Case { side: side.to_string(), call: call.to_string(), state: state.to_string() };
        self.0.get(&case).map(|v| v.iter().sum::<f64>() / v.len() as f64)
    }

    fn seeds(&self) -> usize {
        self.0.values().map(Vec::len).max().unwrap_or(0)
    }

    /// How far apart the seeds' counts lie, as a part of their mean.
    fn spread(&self, call: &str, state: &str) -> f64 {
        let case = Case { side: "rust".to_string(), call: call.to_string(), state: state.to_string() };
        let Some(v) = self.0.get(&case) else { return 0.0 };
        let mean = v.iter().sum::<f64>() / v.len() as f64;
        let (least, most) = v.iter().fold((f64::MAX, 0.0f64), |(a, b), &x| (a.min(x), b.max(x)));
        (most - least) / mean
    }
}

fn whole(x: f64) -> String {
    let digits = format!("{:.0}", x.abs());
    let mut text = String::new();
    for (i, d) in digits.chars().enumerate() {
        if i > 0 && (digits.len() - i) % 3 == 0 {
            text.push(',');
        }
        text.push(d);
    }
    if x < -0.5 {
        format!("-{text}")
    } else {
        text
    }
}

pub fn share(x: f64) -> String {
    if x < 0.1 {
        format!("{x:.3}")
    } else {
        format!("{x:.2}")
    }
}

pub fn row(title: &str, cells: impl Iterator<Item = String>) {
    println!("| {title} | {} |", cells.collect::<Vec<_>>().join(" | "));
}

pub fn head(title: &str, columns: &[String]) {
    row(title, columns.iter().cloned());
    println!("|---|{}", "--:|".repeat(columns.len()));
}

/// The ratio that a call is to stay within on one of the five states, where one is set.
fn aim(call: &str, state: &str) -> Option<f64> {
    let (draw, view) = match state {
        "small" => (0.5, 2.0),
        "middle" => (0.5, 1.0),
        "large" | "huge" | "corpses" => (0.2, 1.0),
        _ => return None,
    };
    match call {
        "step" | "step2" => Some(0.5),
        "draw1" | "drawk" => Some(draw),
        "see0" | "seeall" => Some(view),
        _ => None,
    }
}

pub fn title(call: &str) -> (&'static str, &'static str) {
    match call {
        "well" => ("`well_formed`", ""),
        "validate" => ("`validate`", "`validate`"),
        "initial" => ("`initial_state`", "`initial_state`"),
        "step" => ("`step`, nobody dies", "`step`"),
        "step2" => ("`step`, two die", "`step`"),
        "count1" => ("`count`, 1 due", "`chance_node`"),
        "countk" => ("`count`, k due", "`chance_node`"),
        "draw1" => ("`draw`, 1 due", "`apply_chance_node`"),
        "drawk" => ("`draw`, k due", "`apply_chance_node`"),
        "rank1" => ("`rank`, 1 due", ""),
        "rankk" => ("`rank`, k due", ""),
        "see0" => ("`observe`, agent 0", "`egocentric_parts`"),
        "seeall" => ("`observe`, all n agents", "`egocentric_parts`"),
        "clone" => ("", "state, cloned and dropped"),
        "copy" => ("a copy of the image (`memcpy`)", ""),
        "pass" => ("one pass over its words (SSE2)", ""),
        "words" => ("one pass, a word at a time", ""),
        _ => panic!("no title for {call}"),
    }
}

struct Table<'a> {
    counts: &'a Counts,
    states: Vec<State>,
}

impl Table<'_> {
    fn row(&self, title: &str, cell: impl Fn(&State) -> Option<String>) {
        row(title, self.states.iter().map(|s| cell(s).unwrap_or_else(|| "-".to_string())));
    }

    fn count(&self, side: &str, call: &str) {
        let (port, rust) = title(call);
        let title = if side == "rust" { format!("the Rust's {rust}") } else { port.to_string() };
        self.row(&title, |s| self.counts.of(side, call, &s.name).map(whole));
    }

    fn ratio(&self, call: &str, s: &State) -> Option<f64> {
        Some(self.counts.of("port", call, &s.name)? / self.counts.of("rust", call, &s.name)?)
    }

    /// Port, Rust, ratio; a ratio above its aim says the aim.
    fn pair(&self, call: &str) {
        self.count("port", call);
        self.count("rust", call);
        self.row("ratio", |s| {
            let ratio = self.ratio(call, s)?;
            Some(match aim(call, &s.name) {
                Some(aim) if aim < ratio => format!("**{}** (aim {aim})", share(ratio)),
                _ => share(ratio),
            })
        });
    }

    fn above(&self) -> (usize, usize) {
        let calls = ["step", "step2", "draw1", "drawk", "see0", "seeall"];
        let all = self.states.iter().flat_map(|s| calls.iter().map(move |c| (s, *c)));
        let aimed: Vec<bool> = all.filter_map(|(s, c)| Some(aim(c, &s.name)? < self.ratio(c, s)?)).collect();
        (aimed.iter().filter(|&&above| above).count(), aimed.len())
    }
}

fn five(counts: &Counts) {
    let table = Table { counts, states: states::five() };
    let names: Vec<String> = table.states.iter().map(|s| s.name.clone()).collect();
    let sizes = || {
        table.row("*words of the image*", |s| Some(whole(s.words() as f64)));
        table.row("*free cells; k*", |s| Some(format!("{}; {}", s.free(), s.most())));
    };
    println!("### Calls\n");
    head("instructions a call", &names);
    sizes();
    table.count("port", "well");
    for call in ["validate", "initial", "count1", "countk", "draw1", "drawk"] {
        table.pair(call);
    }
    table.count("port", "rank1");
    table.count("port", "rankk");
    table.pair("see0");
    table.pair("seeall");
    println!("\n### Step\n");
    head("instructions a call", &names);
    for call in ["step", "step2"] {
        table.pair(call);
        table.row("ratio to the Rust's `validate` and `step`", |s| {
            let both = counts.of("rust", call, &s.name)? + counts.of("rust", "validate", &s.name)?;
            Some(share(counts.of("port", call, &s.name)? / both))
        });
    }
    println!("\n### Floors\n");
    head("instructions", &names);
    for call in FLOORS {
        table.count("floor", call);
    }
    table.count("rust", "clone");
    let (above, all) = table.above();
    println!("\n{} of {all} ratios with an aim are within it.", all - above);
    if counts.seeds() == 1 {
        return;
    }
    let wide = ["validate", "step", "step2", "count1", "countk", "draw1", "drawk"]
        .map(|c| table.states.iter().map(|s| counts.spread(c, &s.name)).fold(0.0, f64::max));
    let part = |x: f64| format!("{:.2} %", 100.0 * x);
    println!(
        "The Rust's counts lie apart by hash seed, at most: `validate` {}, `step` {}, `chance_node` {}, `apply_chance_node` {}.",
        part(wide[0]),
        part(wide[1].max(wide[2])),
        part(wide[3].max(wide[4])),
        part(wide[5].max(wide[6]))
    );
}

fn growth(counts: &Counts) {
    let table = Table { counts, states: states::growth() };
    let names: Vec<String> = table.states.iter().map(|s| whole(s.words() as f64)).collect();
    println!("\n### Growth\n");
    head("instructions a call; words", &names);
    for call in GROWTH_PORT {
        if GROWTH_RUST.contains(&call) {
            table.pair(call);
        } else {
            table.count("port", call);
        }
    }
    for call in FLOORS {
        table.count("floor", call);
    }
    println!();
    head("the port's, divided by the words", &names);
    for call in GROWTH_PORT {
        table.row(title(call).0, |s| Some(format!("{:.1}", counts.of("port", call, &s.name)? / s.words() as f64)));
    }
    println!();
    // The last two images differ by nine words and in kind: both are held against the one of 5,000 words.
    let pairs: Vec<(&State, &State)> =
        (1..table.states.len()).map(|i| (&table.states[(i - 1).min(6)], &table.states[i])).collect();
    let names = pairs.iter().map(|(a, b)| format!("{} to {}", whole(a.words() as f64), whole(b.words() as f64)));
    head("the port's, for each word more", &names.collect::<Vec<_>>());
    for call in GROWTH_PORT {
        let price = |(less, more): &(&State, &State)| {
            let rise = counts.of("port", call, &more.name)? - counts.of("port", call, &less.name)?;
            Some(format!("{:.1}", rise / (more.words() - less.words()) as f64))
        };
        row(title(call).0, pairs.iter().map(|p| price(p).unwrap_or_default()));
    }
    println!(
        "\nEight snakes on grid 32. In the last two columns one cell is free, or none, and all eight die in the step."
    );
}

fn checks(counts: &Counts) {
    println!("\n### Checks\n");
    head("`well_formed`", &["30 words", "9,253 words", "69,253 words, refused by the length"].map(str::to_string));
    row(
        "instructions",
        ["w30", "w9253", "overlong"].iter().map(|s| counts.of("port", "well", s).map_or("-".to_string(), whole)),
    );
    println!();
    let columns =
        ["2 of 5 on grid 10", "8 of 16 on 32", "2 of 71 on 32, the longest", "2 of 2^64 - 1 on 32, refused by 9"];
    head("`validate`", &columns.map(str::to_string));
    let named = ["small", "large"].iter().chain(&SETTINGS);
    for (side, title) in [("port", "the port's"), ("rust", "the Rust's")] {
        row(title, named.clone().map(|s| counts.of(side, "validate", s).map_or("-".to_string(), whole)));
    }
}

/// At most so many instructions for a word of the contents, beside the check of the page.
const CONTENTS_AIM: f64 = 4.0;

fn books(counts: &Counts) {
    let all = books::three();
    let of = |side: &str, call: &str, b: &books::Book| counts.of(side, call, b.name);
    let show = |title: &str, cell: &dyn Fn(&books::Book) -> Option<String>| {
        row(title, all.iter().map(|b| cell(b).unwrap_or_else(|| "-".to_string())));
    };
    // the state of the pages is one of the five
    let check = |b: &books::Book| {
        let five = states::five();
        let state = five.iter().find(|s| s.words() == b.image.len())?;
        counts.of("port", "well", &state.name)
    };
    let beside = |b: &books::Book| Some((of("port", "page", b)? - check(b)?) / b.contents() as f64);
    println!("\n### Books\n");
    let names = all.iter().map(|b| format!("{} pages of {} words", whole(b.pages as f64), whole(b.image.len() as f64)));
    head("instructions a call", &names.collect::<Vec<_>>());
    show("*words of the row; of the contents*", &|b| {
        Some(format!("{}; {}", whole((b.pages * b.image.len()) as f64), whole(b.contents() as f64)))
    });
    show("`write_book`", &|b| of("port", "bind", b).map(whole));
    show("for each word of the row", &|b| {
        Some(format!("{:.1}", of("port", "bind", b)? / (b.pages * b.image.len()) as f64))
    });
    show("`well_formed` of each page", &|b| Some(whole(check(b)? * b.pages as f64)));
    show("the rest, for each word of the book", &|b| {
        Some(format!("{:.1}", (of("port", "bind", b)? - check(b)? * b.pages as f64) / b.words() as f64))
    });
    show("a copy of the row (`memcpy`)", &|b| of("floor", "copy", b).map(whole));
    show("`page`, the middle one", &|b| of("port", "page", b).map(whole));
    show("without `well_formed` of it, for each word of the contents", &|b| {
        let price = beside(b)?;
        Some(if CONTENTS_AIM < price {
            format!("**{price:.1}** (aim {CONTENTS_AIM:.0})")
        } else {
            format!("{price:.1}")
        })
    });
}

pub fn print(counts: &Counts) {
    five(counts);
    growth(counts);
    checks(counts);
    books(counts);
}
