//! The strict column of designs/rows.txt, the table of docs/IDLE-STEPS.md that is made from it, and that page's runs.

use reference::programs::trace;
use reference::query::Query;
use std::path::{Path, PathBuf};

/// What a row says of the lists that break a property.
struct Row {
    design: String,
    property: u64,
    bound: u64,
    /// The row's verdict is a break at its own bound.
    shortest: bool,
    /// Breaking lists, and the strict ones; none where they are not counted.
    counts: Option<(u64, u64)>,
}

fn at(path: &str) -> PathBuf {
    Path::new(env!("CARGO_MANIFEST_DIR")).join("..").join(path)
}

fn text(path: &str) -> String {
    std::fs::read_to_string(at(path)).unwrap()
}

fn row(line: &str) -> Row {
    let words: Vec<&str> = line.split_whitespace().collect();
    let [design, property, bound, _, verdict, at, _, _, _, _, models, _, strict] = words[..] else {
        panic!("13 words: {line}");
    };
    let number = |word: &str| word.parse::<u64>().unwrap();
    assert_eq!(models.parse::<u64>().is_ok(), strict.parse::<u64>().is_ok(), "{line}");
    Row {
        design: design.to_string(),
        property: number(property),
        bound: number(bound),
        shortest: verdict == "VIOLATED" && at == bound,
        counts: models.parse().ok().map(|models| (models, number(strict))),
    }
}

fn rows(table: &str) -> Vec<Row> {
    let text = text(table);
    let rows = text.lines().filter(|line| !line.starts_with('#') && !line.is_empty());
    rows.filter(|line| !line.contains("REFUSED")).map(row).collect()
}

/// R-8 of document 02, but for property 2.
#[test]
fn rows_of_properties_0_and_1_have_a_strict_list_where_they_have_any() {
    let tables = ["designs/rows.txt", "designs/rows-pieces.txt", "designs/rows-owners.txt"];
    let (mut apart, mut shortest) = (0, 0);
    for row in tables.iter().flat_map(|table| rows(table)) {
        let Some((models, strict)) = row.counts.filter(|_| row.property < 2) else { continue };
        assert_eq!(models == 0, strict == 0, "{} {}", row.design, row.bound);
        assert!(strict <= models && (!row.shortest || strict == models), "{}", row.design);
        apart += (models != strict) as u32;
        shortest += row.shortest as u32;
    }
    assert!(apart > 0 && shortest > 0, "{apart} {shortest}");
}

/// A design and a property, and the counts at each bound where they are counted. Rows that differ only in the budget are one here.
struct Counted {
    design: String,
    property: u64,
    counts: Vec<(u64, (u64, u64))>,
}

fn all_counted() -> Vec<Counted> {
    let mut all: Vec<Counted> = vec![];
    for Row { design, property, bound, counts, .. } in rows("designs/rows.txt") {
        let Some(found) = counts else { continue };
        let at = all.iter().position(|c| c.design == design && c.property == property);
        let at = at.unwrap_or_else(|| {
            all.push(Counted { design, property, counts: vec![] });
            all.len() - 1
        });
        match all[at].counts.iter().find(|(other, _)| *other == bound) {
            Some((_, other)) => assert_eq!(*other, found, "{} {bound}", all[at].design),
            None => all[at].counts.push((bound, found)),
        }
    }
    all.iter_mut().for_each(|counted| counted.counts.sort());
    all
}

fn joined<T: ToString>(items: impl IntoIterator<Item = T>, between: &str) -> String {
    items.into_iter().map(|item| item.to_string()).collect::<Vec<_>>().join(between)
}

impl Counted {
    /// The bounds at which no list breaks the property.
    fn unbroken(&self) -> Vec<u64> {
        let none = self.counts.iter().filter(|(_, counts)| *counts == (0, 0));
        none.map(|(bound, _)| *bound).collect()
    }

    fn never_broken(&self) -> bool {
        self.unbroken().len() == self.counts.len()
    }

    /// Bounds without a breaking list together, each other bound by itself.
    fn line(&self) -> String {
        let unbroken = self.unbroken();
        let none = (!unbroken.is_empty()).then(|| format!("{}: 0/0", joined(&unbroken, ", ")));
        let broken = self.counts.iter().filter(|(bound, _)| !unbroken.contains(bound));
        let broken = broken.map(|(bound, (all, strict))| format!("{bound}: {all}/{strict}"));
        let cells = joined(none.into_iter().chain(broken), "; ");
        format!("| `{}` | {} | {cells} |", self.design, self.property)
    }
}

/// Designs that no list breaks, together where property and bounds are the same.
fn never_broken_lines(all: &[Counted]) -> Vec<String> {
    let mut groups: Vec<(String, Vec<String>)> = vec![];
    for counted in all.iter().filter(|counted| counted.never_broken()) {
        let key = format!("{} | {}", counted.property, joined(counted.unbroken(), ", "));
        let name = format!("`{}`", counted.design);
        match groups.iter_mut().find(|(other, _)| *other == key) {
            Some((_, names)) => names.push(name),
            None => groups.push((key, vec![name])),
        }
    }
    groups.sort();
    groups.iter().map(|(key, names)| format!("| {key} | {} |", joined(names, ", "))).collect()
}

/// The lines of the page between its two marks.
fn wanted_lines() -> Vec<String> {
    let all = all_counted();
    let broken = all.iter().filter(|counted| !counted.never_broken()).map(Counted::line);
    let head = [
        "| design | property | bound: breaking lists in our reading/strict ones |",
        "|---|---|---|",
    ];
    let never = ["", "| property | bounds | designs where both are 0 |", "|---|---|---|"];
    let mut lines: Vec<String> = head.map(String::from).into_iter().chain(broken).collect();
    lines.extend(never.map(String::from));
    lines.extend(never_broken_lines(&all));
    lines
}

#[test]
fn the_page_has_the_counts_of_the_rows() {
    let page = text("docs/IDLE-STEPS.md");
    let from = "<!-- witness counts: made from designs/rows.txt -->";
    let after = page.lines().skip_while(|line| *line != from).skip(1);
    let found: Vec<&str> = after.take_while(|line| *line != "<!-- end -->").collect();
    let wanted = wanted_lines();
    assert!(
        page.contains("\n<!-- end -->\n") && found == wanted,
        "wanted:\n{}",
        joined(&wanted, "\n")
    );
}

#[test]
fn the_page_has_the_traces_of_its_runs() {
    let runs: [(&str, u64, &[u8]); 2] =
        [("designs/design-a.stm", 0, &[0, 2, 2, 0, 1]), ("designs/raised-next.stm", 2, &[1])];
    let traces = runs.map(|(design, property, choices)| {
        let design = std::fs::read(at(design)).unwrap();
        String::from_utf8(trace(Query::new(&design[..], property), choices)).unwrap()
    });
    let page = text("docs/IDLE-STEPS.md");
    let shown: Vec<&str> = page.split("```\n").skip(1).step_by(2).collect();
    assert_eq!(shown, traces);
}
