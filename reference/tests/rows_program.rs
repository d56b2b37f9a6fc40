//! The program `rows` on tables of published rows: it takes what is so, and finds what is changed.

#[path = "support/tables.rs"]
mod tables;

use reference::design::check;
use reference::query::Query;
use reference::step::replay;
use std::path::{Path, PathBuf};
use std::process::Command;
use tables::{folder, rows};

/// The row that is broken at 17, another list that breaks it there, and some words by their places.
const NAME: &str = "money-changer-stc1.stm";
const LATER: &str = "7,0,8,1,4,9,8,6,3,1,4,8,9,6,3,2,4";
const BOUND: usize = 2;
const AT: usize = 5;
const CHOICES: usize = 11;

/// A folder of this test's own, with a table and the files that its rows name.
fn table_of(test: &str, rows: &[Vec<String>]) -> PathBuf {
    let made = Path::new(env!("CARGO_TARGET_TMPDIR")).join(test);
    std::fs::create_dir_all(&made).unwrap();
    for file in rows.iter().flat_map(|row| row[0].split('+')) {
        std::fs::copy(folder().join(file), made.join(file)).unwrap();
    }
    let lines: Vec<String> = rows.iter().map(|row| row.join(" ") + "\n").collect();
    std::fs::write(made.join("table"), lines.concat()).unwrap();
    made.join("table")
}

/// Whether the program exits with 0, and what it prints.
fn asked(table: &Path, options: &[&str]) -> (bool, String) {
    let program = Path::new(env!("CARGO_BIN_EXE_rows"));
    let mut command = Command::new(program);
    // The serving program's words are parted by spaces, so that its folder is not named.
    command.current_dir(program.parent().unwrap()).arg("./serve-reference").arg(table);
    let output = command.args(options).output().unwrap();
    assert!(Path::new(env!("CARGO_BIN_EXE_serve-reference")).exists());
    (output.status.success(), String::from_utf8(output.stdout).unwrap())
}

fn published_row() -> Vec<String> {
    rows("rows-published.txt").into_iter().find(|row| row[0] == NAME && row[BOUND] == "17").unwrap()
}

/// The row with some words changed.
fn changed(words: &[(usize, &str)]) -> Vec<String> {
    let mut row = published_row();
    for &(at, word) in words {
        assert_ne!(row[at], word);
        row[at] = word.to_string();
    }
    row
}

#[test]
fn the_stored_row_is_taken() {
    let table = table_of("stored", &[published_row()]);
    assert_eq!(asked(&table, &["--published"]), (true, "1 rows as stored\n".to_string()));
}

/// The table has one row, so that its columns are as wide as the program writes them.
#[test]
fn every_changed_row_is_found() {
    let stored = published_row()[CHOICES].clone();
    assert_eq!(stored, "7,0,8,1,4,8,9,6,3,1,4,8,9,6,3,2,4");
    let idle = format!("0,{stored}");
    let differs = "difference\nstored: ";
    let cases: [(&str, Vec<(usize, &str)>, &str); 15] = [
        ("last choice", vec![(CHOICES, "7,0,8,1,4,8,9,6,3,1,4,8,9,6,3,2,5")], differs),
        ("first choice", vec![(CHOICES, "8,0,8,1,4,8,9,6,3,1,4,8,9,6,3,2,4")], differs),
        ("a later list", vec![(CHOICES, LATER)], differs),
        ("no choices", vec![(CHOICES, "-")], differs),
        ("step", vec![(AT, "18")], differs),
        ("n", vec![(7, "20650")], differs),
        ("clauses", vec![(8, "88473")], differs),
        ("words", vec![(9, "339980")], differs),
        ("verdict", vec![(4, "CLEAN"), (AT, "-")], differs),
        ("tries", vec![(6, "5")], differs),
        ("models", vec![(10, "1")], differs),
        ("strict", vec![(12, "1")], differs),
        ("budget", vec![(3, "5")], "a published row has no budget"),
        (
            "one step later",
            vec![(BOUND, "18"), (AT, "18"), (CHOICES, &idle)],
            "7,0,8,1,4,8,9,6,3,1,4,8,9,6,3,2,4 breaks at step 17, before the bound",
        ),
        (
            "one step before",
            vec![(BOUND, "16"), (AT, "16"), (CHOICES, "7,0,8,1,4,8,9,6,3,1,4,8,9,6,3,2")],
            "no list of up to 16 choices breaks the property",
        ),
    ];
    for (case, words, told) in cases {
        let table = table_of("changed", &[changed(&words)]);
        let (taken, text) = asked(&table, &["--published"]);
        assert!(!taken && text.contains(told), "{case}: {text}");
    }
}

/// It is found as changed not because it would not break: it is not the first that does.
#[test]
fn the_later_list_breaks_at_the_same_step() {
    let design = check(&std::fs::read(folder().join(NAME)).unwrap()).unwrap();
    let choices: Vec<u8> = LATER.split(',').map(|choice| choice.parse().unwrap()).collect();
    assert_eq!(replay(Query::new(&design, 0), &choices).unwrap().broken, Some(17));
}

/// Another design's, property's or piece's row.
#[test]
fn a_row_of_another_question_is_found() {
    let piece = "money-changer-dyn.stm+money-changer-stc2.piece";
    for (at, word) in [(0, "money-changer-stc2.stm"), (0, piece), (1, "1")] {
        let (taken, text) = asked(&table_of("other", &[changed(&[(at, word)])]), &["--published"]);
        assert!(!taken && text.contains("no list of up to 17 choices breaks"), "{word}: {text}");
    }
}

/// Without --published, and with --owners, a row that VERDICT is not asked for is a fault, also where the table is written anew.
#[test]
fn only_with_published_may_tries_be_unasked() {
    let mut row = rows("rows.txt").into_iter().next().unwrap();
    row[6] = "?".to_string();
    for (test, row) in [("published", published_row()), ("verdict", row)] {
        let table = table_of(&format!("unasked-{test}"), &[row]);
        for options in [&[][..], &["--owners"], &["--write"]] {
            let (taken, text) = asked(&table, options);
            assert!(!taken && text.contains("only with --published"), "{test}: {text}");
        }
    }
    let (taken, text) = asked(&table_of("both", &[published_row()]), &["--owners", "--published"]);
    assert_eq!((taken, &text[..]), (false, ""));
}

/// What VERDICT says of small designs, found without it: all three properties, from step 0 on.
#[test]
fn rows_of_verdicts_are_found_without_verdict() {
    let violated = |row: &Vec<String>| row[4] == "VIOLATED" && row[AT] == row[BOUND];
    let stored: Vec<Vec<String>> =
        rows("rows.txt").into_iter().filter(|row| violated(row) && row[3] == "-").collect();
    let keys: Vec<Vec<String>> = stored.iter().map(|row| row[..4].to_vec()).collect();
    let table = table_of("without-verdict", &keys);
    let (taken, text) = asked(&table, &["--published", "--write"]);
    assert!(taken, "{text}");
    let text = std::fs::read_to_string(&table).unwrap();
    let mut alone = [0; 3];
    for (row, line) in stored.iter().zip(text.lines()) {
        let found: Vec<&str> = line.split_whitespace().collect();
        assert_eq!([&found[..6], &found[7..10]].concat(), [&row[..6], &row[7..10]].concat());
        // Of one breaking list there is no other.
        if row[10] == "1" {
            assert_eq!(found[CHOICES], row[CHOICES], "{line}");
            alone[row[1].parse::<usize>().unwrap()] += 1;
        }
    }
    assert!(alone.iter().all(|&count| count > 0), "{alone:?}");
    assert_eq!(text.lines().count(), stored.len());
}
