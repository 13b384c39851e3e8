//! The self check: runs the examples of docs/ through the reference. The tables of docs/FILE_FORMAT.md are read
//! from the page itself, so that an example added there is checked too.
//!
//! Build and run: reference/selftest.sh

mod settlement;

use settlement::{settle, split::Rule};
use std::process::ExitCode;

/// How many rows the tables of lines and of whole files have at least; fewer mean that the page was not understood.
const FEWEST_LINES: usize = 28;
const FEWEST_FILES: usize = 16;

#[derive(Default)]
struct Check {
    passed: usize,
    failed: usize,
}

impl Check {
    fn same(&mut self, name: &str, got: &str, expected: &str) {
        if got == expected {
            self.passed += 1;
        } else {
            self.failed += 1;
            println!("FAILED {name}\n  expected {expected:?}\n  got      {got:?}");
        }
    }

    fn print_of(&mut self, name: &str, file: &str, expected: &str) {
        self.same(name, &String::from_utf8_lossy(&settle(file.as_bytes())), expected);
    }
}

fn main() -> ExitCode {
    let page_path = std::env::args().nth(1).unwrap_or("docs/FILE_FORMAT.md".to_string());
    let page = std::fs::read_to_string(&page_path).expect("the path of FILE_FORMAT.md is needed");
    let listings: Vec<&str> = page.split("```\n").skip(1).step_by(2).collect();
    let [worked, statement] = listings[..] else { panic!("the worked hour and its statement were not found") };
    let mut check = Check::default();
    check_worked_hour(&mut check, worked, statement);
    let lines = check_example_lines(&mut check, &page);
    let files = check_whole_files(&mut check, &page, worked);
    check_rules(&mut check, worked);
    check_refusals(&mut check);
    println!("{lines} example lines and {files} whole files read from {page_path}");
    println!("self check: {} passed, {} failed", check.passed, check.failed);
    ExitCode::from(u8::from(check.failed > 0 || lines < FEWEST_LINES || files < FEWEST_FILES))
}

fn check_worked_hour(check: &mut Check, worked: &str, statement: &str) {
    check.print_of("the worked hour", worked, statement);
    let running = statement.replace("30938,0,-450938000", "30937,0,-450937000");
    let running = running.replace("14062,0,-314062000", "14063,0,-314063000");
    check.print_of("the worked hour, running", &worked.replace("largest", "running"), &running);
    check.print_of("the shortest file", "hour=7\nrule=running\n", "hour=7\nprice=0\nsum=0\n");
}

/// The cells of every table row of the page whose first cell is code or words and that has this many cells.
fn table_rows(page: &str, cells: usize) -> Vec<Vec<&str>> {
    let rows = page.lines().filter_map(|line| line.strip_prefix("| ")?.strip_suffix(" |"));
    rows.map(|row| row.split(" | ").collect::<Vec<_>>()).filter(|row| row.len() == cells).collect()
}

fn code(cell: &str) -> &str {
    cell.split('`').nth(1).unwrap_or("")
}

/// Each line with its LF, and again as the cut-off end of a file: the place is the same.
fn check_example_lines(check: &mut Check, page: &str) -> usize {
    let mut count = 0;
    for row in table_rows(page, 3) {
        let Ok(place) = row[1].parse::<usize>() else { continue };
        let ending = match row[0].rsplit('`').next() {
            Some(" and CR") => "\r",
            Some(" and a space") => " ",
            _ => "",
        };
        let (before, number) = if row[0].to_lowercase().starts_with("`hour") { ("", 1) } else { ("hour=7\n", 2) };
        let file = format!("{before}{}{ending}", code(row[0]));
        let expected = format!("fault={number},F,19,{place}\n");
        check.print_of(row[0], &(file.clone() + "\n"), &expected);
        check.print_of(row[0], &file, &expected);
        count += 1;
    }
    count
}

fn check_whole_files(check: &mut Check, page: &str, worked: &str) -> usize {
    let without_reading = worked.replace("meter=4,50000\n", "");
    let zero_weights = worked.replace("meter=3,110000", "meter=3,0").replace("meter=4,50000", "meter=4,0");
    let mut count = 0;
    for row in table_rows(page, 2) {
        if !row[1].starts_with("`fault=") {
            continue;
        }
        let file = match row[0] {
            "nothing at all" => String::new(),
            "the worked hour without `meter=4,50000`" => without_reading.clone(),
            "the worked hour with `meter=3,0` and `meter=4,0`" => zero_weights.clone(),
            "the worked hour without `meter=4,50000`, and one LF more at its end" => without_reading.clone() + "\n",
            written => code(written).replace("\\n", "\n"),
        };
        check.print_of(row[0], &file, &(code(row[1]).to_string() + "\n"));
        count += 1;
    }
    for (size, expected) in [(32_768, "fault=1,F,19,1\n"), (32_769, "fault=0,F,19,0\n")] {
        check.print_of("the size limit", &"x".repeat(size), expected);
    }
    count
}

/// The cases of docs/RULES.md.
fn check_rules(check: &mut Check, worked: &str) {
    for (total, weights, largest, running) in
        [(1, [2, 1], [1, 0], [0, 1]), (45_000, [110_000, 50_000], [30_938, 14_062], [30_937, 14_063])]
    {
        for (rule, expected) in [(Rule::Largest, largest), (Rule::Running, running)] {
            let shares = rule.split(total, &weights);
            check.same("splitting", &format!("{shares:?}"), &format!("{:?}", Ok::<_, ()>(expected)));
        }
    }
    for (minute, price) in [(31, 1_000), (30, 1_001)] {
        let file = format!(
            "hour=7\nasset=1,G,1\noffer=1,1:1000,1:1001\norder=1,0,1\norder=1,{minute},2\nmeter=1,0\nrule=largest\n"
        );
        let expected = format!("hour=7\nprice={price}\nline=1,0,0,0,0,0,0\nsum=0\n");
        check.print_of("S of 60,029 and 60,030", &file, &expected);
    }
    for (price, uplift) in [(499, 0), (500, 1)] {
        let file = format!(
            "hour=7\nasset=1,I,1\nasset=2,L,1\noffer=1,1:{price}\norder=1,0,1\nmeter=1,1\nmeter=2,9\nrule=largest\n"
        );
        let expected = format!("hour=7\nprice=0\nline=1,0,{uplift},0,{uplift},0,0\nsum=0\n");
        check.print_of("60 kW-minutes at margin 499 and 500", &file, &expected);
    }
    let line_of = |file: &str, participant: usize| -> Vec<i64> {
        let print = String::from_utf8_lossy(&settle(file.as_bytes())).to_string();
        let line = print.lines().nth(1 + participant).unwrap_or("");
        line.trim_start_matches("line=").split(',').filter_map(|amount| amount.parse().ok()).collect()
    };
    let higher = line_of(&worked.replace("meter=2,65000", "meter=2,70000"), 2);
    check.same("the fourth margin case", &format!("{:?}", higher.get(2)), "Some(45000)");
    let bid = worked.replace("order=1,0", "offer=3,40:50000,20:5000\norder=3,0,60\norder=3,30,50\norder=1,0");
    let bid = line_of(&bid.replace("meter=3,110000", "meter=3,52000"), 3);
    check.same("the fifth margin case", &format!("{:?}", bid.get(3)), "Some(12000)");
    let late = worked.replace("meter=4,50000", "meter=4,60000");
    let late_lines = [[0; 6], [0; 6], [0, 0, 0, -1_820, 0, 1_820_000], [-60_000_000, 0, 0, 1_820, 0, -61_820_000]];
    for (place, expected) in late_lines.iter().enumerate() {
        let (first, second) = (line_of(worked, place + 1), line_of(&late, place + 1));
        let differences: Vec<i64> = first.iter().zip(&second).skip(1).map(|(before, after)| after - before).collect();
        check.same("a late reading", &format!("{differences:?}"), &format!("{expected:?}"));
    }
}

/// The examples of docs/REFUSALS.md that a file can bring about.
fn check_refusals(check: &mut Check) {
    for (lines, expected) in [
        ("asset=0,Q,40", "2,H,3,0"),
        ("asset=5,G,1\nasset=5,Q,40", "3,H,3,81"),
        ("order=7,75,2000", "2,H,5,7"),
        ("asset=7,G,1\noffer=7,9:9\norder=7,30,9\norder=7,29,2000", "5,H,8,29"),
        ("shed=30,30", "2,H,8,30"),
        ("instruct=70,0,65,0", "2,H,3,70"),
    ] {
        check.print_of(lines, &format!("hour=7\n{lines}\n"), &format!("fault={expected}\n"));
    }
}
