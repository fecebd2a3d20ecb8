//! The named rows: each counts as one test, on some variants of the template; printed by rule.

use crate::compare::compare;
use crate::report::Report;
use differential::mutations::{table, Row};

/// Tests and cases of one rule.
struct Rule {
    id: &'static str,
    rows: u64,
    cases: u64,
    failed: u64,
}

/// So many failed rows are printed, the others only counted.
const SHOWN: u64 = 40;

/// Runs every row.
pub fn run(verbose: bool, report: &mut Report) {
    let mut rules: Vec<Rule> = Vec::new();
    for row in &table().rows {
        let differences = run_row(row, report);
        if verbose {
            let verdict = if differences == 0 { "ok" } else { "FAILED" };
            println!("row {} {}: {verdict}, {} cases", row.id, row.name, row.variants);
        }
        let place = rules.iter().position(|rule| rule.id == row.id).unwrap_or_else(|| {
            rules.push(Rule { id: row.id, rows: 0, cases: 0, failed: 0 });
            rules.len() - 1
        });
        let rule = &mut rules[place];
        rule.rows += 1;
        rule.cases += row.variants;
        rule.failed += u64::from(differences > 0);
        report.count(row.variants, differences);
    }
    for Rule { id, rows, cases, failed } in rules {
        let verdict = if failed == 0 { "ok".to_string() } else { format!("FAILED, {failed} rows") };
        println!("rule {id}: {verdict}, {rows} rows, {cases} cases");
    }
}

/// Runs one row on its variants of the template; how many differ.
fn run_row(row: &Row, report: &mut Report) -> u64 {
    let mut differences = 0;
    for variant in 0..row.variants {
        let (input, stated) = row.trial(variant);
        let fill = if variant % 2 == 0 { 0 } else { 0xff };
        let outcome = compare(&input, &stated, fill);
        report.named.add(outcome.payload);
        if let Some(difference) = outcome.difference {
            let case = format!("row {} {}, variant {variant}", row.id, row.name);
            report.difference(&case, &difference, &input);
            if differences == 0 && report.failed < SHOWN {
                println!("{case}: FAILED: {difference}");
            }
            differences += 1;
        }
    }
    differences
}
