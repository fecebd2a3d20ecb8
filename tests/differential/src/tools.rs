//! Objects of the GNU tools through both loaders: each counts as one test.

use crate::compare::compare;
use crate::report::Report;
use differential::objects::build;
use std::path::Path;

pub fn run(folder: &Path, report: &mut Report) {
    for (name, built) in build(folder) {
        let difference = match built {
            Err(error) => Some(format!("not made: {error}")),
            Ok((input, stated)) => {
                let outcome = compare(&input, &stated, 0xff);
                report.named.add(outcome.payload);
                if let Some(difference) = &outcome.difference {
                    report.difference(&format!("object: {name}"), difference, &input);
                }
                outcome.difference
            }
        };
        match &difference {
            None => println!("object {name}: ok, 1 case"),
            Some(difference) => println!("object {name}: FAILED: {difference}"),
        }
        report.count(1, u64::from(difference.is_some()));
    }
}
