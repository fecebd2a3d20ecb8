//! How times are printed.

use crate::timing::Times;

/// The library's time over the second loader's, at a share of the rounds.
pub fn ratio([library, second]: &[Times; 2], percent: usize) -> f64 {
    library.at(percent) / second.at(percent)
}

fn print_times(name: &str, times: &Times) {
    let [least, low, median, high] = [0, 10, 50, 90].map(|percent| times.at(percent));
    println!("  {name:<16} {median:>10.1} us   10% to 90%: {low:.1} to {high:.1} us   least: {least:.1} us");
}

/// All of a thing that is timed by itself.
pub fn print_both(title: &str, times: &[Times; 2]) {
    println!("{title}");
    print_times("proved library", &times[0]);
    print_times("second loader", &times[1]);
    println!("  proved / second: {:.2} by the medians, {:.2} by the least times", ratio(times, 50), ratio(times, 0));
}

/// The head of a table of lines.
pub fn print_head(title: &str) {
    println!("{title}");
    println!("{:58} {:>24} {:>24}", "", "medians in us", "least times in us");
    println!("{:58} {} {}", "", HEADS, HEADS);
}

const HEADS: &str = "  proved   second  ratio";

/// One line of a table: the times of a round, which does the same thing so many times.
pub fn print_line(name: &str, per: usize, times: &[Times; 2]) {
    let [medians, least] = [50, 0].map(|percent| {
        let [library, second] = [&times[0], &times[1]].map(|times| times.at(percent) / per as f64);
        format!("{library:>8.2} {second:>8.2} {:>6.2}", ratio(times, percent))
    });
    println!("  {name:<56} {medians} {least}");
}
