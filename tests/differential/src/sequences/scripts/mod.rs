//! Sequences that are written down, with the answers that document 01 gives them: numbers, statuses and results, the list's
//! bytes, the text. They are not computed by a loader.

mod forged;
mod jobs;
mod lists;
mod loads;
mod play;
mod sizes;
mod stacks;

use super::loader::Loader;
use super::session::Session;
use play::Play;

pub struct Script {
    pub name: &'static str,
    play: fn(&mut Play),
}

impl Script {
    /// Plays the script with these loaders side by side.
    pub fn run(&self, loaders: &[Loader]) -> Session {
        let mut play = Play::new(loaders);
        (self.play)(&mut play);
        play.session
    }
}

/// All scripts.
pub fn all() -> Vec<Script> {
    let parts = [stacks::SCRIPTS, jobs::SCRIPTS, loads::SCRIPTS, lists::SCRIPTS, sizes::SCRIPTS, forged::SCRIPTS];
    parts.concat().into_iter().map(|(name, play)| Script { name, play }).collect()
}

/// The scripts of a file, by name.
type Scripts = &'static [(&'static str, fn(&mut Play))];

#[cfg(test)]
mod tests {
    use super::*;
    use crate::sequences::loader::second;
    use crate::sequences::session::Seen;

    /// Plays scripts with the second loader alone; what they reached.
    fn played(scripts: Scripts) -> Seen {
        let mut seen = Seen::default();
        for (name, play) in scripts {
            let session = Script { name, play: *play }.run(&[second()]);
            assert_eq!(session.fault, None, "script {name}");
            seen.join(&session.seen);
        }
        seen
    }

    #[test]
    fn stacks_and_replace() {
        played(stacks::SCRIPTS);
    }

    #[test]
    fn jobs_and_time_outs() {
        played(jobs::SCRIPTS);
    }

    #[test]
    fn uploads_and_unloads() {
        played(loads::SCRIPTS);
    }

    #[test]
    fn lists_and_names() {
        played(lists::SCRIPTS);
    }

    #[test]
    fn start_up_and_sizes() {
        played(sizes::SCRIPTS);
    }

    #[test]
    fn forged_records() {
        played(forged::SCRIPTS);
    }

    #[test]
    fn scripts_reach_all() {
        let mut seen = Seen::default();
        all().iter().for_each(|script| seen.join(&script.run(&[second()]).seen));
        assert_eq!((seen.answers.faults(), seen.marks.faults()), (Vec::new(), Vec::new()));
    }
}
