//! The order of a script's commands, found by looking at each session in each round.

/// What a command does with a mark, which is named by its number from 0.
pub enum Marked {
    Tells(usize),
    Hears(usize),
    Neither,
}

/// A session and one of its commands, both from 0.
pub type Step = (u32, u32);

/// In each round each session, in order, does its next command, unless it hears a mark that isn't told.
pub fn rounds<C>(sessions: &[Vec<C>], marks: usize, marked: impl Fn(&C) -> Marked) -> Vec<Step> {
    let mut done = vec![0; sessions.len()];
    let mut told = vec![false; marks];
    let mut steps = Vec::new();
    loop {
        let before = steps.len();
        for (at, session) in sessions.iter().enumerate() {
            let Some(command) = session.get(done[at]) else { continue };
            match marked(command) {
                Marked::Hears(mark) if !told[mark] => continue,
                Marked::Tells(mark) => told[mark] = true,
                _ => {}
            }
            steps.push((at as u32, done[at] as u32));
            done[at] += 1;
        }
        if steps.len() == before {
            return steps;
        }
    }
}
