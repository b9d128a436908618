//! The lines of a script as commands.

use crate::limits::MAX_ENTRIES;
use crate::name::Name;
use crate::order::Entry;
use crate::refusal::Refusal;
use crate::words::Words;

/// What a line begins with.
#[derive(Clone, Copy, Debug, PartialEq, Eq)]
pub enum Kind {
    Houses,
    Submit,
    Hold,
    Vote,
    Rule,
    GiveUp,
    Answer,
    Learn,
    Sync,
    Stop,
    Show,
}

impl Kind {
    /// All kinds; the nine steps of a house stand between the first and the last.
    pub const ALL: [Kind; 11] = [
        Kind::Houses,
        Kind::Submit,
        Kind::Hold,
        Kind::Vote,
        Kind::Rule,
        Kind::GiveUp,
        Kind::Answer,
        Kind::Learn,
        Kind::Sync,
        Kind::Stop,
        Kind::Show,
    ];

    /// The word of a script.
    pub fn word(self) -> &'static str {
        match self {
            Kind::Houses => "houses",
            Kind::Submit => "submit",
            Kind::Hold => "hold",
            Kind::Vote => "vote",
            Kind::Rule => "rule",
            Kind::GiveUp => "giveup",
            Kind::Answer => "answer",
            Kind::Learn => "learn",
            Kind::Sync => "sync",
            Kind::Stop => "stop",
            Kind::Show => "show",
        }
    }

    /// Whether this is one of the nine steps of a house.
    pub fn is_step(self) -> bool {
        self != Kind::Houses && self != Kind::Show
    }

    /// The kind that a line begins with, however the line goes on.
    pub fn of_line(line: &[u8]) -> Option<Kind> {
        let word = Words::of(line).next()?;
        let mut kinds = Kind::ALL.into_iter();
        kinds.find(|kind| kind.word().as_bytes() == word)
    }
}

/// A line of the right form.
#[derive(Clone, Debug, PartialEq, Eq)]
pub enum Command {
    Houses(u32),
    Step { house: u32, step: Step },
    Show,
}

/// One of the nine steps of a house.
#[derive(Clone, Debug, PartialEq, Eq)]
pub enum Step {
    Submit {
        name: Name,
        reads: Vec<Entry>,
        writes: Vec<Entry>,
    },
    Hold(Name),
    Vote {
        from: u32,
        name: Name,
    },
    Rule(Name),
    GiveUp(Name),
    Answer(Name),
    Learn {
        yes: bool,
        name: Name,
    },
    Sync,
    Stop {
        kept: u32,
    },
}

impl Command {
    /// The command of a line that is not passed over.
    pub fn parse(line: &[u8]) -> Result<Command, Refusal> {
        let kind = Kind::of_line(line).ok_or(Refusal::Form)?;
        let mut words = Words::of(line);
        words.next();
        let command = match kind {
            Kind::Houses => Command::Houses(words.number()?),
            Kind::Show => Command::Show,
            _ => Command::Step {
                house: words.number()?,
                step: step(kind, &mut words)?,
            },
        };
        words.end()?;
        Ok(command)
    }
}

fn step(kind: Kind, words: &mut Words) -> Result<Step, Refusal> {
    Ok(match kind {
        Kind::Submit => Step::Submit {
            name: name(words)?,
            reads: entries(words)?,
            writes: entries(words)?,
        },
        Kind::Hold => Step::Hold(name(words)?),
        Kind::Vote => Step::Vote {
            from: words.number()?,
            name: name(words)?,
        },
        Kind::Rule => Step::Rule(name(words)?),
        Kind::GiveUp => Step::GiveUp(name(words)?),
        Kind::Answer => Step::Answer(name(words)?),
        Kind::Learn => Step::Learn {
            yes: yes_or_no(words)?,
            name: name(words)?,
        },
        Kind::Sync => Step::Sync,
        Kind::Stop => Step::Stop {
            kept: words.number()?,
        },
        Kind::Houses | Kind::Show => return Err(Refusal::Form),
    })
}

fn name(words: &mut Words) -> Result<Name, Refusal> {
    Ok(Name {
        home: words.number()?,
        start: words.number()?,
        number: words.number()?,
    })
}

/// A count of at most sixteen, then as many entries.
fn entries(words: &mut Words) -> Result<Vec<Entry>, Refusal> {
    let count = words.number()?;
    if count > MAX_ENTRIES {
        return Err(Refusal::Form);
    }
    let entry = |_| {
        Ok(Entry {
            key: words.number()?,
            amount: words.number()?,
        })
    };
    (0..count).map(entry).collect()
}

fn yes_or_no(words: &mut Words) -> Result<bool, Refusal> {
    match words.number()? {
        0 => Ok(false),
        1 => Ok(true),
        _ => Err(Refusal::Form),
    }
}
