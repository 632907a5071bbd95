//! The words of a command line as groups: a name, and the words that follow it.

/// A group that a program takes: its name, and how many words follow.
pub type Taken = (&'static str, usize);

/// The groups that stand there, each at most once.
#[derive(Debug)]
pub struct Groups<'a>(Vec<(&'static str, &'a [String])>);

impl<'a> Groups<'a> {
    /// Looks at names and numbers of words alone; what follows a name is its own,
    /// whatever it says.
    pub fn read(words: &'a [String], taken: &[Taken]) -> Result<Groups<'a>, &'static str> {
        let mut groups = Groups(Vec::new());
        let mut rest = words;
        while let [word, after @ ..] = rest {
            let &(name, count) = taken.iter().find(|(name, _)| name == word).ok_or("unknown word")?;
            if groups.has(name) {
                return Err(twice(name));
            }
            if after.len() < count {
                return Err(missing(name));
            }
            let (own, next) = after.split_at(count);
            groups.0.push((name, own));
            rest = next;
        }
        Ok(groups)
    }

    pub fn has(&self, name: &str) -> bool {
        self.0.iter().any(|(other, _)| *other == name)
    }

    /// What the words behind this name say, where it is there.
    pub fn value<T>(
        &self, name: &str, says: impl Fn(&[String]) -> Result<T, &'static str>,
    ) -> Result<Option<T>, &'static str> {
        self.0.iter().find(|(other, _)| *other == name).map(|(_, own)| says(own)).transpose()
    }
}

fn twice(name: &str) -> &'static str {
    match name {
        "chip" => "chip given twice",
        "times" => "times given twice",
        _ => "group given twice",
    }
}

fn missing(name: &str) -> &'static str {
    match name {
        "chip" => "name missing",
        "at" | "frame" | "times" => "number missing",
        _ => "file missing",
    }
}
