//! [`Name`]: the names of a database's files.

/// The meaning of a file's name.
#[derive(Clone, Copy, Debug, PartialEq, Eq, PartialOrd, Ord)]
pub(crate) enum Name {
    /// A log, by its number.
    Log(u64),
    /// A base: a checkpoint of rows, with what the logs before the one of this number wrote, and what that one wrote up to the sequence.
    /// Those of older versions name none, and have nothing of that log.
    Base(u64, Option<u64>),
    /// A base that was being written.
    Partial(u64),
    /// A log that was being written anew.
    NewLog(u64),
    /// Bytes that an opening has cut off a log and set aside, from 1 on.
    Lost(u64, u64),
    /// The same while it was being written.
    NewLost(u64),
    /// A list: a checkpoint that names run files, for a log and up to a sequence as a base.
    List(u64, u64),
    /// A list that was being written.
    NewList(u64),
    /// A run file, by its number.
    Run(u64),
}

impl Name {
    /// The meaning of a name; none if the file isn't of a database.
    pub(crate) fn of(name: &str) -> Option<Name> {
        let (stem, kind) = name.split_once('.')?;
        let (number, sequence) = match stem.split_once('-') {
            Some((number, sequence)) => (number, Some(sequence.parse().ok()?)),
            None => (stem, None),
        };
        let number = number.parse().ok()?;
        let found = match (kind, sequence) {
            ("log", None) => Name::Log(number),
            ("base", sequence) => Name::Base(number, sequence),
            ("base.new", None) => Name::Partial(number),
            ("log.new", None) => Name::NewLog(number),
            ("log.lost", count) => Name::Lost(number, count.unwrap_or(1)),
            ("log.lost.new", None) => Name::NewLost(number),
            ("runs", Some(sequence)) => Name::List(number, sequence),
            ("runs.new", None) => Name::NewList(number),
            ("run", None) => Name::Run(number),
            _ => return None,
        };
        (found.text() == name).then_some(found)
    }

    /// The name as a folder has it.
    pub(crate) fn text(self) -> String {
        match self {
            Name::Log(number) => format!("{number:06}.log"),
            Name::Base(number, None) => format!("{number:06}.base"),
            Name::Base(number, Some(sequence)) => format!("{number:06}-{sequence}.base"),
            Name::Partial(number) => format!("{number:06}.base.new"),
            Name::NewLog(number) => format!("{number:06}.log.new"),
            Name::Lost(number, 1) => format!("{number:06}.log.lost"),
            Name::Lost(number, count) => format!("{number:06}-{count}.log.lost"),
            Name::NewLost(number) => format!("{number:06}.log.lost.new"),
            Name::List(number, sequence) => format!("{number:06}-{sequence}.runs"),
            Name::NewList(number) => format!("{number:06}.runs.new"),
            Name::Run(number) => format!("{number:06}.run"),
        }
    }

    /// The place of a checkpoint among others, of which an opening reads the greatest: its number, its sequence, and whether it is a list.
    /// None if the file isn't a checkpoint.
    pub(crate) fn checkpoint(self) -> Option<(u64, Option<u64>, bool)> {
        match self {
            Name::Base(number, sequence) => Some((number, sequence, false)),
            Name::List(number, sequence) => Some((number, Some(sequence), true)),
            _ => None,
        }
    }

    /// The newest checkpoint among files.
    pub(crate) fn newest(names: impl IntoIterator<Item = Name>) -> Option<Name> {
        let are_checkpoints = names.into_iter().filter(|name| name.checkpoint().is_some());
        are_checkpoints.max_by_key(|name| name.checkpoint())
    }
}

#[cfg(test)]
mod tests {
    use super::*;

    #[test]
    fn names_are_read_as_they_are_written() {
        for name in [
            Name::Log(1),
            Name::Base(1234567, None),
            Name::Base(1, Some(0)),
            Name::Base(2, Some(u64::MAX)),
            Name::Partial(0),
            Name::NewLog(7),
            Name::Lost(7, 1),
            Name::Lost(7, 2),
            Name::NewLost(7),
            Name::List(7, 0),
            Name::List(1234567, u64::MAX),
            Name::NewList(7),
            Name::Run(1),
        ] {
            assert_eq!(Name::of(&name.text()), Some(name));
        }
        assert_eq!(Name::Base(7, Some(1234)).text(), "000007-1234.base");
        for text in [
            "LOCK",
            "1.log",
            "000001.old",
            "000001.base.new.new",
            ".log",
            "000001-2.log",
            "000001-2.base.new",
            "000001-02.base",
            "000001-.base",
            "000001--2.base",
            "000001-1.log.lost",
            "000001-2.log.new",
            "000001.runs",
            "000001-2.run",
            "000001-2.runs.new",
            "1.run",
        ] {
            assert_eq!(Name::of(text), None);
        }
    }

    #[test]
    fn the_newest_checkpoint_has_the_greatest_number_and_sequence() {
        let names = [
            Name::Log(9),
            Name::Base(2, None),
            Name::Base(2, Some(7)),
            Name::List(2, 7),
            Name::List(2, 6),
            Name::List(1, 8),
            Name::Run(9),
        ];
        assert_eq!(Name::newest(names), Some(Name::List(2, 7)));
        assert_eq!(Name::newest([Name::List(2, 6), names[2]]), Some(names[2]));
        assert_eq!(Name::newest([names[0]]), None);
    }
}
