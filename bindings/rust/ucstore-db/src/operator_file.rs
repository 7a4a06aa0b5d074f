//! The file `OPERATOR`, which names the operator that a folder was made with.

use crate::disk_folder::is_database;
use crate::error::Error;
use crate::folder::Folder;
use crate::partial::Partial;
use ucstore::Operator;

/// The file, and what it is called until it is on the device.
pub(crate) const OPERATOR: &str = "OPERATOR";
const NEW: &str = "OPERATOR.new";

const ALL: [Operator; 5] = [
    Operator::Append,
    Operator::Counter,
    Operator::Maximum,
    Operator::Tail,
    Operator::Mixed,
];

/// The name of an operator.
pub(crate) fn word(operator: Operator) -> &'static str {
    match operator {
        Operator::Append => "append",
        Operator::Counter => "counter",
        Operator::Maximum => "maximum",
        Operator::Tail => "tail",
        Operator::Mixed => "mixed",
    }
}

/// The line of the file.
fn line(operator: Operator) -> String {
    format!("{}\n", word(operator))
}

/// Checks that a folder's file names the operator.
pub(crate) fn check(folder: &dyn Folder, asked: Operator) -> Result<(), Error> {
    match read(folder)? {
        made if made == asked => Ok(()),
        made => Err(Error::OtherOperator { made, asked }),
    }
}

/// The operator that a folder's file names.
fn read(folder: &dyn Folder) -> Result<Operator, Error> {
    let found = folder.read(OPERATOR).map_err(Error::of_file(OPERATOR))?;
    let made = ALL.into_iter().find(|it| line(*it).as_bytes() == found);
    made.ok_or_else(|| Error::Damaged {
        file: OPERATOR.into(),
        offset: 0,
        fault: "it names no operator".into(),
    })
}

/// The operator to open a folder with: the one that was asked for, or else its own, or `mixed` for a new folder.
pub(crate) fn chosen(folder: &dyn Folder, asked: Option<Operator>) -> Result<Operator, Error> {
    if let Some(asked) = asked {
        return Ok(asked);
    }
    if let Some(made) = operator_of(folder)? {
        return Ok(made);
    }
    let names = folder.names().map_err(Error::of_file(""))?;
    Ok(match names.iter().any(|name| is_database(name)) {
        // A version that named no operator made it, whose default this was.
        true => Operator::Append,
        false => Operator::Mixed,
    })
}

/// Returns the merge operator that a folder was made with, if it has the file `OPERATOR`, which names it.
///
/// # Errors
///
/// [`Error::Damaged`] if the file names none, [`Error::File`].
pub fn operator_of(folder: &dyn Folder) -> Result<Option<Operator>, Error> {
    let names = folder.names().map_err(Error::of_file(""))?;
    match names.iter().any(|name| name == OPERATOR) {
        true => read(folder).map(Some),
        false => Ok(None),
    }
}

/// Writes the file of a folder, and waits until it is on the device.
pub(crate) fn write(folder: &dyn Folder, operator: Operator) -> Result<(), Error> {
    let mut file = Partial::create(folder, NEW.into())?;
    file.append(line(operator).as_bytes())?;
    file.sync()?;
    file.rename(OPERATOR)?;
    folder.sync().map_err(Error::of_file(""))
}
