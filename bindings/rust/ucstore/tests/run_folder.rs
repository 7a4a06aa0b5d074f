//! The machine of a folder whose checkpoints are lists of run files.

use ucstore::{
    next_run, FolderAction, FolderFiles, FolderMachine, ListedBase, ListedLog, RunFolderAction,
    RunFolderFault, RunFolderMachine,
};

#[test]
fn the_machine_writes_runs_before_the_list_that_names_them() {
    use FolderAction::{NameBase, SyncBase, SyncNames, WriteBase};
    use RunFolderAction::{OfFolder, ReadBack, RemoveRun, SyncRun, WriteRun};
    assert_eq!(next_run(&[3, 7], &[9, 7, 3]), Ok(10));
    assert_eq!(next_run(&[3, 7], &[9, 7]), Err(RunFolderFault::Missing(3)));
    assert_eq!(next_run(&[], &[u64::MAX]), Err(RunFolderFault::Spent));

    let base = ListedBase { number: 1, past: 0 };
    let logs = [1, 2].map(|number| ListedLog {
        number,
        is_used: true,
    });
    let found = FolderFiles::find(&[base], &logs).unwrap();
    let mut machine = RunFolderMachine::open(FolderMachine::open(&found, 0, true), 5);
    while machine.folder().next_write() != FolderAction::Nothing {
        machine.folder_mut().told_write(true);
    }
    machine.ask_checkpoint(2, 0, &[], &[], 2);
    assert_eq!(machine.next_run(), 7);
    let mut done = Vec::new();
    while machine.next_checkpoint() != ReadBack {
        done.push(machine.next_checkpoint());
        machine.told_checkpoint(true);
    }
    let runs = [WriteRun(5), SyncRun(5), WriteRun(6), SyncRun(6)];
    assert_eq!(done[..4], runs);
    let list = [
        SyncNames,
        WriteBase(2, 0),
        SyncBase,
        NameBase(2, 0),
        SyncNames,
    ]
    .map(OfFolder);
    assert_eq!(done[4..], list);
    let nothing = OfFolder(FolderAction::Nothing);
    assert_eq!(machine.next_removal(4, &[5, 6]), nothing);
    machine.told_checkpoint(true);
    assert!(machine.is_read_back());
    while machine.next_checkpoint() != nothing {
        machine.told_checkpoint(true);
    }
    assert_eq!(machine.next_removal(4, &[5, 6]), RemoveRun(4));
    assert_eq!(machine.next_removal(5, &[5, 6]), nothing);
}
