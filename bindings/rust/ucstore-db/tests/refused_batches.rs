//! A checkpoint beside a log that refuses a batch.

mod common;

use common::{Around, Device, Over};
use std::io;
use std::sync::atomic::{AtomicU32, Ordering};
use std::sync::Arc;
use std::thread;
use std::time::Duration;
use ucstore_db::{Db, Error, File, Folder, Options};

/// A device whose log refuses a batch while a run is written, and is cut back while the names of the runs are synced.
#[derive(Clone)]
struct Refusing {
    device: Device,
    /// 1 once a run is there, 2 once the log is cut back, 3 once the names of the runs are synced.
    stage: Arc<AtomicU32>,
}

struct RefusingFile(Box<dyn File>, Refusing);

impl Refusing {
    fn reach(&self, stage: u32) {
        self.stage.fetch_max(stage, Ordering::SeqCst);
    }

    fn wait_for(&self, stage: u32) {
        while self.stage.load(Ordering::SeqCst) < stage {
            thread::sleep(Duration::from_millis(1));
        }
    }
}

impl Around for Refusing {
    fn device(&self) -> &Device {
        &self.device
    }

    fn create(&self, name: &str) -> io::Result<Box<dyn File>> {
        if name.ends_with(".run") {
            self.reach(1);
            self.wait_for(2);
        }
        let file = self.device.create(name)?;
        Ok(Box::new(RefusingFile(file, self.clone())))
    }

    fn sync(&self) -> io::Result<()> {
        if self.stage.load(Ordering::SeqCst) == 2 {
            self.reach(3);
        }
        self.device.sync()
    }
}

impl File for RefusingFile {
    fn append(&mut self, bytes: &[u8]) -> io::Result<()> {
        match bytes.windows(7).any(|word| word == b"refused") {
            true => Err(io::ErrorKind::StorageFull.into()),
            false => self.0.append(bytes),
        }
    }

    fn cut(&mut self, length: u64) -> io::Result<()> {
        self.1.reach(2);
        self.1.wait_for(3);
        // The checkpoint goes on meanwhile, if it doesn't wait for this.
        thread::sleep(Duration::from_millis(100));
        self.0.cut(length)
    }

    fn sync(&mut self) -> io::Result<()> {
        self.0.sync()
    }
}

#[test]
fn a_checkpoint_waits_while_a_log_is_cut_back() {
    let device = Device::default();
    let folder = Refusing {
        device: device.clone(),
        stage: Arc::default(),
    };
    let options = Options {
        compactors: 0,
        checkpoint_least: u64::MAX,
        ..Default::default()
    };
    let db = Db::open_on(Arc::new(Over(folder.clone())), &options).unwrap();
    db.put("a", "1").unwrap();
    thread::scope(|scope| {
        scope.spawn(|| {
            folder.wait_for(1);
            let error = db.put("b", "refused").unwrap_err();
            assert!(matches!(error, Error::File { .. }), "{error}");
        });
        db.checkpoint().unwrap();
    });
    assert_eq!(db.stats().checkpoints, 1);
    let names = Vec::from_iter(device.logs().into_keys());
    assert_eq!(names, ["000001.run", "000002-1.runs", "000002.log"]);
}
