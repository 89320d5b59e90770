//! `oddrafisk convert`: keyed markers in place of bare ones, for a whole log.

use std::borrow::Cow;
use std::fmt;
use std::fs::{self, File, OpenOptions, Permissions};
use std::io::{self, BufWriter, ErrorKind, Write};
use std::os::unix::fs::{fchown, MetadataExt, OpenOptionsExt, PermissionsExt};
use std::path::{Path, PathBuf};
use std::process;

use crate::arguments::Work;
use crate::console::{Console, Status};
use crate::log::{self, Log, Trouble};
use crate::name::Name;
use crate::verbs::{Operands, Verb};

pub const VERB: Verb = Verb {
    name: "convert",
    about: "a log with keyed markers in place of bare ones",
    help: "\
Each bare marker of IN, which ends a transaction and has 65 bytes, becomes a keyed one of 72 in OUT.
Its fields stay as they are, but for its length and its checksum. Every other batch is copied byte
for byte. Offsets do not change, and places after a marker do: indexes of the log are to be made
again. A log without bare markers is copied, so that to convert twice does no harm. One line says
how many batches and bytes were written, and how many markers converted.

OUT appears at once, when all of it is written and safe on the disk. Until then it is a file
`.oddrafisk-..` beside OUT, and where a batch is refused, IN is torn, or something cannot be read or
written, that is removed and OUT stays as it was. A run that is killed may leave it behind. OUT may
be IN itself, and what was there is replaced; but it is to be a file, and no folder and no device.
Nobody may write to IN meanwhile: what is appended during a run may be lost. OUT has IN's
permissions, and IN's user and group where the system allows it; a group that cannot be kept gets no
rights.

examples:
  oddrafisk convert old.log new.log
  oddrafisk convert pinning.log pinning.log && oddrafisk verify pinning.log
  xz -dc old.log.xz | oddrafisk convert - new.log
",
    operands: Operands::InAndOut,
    options: &[],
    streams: false,
    run,
};

/// What has been converted.
#[derive(Default)]
struct Sums {
    batches: u64,
    markers: u64,
    bytes: u64,
}

impl fmt::Display for Sums {
    fn fmt(&self, f: &mut fmt::Formatter<'_>) -> fmt::Result {
        let Sums {
            batches,
            markers,
            bytes,
        } = *self;
        let [es, s] = [
            if batches == 1 { "" } else { "es" },
            if markers == 1 { "" } else { "s" },
        ];
        write!(
            f,
            "{batches} batch{es}, {markers} marker{s} converted, {bytes} bytes"
        )
    }
}

fn run(work: &Work, console: &mut Console) -> io::Result<()> {
    let [input, output] = &work.files[..] else {
        unreachable!("the command line has both");
    };
    log::one(input, work, console, |log, console| {
        match convert(log, output) {
            // Standard output is written last, so that what cannot be written here is OUT.
            Err(Trouble::Unwritable(error)) => console.fault(Status::Unusable, output, error)?,
            Err(trouble) => return Err(trouble),
            Ok(sums) => writeln!(console, "{input}: {sums}, written to {output}")?,
        }
        Ok(())
    })
}

fn convert(log: &mut Log, output: &Name) -> Result<Sums, Trouble> {
    let mut sums = Sums::default();
    let mut replacement = Replacement::new(Path::new(output.path()), log)?;
    log.walk(|_, bytes| {
        let conversion = oddrafisk::convert(bytes)?;
        replacement.file.write_all(&conversion.bytes)?;
        sums.batches += 1;
        sums.markers += u64::from(matches!(conversion.bytes, Cow::Owned(_)));
        sums.bytes += conversion.bytes.len() as u64;
        Ok(conversion.taken)
    })?;
    replacement.put()?;
    Ok(sums)
}

const BUFFER: usize = 1 << 18;

/// A file that is to take the place of another at once. Until then it lies beside it, in the same
/// folder and so on the same disk, and is removed where nothing comes of it.
struct Replacement {
    file: BufWriter<File>,
    path: PathBuf,
    target: PathBuf,
    placed: bool,
}

impl Replacement {
    fn new(target: &Path, log: &Log) -> io::Result<Self> {
        let target = real_path(target)?;
        let (file, path) = create_beside(&target, log)?;
        let replacement = Replacement {
            file: BufWriter::with_capacity(BUFFER, file),
            path,
            target,
            placed: false,
        };
        replacement.share_as(log)?;
        Ok(replacement)
    }

    /// Lets those use the file who may use the log. To give it to the log's user is root's right
    /// alone as a rule; the group its members may give. Without the log's group, its rights are
    /// nobody's here.
    fn share_as(&self, log: &Log) -> io::Result<()> {
        let Some(metadata) = log.metadata()? else {
            return Ok(());
        };
        let file = self.file.get_ref();
        let mut mode = metadata.mode() & 0o777;
        if fchown(file, None, Some(metadata.gid())).is_err() {
            mode &= !0o070;
        }
        let _ = fchown(file, Some(metadata.uid()), None);
        file.set_permissions(Permissions::from_mode(mode))
    }

    /// Puts it in its place, once all of it is on the disk. Some folders cannot be synced: then a
    /// crash of the machine may bring back what was there before, and nothing worse.
    fn put(mut self) -> io::Result<()> {
        self.file.flush()?;
        self.file.get_ref().sync_all()?;
        fs::rename(&self.path, &self.target)?;
        self.placed = true;
        let _ = File::open(folder_of(&self.target)).and_then(|folder| folder.sync_all());
        Ok(())
    }
}

impl Drop for Replacement {
    fn drop(&mut self) {
        if !self.placed {
            let _ = fs::remove_file(&self.path);
        }
    }
}

/// Where the file really lies: what a link leads to is replaced, and not the link. A device would
/// be replaced by a file as well, and nobody wants that.
fn real_path(target: &Path) -> io::Result<PathBuf> {
    match fs::symlink_metadata(target) {
        Err(error) if error.kind() == ErrorKind::NotFound => return Ok(target.to_path_buf()),
        found => found?,
    };
    let path = fs::canonicalize(target)?;
    if !fs::metadata(&path)?.is_file() {
        return Err(io::Error::other("it is no file that can be replaced"));
    }
    Ok(path)
}

fn folder_of(target: &Path) -> &Path {
    match target.parent() {
        Some(folder) if folder != Path::new("") => folder,
        _ => Path::new("."),
    }
}

/// A file that was not there before. Where it is to be shared as the log is, nobody else can open
/// it until then.
fn create_beside(target: &Path, log: &Log) -> io::Result<(File, PathBuf)> {
    let mut options = OpenOptions::new();
    options.write(true).create_new(true);
    if log.metadata()?.is_some() {
        options.mode(0o600);
    }
    let mut number = 0;
    loop {
        let name = format!(".oddrafisk-{}-{number}", process::id());
        let path = folder_of(target).join(name);
        match options.open(&path) {
            Err(error) if error.kind() == ErrorKind::AlreadyExists => number += 1,
            created => return Ok((created?, path)),
        }
    }
}
