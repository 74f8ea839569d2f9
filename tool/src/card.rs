//! The card file: read whole, changed in memory, replaced as one. A crash leaves the old card or the new one. A pressed tour is read and written in the same way.

use crate::digest::{self, Digest};
use crate::kind::Kind;
use crate::output::{self, permissions};
use crate::problem::{self, file, refused};
use crate::spot::Spot;
use crate::store::{is_length, is_tour, is_tour_length, Found, Refusal, Table, Tour};
use crate::{lock, words};
use anyhow::{Context, Result};
use std::ffi::OsString;
use std::fs::{self, File};
use std::io::{self, Read, Write};
use std::os::unix::fs::MetadataExt;
use std::path::{Path, PathBuf};
use std::time::Duration;
use tempfile::NamedTempFile;

pub const TEMPORARY: &str = ".spotcard-tmp";
/// The card before the last change stands beside the card.
const BEFORE: &str = ".before";

/// A card in memory.
pub struct Card {
    pub name: String,
    pub table: Table,
    pub digest: Digest,
    /// The file of the digest, beside the card itself and not beside a link to it.
    pub digest_name: String,
}

/// A pressed tour in memory.
pub struct Pressed {
    pub name: String,
    pub tour: Tour,
    pub digest: Digest,
    pub digest_name: String,
}

/// What a file can hold.
pub enum Held {
    Card(Card),
    Tour(Pressed),
}

/// What both answer; see `Table`.
impl Held {
    pub fn name(&self) -> &str {
        match self {
            Held::Card(card) => &card.name,
            Held::Tour(pressed) => &pressed.name,
        }
    }

    pub fn digest(&self) -> Digest {
        match self {
            Held::Card(card) => card.digest,
            Held::Tour(pressed) => pressed.digest,
        }
    }

    pub fn digest_name(&self) -> &str {
        match self {
            Held::Card(card) => &card.digest_name,
            Held::Tour(pressed) => &pressed.digest_name,
        }
    }

    pub fn bytes(&self) -> &[u8] {
        match self {
            Held::Card(card) => card.table.bytes(),
            Held::Tour(pressed) => pressed.tour.bytes(),
        }
    }

    pub fn all(&self) -> Result<Vec<Spot>, Refusal> {
        match self {
            Held::Card(card) => card.table.all(),
            Held::Tour(pressed) => pressed.tour.all(),
        }
    }

    pub fn blocks(&self) -> usize {
        match self {
            Held::Card(card) => card.table.blocks(),
            Held::Tour(pressed) => pressed.tour.blocks(),
        }
    }

    pub fn report(&self, x1: i32, x2: i32, y: i32) -> Result<Found, Refusal> {
        match self {
            Held::Card(card) => card.table.report(x1, x2, y),
            Held::Tour(pressed) => pressed.tour.report(x1, x2, y),
        }
    }

    pub fn report_many(&self, ranges: &[(i32, i32, i32)]) -> Result<(Vec<Vec<Spot>>, Vec<usize>), Refusal> {
        match self {
            Held::Card(card) => card.table.report_many(ranges),
            Held::Tour(pressed) => pressed.tour.report_many(ranges),
        }
    }
}

/// Reads a card. No lock is needed: the file is replaced as one, never written into.
pub fn read(path: &Path) -> Result<Card> {
    read_named(words::name(path), &existing(path)?)
}

/// A card that the library calls sound.
pub fn read_sound(path: &Path) -> Result<Card> {
    sound(read(path)?)
}

/// The card that a change would be made to: sound, and as spotcard left it. No lock is needed to look at it.
pub fn read_unchanged(path: &Path) -> Result<Card> {
    unchanged(words::name(path), &existing(path)?)
}

fn unchanged(name: String, real: &Path) -> Result<Card> {
    let card = sound(read_named(name, real)?)?;
    if card.digest == Digest::Differs {
        return Err(refused(format!(
            "{0} is not as spotcard left it: its digest is not the one in {1}. Nothing was done. Go back to a copy of the card. If another card was put there on \
            purpose, delete {1} and try again.",
            card.name,
            card.digest_name
        )));
    }
    Ok(card)
}

/// A sound card, or a tour as pressing makes it.
pub fn read_any_sound(path: &Path) -> Result<Held> {
    any_sound(read_any(path)?)
}

/// A card or a tour, sound or not.
pub fn read_any(path: &Path) -> Result<Held> {
    held(words::name(path), &existing(path)?)
}

fn any_sound(held: Held) -> Result<Held> {
    match held {
        Held::Card(card) => Ok(Held::Card(sound(card)?)),
        Held::Tour(pressed) if pressed.tour.is_sound() => Ok(Held::Tour(pressed)),
        Held::Tour(Pressed { name, .. }) => Err(refused(format!(
            "{name} is a damaged tour: pressing its spots would give other bytes. Nothing was done. Go back to a copy of the tour, or press it again from the sheet."
        ))),
    }
}

fn read_named(name: String, real: &Path) -> Result<Card> {
    match held(name, real)? {
        Held::Card(card) => Ok(card),
        Held::Tour(Pressed { name, .. }) => Err(refused(format!(
            "{name} is a pressed tour, not a card. Nothing was done. A tour is never changed: `spotcard report` and `spotcard info` read it, and `spotcard press SHEET.csv \
            -o {name} --force` makes it anew from a sheet."
        ))),
    }
}

fn held(name: String, real: &Path) -> Result<Held> {
    let (bytes, digest) = read_with_digest(&name, real)?;
    if digest != Digest::Differs {
        judge_version(&name, &bytes, bytes.len() as u64)?;
    }
    let digest_name = digest_name(&name, real);
    if is_tour(&bytes) {
        return Ok(Held::Tour(Pressed { name, tour: Tour::of(bytes), digest, digest_name }));
    }
    let table = Table::of(bytes).map_err(|e| refused(format!("{name} is not a card: {e}.")))?;
    Ok(Held::Card(Card { name, table, digest, digest_name }))
}

/// As the card was named, unless that name is a link.
fn digest_name(name: &str, real: &Path) -> String {
    let given = Path::new(name);
    let is_direct = fs::canonicalize(folder(given)).is_ok_and(|f| f.join(given.file_name().unwrap_or_default()) == real);
    if is_direct {
        format!("{name}.sha256")
    } else {
        words::name(&beside(real, ".sha256"))
    }
}

fn sound(card: Card) -> Result<Card> {
    if card.table.is_sound()? {
        return Ok(card);
    }
    Err(refused(format!(
        "{0} is not sound. Nothing was done. `spotcard check {0}` says what is wrong. Go back to a copy of the card, or make a new one.",
        card.name
    )))
}

/// A card or a tour begins with its own length; the version comes next. Where its digest differs, that byte is damaged, too.
fn judge_version(name: &str, start: &[u8], length: u64) -> Result<()> {
    let is_ours = u32::try_from(length).is_ok_and(|length| start.starts_with(&length.to_be_bytes()));
    match start.get(4) {
        Some(version) if is_ours && *version > 1 => Err(refused(format!(
            "{name} was made by a newer spotcard: it has version {version}, and this one knows version 1. Nothing was done. Use the newer spotcard for it."
        ))),
        _ => Ok(()),
    }
}

/// The path that a card's name leads to, links followed: the files beside the card stand beside that one.
fn existing(path: &Path) -> Result<PathBuf> {
    let name = words::name(path);
    let real = fs::canonicalize(path).map_err(|e| match e.kind() {
        io::ErrorKind::NotFound => file(format!("there is no card {name}. `spotcard new {name}` makes an empty one.")),
        _ => anyhow::Error::new(e).context(format!("{name} can't be read")),
    })?;
    let about = fs::metadata(&real).with_context(|| format!("{name} can't be read"))?;
    if !about.is_file() {
        return Err(file(format!("{name} is not a file.")));
    }
    Ok(real)
}

/// Card and digest are two files: where they differ, a writer may have been at work between the two readings.
fn read_with_digest(name: &str, real: &Path) -> Result<(Vec<u8>, Digest)> {
    let mut bytes = read_limited(name, real)?;
    loop {
        let digest = digest::compare(&bytes, &beside(real, ".sha256"))?;
        if digest != Digest::Differs {
            return Ok((bytes, digest));
        }
        let again = read_limited(name, real)?;
        if again == bytes && digest::compare(&again, &beside(real, ".sha256"))? == Digest::Differs {
            return Ok((bytes, digest));
        }
        bytes = again;
    }
}

/// The bytes of a file that can be a card by its length, or a tour.
fn read_limited(name: &str, real: &Path) -> Result<Vec<u8>> {
    let length = fs::metadata(real)?.len();
    if is_length(length) || is_tour_length(length) {
        let bytes = fs::read(real).with_context(|| format!("{name} can't be read"))?;
        if is_length(length) || is_tour(&bytes) {
            return Ok(bytes);
        }
    }
    let mut start = vec![];
    File::open(real).and_then(|file| file.take(8).read_to_end(&mut start)).with_context(|| format!("{name} can't be read"))?;
    judge_version(name, &start, length)?;
    let length = words::count(length as usize, "byte");
    Err(refused(format!("{name} is not a card: it has {length}, and a card is 9 to 4,096 whole blocks of 2,048 bytes.")))
}

/// `show.card` and `.lock` as `show.card.lock`.
fn beside(path: &Path, ending: &str) -> PathBuf {
    let mut name = OsString::from(path);
    name.push(ending);
    name.into()
}

/// The right to change a card, until it is dropped.
pub struct Writer {
    name: String,
    real: PathBuf,
    /// Held, never read.
    _lock: File,
}

/// Waits for the right to change an existing card.
pub fn lock(path: &Path, wait: Duration) -> Result<Writer> {
    existing(path)?;
    lock_any(path, wait)
}

/// A folder lets a write-protected file be replaced; who protected a card did not mean that.
fn writable(path: &Path, real: &Path) -> Result<()> {
    let is_protected = fs::metadata(real).is_ok_and(|about| about.permissions().readonly());
    if is_protected {
        let name = words::name(path);
        return Err(file(format!("{name} is write-protected, and is left as it is.")));
    }
    Ok(())
}

/// The same for a card that need not exist yet.
fn lock_any(path: &Path, wait: Duration) -> Result<Writer> {
    let name = words::name(path);
    let real = real_path(path).with_context(|| format!("{name} can't be made"))?;
    writable(path, &real)?;
    let lock = lock::wait_for(&name, &beside(&real, ".lock"), wait)?;
    let writer = Writer { name, real, _lock: lock };
    // Where the disk is full it waits for the next time.
    let _ = writer.settle_aside();
    judge_names(&writer.name, &writer.real)?;
    Ok(writer)
}

/// A file is replaced under the name that was given: its other names, hard links, would keep the old one.
fn judge_names(name: &str, real: &Path) -> Result<()> {
    match fs::metadata(real) {
        Ok(about) if about.nlink() > 1 => Err(file(format!(
            "{name} is one of {} names of the same file (hard links), and a change would reach this one alone. Nothing was done. Let it have one name; a symbolic link \
            can be another.",
            about.nlink()
        ))),
        _ => Ok(()),
    }
}

/// The same for a file that is to be made, or, where that is allowed and it is of the same kind, replaced.
pub fn lock_new(path: &Path, force: bool, kind: Kind, wait: Duration) -> Result<Writer> {
    let name = words::name(path);
    let judge = || match fs::metadata(path) {
        Ok(about) if about.is_dir() => Err(file(format!("{name} is a folder."))),
        Ok(about) if !about.is_file() => Err(file(format!("{name} is not a file."))),
        Ok(_) => {
            let old = output::start_of(path).with_context(|| format!("{name} can't be read"))?;
            kind.kept(&name, &old, force).map_or(Ok(()), |words| Err(refused(words)))
        }
        Err(_) => Ok(()),
    };
    judge()?;
    let writer = lock_any(path, wait)?;
    judge()?;
    Ok(writer)
}

/// Links followed, also one that leads to a file that is not there yet.
pub fn real_path(path: &Path) -> io::Result<PathBuf> {
    let mut path = path.to_path_buf();
    for _ in 0..40 {
        if let Ok(real) = fs::canonicalize(&path) {
            return Ok(real);
        }
        match fs::read_link(&path) {
            Ok(to) => path = folder(&path).join(to),
            Err(_) => break,
        }
    }
    let name = path.file_name().ok_or(io::ErrorKind::InvalidInput)?;
    Ok(fs::canonicalize(folder(&path))?.join(name))
}

pub fn folder(path: &Path) -> &Path {
    match path.parent() {
        Some(parent) if !parent.as_os_str().is_empty() => parent,
        _ => Path::new("."),
    }
}

impl Writer {
    /// The card that is to be changed: sound, and as spotcard left it.
    pub fn read(&self) -> Result<Card> {
        unchanged(self.name.clone(), &self.real)
    }

    /// Whether these are the card's bytes.
    pub fn holds(&self, bytes: &[u8]) -> bool {
        fs::read(&self.real).is_ok_and(|own| own == bytes)
    }

    /// The card or the tour before the last change, if it is kept and in order.
    pub fn before(&self) -> Result<Held> {
        let path = beside(&self.real, BEFORE);
        let digest = digest_name(&self.name, &self.real);
        let name = format!("{}{BEFORE}", digest.strip_suffix(".sha256").unwrap_or(&self.name));
        if !path.is_file() {
            return Err(refused(format!("there is no {name}: no change of {} was kept. Nothing was done.", self.name)));
        }
        let held = any_sound(held(name, &path)?)?;
        match held.digest() {
            Digest::Differs => Err(refused(format!(
                "{0} is not as spotcard left it: its digest is not the one in {1}. Nothing was done. If it is right all the same, delete {1} and try again.",
                held.name(),
                held.digest_name()
            ))),
            _ => Ok(held),
        }
    }

    /// Puts the new bytes in the place of the old ones. At every moment the card is the old one or the new one, and its digest is among those in
    /// `CARD.sha256`: for the time of the change both stand there. The old one is kept as `CARD.before`.
    pub fn save(&self, bytes: &[u8]) -> Result<()> {
        self.remove_left_behind();
        let new = digest::of(bytes);
        let had_digest = beside(&self.real, ".sha256").exists();
        if let Err(e) = self.replace(bytes, &new) {
            let _ = self.settle_aside();
            self.leave_no_trace(had_digest);
            return Err(e).with_context(|| format!("{} can't be saved, and is as it was", self.name));
        }
        self.sync_folder().with_context(|| format!("{} is saved, but the disk does not confirm it", self.name))?;
        if let Err(e) = self.put_before() {
            let (name, why) = (&self.name, problem::plain(&e));
            problem::print(&format!("{name} is saved; the card before this change can't be kept as {name}.before: {why}"));
        }
        if let Err(e) = self.write_digests(&self.real, &[new]) {
            let (name, why) = (&self.name, problem::plain(&e));
            let digest = digest_name(name, &self.real);
            problem::print(&format!("{name} is saved; {digest} still has the old digest beside the new one: {why}"));
        }
        Ok(())
    }

    fn replace(&self, bytes: &[u8], new: &str) -> Result<()> {
        let mut both = self.old_digests()?;
        both.push(new.into());
        let card = self.temporary(bytes)?;
        self.put_aside()?;
        self.write_digests(&self.real, &both)?;
        card.persist(&self.real).map_err(|e| e.error)?;
        Ok(())
    }

    /// Where no card was made, no lock stays, and no digest that was not there before.
    fn leave_no_trace(&self, had_digest: bool) {
        if self.real.exists() {
            return;
        }
        let _ = fs::remove_file(beside(&self.real, ".lock"));
        if !had_digest {
            let _ = fs::remove_file(beside(&self.real, ".sha256"));
        }
    }

    /// The old card's second name while it is being replaced.
    fn aside(&self) -> PathBuf {
        let mut name = self.temporary_prefix();
        name.push("aside");
        folder(&self.real).join(name)
    }

    /// Gives the old card a second name, by which it is still there once it is replaced; where the disk knows no second names, a copy.
    fn put_aside(&self) -> io::Result<()> {
        if !self.real.exists() {
            return Ok(());
        }
        let aside = self.aside();
        match fs::hard_link(&self.real, &aside) {
            Ok(()) => Ok(()),
            Err(_) => self.temporary(&fs::read(&self.real)?)?.persist(aside).map(|_| ()).map_err(|e| e.error),
        }
    }

    /// What stands aside becomes the card before the last change. Its digest is noted first, behind the one that was there.
    fn put_before(&self) -> io::Result<()> {
        let (aside, before) = (self.aside(), beside(&self.real, BEFORE));
        if !aside.exists() {
            return Ok(());
        }
        let mut digests = digest::read(&beside(&before, ".sha256")).ok().flatten().unwrap_or_default();
        digests.drain(..digests.len().saturating_sub(1));
        digests.push(digest::of(&fs::read(&aside)?));
        self.write_digests(&before, &digests)?;
        fs::rename(aside, before)?;
        self.sync_folder()
    }

    /// After a crash: what stands aside is the card itself, or, if it was replaced, the card before the last change.
    fn settle_aside(&self) -> io::Result<()> {
        let aside = self.aside();
        if !aside.exists() {
            return Ok(());
        }
        if fs::read(&aside)? == fs::read(&self.real).unwrap_or_default() {
            return fs::remove_file(aside);
        }
        self.put_before()
    }

    /// What stands in `CARD.sha256`; where there is none yet, the digest of the card as it is.
    fn old_digests(&self) -> Result<Vec<String>> {
        if let Some(digests) = digest::read(&beside(&self.real, ".sha256"))? {
            return Ok(digests);
        }
        let is_ours = fs::metadata(&self.real).is_ok_and(|about| is_length(about.len()) || is_tour_length(about.len()));
        let old = is_ours.then(|| fs::read(&self.real).ok()).flatten();
        Ok(old.map(|bytes| digest::of(&bytes)).into_iter().collect())
    }

    fn write_digests(&self, of: &Path, digests: &[String]) -> io::Result<()> {
        let file = self.temporary(&digest::text(digests, of.file_name().unwrap_or_default()))?;
        file.persist(beside(of, ".sha256")).map_err(|e| e.error)?;
        self.sync_folder()
    }

    /// A file in the card's folder with these bytes, safe on the disk, with the owner and the permissions of the card.
    fn temporary(&self, bytes: &[u8]) -> io::Result<NamedTempFile> {
        let mut file = tempfile::Builder::new().prefix(&self.temporary_prefix()).suffix(TEMPORARY).tempfile_in(folder(&self.real))?;
        file.write_all(bytes)?;
        file.as_file().set_permissions(permissions(&self.real))?;
        if let Ok(old) = fs::metadata(&self.real) {
            // Only root may give files away; for others the file is theirs already, or stays theirs.
            let _ = std::os::unix::fs::chown(file.path(), Some(old.uid()), Some(old.gid()));
        }
        file.as_file().sync_all()?;
        Ok(file)
    }

    fn sync_folder(&self) -> io::Result<()> {
        match File::open(folder(&self.real))?.sync_all() {
            // Some file systems have no such call for folders.
            Err(e) if matches!(e.kind(), io::ErrorKind::InvalidInput | io::ErrorKind::Unsupported) => Ok(()),
            other => other,
        }
    }

    fn temporary_prefix(&self) -> OsString {
        let mut prefix = OsString::from(".");
        prefix.push(self.real.file_name().unwrap_or_default());
        prefix.push(".");
        prefix
    }

    /// Temporary files of this card that a crash left behind: while we hold the lock nobody else has any.
    fn remove_left_behind(&self) {
        let prefix = self.temporary_prefix();
        let prefix = prefix.as_encoded_bytes();
        let Ok(entries) = fs::read_dir(folder(&self.real)) else {
            return;
        };
        for entry in entries.flatten() {
            let name = entry.file_name();
            let middle = name.as_encoded_bytes().strip_prefix(prefix);
            let middle = middle.and_then(|m| m.strip_suffix(TEMPORARY.as_bytes()));
            if middle.is_some_and(|m| !m.contains(&b'.')) {
                let _ = fs::remove_file(entry.path());
            }
        }
    }
}
