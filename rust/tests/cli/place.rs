//! A directory for each test, in which the program is run; and what its runs must keep to.
use std::collections::BTreeMap;
use std::fs;
use std::path::{Path, PathBuf};
use std::process::{Command, Output};

pub const ARCHIVE: &str = env!("CARGO_BIN_EXE_hmsr");

/// The exit statuses, as the README has them.
pub const REPAIRABLE: i32 = 1;
pub const LOST: i32 = 2;
pub const USAGE: i32 = 3;
pub const IO: i32 = 4;

/// A directory of its own for a test, empty at first.
pub struct Place(pub PathBuf);

impl Place {
    pub fn new(test: &str) -> Place {
        let path = Path::new(env!("CARGO_TARGET_TMPDIR")).join("cli").join(test);
        let _ = fs::remove_dir_all(&path);
        fs::create_dir_all(&path).unwrap();
        Place(path)
    }

    pub fn path(&self, name: &str) -> PathBuf {
        self.0.join(name)
    }

    /// The program, to be run here.
    pub fn command(&self, words: &[&str]) -> Command {
        let mut command = Command::new(ARCHIVE);
        command.args(words).current_dir(&self.0).env("TMPDIR", &self.0);
        command
    }

    /// Runs the program here with a limit of the shell's `ulimit`.
    pub fn run_with_limit(&self, words: &[&str], limit: &str) -> Output {
        let script = format!("ulimit {limit}; exec \"$@\"");
        let mut command = Command::new("sh");
        command.args(["-c", &script, "sh", ARCHIVE]).args(words).current_dir(&self.0).env("TMPDIR", &self.0);
        command.output().unwrap()
    }

    pub fn run(&self, line: &str) -> Output {
        self.command(&line.split(' ').collect::<Vec<_>>()).output().unwrap()
    }

    /// Runs a command that must do its work, and gives what it prints.
    pub fn does(&self, line: &str) -> String {
        let output = self.run(line);
        let complaint = String::from_utf8_lossy(&output.stderr).into_owned();
        assert!(output.status.success() && complaint.is_empty(), "{line}: {complaint}");
        String::from_utf8(output.stdout).unwrap()
    }

    /// Runs a command that must turn back: with this status, nothing printed, one line of complaint with these words, and
    /// every file as it was. Gives the complaint.
    pub fn refuses(&self, line: &str, status: i32, words: &[&str]) -> String {
        let before = self.contents();
        let output = self.run(line);
        self.turned_back(line, &output, status, words);
        assert!(before == self.contents(), "{line}: files have changed");
        String::from_utf8(output.stderr).unwrap()
    }

    /// The same of a run that was.
    pub fn turned_back(&self, line: &str, output: &Output, status: i32, words: &[&str]) {
        let complaint = String::from_utf8(output.stderr.clone()).unwrap();
        assert_eq!(output.status.code(), Some(status), "{line}: {complaint}");
        assert!(output.stdout.is_empty(), "{line}");
        assert!(complaint.starts_with("hmsr: ") && complaint.ends_with('\n'), "{line}: {complaint}");
        assert_eq!(complaint.matches('\n').count(), 1, "{line}: {complaint}");
        for word in words {
            assert!(complaint.contains(word), "{line}: {complaint} lacks {word}");
        }
    }

    /// Every file and directory below, with its bytes.
    pub fn contents(&self) -> BTreeMap<PathBuf, Option<Vec<u8>>> {
        let mut found = BTreeMap::new();
        let mut open = vec![self.0.clone()];
        while let Some(directory) = open.pop() {
            for entry in fs::read_dir(&directory).unwrap() {
                let path = entry.unwrap().path();
                let is_file = path.is_file();
                found.insert(path.clone(), is_file.then(|| fs::read(&path).ok()).flatten());
                open.extend(Some(path).filter(|path| path.is_dir()));
            }
        }
        found
    }

    /// Makes these the contents.
    pub fn fill(&self, contents: &BTreeMap<PathBuf, Option<Vec<u8>>>) {
        fs::remove_dir_all(&self.0).unwrap();
        fs::create_dir(&self.0).unwrap();
        for (path, file) in contents {
            match file {
                Some(bytes) => fs::write(path, bytes).unwrap(),
                None => fs::create_dir(path).unwrap(),
            }
        }
    }

    pub fn card(&self, directory: &str, node: usize) -> PathBuf {
        self.path(directory).join(format!("node-{node:02}.card"))
    }

    pub fn lose(&self, directory: &str, nodes: &[usize]) {
        for &node in nodes {
            fs::remove_file(self.card(directory, node)).unwrap();
        }
    }

    /// Changes the last symbol of a card, of one byte or two, by one: the card can still be read.
    pub fn damage(&self, directory: &str, node: usize) {
        let path = self.card(directory, node);
        let mut card = fs::read(&path).unwrap();
        let last = card.len() - 1;
        assert!(card[last] != 2, "the last symbol is 256");
        let low = if card[last - 1] >= 128 { last - 1 } else { last };
        card[low] ^= 1;
        fs::write(path, card).unwrap();
    }

    pub fn truncate(&self, directory: &str, node: usize) {
        let path = self.card(directory, node);
        let card = fs::read(&path).unwrap();
        fs::write(path, &card[..card.len() / 2]).unwrap();
    }

    /// Exchanges the names of two cards.
    pub fn swap(&self, directory: &str, one: usize, other: usize) {
        let [one, other, between] = [self.card(directory, one), self.card(directory, other), self.path("between")];
        fs::rename(&one, &between).unwrap();
        fs::rename(&other, &one).unwrap();
        fs::rename(&between, &other).unwrap();
    }

    /// Opens the archive in a directory, which must give the transcript.
    pub fn opens(&self, directory: &str, transcript: &[u8]) -> String {
        let report = self.does(&format!("open {directory} opened"));
        assert!(fs::read(self.path("opened")).unwrap() == transcript, "another transcript from {directory}");
        fs::remove_file(self.path("opened")).unwrap();
        report
    }

    /// A transcript and its archive in `drives`: n = 6, k = 3, so that two nodes can be repaired.
    pub fn with_archive(test: &str) -> Place {
        let place = Place::new(test);
        fs::write(place.path("transcript"), bytes(500, 1)).unwrap();
        place.does("write transcript drives --nodes 6 --data 3");
        place
    }
}

/// Some bytes, every value among them where there are enough.
pub fn bytes(count: usize, seed: u32) -> Vec<u8> {
    let mut state = seed;
    let mut next = || {
        state = state.wrapping_mul(1_664_525).wrapping_add(1_013_904_223);
        (state >> 24) as u8
    };
    (0..count).map(|_| next()).collect()
}
