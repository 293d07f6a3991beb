//! The program that is compared, run in a folder of its own.

use crate::lines::Refusal;
use std::path::{Path, PathBuf};
use std::process::Command;
use std::{cell::Cell, env, fs, process};

pub struct Program {
    path: PathBuf,
    folder: PathBuf,
    calls: Cell<usize>,
}

/// What the program wrote.
pub struct Said {
    pub out: Vec<u8>,
    pub err: String,
}

impl Program {
    /// The program at a path, or else at the one that the environment names, or else where it is built.
    pub fn find(path: Option<String>) -> Result<Program, String> {
        let built = Path::new(env!("CARGO_MANIFEST_DIR")).join("../../crates/druthmoy_program/out/druthmoy_program");
        let path = path.or_else(|| env::var("DRUTHMOY_PROGRAM").ok()).map_or(built, PathBuf::from);
        // it is run in another folder
        let path = path.canonicalize().map_err(|error| format!("{}: {error}", path.display()))?;
        let folder = env::temp_dir().join(format!("druthmoy-texts-{}", process::id()));
        fs::create_dir_all(&folder).map_err(|error| format!("{}: {error}", folder.display()))?;
        Ok(Program { path, folder, calls: Cell::new(0) })
    }

    pub fn folder(&self) -> &Path {
        &self.folder
    }

    pub fn calls(&self) -> usize {
        self.calls.get()
    }

    pub fn write(&self, name: &str, text: &[u8]) -> Result<(), String> {
        fs::write(self.folder.join(name), text).map_err(|error| format!("{name}: {error}"))
    }

    /// The bytes of a file, which is removed, so that no other call's are taken for them.
    pub fn take(&self, name: &str) -> Result<Vec<u8>, String> {
        let path = self.folder.join(name);
        let bytes = fs::read(&path).map_err(|error| format!("{name}: {error}"))?;
        fs::remove_file(&path).map_err(|error| format!("{name}: {error}"))?;
        Ok(bytes)
    }

    pub fn run(&self, words: &[&str]) -> Result<Said, String> {
        self.calls.set(self.calls.get() + 1);
        let output = Command::new(&self.path).args(words).current_dir(&self.folder).output();
        let output = output.map_err(|error| format!("{}: {error}", self.path.display()))?;
        // 1 is what the script ./druthmoy makes of a refusal
        if !matches!(output.status.code(), Some(0 | 1)) {
            return Err(format!("{}: {}", words.join(" "), output.status));
        }
        Ok(Said { out: output.stdout, err: String::from_utf8_lossy(&output.stderr).into_owned() })
    }

    /// Runs a command that must write just this.
    pub fn must_say(&self, words: &[&str], out: &str, err: &str) -> Result<(), String> {
        let said = self.run(words)?;
        if said.out == out.as_bytes() && said.err == err {
            return Ok(());
        }
        Err(format!("{}\nexpected: {out}{err}\nsaid: {}", words.join(" "), said.shown()))
    }

    /// Runs a command that must refuse a file: `place` is where, as it is told.
    pub fn must_refuse(&self, words: &[&str], file: &str, place: &str, number: usize) -> Result<(), String> {
        let said = self.run(words)?;
        let told = format!("druthmoy: {file}: {place}refused {number}: ");
        let one_line = said.err.ends_with('\n') && said.err.lines().count() == 1;
        if said.out.is_empty() && one_line && said.err.starts_with(&told) {
            return Ok(());
        }
        Err(format!("{}\nexpected: {told}\nsaid: {}", words.join(" "), said.shown()))
    }
}

impl Said {
    pub fn shown(&self) -> String {
        format!("{}{}", String::from_utf8_lossy(&self.out), self.err)
    }
}

/// How the program tells where a text is refused.
pub fn told(refusal: Refusal) -> String {
    refusal.line.map_or_else(String::new, |line| format!("line {line}: "))
}
