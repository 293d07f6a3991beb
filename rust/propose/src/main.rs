//! `propose [--seconds S] [--patience S] [--seed K] A.pla` prints a script that shortens the map, one step a line, and tells on standard error how far it is.
//! `propose --list A.pla` prints the map as ESOP-PLA, as its places are counted.

use propose::clock::Clock;
use propose::pla::{self, Map};
use propose::search::Search;
use std::process::ExitCode;
use std::time::Duration;
use std::{env, fs};

const USAGE: &str = "usage: propose [--seconds S] [--patience S] [--seed K] A.pla
       propose --list A.pla
  --seconds S   search for at most so long (60 if not said)
  --patience S  give up where nothing shorter is found for so long (10 if not said)
  --seed K      where the generator of random numbers starts (1 if not said)
  --list        print the map as ESOP-PLA, and no script";

struct Asked {
    seconds: u64,
    patience: u64,
    seed: u64,
    list: bool,
    path: String,
}

fn asked(mut words: impl Iterator<Item = String>) -> Option<Asked> {
    let mut asked = Asked { seconds: 60, patience: 10, seed: 1, list: false, path: String::new() };
    while let Some(word) = words.next() {
        match word.as_str() {
            "--seconds" => asked.seconds = words.next()?.parse().ok()?,
            "--patience" => asked.patience = words.next()?.parse().ok()?,
            "--seed" => asked.seed = words.next()?.parse().ok()?,
            "--list" => asked.list = true,
            _ if word.starts_with("--") || !asked.path.is_empty() => return None,
            _ => asked.path = word,
        }
    }
    (!asked.path.is_empty()).then_some(asked)
}

fn read(path: &str) -> Result<Map, String> {
    let bytes = fs::read(path).map_err(|error| error.to_string())?;
    // a character for each byte, so that a comment may be in any character set
    pla::read(&bytes.into_iter().map(char::from).collect::<String>())
}

fn propose(asked: &Asked, map: &Map) {
    let clock = Clock::new(Duration::from_secs(asked.seconds), Duration::from_secs(asked.patience));
    let script = Search::new(map.shape, &map.list, asked.seed, clock).run();
    eprintln!("propose: {} products, {} after {} steps", map.list.len(), script.list.len(), script.steps.len());
    for step in &script.steps {
        println!("{step}");
    }
}

fn main() -> ExitCode {
    let Some(asked) = asked(env::args().skip(1)) else {
        eprintln!("{USAGE}");
        return ExitCode::from(2);
    };
    match read(&asked.path) {
        Err(why) => {
            eprintln!("propose: {}: {why}", asked.path);
            return ExitCode::FAILURE;
        }
        Ok(map) if asked.list => print!("{}", pla::printed(&map)),
        Ok(map) => propose(&asked, &map),
    }
    ExitCode::SUCCESS
}
