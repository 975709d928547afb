//! A small store, a file that is saved whole, and its test.

use std::env;
use std::fs::{self, File};
use std::io::{self, Write};
use std::path::Path;

use crash_states::Outcome;

/// Replaces the file's content. `sync` says whether it waits until both the content and the name
/// are on the disk.
fn save(directory: &Path, content: &str, sync: bool) -> io::Result<()> {
    let saved = directory.join("config.new");
    let mut file = File::create(&saved)?;
    file.write_all(content.as_bytes())?;
    if sync {
        file.sync_all()?;
    }
    fs::rename(&saved, directory.join("config"))?;
    if sync {
        File::open(directory)?.sync_all()?;
    }
    Ok(())
}

fn session(directory: &Path, acknowledge: &dyn Fn(&str)) -> Outcome {
    // With EXAMPLE_BUG the test fails.
    let sync = env::var_os("EXAMPLE_BUG").is_none();
    for version in ["version 1", "version 2"] {
        save(directory, version, sync)?;
        acknowledge(version);
    }
    Ok(())
}

fn recovery(directory: &Path, acknowledged: &[String]) -> Outcome {
    let last = acknowledged.last().map_or("", |line| line);
    match fs::read_to_string(directory.join("config")) {
        Ok(content) if !["version 1", "version 2"].contains(&content.as_str()) => {
            Err(format!("corrupt: the configuration is {content:?}").into())
        }
        Ok(content) if content.as_str() < last => {
            Err(format!("lost: the configuration is {content}").into())
        }
        Err(_) if !last.is_empty() => Err("lost: there is no configuration".into()),
        _ => Ok(()),
    }
}

#[test]
fn every_crash_state() {
    let known = env::var("EXAMPLE_ACCEPT").ok();
    let options: Vec<&str> = known.iter().flat_map(|file| ["--accept", file]).collect();
    crash_states::check_with("every_crash_state", session, recovery, &options);
}
