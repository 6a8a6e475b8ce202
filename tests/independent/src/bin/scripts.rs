//! `scripts [SCRIPTS [SEED]]`: random scripts, played by the program `replay` and by this package.
//! Any difference ends it with status 1, and keeps the script and the tables that it loads.

use independent::many::{arguments, play_all, stop};
use independent::program::{run_in, Ran};
use independent::promised::Watch;
use independent::random::Random;
use independent::replay::{replay, Replayed};
use independent::script_counts::ScriptCounts;
use independent::scripts::Script;
use std::path::Path;
use std::{env, fs, io, process};

const PROGRAM: &str = "REFLECTORS_REPLAY";

fn main() {
    let (scripts, seed) = arguments("scripts [SCRIPTS [SEED]]", 300);
    // It runs in another folder.
    let program = env::var(PROGRAM).ok().map(fs::canonicalize);
    let program = match program {
        Some(Ok(path)) => path.to_string_lossy().into_owned(),
        _ => stop(&format!("{PROGRAM} names no program")),
    };
    let counts = compare(scripts, seed, &program).unwrap_or_else(|difference| stop(&difference));
    counts.print();
    if let Some(missing) = counts.missing() {
        stop(&missing);
    }
}

fn compare(scripts: u64, seed: u64, program: &str) -> Result<ScriptCounts, String> {
    let mut counts = ScriptCounts::default();
    let played = play_all(scripts, |numbers| {
        let mut counts = ScriptCounts::default();
        for number in numbers {
            play(number, seed, program, &mut counts)?;
        }
        Ok(counts)
    });
    for others in played? {
        counts.add(&others);
    }
    Ok(counts)
}

/// Plays one script in a folder of its own, which stays where there is a difference.
fn play(number: u64, seed: u64, program: &str, counts: &mut ScriptCounts) -> Result<(), String> {
    let script = Script::draw(&mut Random::numbered(seed, number));
    let folder = format!("reflectors-{}-script-{number}", process::id());
    let folder = env::temp_dir().join(folder);
    write(&folder, &script).map_err(|error| format!("{}: {error}", folder.display()))?;
    play_in(&folder, &script, program, counts).map_err(|what| {
        let text = folder.join(SCRIPT);
        format!(
            "script {number} of seed {seed}: {what}\nit is kept in {}",
            text.display()
        )
    })?;
    fs::remove_dir_all(&folder).map_err(|error| format!("{}: {error}", folder.display()))
}

const SCRIPT: &str = "script";

fn write(folder: &Path, script: &Script) -> io::Result<()> {
    fs::create_dir_all(folder)?;
    let tables = script.tables.all();
    tables
        .into_iter()
        .try_for_each(|(name, table)| fs::write(folder.join(name), table))?;
    fs::write(folder.join(SCRIPT), &script.text)
}

fn play_in(
    folder: &Path,
    script: &Script,
    program: &str,
    counts: &mut ScriptCounts,
) -> Result<(), String> {
    let own = own(folder, &script.text, counts)?;
    let theirs = run_in(folder, program, script.text.as_bytes())?;
    if theirs.printed != own.printed {
        return Err(difference(&theirs.printed, &own.printed));
    }
    end(&theirs, &own)
}

/// What this package makes of the script, watched for what is promised of every run.
fn own(folder: &Path, script: &str, counts: &mut ScriptCounts) -> Result<Replayed, String> {
    let read = |file: &str| fs::read(folder.join(file));
    let mut watch = Watch::default();
    let mut broken = None;
    let replayed = replay(script.as_bytes(), &read, |played| {
        counts.call(played);
        if let (None, Err(what)) = (&broken, watch.call(played)) {
            broken = Some(format!(
                "this package breaks a promise: {what}, by:\n{played}"
            ));
        }
    });
    counts.script(&replayed, watch.seen);
    broken.map_or(Ok(replayed), Err)
}

/// The first line that differs.
fn difference(theirs: &str, own: &str) -> String {
    let mut theirs = theirs.split_inclusive('\n');
    let mut own = own.split_inclusive('\n');
    for line in 1.. {
        let (printed, expected) = (theirs.next(), own.next());
        if printed != expected {
            let [printed, expected] = [printed, expected].map(|line| line.unwrap_or("nothing"));
            return format!("line {line} of what is printed is:\n{printed}\nand not:\n{expected}");
        }
    }
    unreachable!("there is a difference")
}

/// How the program ends.
fn end(theirs: &Ran, own: &Replayed) -> Result<(), String> {
    let printed = &theirs.message;
    let message = own.message().map_or(String::new(), |line| line + "\n");
    let succeeds = own.bad.is_none();
    if *printed != message {
        Err(format!("standard error has:\n{printed}and not:\n{message}"))
    } else if theirs.succeeded != succeeds {
        let how = ["another status than 0", "status 0"][usize::from(theirs.succeeded)];
        Err(format!("the program ends with {how}, and with:\n{printed}"))
    } else {
        Ok(())
    }
}
