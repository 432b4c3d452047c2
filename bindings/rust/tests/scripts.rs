//! Plays the worked scripts of the repository through the crate, and compares what they print with what the program
//! prints.

use std::fs;
use std::path::Path;

use vlm::script::{Fault, Session};
use vlm::LockManager;

fn session() -> Session {
    Session::new(LockManager::new().expect("memory"))
}

fn played(script: &[u8]) -> Result<String, Fault> {
    let mut session = session();
    let script = script.strip_suffix(b"\n").unwrap_or(script);
    script
        .split(|byte| *byte == b'\n')
        .map(|line| session.run(line))
        .collect()
}

#[test]
fn the_worked_scripts_print_what_the_program_prints() {
    let folder = Path::new(env!("CARGO_MANIFEST_DIR")).join("../../tests/scripts/play");
    let mut played_scripts = 0;
    for entry in fs::read_dir(folder).expect("the repository around the crate") {
        let path = entry.expect("an entry").path();
        let Ok(expected) = fs::read_to_string(path.with_extension("stdout")) else {
            continue;
        };
        if path.extension().is_none() {
            let script = fs::read(&path).expect("a script");
            assert_eq!(played(&script), Ok(expected), "{}", path.display());
            played_scripts += 1;
        }
    }
    assert!(played_scripts >= 60, "{played_scripts} scripts were played");
}

#[test]
fn lines_print_and_have_faults() {
    let mut session = session();
    let declare = b"declare P node=1 group=1 quota=9 blocks=4";
    assert_eq!(session.run(b"show"), Ok("no resources\n".to_owned()));
    assert_eq!(session.run(declare), Ok("P: process 65537\n".to_owned()));
    assert_eq!(session.run(declare), Err(Fault::NameUsed));
    assert_eq!(session.run(b"deq Q 1"), Err(Fault::UnknownName));
    assert_eq!(session.run(b"deq P @0"), Ok("P: ACCVIO\n".to_owned()));
    assert_eq!(session.run(&[b' '; 256]), Err(Fault::TooLong));
    assert_eq!(session.run(b"begin P"), Err(Fault::UnknownCommand));
    assert_eq!(session.run(b"deq P lock"), Err(Fault::WrongWord));
    assert_eq!(
        session.run(b"search node=256").map_err(|it| it.to_string()),
        Err("number out of range".to_owned())
    );
    assert_eq!(session.run(b"# a comment"), Ok(String::new()));
    assert_eq!(session.manager().process_count(), 1);
}
