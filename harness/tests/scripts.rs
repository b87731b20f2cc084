//! Every script beside the package must give its answer byte by byte, over
//! either unit.

use harness::archive::Archive;
use harness::plain::Plain;
use harness::script::Script;
use harness::unit::Unit;
use std::fs;
use std::path::Path;

fn answer(unit: impl Unit, input: &[u8]) -> Vec<u8> {
    let mut out = Vec::new();
    let run = Script::new(unit).run(input, &mut out);
    run.expect("writing to memory");
    out
}

#[test]
fn scripts_give_their_answers() {
    let folder = Path::new(env!("CARGO_MANIFEST_DIR")).join("../tests/scripts");
    let mut run = 0;
    let mut wrong = Vec::new();
    for entry in fs::read_dir(&folder).expect("folder of scripts") {
        let path = entry.expect("entry").path();
        if path.extension().is_some_and(|e| e == "in") {
            let input = fs::read(&path).expect("input");
            let expected = fs::read(path.with_extension("out")).expect("answer");
            let plain = answer(Plain::default(), &input);
            let archive = answer(Archive::new(), &input);
            if plain != expected || archive != expected {
                wrong.push(path.file_name().map(|name| name.to_owned()));
            }
            run += 1;
        }
    }
    assert!(run > 0, "no scripts");
    assert!(
        wrong.is_empty(),
        "{} of {run} differ: {wrong:?}",
        wrong.len()
    );
}
