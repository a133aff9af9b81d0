//! The cases of tests/vectors through the crate: sound and crafted pages, refusals, damage.

use differential::Fault;
use differential::run::Runner;
use differential::script;

#[test]
fn every_vector() {
    let folder = concat!(env!("CARGO_MANIFEST_DIR"), "/../../tests/vectors");
    let mut runner = Runner::new(Fault::None);
    for file in std::fs::read_dir(folder).expect("the vectors") {
        let path = file.expect("a file").path();
        if path.extension().is_none_or(|extension| extension != "txt") {
            continue;
        }
        let text = std::fs::read_to_string(&path).expect("text");
        for case in script::read(&text).expect("a script") {
            let (difference, script) = match runner.run(&case) {
                None => continue,
                Some(_) => runner.tell(&case),
            };
            panic!("{}: {difference:?}\n{script}", path.display());
        }
    }
    assert_eq!(runner.count.cases, 748);
}
