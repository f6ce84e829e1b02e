//! The vectors that the writer makes: enough of them, not too large, every refusal of the programs among them.

use nyokazerubi_host::outside;
use std::fs;
use std::path::Path;

#[test]
fn vectors_are_written() {
    let folder = Path::new(env!("CARGO_TARGET_TMPDIR")).join("written");
    let written = outside::write(&folder, 1).expect("the folder takes files");
    assert!(written.cases >= 300 && written.traces >= 24 && written.readings >= 40, "{written:?}");
    assert!(written.recordings >= 27 && written.bodies >= 60 && written.bytes < 1_600_000, "{written:?}");
    let page = fs::read_to_string(folder.join("README.md")).expect("README.md");
    for refusal in ["1", "2", "3", "4", "5 64", "5 0", "6 0", "7 0", "8 0", "9", "16", "17", "20"] {
        assert!(page.contains(&format!("| refused {refusal} |\n")), "refused {refusal}");
    }
    // Others than the first of all are at fault too.
    for number in 5..=8 {
        assert!((1..9).any(|action| page.contains(&format!("| refused {number} {action} |\n"))), "refused {number}");
    }
    for row in ["| drawn | 0 | refused 14 |", "| drawn | 0 | 0 0 0 0 |", "| 4,097 frames | 0 | refused 14 |"] {
        assert!(page.contains(row), "{row}");
    }
    for row in ["| 1,621 times | 1621 | refused 19 | refused 19 |", "| one action 1,620 times | 1620 | 1 2 4860 1620 |"]
    {
        assert!(page.contains(row), "{row}");
    }
    let most = fs::read_to_string(folder.join("r60.rehearse")).expect("r60.rehearse");
    assert!(most.lines().count() == 4097 && most.contains("refused 16\n"), "{most}");
    for answer in ["refreshed", "refused 14", "refused 15", "refused 16"] {
        assert!(page.contains(&format!("| drawn | {answer} |\n")), "trace: {answer}");
    }
    let readings = fs::read_to_string(folder.join("readings.txt")).expect("readings.txt");
    for end in ["spent", "refused 13", "refused 18", " 3ff0000000000000"] {
        assert!(readings.lines().any(|line| line.ends_with(end)), "{end}");
    }
}
