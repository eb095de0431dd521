//! `evdisk remove --dry-run` says what the removal does, and does not do it.

use crate::scratch::Scratch;

#[test]
fn a_dry_run_says_what_the_removal_then_says_and_changes_nothing() {
    let mut copies = 0;
    for scratch in Scratch::twelves() {
        scratch.does("remove d 4");
        let files = scratch.files();
        for id in (1..=12).filter(|id| *id != 4) {
            let (words, json) = (scratch.does(&format!("remove --dry-run d {id}")), format!("remove d {id} --json"));
            let tried = scratch.does(&format!("{json} --dry-run"));
            assert!(scratch.files() == files, "the removal of {id} was tried and a file was changed");
            let copy = scratch.copy();
            let removed = copy.does(&format!("remove d {id}"));
            assert_eq!(words, removed.replacen("removed", "would remove", 1));
            let removed = scratch.copy().does(&json);
            assert_eq!(tried, removed.replacen('}', ",\"dry_run\":true}", 1));
            copies += usize::from(!removed.contains("\"copied\":0,"));
        }
    }
    assert!(copies > 5, "only {copies} of the removals copied blocks");
}

#[test]
fn a_dry_run_makes_no_log() {
    for scratch in Scratch::cases_6() {
        assert_eq!(scratch.does("remove d 5 --dry-run"), "would remove 5: 1 block copied (contract limit 2)\n");
        assert!(!scratch.path("d.log").exists() && !scratch.path("d.redo.new").exists());
        assert_eq!(scratch.does("remove d 5"), "removed 5: 1 block copied (contract limit 2)\n");
    }
}

#[test]
fn a_dry_run_is_refused_as_the_removal_is() {
    let scratch = Scratch::case_6();
    for (words, refusal) in [("remove d 0", "refused 5: 0 is no id"), ("remove d 6", "refused 6: no file has this id")]
    {
        assert_eq!(scratch.refuses(words), (1, format!("evdisk: {refusal}\n")));
        assert_eq!(scratch.refuses(&format!("{words} --dry-run")), scratch.refuses(words));
    }
}

/// A removal could not be done here, but what it would do can be said.
#[test]
fn a_dry_run_needs_no_log_that_can_be_written() {
    let scratch = Scratch::case_6();
    std::fs::create_dir(scratch.path("d.log")).expect("a folder in the log's place");
    assert_eq!(scratch.says("remove d 5").status, 3);
    assert_eq!(scratch.does("remove d 5 --dry-run"), "would remove 5: 1 block copied (contract limit 2)\n");
}
