//! The scripts of examples/ have their transcripts, from several threads too; worked examples have their answers.

use landtree::{audit, check, check_policy, history, learn, rights, run, version, why, why_entry};
use landtree::{Asked, Lesson, ReportForm, Setup, TableForm, VERSION};
use std::{fs, path::PathBuf, thread};

fn read(path: &str) -> Vec<u8> {
    fs::read(PathBuf::from(env!("CARGO_MANIFEST_DIR")).join("../..").join(path)).unwrap()
}

fn example(name: &str) -> Vec<u8> {
    read(&format!("examples/{name}"))
}

// A file of the worked example with this name, which says what the program prints.
fn worked(name: &str, file: &str) -> Vec<u8> {
    read(&format!("worked/{name}/{file}"))
}

#[test]
fn versions_agree() {
    assert_eq!(version(), VERSION);
}

#[test]
fn scripts_have_their_transcripts() {
    for name in ["build-step", "two-clients", "two-layers"] {
        let script = example(&format!("{name}.txt"));
        let answer = run(Setup::default(), &script, true).unwrap();
        assert_eq!(answer.text, example(&format!("{name}.out")), "{name}");
        assert!(!answer.is_ended);
    }
}

#[test]
fn policies_set_trees_up() {
    let policy = example("build-service.toml");
    let setup = Setup { policy: &policy, profile: "build", ..Setup::default() };
    let answer = run(setup, &example("build-service.txt"), false).unwrap();
    assert_eq!(answer.text, example("build-service.out"));
}

#[test]
fn faults_are_told() {
    let wrong = Setup { policy: b"versoin = 1", profile: "build", ..Setup::default() };
    assert_eq!(run(wrong, b"", false).unwrap_err().status, 2);
    assert_eq!(run(Setup { nodes: 0, ..Setup::default() }, b"", false).unwrap_err().status, 2);
    let ended = run(Setup::default(), b"nonsense\nspawn\n", true).unwrap();
    assert!(ended.is_ended);
    assert_eq!(ended.text, b"refused 23 BadLine\n");
    assert!(audit(b"nonsense\n").unwrap().is_ended);
}

#[test]
fn histories_are_judged_and_explained() {
    let saved = history(Setup::default(), &example("build-step.txt")).unwrap().text;
    let verdict = audit(&saved).unwrap();
    assert!(verdict.text.starts_with(b"legal ") && !verdict.is_ended);
    assert!(why_entry(&saved, 2).unwrap().text.starts_with(b"entry 2, client 1: make dir /src\n"));
    assert_eq!(why_entry(&saved, 1_000).unwrap_err().status, 2);
    assert_eq!(check_policy(&example("build-service.toml")), Ok(()));
    assert_eq!(check_policy(b"versoin = 1").unwrap_err().status, 2);
}

#[test]
fn profiles_are_learned() {
    let (saved, wanted) = (worked("learn-beneath", "history"), worked("learn-beneath", "stdout"));
    let lesson = Lesson { beneath: &["/u"], ..Lesson::default() };
    assert_eq!(learn(lesson, &saved).unwrap().text, wanted);
    let unlearned = learn(Lesson { client: 5, ..lesson }, &saved).unwrap();
    assert!(unlearned.is_ended);
    assert_eq!(unlearned.text, b"no such client connects\n");
    let many = learn(Lesson { most: 1, ..Lesson::default() }, &saved).unwrap_err();
    assert_eq!((many.status, many.words.as_str()), (2, "2 rules, 1 may be\n"));
    for wrong in [Lesson { name: "A", ..lesson }, Lesson { never: "write", ..lesson }, Lesson { most: 257, ..lesson }] {
        assert_eq!(learn(wrong, &saved).unwrap_err().status, 2);
    }
}

#[test]
fn profiles_are_asked_about() {
    let two = worked("rights-by-two-layers", "policy.toml");
    let asked = Asked::new(&two, "p");
    let table = rights(asked, TableForm::Layers, &["/", "/work", "/work/a", "/work/none"]).unwrap();
    assert_eq!(table.text, worked("rights-by-two-layers", "stdout"));
    let step = worked("why-a-command", "policy.toml");
    let told = why(Asked::new(&step, "p"), "open rwt /work/a").unwrap();
    assert_eq!(told.text, worked("why-a-command", "stdout"));
    let made = worked("why-after-others", "policy.toml");
    let told = why(Asked::new(&made, "p"), "make reg /work/b\nlink /work/b /work/c\nopen wt /work/b\n").unwrap();
    assert_eq!(told.text, worked("why-after-others", "stdout"));
    assert_eq!(rights(asked, TableForm::Usual, &["work"]).unwrap_err().status, 2);
    assert_eq!(rights(Asked::new(&two, "nobody"), TableForm::Json, &[]).unwrap_err().status, 2);
    for wrong in ["fly /", "fly /\nlist /", "list /\n\n", ""] {
        assert_eq!(why(asked, wrong).unwrap_err().status, 2);
    }
}

#[test]
fn checks_are_reported() {
    let policy = example("build-service.toml");
    let setup = Setup { policy: &policy, profile: "build", ..Setup::default() };
    let report = check(setup, "build-service.check", &example("build-service.check"), ReportForm::Usual).unwrap();
    assert_eq!(report.text, example("build-service.check.out"));
    assert!(!report.is_ended);
    let failed = check(Setup::default(), "a.check", b"list / = names a\n", ReportForm::Quiet).unwrap();
    assert_eq!(failed.text, b"0 passed, 1 failed\n");
    assert!(failed.is_ended);
    let wrong = check(Setup::default(), "a.check", b"stat\n", ReportForm::Usual).unwrap_err();
    assert_eq!(wrong.status, 2);
    assert!(wrong.words.starts_with("a.check:1:"));
}

#[test]
fn threads_call_at_will() {
    let (script, wanted) = (example("build-step.txt"), example("build-step.out"));
    thread::scope(|scope| {
        for _ in 0..4 {
            scope.spawn(|| {
                for _ in 0..100 {
                    assert_eq!(run(Setup::default(), &script, false).unwrap().text, wanted);
                }
            });
        }
    });
}
