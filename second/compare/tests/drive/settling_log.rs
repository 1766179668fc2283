//! The program `settle`, which prints how two modules settle.

use std::process::Command;

fn log() -> String {
    let output = Command::new(env!("CARGO_BIN_EXE_settle"))
        .output()
        .expect("settle can be started");
    let words = String::from_utf8_lossy(&output.stderr);
    assert!(output.status.success(), "{words}");
    String::from_utf8(output.stdout).expect("the log is text")
}

/// How many lines name the module and have these words.
fn count(log: &str, module: &str, words: &str) -> usize {
    log.lines()
        .filter(|line| line.contains(module) && line.contains(words))
        .count()
}

#[test]
fn the_log_is_the_same_each_time_and_tells_two_settlings() {
    let log = log();
    assert_eq!(log, self::log());
    for module in ["  left", "  right"] {
        assert_eq!(count(&log, module, "settled on 1000BASE-T1 as"), 1);
        assert_eq!(count(&log, module, "settled on 100BASE-T1 as"), 1);
        assert_eq!(count(&log, module, "link up"), 2);
        assert_eq!(count(&log, module, "leaves Break"), 2);
        assert!(count(&log, module, "orders page") >= 6);
        // Three Next Pages and then two, each sent three times or more.
        assert_eq!(count(&log, module, "goes on to its next page"), 5);
        assert!(count(&log, module, "orders Next Page") >= 15);
    }
    assert_eq!(count(&log, "right", "another module is put in"), 1);
    assert_eq!(count(&log, "left", "link down"), 1);
    // The swapped module is forced to be slave.
    assert_eq!(count(&log, "  left", "settled on 100BASE-T1 as master"), 1);
    let times: Vec<f64> = told(&log).map(time).collect();
    assert!(times.is_sorted() && times.len() > 40);
}

/// What both modules tell before the head is swapped, and after.
fn parts(log: &str) -> (&str, &str) {
    log.split_once("another module is put in")
        .expect("the head is swapped")
}

#[test]
fn the_left_host_learns_the_model_of_each_head() {
    let log = log();
    let (before, after) = parts(&log);
    let models = [
        "right's model is \"EMB-40 17\"",
        "right's model is \"EMB-7\"",
    ];
    assert_eq!(models.map(|model| count(before, "  left", model)), [1, 0]);
    assert_eq!(models.map(|model| count(after, "  left", model)), [0, 1]);
    assert_eq!(count(&log, "  right", "model is"), 0);
    // The head has loaded a page for each that the controller's host has read, and has
    // itself read as many Null messages.
    for (part, pages) in [(before, 3), (after, 2)] {
        assert_eq!(count(part, "  right", "host loads page"), pages);
        assert_eq!(count(part, "  left", "host reads 523-525"), pages);
        assert_eq!(count(part, "  right", "host reads 523-525"), pages);
    }
}

#[test]
fn nothing_of_the_old_head_is_in_the_log_once_the_link_is_down() {
    let log = log();
    let (_, since) = log.split_once("link down").expect("the link goes down");
    let nothing = "517: 0000, 523-525: 0000 0000 0000; it knows nothing of right any more";
    assert_eq!(count(since, "  left", nothing), 1);
    let of_the_old_head = ["EMB-40", "EMB-4\"", "0 17", "9 letters", "342d", "0037"];
    for words in of_the_old_head {
        assert!(log.contains(words) && !since.contains(words), "{words}");
    }
}

/// The lines that tell what a module does.
fn told(log: &str) -> impl Iterator<Item = &str> {
    log.lines().take_while(|line| !line.is_empty())
}

/// When a line happens, in microseconds.
fn time(line: &str) -> f64 {
    let first = line.split_whitespace().next().expect("a time");
    first.parse().expect("a time in microseconds")
}

/// How long after each page that it hears this module orders one, in microseconds.
fn times_to_answer(log: &str, module: &str) -> Vec<f64> {
    let is_of_the_device = |line: &&str| line.contains(module) && !line.contains("host");
    let own: Vec<&str> = told(log).filter(is_of_the_device).collect();
    let is_answered = |two: &&[&str]| two[0].contains("hears") && two[1].contains("orders");
    let answered = own.windows(2).filter(is_answered);
    answered.map(|two| time(two[1]) - time(two[0])).collect()
}

/// Clause 98 lets silent run 31.4 to 34.6 microseconds, and 01 at least 33.
#[test]
fn each_page_in_the_log_is_answered_within_the_window_of_silent() {
    let log = log();
    for module in ["  left", "  right"] {
        let times = times_to_answer(&log, module);
        assert!(times.len() >= 6, "{times:?}");
        let is_within = |time: &f64| (33.0..=34.6).contains(time);
        assert!(times.iter().all(is_within), "{times:?}");
    }
}
