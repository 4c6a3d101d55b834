//! `plantext` as a program: arguments, exit status and what becomes of OUT; and the
//! way of a text through it and the proved programs.

use std::fs;
use std::path::{Path, PathBuf};
use std::process::{Command, Output};

use crate::texts::{changed, facts, PLANT, RATES, SLOTS};
use crate::{read, read_text, repository};

/// The small plant's new rates as bytes.
const RATE_BYTES: [u8; 8] = [125, 0, 0, 0, 80, 0, 0, 0];

/// What every folder has at first.
const FILES: [&str; 6] =
    ["plant.bin", "plant.txt", "rates.bin", "rates.txt", "slots.bin", "slots.txt"];

/// A folder of the test's own, with the small plant's texts and files.
struct Folder {
    path: PathBuf,
}

impl Folder {
    fn new(name: &str) -> Folder {
        let path = Path::new(env!("CARGO_TARGET_TMPDIR")).join("plantext").join(name);
        if path.exists() {
            fs::remove_dir_all(&path).expect("an old folder goes");
        }
        fs::create_dir_all(&path).expect("a new folder");
        let folder = Folder { path };
        folder.write("plant.txt", changed(&PLANT, &[]).as_bytes());
        folder.write("slots.txt", changed(&SLOTS, &[]).as_bytes());
        folder.write("rates.txt", changed(&RATES, &[]).as_bytes());
        folder.write("plant.bin", &read("crates/formcheck/data/plant.bin"));
        folder.write("slots.bin", &read("crates/formcheck/data/slots.bin"));
        folder.write("rates.bin", &RATE_BYTES);
        folder
    }

    fn write(&self, name: &str, bytes: &[u8]) {
        fs::write(self.path.join(name), bytes).expect("a file of the test");
    }

    fn read(&self, name: &str) -> Vec<u8> {
        fs::read(self.path.join(name)).unwrap_or_else(|error| panic!("{name}: {error}"))
    }

    fn names(&self) -> Vec<String> {
        let entries = fs::read_dir(&self.path).expect("the folder");
        let mut names: Vec<String> = entries
            .map(|entry| entry.expect("an entry").file_name().into_string().expect("a name"))
            .collect();
        names.sort();
        names
    }

    fn run(&self, arguments: &str) -> Output {
        Command::new(env!("CARGO_BIN_EXE_plantext"))
            .args(arguments.split_whitespace())
            .current_dir(&self.path)
            .output()
            .expect("plantext runs")
    }

    /// Runs a command that goes well, and gives what it prints.
    fn printed(&self, arguments: &str) -> String {
        let output = self.run(arguments);
        assert_eq!(text(&output.stderr), "", "{arguments}");
        assert_eq!(output.status.code(), Some(0), "{arguments}");
        text(&output.stdout)
    }

    /// Runs one of the proved programs, and gives what it prints.
    fn proved(&self, program: &str, arguments: &str) -> String {
        let path = repository("target/bin").join(program);
        let path = path.canonicalize().unwrap_or_else(|error| {
            panic!("{}: {error}: run `tools/build` before this", path.display())
        });
        let mut command = Command::new(path);
        command.args(arguments.split_whitespace()).current_dir(&self.path);
        let output = command.output().expect("the program runs");
        assert_eq!(text(&output.stderr), "", "{program} {arguments}");
        text(&output.stdout)
    }

    /// Runs a command that fails with status 1, and gives what it tells.
    fn told(&self, arguments: &str) -> String {
        let output = self.run(arguments);
        assert_eq!(text(&output.stdout), "", "{arguments}");
        assert_eq!(output.status.code(), Some(1), "{arguments}");
        text(&output.stderr)
    }
}

fn text(bytes: &[u8]) -> String {
    String::from_utf8(bytes.to_vec()).expect("a text")
}

#[test]
fn wrong_arguments_print_the_usage() {
    let folder = Folder::new("usage");
    let before = folder.names();
    for arguments in [
        "",
        "help",
        "plant",
        "plant plant.txt",
        "plant plant.txt out.bin more",
        "slots plant.txt slots.txt",
        "slots plant.txt slots.txt out.bin more",
        "rates plant.txt",
        "rates plant.txt rates.txt",
        "rates plant.txt rates.txt out.bin more",
        "show",
        "show plant.bin slots.bin more",
        "show-rates",
        "show-rates rates.bin",
        "show-rates plant.bin rates.bin more",
        "convert plant.txt out.bin",
    ] {
        let output = folder.run(arguments);
        assert_eq!(output.status.code(), Some(2), "{arguments}");
        assert_eq!(text(&output.stdout), "", "{arguments}");
        assert!(text(&output.stderr).starts_with("usage: plantext plant TEXT OUT "), "{arguments}");
    }
    assert_eq!(folder.names(), before);
}

#[test]
fn texts_become_files() {
    let folder = Folder::new("texts_become_files");
    assert_eq!(folder.printed("plant plant.txt out.bin"), "");
    assert_eq!(folder.read("out.bin"), folder.read("plant.bin"));
    // A file that is there is replaced.
    assert_eq!(folder.printed("slots plant.txt slots.txt out.bin"), "");
    assert_eq!(folder.read("out.bin"), folder.read("slots.bin"));
    assert_eq!(folder.printed("rates plant.txt rates.txt out.bin"), "");
    assert_eq!(folder.read("out.bin"), RATE_BYTES);
    let mut expected = FILES.to_vec();
    expected.insert(0, "out.bin");
    assert_eq!(folder.names(), expected);
}

/// The order is that of the plant's products, whose names a plant file has not.
#[test]
fn rates_become_a_list_in_the_plants_order() {
    let folder = Folder::new("rates");
    for (plant, text) in [
        ("plant.txt", "rate B 80\nrate A 125 grams per minute\n"),
        ("plant.bin", "# retooled\nrate P2 80\n\nrate P1 125\n"),
    ] {
        folder.write("new.txt", text.as_bytes());
        folder.printed(&format!("rates {plant} new.txt out.bin"));
        assert_eq!(folder.read("out.bin"), RATE_BYTES, "{plant}");
    }
    // A plant's text gives its own rates.
    folder.printed("rates plant.txt plant.txt out.bin");
    assert_eq!(folder.read("out.bin"), [100, 0, 0, 0, 50, 0, 0, 0]);
    assert_eq!(folder.read("out.bin"), folder.read("plant.bin")[104..112]);
}

#[test]
fn files_become_texts_and_files_again() {
    let folder = Folder::new("files_become_texts");
    let plant = folder.printed("show plant.bin");
    assert!(plant.contains("\ndemand C1 P2 week 2 200000 grams\n"), "{plant}");
    assert!(!plant.contains("mounted") && !plant.contains("week-before"), "{plant}");
    folder.write("shown-plant.txt", plant.as_bytes());
    folder.printed("plant shown-plant.txt again-plant.bin");
    assert_eq!(folder.read("again-plant.bin"), folder.read("plant.bin"));

    let slots = folder.printed("show plant.bin slots.bin");
    assert!(slots.contains("\nweek 2\nrun P2 3000 minutes\n"), "{slots}");
    folder.write("shown-slots.txt", slots.as_bytes());
    folder.printed("slots plant.bin shown-slots.txt again-slots.bin");
    assert_eq!(folder.read("again-slots.bin"), folder.read("slots.bin"));

    let rates = folder.printed("show-rates plant.bin rates.bin");
    assert_eq!(rates, "rate P1 125 grams per minute\nrate P2 80 grams per minute\n");
    folder.write("shown-rates.txt", rates.as_bytes());
    folder.printed("rates plant.bin shown-rates.txt again-rates.bin");
    assert_eq!(folder.read("again-rates.bin"), folder.read("rates.bin"));
}

/// Each shape of section 12: mounted or not, shut or not.
#[test]
fn files_of_kind_4_become_texts_and_files_again() {
    let folder = Folder::new("kind_4");
    for (lines, shown) in [
        ("mounted B", "\n\nmounted P2\nweek-before producing\n\n"),
        ("mounted A\nweek-before shut", "\n\nmounted P1\nweek-before shut\n\n"),
        ("week-before producing", "\n\nweek-before producing\n\n"),
        ("week-before shut", "\n\nweek-before shut\n\n"),
    ] {
        folder.write("plant.txt", changed(&PLANT, &[(19, lines)]).as_bytes());
        folder.printed("plant plant.txt plant.bin");
        let plant = folder.printed("show plant.bin");
        assert!(plant.contains(shown), "{plant}");
        folder.write("shown.txt", plant.as_bytes());
        folder.printed("plant shown.txt again.bin");
        assert_eq!(folder.read("again.bin"), folder.read("plant.bin"), "{lines}");
    }
}

/// From the texts of a plan to a judged plan, and back to the same slots: what
/// planreport prints, and the slots as they are shown. The lengths are those of the
/// plan file and of the slot file.
fn through_all_programs(
    name: &str,
    plant: &str,
    slots: &str,
    lengths: [usize; 2],
) -> (String, String) {
    let folder = Folder::new(name);
    folder.write("plant.txt", plant.as_bytes());
    folder.write("slots.txt", slots.as_bytes());
    folder.printed("plant plant.txt plant.bin");
    folder.printed("slots plant.txt slots.txt slots.bin");
    let written = lengths.map(|length| format!("written {length}\n"));
    assert_eq!(folder.proved("planwrite", "plant.bin slots.bin plan.bin"), written[0]);
    let report = folder.proved("planreport", "plant.bin plan.bin");
    assert_eq!(folder.proved("planslots", "plant.bin plan.bin again.bin"), written[1]);
    assert_eq!(folder.read("again.bin"), folder.read("slots.bin"));
    let shown = folder.printed("show plant.txt again.bin");
    assert_eq!(facts(&shown), facts(slots));
    (report, shown)
}

const YEAR_END_RUNS: &str = "
1 0 0 0 6000
1 1 40 6040 9040
2 1 0 0 4000
2 0 30 4030 7530
4 1 40 40 4040
4 0 30 4070 9070
5 0 0 0 3300
";

/// A shut week between producing weeks, which sells, and one at the end.
#[test]
fn shut_weeks_go_through_all_programs() {
    let plant = read_text("examples/year-end-6-weeks.plant.txt");
    let slots = read_text("examples/year-end-6-weeks.slots.txt");
    let (report, shown) = through_all_programs("shut_weeks", &plant, &slots, [526, 152]);
    assert_eq!(report, format!("passed 21450000{YEAR_END_RUNS}"));
    assert!(shown.ends_with("\n\nweek 6\n"), "{shown}");
}

/// The same where the week between is a bare line.
#[test]
fn a_bare_week_goes_through_all_programs() {
    let plant = read_text("examples/year-end-6-weeks.plant.txt");
    let slots = read_text("examples/year-end-6-weeks.slots.txt");
    let (before, rest) = slots.split_once("\nweek 3\n").expect("week 3");
    let (_, after) = rest.split_once("\nweek 4\n").expect("week 4");
    let slots = format!("{before}\nweek 3\nweek 4\n{after}");
    let (report, shown) = through_all_programs("bare_week", &plant, &slots, [526, 152]);
    assert_eq!(report, format!("passed 13100000{YEAR_END_RUNS}"));
    assert!(shown.contains("\n\nweek 3\n\nweek 4\n"), "{shown}");
}

/// With B mounted the first run pays a changeover (request 2026-02); whether the week
/// before was shut changes nothing.
#[test]
fn a_mounted_product_goes_through_all_programs() {
    let from_b = "passed 8150000\n1 0 30 30 5030\n1 1 40 5070 7070\n";
    let from_a_or_nothing = "passed 8650000\n1 0 0 0 5000\n1 1 40 5040 7040\n";
    let week_2 = "2 1 0 0 3000\n2 0 30 3030 5030\n";
    let slots = read_text("examples/small.slots.txt");
    for (name, line, week_1) in [
        ("small-b-mounted", "", from_b),
        ("small-b-mounted", "week-before shut", from_b),
        ("small", "mounted A", from_a_or_nothing),
        ("small", "week-before shut", from_a_or_nothing),
    ] {
        let plant = read_text(&format!("examples/{name}.plant.txt")) + line;
        let (report, _) = through_all_programs("mounted", &plant, &slots, [222, 59]);
        assert_eq!(report, format!("{week_1}{week_2}"), "{name} {line}");
    }
}

/// The weeks that are left at the end of the year, on the retooled line (request 2026-03).
#[test]
fn a_rolled_plant_goes_through_all_programs() {
    let plant = read_text("examples/year-end-after-week-3.plant.txt");
    let slots = read_text("examples/year-end-after-week-3.slots.txt");
    let (report, _) = through_all_programs("rolled_plan", &plant, &slots, [322, 89]);
    assert_eq!(report, "passed 10230000\n1 0 0 0 3440\n2 0 0 0 3200\n2 1 40 3240 5740\n");
}

/// The year's end, taken over after week 3 by a retooled line (request 2026-03).
#[test]
fn a_take_over_goes_through_all_programs() {
    let folder = Folder::new("take_over");
    for text in ["plant.txt", "slots.txt", "rates.txt"] {
        folder.write(text, &read(&format!("examples/year-end-6-weeks.{text}")));
    }
    folder.printed("plant plant.txt plant.bin");
    folder.printed("slots plant.txt slots.txt slots.bin");
    folder.printed("rates plant.txt rates.txt rates.bin");
    assert_eq!(folder.proved("planwrite", "plant.bin slots.bin plan.bin"), "written 526\n");
    let rolled = folder.proved("planroll", "plant.bin plan.bin 3 rates.bin rolled.bin");
    assert_eq!(rolled, "written 279\n");
    let shown = folder.printed("show plant.txt rolled.bin");
    assert_eq!(facts(&shown), facts(&read_text("examples/year-end-after-week-3.plant.txt")));
    folder.write("shown.txt", shown.as_bytes());
    folder.printed("plant shown.txt again.bin");
    assert_eq!(folder.read("again.bin"), folder.read("rolled.bin"));
}

#[test]
fn the_plants_text_has_the_names() {
    let folder = Folder::new("names");
    let slots = folder.printed("show plant.txt slots.bin");
    assert_eq!(
        slots,
        "week 1\nrun A 5000 minutes\nrun B 2000 minutes\nsell C1 A 400000 grams\n\
         sell C1 B 100000 grams\n\nweek 2\nrun B 3000 minutes\nrun A 2000 minutes\n\
         sell C1 A 300000 grams\nsell C1 B 150000 grams\n"
    );
    assert!(folder.printed("show plant.txt").contains("\nrate A 100 grams per minute\n"));
    assert_eq!(
        folder.printed("show-rates plant.txt rates.bin"),
        "rate A 125 grams per minute\nrate B 80 grams per minute\n"
    );
    // A plant file of the same products and customers, such as the plant's own.
    assert_eq!(folder.printed("show plant.txt plant.bin"), folder.printed("show plant.txt"));
    assert_eq!(folder.printed("show plant.bin plant.bin"), folder.printed("show plant.bin"));
}

/// A rolled plant (request 2026-03) has fewer weeks than the plant with its names, and may
/// owe up to the limit of kind 4.
#[test]
fn a_rolled_plant_is_shown_with_the_plants_names() {
    let folder = Folder::new("rolled");
    let rolled = [
        (1, "weeks 1"),
        (7, "rate A 125"),
        (19, "mounted B\nweek-before shut\nopening-inventory B 7"),
        (20, "opening-backlog C1 A 1600000000"),
        (22, ""),
        (24, ""),
    ];
    folder.write("rolled.txt", changed(&PLANT, &rolled).as_bytes());
    folder.printed("plant rolled.txt rolled.bin");
    let shown = folder.printed("show plant.txt rolled.bin");
    assert_eq!(shown, folder.printed("show rolled.txt"));
    for lines in [
        "weeks 1\n",
        "\nmounted B\nweek-before shut\n",
        "\nrate A 125 grams per minute\n",
        "\nopening-inventory B 7 grams\n",
        "\nopening-backlog C1 A 1600000000 grams\n",
    ] {
        assert!(shown.contains(lines), "{shown}");
    }
    folder.write("shown.txt", shown.as_bytes());
    folder.printed("plant shown.txt again.bin");
    assert_eq!(folder.read("again.bin"), folder.read("rolled.bin"));
    let numbered = folder.printed("show rolled.bin");
    assert!(numbered.contains("\nmounted P2\nweek-before shut\n"), "{numbered}");
    assert!(numbered.contains("\nopening-backlog C1 P1 1600000000 grams\n"), "{numbered}");
}

#[test]
fn a_fault_leaves_the_output_as_it_was() {
    let folder = Folder::new("faults");
    folder.write("bad-plant.txt", changed(&PLANT, &[(7, "rate A 0"), (3, "")]).as_bytes());
    folder.write("bad-slots.txt", changed(&SLOTS, &[(2, "run D 5000")]).as_bytes());
    folder.write("bad-rates.txt", changed(&RATES, &[(1, "rate A 0"), (2, "")]).as_bytes());
    folder.write("out.bin", b"as it was");
    let before = folder.names();
    let plant_faults =
        "bad-plant.txt:7: 0 grams per minute is out of limits; expected a rate of 1 \
                        to 100000 grams per minute\nbad-plant.txt:24: shortest-run is missing; \
                        expected a line: shortest-run NUMBER minutes\n";
    let slots_faults = "bad-slots.txt:2: unknown product \"D\"; expected one of A, B\n";
    let rates_faults =
        "bad-rates.txt:1: 0 grams per minute is out of limits; expected a rate of 1 \
                        to 100000 grams per minute\nbad-rates.txt:2: product B has no rate; \
                        expected a line: rate B NUMBER grams per minute\n";
    for out in ["out.bin", "new.bin"] {
        assert_eq!(folder.told(&format!("rates bad-plant.txt rates.txt {out}")), plant_faults);
        assert_eq!(folder.told(&format!("rates plant.txt bad-plant.txt {out}")), plant_faults);
        assert_eq!(folder.told(&format!("rates plant.txt bad-rates.txt {out}")), rates_faults);
        assert_eq!(folder.told(&format!("plant bad-plant.txt {out}")), plant_faults);
        assert_eq!(folder.told(&format!("slots bad-plant.txt slots.txt {out}")), plant_faults);
        assert_eq!(folder.told(&format!("slots plant.txt bad-slots.txt {out}")), slots_faults);
    }
    assert_eq!(folder.read("out.bin"), b"as it was");
    assert_eq!(folder.names(), before);
}

#[test]
fn files_that_are_not_good_are_refused() {
    let folder = Folder::new("refusals");
    for (name, sample) in [("rate.bin", "plant-5-rate.bin"), ("empty.bin", "plant-1-empty.bin")] {
        folder.write(name, &read(&format!("crates/formcheck/data/{sample}")));
    }
    folder.write("product.bin", &read("crates/formcheck/data/slots-24-product.bin"));
    let out_of_range = "rate.bin: refused 5: a number of the plant is out of its range\n";
    assert_eq!(folder.told("show rate.bin"), out_of_range);
    assert_eq!(folder.told("show rate.bin slots.bin"), out_of_range);
    assert_eq!(folder.told("slots rate.bin slots.txt out.bin"), out_of_range);
    assert_eq!(
        folder.told("show plant.bin product.bin"),
        "product.bin: refused 24: a week has more slots than products, or a slot's product is \
         not one of the plant's\n"
    );
    let no_plant = "refused 1: it is too short for a plant file's contents, or its kind, count of \
                    sections or section numbers are not a plant file's\n";
    assert_eq!(folder.told("show slots.bin"), format!("slots.bin: {no_plant}"));
    assert_eq!(folder.told("show empty.bin"), format!("empty.bin: {no_plant}"));
    folder.write("plan.bin", &read("crates/formcheck/data/plan.bin"));
    assert!(folder.told("show plant.bin plan.bin").starts_with("plan.bin: refused 21: "));
    assert!(folder.told("show plant.bin rates.bin").starts_with("rates.bin: refused 21: "));
}

/// A plant file beside a plant with its names.
#[test]
fn rolled_plants_that_are_not_good_are_refused() {
    let folder = Folder::new("rolled_refusals");
    folder.write("rate.bin", &read("crates/formcheck/data/plant-5-rate.bin"));
    assert_eq!(
        folder.told("show plant.txt rate.bin"),
        "rate.bin: refused 5: a number of the plant is out of its range\n"
    );
    let plant = folder.read("plant.bin");
    folder.write("cut.bin", &plant[..plant.len() - 1]);
    assert!(folder.told("show plant.txt cut.bin").starts_with("cut.bin: refused 2: "));
    // Another plant's names are of no use.
    folder.write("other.txt", &read("examples/year-end-6-weeks.plant.txt"));
    folder.printed("plant other.txt other.bin");
    assert_eq!(
        folder.told("show plant.txt other.bin"),
        "other.bin: its counts of products and customers are 2 and 2; expected 2 and 1, as in \
         plant.txt\n"
    );
    assert_eq!(
        folder.told("show other.bin plant.bin"),
        "plant.bin: its counts of products and customers are 2 and 1; expected 2 and 2, as in \
         other.bin\n"
    );
}

#[test]
fn lists_of_rates_that_are_not_good_are_refused() {
    let folder = Folder::new("rate_refusals");
    let stretched = [RATE_BYTES.as_slice(), &[0]].concat();
    for (name, list) in
        [("cut.bin", &RATE_BYTES[..7]), ("stretched.bin", &stretched), ("empty.bin", &[])]
    {
        folder.write(name, list);
        assert_eq!(
            folder.told(&format!("show-rates plant.txt {name}")),
            format!("{name}: refused 4: it is not 4 bytes for each of the plant's products\n")
        );
    }
    folder.write("range.bin", &[125, 0, 0, 0, 0, 0, 0, 0]);
    assert_eq!(
        folder.told("show-rates plant.txt range.bin"),
        "range.bin: refused 5: a rate is out of its range\n"
    );
}

#[test]
fn an_input_is_never_written_over() {
    let folder = Folder::new("inputs");
    folder.write("shown.txt", b"rate P1 125\nrate P2 80\n");
    let told = |name: &str| format!("{name}: is read from; expected another file to write to\n");
    assert_eq!(folder.told("plant plant.txt plant.txt"), told("plant.txt"));
    assert_eq!(folder.told("slots plant.txt slots.txt ./plant.txt"), told("./plant.txt"));
    assert_eq!(folder.told("slots plant.txt slots.txt slots.txt"), told("slots.txt"));
    assert_eq!(folder.told("rates plant.txt rates.txt plant.txt"), told("plant.txt"));
    assert_eq!(folder.told("rates plant.txt rates.txt ./rates.txt"), told("./rates.txt"));
    assert_eq!(folder.told("rates plant.bin shown.txt plant.bin"), told("plant.bin"));
    assert_eq!(folder.read("plant.txt"), changed(&PLANT, &[]).as_bytes());
    assert_eq!(folder.read("slots.txt"), changed(&SLOTS, &[]).as_bytes());
    assert_eq!(folder.read("rates.txt"), changed(&RATES, &[]).as_bytes());
    assert_eq!(folder.read("plant.bin"), read("crates/formcheck/data/plant.bin"));
}

#[cfg(unix)]
#[test]
fn a_link_or_a_pipe_is_written_through() {
    use std::os::unix::fs::{symlink, FileTypeExt};

    let folder = Folder::new("links");
    folder.write("out.bin", b"as it was");
    symlink("out.bin", folder.path.join("link")).expect("a new link");
    folder.printed("plant plant.txt link");
    assert_eq!(folder.read("out.bin"), folder.read("plant.bin"));
    assert!(folder.path.join("link").is_symlink());

    let pipe = folder.path.join("pipe");
    let made = Command::new("mkfifo").arg(&pipe).status().expect("mkfifo runs");
    assert!(made.success());
    let reader = {
        let pipe = pipe.clone();
        std::thread::spawn(move || fs::read(pipe).expect("the pipe is read"))
    };
    folder.printed("plant plant.txt pipe");
    // Before the reader is waited for: it would wait for ever on a pipe that was replaced.
    assert!(fs::metadata(&pipe).expect("the pipe").file_type().is_fifo());
    assert_eq!(reader.join().expect("the reader ends"), folder.read("plant.bin"));

    // `rt ci` refuses a checkout with links in it.
    fs::remove_file(folder.path.join("link")).expect("the link can be removed");
}

#[test]
fn files_that_cannot_be_read_or_written_are_told() {
    let folder = Folder::new("unreadable");
    for arguments in [
        "plant none.txt out.bin",
        "slots none.txt slots.txt out.bin",
        "rates none.txt rates.txt out.bin",
        "rates plant.txt none.txt out.bin",
        "show none.txt",
        "show plant.txt none.txt",
        "show-rates none.txt rates.bin",
        "show-rates plant.txt none.txt",
    ] {
        assert!(folder.told(arguments).starts_with("none.txt: cannot be read: "), "{arguments}");
    }
    assert!(folder
        .told("plant plant.txt none/out.bin")
        .starts_with("none/out.bin: cannot be written: "));
    fs::create_dir(folder.path.join("folder")).expect("a new folder");
    assert!(folder.told("plant plant.txt folder").starts_with("folder: cannot be written: "));
    let mut expected = FILES.to_vec();
    expected.insert(0, "folder");
    assert_eq!(folder.names(), expected);
}

#[test]
fn the_usage_is_the_documents() {
    let folder = Folder::new("document");
    let usage = text(&folder.run("").stderr);
    let document = fs::read_to_string(repository("docs/TEXT.md")).expect("the document");
    for line in usage.lines() {
        assert!(document.contains(line.trim_start_matches("usage:").trim()), "{line}");
    }
}
