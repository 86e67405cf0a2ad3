//! `maps make EXAMPLES FOLDER` makes profiles, maps and contents, the same ones each time. `maps measure PROGRAM FOLDER ROUNDS` runs `check` and `translate` over them, and `plan` over plans of many maps. It refuses to go on where an answer isn't the one that the rules give, and prints what they took.
//!
//! The two are two processes, since a child's peak counts what its parent had when it began.
mod taken;

use std::fmt::Write as _;
use std::path::Path;
use std::process::{Command, ExitCode};
use std::{env, fs, io};
use taken::{best, run};

/// The most lines of a profile or a map.
const LINES: usize = 10_000;

/// The most values and lines that one table of a profile is given here.
const VALUES: usize = 100_000;

/// The maps of the plan that is measured.
const PLAN_MAPS: usize = 1_000;

/// A map with its profiles, and message bytes that it translates, if there are some.
struct Case {
    source: String,
    target: String,
    map: String,
    content: String,
}

fn case(source: String, target: String, map: String) -> Case {
    Case {
        source,
        target,
        map,
        content: String::new(),
    }
}

/// The n-th name of a segment, none twice: a letter, and two letters or digits. MSH isn't among the first ten thousand.
fn segment(n: usize) -> String {
    const SIGNS: &[u8; 36] = b"0123456789ABCDEFGHIJKLMNOPQRSTUVWXYZ";
    let sign = |n: usize| char::from(SIGNS[n % 36]);
    format!(
        "{}{}{}",
        char::from(b'A' + (n / 1296) as u8),
        sign(n / 36),
        sign(n)
    )
}

/// The map that leaves all of a profile as it is, made of the profile's lines.
fn identity(profile: &str) -> String {
    let mut map = String::new();
    let mut label = "";
    for line in profile.lines() {
        let words: Vec<&str> = line.split_whitespace().collect();
        match *words.as_slice() {
            ["profile", name, ..] => writeln!(map, "map SAME from {name} to {name}"),
            ["segment", _, "as", own, usage, ..] | ["segment", own, usage, ..] => {
                label = if usage == "X" { "" } else { own };
                match label {
                    "" => Ok(()),
                    own => writeln!(map, "segment {own} from {own}"),
                }
            }
            ["field", number, usage, ..] if usage != "X" && !label.is_empty() => {
                writeln!(map, "  copy {number} from {label}-{number}")
            }
            ["group", own, ..] => writeln!(map, "group {own} each {own}"),
            ["end"] => writeln!(map, "end"),
            _ => Ok(()),
        }
        .expect("a String takes all");
    }
    map
}

fn same(profile: String) -> Case {
    let map = identity(&profile);
    case(profile.clone(), profile, map)
}

/// This many optional segments after MSH, each with this many fields.
fn wide(segments: usize, fields: usize) -> String {
    let mut profile = String::from("profile WIDE\nsegment MSH R 1..1\n");
    for n in 0..segments {
        writeln!(profile, "segment {} O 0..1", segment(n)).expect("a String takes all");
        for field in 1..=fields {
            writeln!(profile, "  field {field} RE 0..1").expect("a String takes all");
        }
    }
    profile
}

/// This many optional groups after MSH, each with one segment.
fn groups(count: usize) -> String {
    let mut profile = String::from("profile WIDE\nsegment MSH R 1..1\n");
    for n in 0..count {
        let name = segment(n);
        writeln!(profile, "group {name}S O 0..1\n  segment {name} R 1..1\nend")
            .expect("a String takes all");
    }
    profile
}

/// This many items that all walk the last of this many segments.
fn last_of(segments: usize) -> Case {
    let last = segment(segments - 1);
    let mut map = String::from("map LAST from WIDE to MANY\nsegment MSH from MSH\n");
    for _ in 0..segments {
        writeln!(map, "segment OBX from {last}").expect("a String takes all");
    }
    let target = "profile MANY\nsegment MSH R 1..1\nsegment OBX O 0..*\n";
    case(wide(segments, 0), target.into(), map)
}

/// A `drop` for each of 9,900 fields.
fn drops() -> Case {
    let mut map = String::from("map DROPS from WIDE to BARE\nsegment MSH from MSH\n");
    for n in 0..11 {
        for field in 1..=900 {
            writeln!(map, "drop {}-{field}", segment(n)).expect("a String takes all");
        }
    }
    case(
        wide(11, 900),
        "profile BARE\nsegment MSH R 1..1\n".into(),
        map,
    )
}

/// The component and subcomponent of leaf n, as many of each as there can be.
fn place(n: usize) -> (usize, usize) {
    (1 + n / 99, 1 + n % 99)
}

/// The length of the n-th subcomponent: none, or one of its own that takes each value of a table.
fn length(n: usize, own: bool) -> String {
    if own {
        format!(" len {}", 6 + n)
    } else {
        String::new()
    }
}

/// A profile whose ZAA-1 has this many required subcomponents, each with a length of its own on request.
fn subcomponents(name: &str, count: usize, table: &str, own: bool) -> String {
    let mut profile = format!(
        "profile {name}\n{table}segment MSH R 1..1\nsegment ZAA R 1..1\n  field 1 R 1..1\n"
    );
    let named = if table.is_empty() { "" } else { " table CODES" };
    for n in 0..count {
        let (comp, sub) = place(n);
        if sub == 1 {
            writeln!(profile, "    comp {comp} R").expect("a String takes all");
        }
        let len = length(n, own);
        writeln!(profile, "      sub {sub} R{len}{named}").expect("a String takes all");
    }
    profile
}

/// The numbers below this one, each behind a space.
fn numbers(count: usize) -> String {
    (0..count).map(|n| format!(" {n}")).collect()
}

/// A table of this many values, in reverse order on request.
fn table(count: usize, turned: bool) -> String {
    let mut line = String::from("table CODES");
    for n in 0..count {
        let value = if turned { count - 1 - n } else { n };
        write!(line, " {value}").expect("a String takes all");
    }
    line.push('\n');
    line
}

/// This many leaves for as many required subcomponents, each with a value of a table of this many, if of any. Each has a length of its own on request.
fn leaves(count: usize, values: usize, turned: bool, own: bool) -> Case {
    let tables = |turned| match values {
        0 => String::new(),
        some => table(some, turned),
    };
    let mut map = String::from(
        "map LEAVES from FROM to TO\nsegment MSH from MSH\nsegment ZAA from ZAA\n  build 1\n",
    );
    for (comp, sub) in (0..count).map(place) {
        writeln!(map, "    at {comp}.{sub} copy ZAA-1.{comp}.{sub}").expect("a String takes all");
    }
    case(
        subcomponents("FROM", count, &tables(false), own),
        subcomponents("TO", count, &tables(turned), own),
        map,
    )
}

/// This many lookups, each in a table of its own with one row, of subcomponents of a table of this many values.
fn lookups(count: usize, values: usize) -> Case {
    let mut map = String::from("map LOOKUPS from FROM to TO\n");
    for n in 0..count {
        writeln!(map, "table T{n}\n  row {n} 0\n  else 1").expect("a String takes all");
    }
    map.push_str("segment MSH from MSH\nsegment ZAA from ZAA\n  build 1\n");
    for (n, (comp, sub)) in (0..count).map(place).enumerate() {
        writeln!(map, "    at {comp}.{sub} lookup T{n} ZAA-1.{comp}.{sub}")
            .expect("a String takes all");
    }
    case(
        subcomponents("FROM", count, &table(values, false), false),
        subcomponents("TO", count, &table(2, false), false),
        map,
    )
}

/// What each map of a plan makes of a field: a copy, or a lookup in a table of its own.
#[derive(Clone, Copy)]
enum Made {
    Copies,
    Lookups,
}

impl Made {
    const ALL: [Made; 2] = [Made::Copies, Made::Lookups];

    /// The file of the plan, and the word for its maps.
    fn name(self) -> &'static str {
        match self {
            Made::Copies => "copies",
            Made::Lookups => "lookups",
        }
    }
}

/// A plan of this many maps that copy or look up a field of a table of this many values, all between the same two profiles.
fn plan(made: Made, maps: usize, values: usize) -> String {
    let mut plan = String::from(
        "plan MAPS\nreceiver PRINTER 127.0.0.1:7001\naccept version 2.5.1\naccept processing P\n",
    );
    let target = match made {
        Made::Copies => table(values, true),
        Made::Lookups => table(2, false),
    };
    for (name, codes) in [("FROM", table(values, false)), ("TO", target)] {
        write!(
            plan,
            "begin profile\nprofile {name}\n{codes}segment MSH R 1..1\nsegment ZAA R 1..1\n  field 1 R 1..1 table CODES\nstop\n",
        )
        .expect("a String takes all");
    }
    for n in 0..maps {
        let (rows, rule) = match made {
            Made::Copies => (String::new(), "copy 1 from ZAA-1"),
            Made::Lookups => (
                format!("table ROWS\n  row {n} 0\n  else 1\n"),
                "build 1 lookup ROWS ZAA-1",
            ),
        };
        write!(plan, "begin map\nmap M{n} from FROM to TO\n{rows}segment MSH from MSH\nsegment ZAA from ZAA\n  {rule}\nstop\n")
            .expect("a String takes all");
    }
    plan
}

const PATIENTS: &str = "profile PATIENTS\nsegment MSH R 1..1\ngroup PATIENT R 1..*\n  segment PID R 1..1\n  group ORDER O 0..*\n    segment OBR R 1..1\n      field 1 RE 0..1\n  end\nend\n";

const ORDERS: &str = "profile ORDERS\nsegment MSH R 1..1\nsegment OBR O 0..*\n  field 1 RE 0..1\n";

const FLATTENED: &str = "map FLATTENED from PATIENTS to ORDERS\nsegment MSH from MSH\nflat each PATIENT\n  flat each ORDER\n    segment OBR from OBR\n      copy 1 from OBR-1\n  end\nend\n";

const HEADER: &str = "MSH|^~\\&|LAB\r";

fn flattened(content: String) -> Case {
    Case {
        content,
        ..case(PATIENTS.into(), ORDERS.into(), FLATTENED.into())
    }
}

/// One field that may come often, copied, or repeated with a leaf.
fn repetitions(rule: &str, content: String) -> Case {
    let profile = "profile OFTEN\nsegment MSH R 1..1\nsegment ZAA R 1..1\n  field 1 RE 0..*\n";
    let map = format!(
        "map OFTEN from OFTEN to OFTEN\nsegment MSH from MSH\nsegment ZAA from ZAA\n  {rule}\n"
    );
    Case {
        content,
        ..case(profile.into(), profile.into(), map)
    }
}

/// The same in language 2.
fn second(plain: Case) -> Case {
    Case {
        map: plain.map.replacen('\n', "\nlanguage 2\n", 1),
        ..plain
    }
}

fn all(examples: &Path) -> io::Result<Vec<(&'static str, Case)>> {
    let example = |name: &str| fs::read_to_string(examples.join(name));
    let values =
        |count: usize, value: &str| format!("{HEADER}ZAA|{}\r", vec![value; count].join("~"));
    let one_order = "PID|1\rOBR|1\r".repeat(4_999);
    let all_orders = format!("PID|1\r{}", "OBR|1\r".repeat(9_998));
    Ok(vec![
        ("same_adt_a01", same(example("adt_a01.profile")?)),
        ("same_oru_r01", same(example("oru_r01.profile")?)),
        ("same_laboratory", same(example("laboratory.profile")?)),
        ("same_20_of_200_fields", same(wide(20, 200))),
        ("same_11_of_900_fields", same(wide(11, 900))),
        ("same_3000_segments", same(wide(3_000, 0))),
        ("same_9990_segments", same(wide(LINES - 10, 0))),
        ("same_3332_groups", same(groups(3_332))),
        ("last_of_1000_segments", last_of(1_000)),
        ("last_of_9990_segments", last_of(LINES - 10)),
        ("drops_of_9900_fields", drops()),
        ("leaves_300", leaves(300, 0, false, false)),
        ("leaves_9702", leaves(9_702, 0, false, false)),
        ("leaves_500_of_500_values", leaves(500, 500, false, false)),
        (
            "leaves_9000_of_100000_values",
            leaves(9_000, VALUES, false, false),
        ),
        (
            "leaves_9000_of_turned_values",
            leaves(9_000, VALUES, true, false),
        ),
        ("leaves_9000_of_lengths", leaves(9_000, VALUES, false, true)),
        ("lookups_2400_of_own_tables", lookups(2_400, VALUES)),
        (
            "patients_with_one_order",
            flattened(format!("{HEADER}{one_order}")),
        ),
        (
            "one_patient_with_all_orders",
            flattened(format!("{HEADER}{all_orders}")),
        ),
        (
            "copied_repetitions",
            repetitions("copy 1 from ZAA-1", values(500_000, "x")),
        ),
        (
            "repeated_repetitions",
            repetitions(
                "repeat 1 from ZAA-1\n    at 1 copy .1",
                values(500_000, "x"),
            ),
        ),
        (
            "chosen_of_80000_values",
            second(repetitions(
                &format!(
                    "repeat 1 from ZAA-1 where 1 is{}\n    at 1 copy .1",
                    numbers(80_000)
                ),
                values(500_000, "x"),
            )),
        ),
        (
            "empty_repetitions",
            repetitions("copy 1 from ZAA-1", values(1_000_000, "")),
        ),
        (
            "one_long_value",
            repetitions("copy 1 from ZAA-1", values(1, &"x".repeat(1_000_000))),
        ),
    ])
}

fn make(examples: &Path, folder: &Path) -> io::Result<()> {
    let mut names = String::new();
    for (name, case) in all(examples)? {
        let at = folder.join(name);
        fs::create_dir_all(&at)?;
        fs::write(at.join("source"), case.source)?;
        fs::write(at.join("target"), case.target)?;
        fs::write(at.join("map"), case.map)?;
        fs::write(at.join("content"), case.content)?;
        names.push_str(name);
        names.push('\n');
    }
    fs::write(folder.join("names"), names)?;
    for made in Made::ALL {
        fs::write(folder.join(made.name()), plan(made, PLAN_MAPS, VALUES))?;
    }
    Ok(())
}

/// What a command takes over the files of a case, and how long its answer is.
fn taken(program: &str, command: &str, at: &Path, rounds: usize) -> io::Result<(String, u64)> {
    let answer = at.join("answer");
    let taken = best(rounds, || {
        let mut words = Command::new(program);
        words
            .arg(command)
            .args(["source", "target", "map"].map(|file| at.join(file)));
        run(&mut words, &at.join("content"), &answer)
    })?;
    let is_wanted = command == "translate" || fs::read(&answer)? == b"accepted\n";
    if taken.status != 0 || !is_wanted {
        return Err(io::Error::other(format!(
            "{}: {command} gave another answer",
            at.display()
        )));
    }
    let milliseconds = taken.seconds * 1e3;
    Ok((
        format!("{milliseconds:.0} | {}", taken.kilobytes),
        fs::metadata(&answer)?.len(),
    ))
}

fn measure(program: &str, folder: &Path, rounds: usize) -> io::Result<()> {
    println!("| Map | Lines | Check, ms | peak kB | Content, bytes | Translate, ms | peak kB | Translation, bytes |");
    println!("|---|---|---|---|---|---|---|---|");
    for name in fs::read_to_string(folder.join("names"))?.lines() {
        let at = folder.join(name);
        let lines = fs::read_to_string(at.join("map"))?.lines().count();
        let (checked, _) = taken(program, "check", &at, rounds)?;
        let content = fs::metadata(at.join("content"))?.len();
        if content == 0 {
            println!("| {name} | {lines} | {checked} | | | | |");
            continue;
        }
        let (translated, bytes) = taken(program, "translate", &at, rounds)?;
        println!("| {name} | {lines} | {checked} | {content} | {translated} | {bytes} |");
    }
    Ok(())
}

/// What it takes to read the plans of many maps.
fn measure_plans(program: &str, folder: &Path, rounds: usize) -> io::Result<()> {
    println!("\n| Plan | Bytes | Read, ms | peak kB |\n|---|---|---|---|");
    for made in Made::ALL {
        let (plan, answer) = (folder.join(made.name()), folder.join("answer"));
        let taken = best(rounds, || {
            run(
                Command::new(program).arg("plan").arg(&plan),
                Path::new("/dev/null"),
                &answer,
            )
        })?;
        if taken.status != 0 {
            return Err(io::Error::other("plan gave another answer"));
        }
        println!(
            "| {PLAN_MAPS} maps of {} of {VALUES} values | {} | {:.0} | {} |",
            made.name(),
            fs::metadata(&plan)?.len(),
            taken.seconds * 1e3,
            taken.kilobytes
        );
    }
    Ok(())
}

fn main() -> ExitCode {
    let words: Vec<String> = env::args().skip(1).collect();
    let words: Vec<&str> = words.iter().map(String::as_str).collect();
    let done = match *words.as_slice() {
        ["make", examples, folder] => make(examples.as_ref(), folder.as_ref()),
        ["measure", program, folder, rounds] => {
            let (folder, rounds) = (folder.as_ref(), rounds.parse().unwrap_or(3));
            measure(program, folder, rounds).and_then(|()| measure_plans(program, folder, rounds))
        }
        _ => {
            eprintln!("maps make EXAMPLES FOLDER | maps measure PROGRAM FOLDER ROUNDS");
            return ExitCode::from(2);
        }
    };
    match done {
        Ok(()) => ExitCode::SUCCESS,
        Err(error) => {
            eprintln!("{error}");
            ExitCode::FAILURE
        }
    }
}
