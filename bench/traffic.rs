//! `traffic FOLDER`: makes the streams that are measured, the same ones each time.
//!
//! Each is a file of framed messages. Names are those of `measure.rs`.
use std::fmt::Write as _;
use std::path::Path;
use std::{env, fs, io};

/// The longest content that a receiver takes.
const LONGEST: usize = 1_048_576;

/// Numbers that look like chance and are the same each time (xorshift64*).
struct Dice(u64);

impl Dice {
    fn next(&mut self) -> u64 {
        self.0 ^= self.0 >> 12;
        self.0 ^= self.0 << 25;
        self.0 ^= self.0 >> 27;
        self.0.wrapping_mul(0x2545_f491_4f6c_dd1d) >> 16
    }

    fn below(&mut self, limit: u64) -> u64 {
        self.next() % limit
    }

    fn one<'a>(&mut self, of: &[&'a str]) -> &'a str {
        of[self.below(of.len() as u64) as usize]
    }

    fn digits(&mut self, count: usize) -> String {
        (0..count)
            .map(|_| char::from(b'0' + self.below(10) as u8))
            .collect()
    }

    fn day(&mut self) -> String {
        format!(
            "{}{:02}{:02}",
            1930 + self.below(90),
            1 + self.below(12),
            1 + self.below(28)
        )
    }

    fn moment(&mut self) -> String {
        let (hour, minute) = (self.below(24), self.below(60));
        format!(
            "2024{:02}{:02}{hour:02}{minute:02}30",
            1 + self.below(12),
            1 + self.below(28)
        )
    }
}

const FAMILIES: [&str; 12] = [
    "ARDEN",
    "BELMORE",
    "CASTLETON",
    "DRAYCOTT",
    "FENWICK",
    "GARROW",
    "HOLLIS",
    "KESTREL",
    "MARCHANT",
    "O'DOWD",
    "QUILLER",
    "VAN DER BERG",
];
const GIVEN: [&str; 10] = [
    "ALMA", "BRUNO", "CLARA", "DAMIAN", "EDITH", "FELIX", "GRETA", "HUGO", "INES", "JONAS",
];
const STREETS: [&str; 5] = [
    "MILL LANE",
    "CHURCH ROW",
    "RIVER WALK",
    "LINDEN COURT",
    "HARBOUR STREET",
];
const TOWNS: [&str; 4] = ["SOUTHWICK", "NORTHFORD", "EASTMERE", "WESTHAVEN"];
const TESTS: [(&str, &str, &str, &str); 8] = [
    (
        "718-7",
        "Hemoglobin [Mass/volume] in Blood",
        "g/dL",
        "12.0-17.0",
    ),
    (
        "777-3",
        "Platelets [#/volume] in Blood by Automated count",
        "10*9/L",
        "150-400",
    ),
    (
        "789-8",
        "Erythrocytes [#/volume] in Blood by Automated count",
        "10*12/L",
        "4-6",
    ),
    (
        "787-2",
        "MCV [Entitic volume] by Automated count",
        "fL",
        "80-100",
    ),
    (
        "2951-2",
        "Sodium [Moles/volume] in Serum or Plasma",
        "mmol/L",
        "135-145",
    ),
    (
        "2823-3",
        "Potassium [Moles/volume] in Serum or Plasma",
        "mmol/L",
        "3.5-5.1",
    ),
    (
        "2160-0",
        "Creatinine [Mass/volume] in Serum or Plasma",
        "mg/dL",
        "0.6-1.3",
    ),
    (
        "1988-5",
        "C reactive protein [Mass/volume] in Serum or Plasma",
        "mg/L",
        "0-10",
    ),
];
const AUTHORITY: &str = "HOSP&2.16.840.1.999999.2&ISO";

fn header(dice: &mut Dice, sender: &str, kind: &str, number: u64) -> String {
    let at = dice.moment();
    format!(
        "MSH|^~\\&|{sender}^2.16.840.1.999999.1.8^ISO|WESTHAVEN|GATEWAY|HUB|{at}||{kind}|M{number:07}|P|2.5.1|||AL|NE|GBR|UNICODE UTF-8\r"
    )
}

fn doctor(dice: &mut Dice) -> String {
    format!(
        "{}^{}^{}^^^DR^^^{AUTHORITY}^L^^^EI",
        dice.digits(5),
        dice.one(&FAMILIES),
        dice.one(&GIVEN)
    )
}

/// How a message breaks its profile, if it does: one in fifty.
#[derive(PartialEq)]
enum Slip {
    None,
    NoIdentifier,
    UnknownSex,
    LongSex,
    Control,
}

fn slip(dice: &mut Dice) -> Slip {
    match dice.below(200) {
        0 => Slip::NoIdentifier,
        1 => Slip::UnknownSex,
        2 => Slip::LongSex,
        3 => Slip::Control,
        _ => Slip::None,
    }
}

fn patient(dice: &mut Dice, slip: &Slip) -> String {
    let sex = match slip {
        Slip::UnknownSex => "Q",
        Slip::LongSex => "FEMALE",
        Slip::Control => "\u{7}",
        _ => dice.one(&["F", "M", "U", "\"\"", ""]),
    };
    let identifiers = match slip {
        Slip::NoIdentifier => String::new(),
        _ => format!(
            "{}^^^{AUTHORITY}^MR~{}^^^NHI&2.16.840.1.999999.3&ISO^NI",
            dice.digits(8),
            dice.digits(8)
        ),
    };
    let (family, given, birth) = (dice.one(&FAMILIES), dice.one(&GIVEN), dice.day());
    let (street, town) = (dice.one(&STREETS), dice.one(&TOWNS));
    let (house, code, mobile) = (dice.below(200), dice.digits(5), dice.digits(6));
    format!(
        "PID|1||{identifiers}||{family}^{given}^E^^^^L||{birth}|{sex}||2106-3^White^HL70005|{house}&{street}&{house}^FLAT 9^{town}^SW^{code}^GBR^H||^PRN^PH^^44^1632^{mobile}~^PRN^CP^^44^7700^{mobile}|^WPN^PH^^44^1632^{mobile}|eng^English^ISO639|M^Married^HL70002||{}^^^{AUTHORITY}^AN|||||{town}|N|||||N|N\r",
        dice.digits(8)
    )
}

/// An admission (ADT^A01).
fn admission(dice: &mut Dice, number: u64) -> String {
    let slip = slip(dice);
    let mut text = header(dice, "ADMIT", "ADT^A01^ADT_A01", number);
    let _ = write!(text, "EVN||{}||||{}\r", dice.moment(), dice.moment());
    text += &patient(dice, &slip);
    if dice.below(2) == 0 {
        let _ = write!(
            text,
            "NK1|1|{}^{}^^^^^L|CHD^^HL70063|41 CHURCH ROW^^SOUTHWICK^^30455^GBR^H|^PRN^PH^^44^1632^831900||C^Emergency Contact^HL70131\r",
            dice.one(&FAMILIES),
            dice.one(&GIVEN)
        );
    }
    let (ward, attending, consulting, admitting) = (
        dice.one(&["W02", "PED", "ED", "ICU"]),
        doctor(dice),
        doctor(dice),
        doctor(dice),
    );
    let _ = write!(
        text,
        "PV1|1|{}|{ward}^17^3^{AUTHORITY}|A||MAT^8^4|{attending}|{consulting}||MED||||1|||{admitting}||{}^^^{AUTHORITY}^VN|||||||||||||||||||||||||{}\r",
        dice.one(&["I", "E", "O"]),
        dice.digits(8),
        dice.moment()
    );
    for i in 0..dice.below(4) {
        let _ = write!(
            text,
            "OBX|{}|NM|29463-7^Body weight^LN||{}|kg|||||F\r",
            i + 1,
            40 + dice.below(80)
        );
    }
    for i in 0..dice.below(3) {
        let _ = write!(
            text,
            "AL1|{}|DA^^HL70127|7980^PENICILLIN G \\T\\ OTHERS^RXNORM|SV|RASH\r",
            i + 1
        );
    }
    for i in 0..1 + dice.below(3) {
        let at = dice.moment();
        let _ = write!(
            text,
            "DG1|{}||E11.9^Type 2 diabetes mellitus without complications^I10||{at}|A\r",
            i + 1
        );
    }
    for i in 0..dice.below(5) {
        let policy = dice.digits(8);
        let _ = write!(
            text,
            "IN1|{}|PLAN9^FAMILY^L|{policy}^^^PAYER^NIIP|NATIONAL HEALTH FUND||||GRP32931|||20240101|20241231|||UPTON^EDITH|SEL\r",
            i + 1
        );
    }
    text
}

/// The least that an admission says.
fn small_admission(dice: &mut Dice, number: u64) -> String {
    let mut text = header(dice, "ADMIT", "ADT^A01^ADT_A01", number);
    let _ = write!(text, "EVN||{}\r", dice.moment());
    let (family, given) = (dice.one(&FAMILIES), dice.one(&GIVEN));
    let _ = write!(
        text,
        "PID|1||{}^^^{AUTHORITY}^MR||{family}^{given}^^^^^L||{}|{}||2106-3^White^HL70005|^^{}^SW^^^H\r",
        dice.digits(8),
        dice.day(),
        dice.one(&["F", "M"]),
        dice.one(&TOWNS)
    );
    let _ = write!(
        text,
        "PV1|1|I|W02^17^3^{AUTHORITY}|A|||{}||||||||||||{}^^^{AUTHORITY}^VN\r",
        doctor(dice),
        dice.digits(8)
    );
    text
}

fn result_line(dice: &mut Dice, i: u64) -> String {
    let (code, name, unit, range) = TESTS[dice.below(TESTS.len() as u64) as usize];
    let local = dice.digits(3);
    format!(
        "OBX|{i}|NM|{code}^{name}^LN^L{local}^LOCAL^99LAB||{}.{}|{unit}^{unit}^UCUM|{range}|{}|||F|||{}||{}\r",
        dice.below(300),
        dice.below(10),
        dice.one(&["N", "L", "H"]),
        dice.moment(),
        dice.digits(5)
    )
}

fn order(dice: &mut Dice, i: u64) -> String {
    let (placer, filler, at) = (dice.digits(8), dice.digits(8), dice.moment());
    let (orderer, collector) = (doctor(dice), doctor(dice));
    format!(
        "ORC|RE|{placer}^ADMIT|{filler}^LAB||CM||||{at}|||{orderer}\rOBR|{i}|{placer}^ADMIT|{filler}^LAB|24356-8^Urinalysis complete panel - Urine^LN|||{at}||||L||fasting|||{collector}||||||{at}||LAB|F\r"
    )
}

/// A laboratory report (ORU^R01) of this many orders, each of this many results.
fn report(dice: &mut Dice, number: u64, orders: u64, results: u64) -> String {
    let slip = slip(dice);
    let mut text = header(dice, "LAB", "ORU^R01^ORU_R01", number);
    text += &patient(dice, &slip);
    let _ = write!(text, "PV1|1|I|W01^16^3^{AUTHORITY}||||{}\r", doctor(dice));
    for i in 0..orders {
        text += &order(dice, i + 1);
        for k in 0..results {
            text += &result_line(dice, k + 1);
        }
        if dice.below(3) == 0 {
            text += "NTE|1|L|Telephoned to ward at 10:42.\\.br\\Read back by nurse in charge.~Ratio A\\F\\B not calculated; tube marked 1\\S\\2.\r";
        }
    }
    text
}

fn some_report(dice: &mut Dice, number: u64) -> String {
    let (orders, results) = (1 + dice.below(3), 2 + dice.below(5));
    report(dice, number, orders, results)
}

/// A report without a slip that is as long as the content may be.
fn long_report(dice: &mut Dice, longest: usize) -> String {
    let mut text = header(dice, "LAB", "ORU^R01^ORU_R01", 1);
    text += &patient(dice, &Slip::None);
    text += &order(dice, 1);
    let mut count = 0;
    loop {
        count += 1;
        let line = result_line(dice, count % 9_999 + 1);
        if text.len() + line.len() > longest {
            return text;
        }
        text += &line;
    }
}

/// A report whose last segment is filled up with copies of a piece.
fn filled(dice: &mut Dice, begin: &str, piece: &str, longest: usize) -> String {
    let mut text = header(dice, "LAB", "ORU^R01^ORU_R01", 1);
    text += &patient(dice, &Slip::None);
    text += &order(dice, 1);
    text += begin;
    while text.len() + piece.len() < longest {
        text += piece;
    }
    text.push('\r');
    text
}

/// A report with a document in it, encoded in base64 (HL7 v2.5.1 chapter 2A, "ED"), that is as long as the content may be.
fn document(dice: &mut Dice, longest: usize) -> String {
    const DIGITS: &[u8; 64] = b"ABCDEFGHIJKLMNOPQRSTUVWXYZabcdefghijklmnopqrstuvwxyz0123456789+/";
    let mut text = report(dice, 1, 1, 3);
    text += "OBX|4|ED|PDF^Report^L||^application^pdf^Base64^JVBERi0x";
    let tail = "||||||F\r";
    while text.len() + tail.len() < longest {
        text.push(char::from(DIGITS[dice.below(64) as usize]));
    }
    text + tail
}

fn save(folder: &Path, name: &str, contents: &[String]) -> io::Result<()> {
    let mut stream = Vec::new();
    for content in contents {
        stream.push(0x0b);
        stream.extend_from_slice(content.as_bytes());
        stream.extend_from_slice(&[0x1c, 0x0d]);
    }
    let bytes: usize = contents.iter().map(String::len).sum();
    println!(
        "{name}: {} messages of {} bytes on average",
        contents.len(),
        bytes / contents.len()
    );
    fs::write(folder.join(name), stream)
}

fn save_copies(folder: &Path, name: &str, content: String, total: usize) -> io::Result<()> {
    let count = (total / content.len()).max(1);
    save(folder, name, &vec![content; count])
}

fn main() -> io::Result<()> {
    let folder = env::args().nth(1).unwrap_or_else(|| ".".to_string());
    let folder = Path::new(&folder);
    let mut dice = Dice(0x5eed_0000_2024_1113);
    let dice = &mut dice;
    let admissions: Vec<String> = (0..16_000).map(|i| admission(dice, i)).collect();
    save(folder, "admissions", &admissions)?;
    let reports: Vec<String> = (0..10_000).map(|i| some_report(dice, i)).collect();
    save(folder, "reports", &reports)?;
    let many = long_report(dice, LONGEST);
    let lines: Vec<&str> = many.split_inclusive('\r').take(4 + 5_000).collect();
    save_copies(folder, "results_5000", lines.concat(), 24_000_000)?;
    let longest = LONGEST - 64;
    let long = long_report(dice, longest);
    save_copies(folder, "megabyte", long, 24_000_000)?;
    let short = long_report(dice, 60_000);
    save_copies(folder, "sixty_kilobytes", short, 24_000_000)?;
    let hostile: [(&str, &str, &str); 8] = [
        ("separators", "NTE|1|L|", "|^~&"),
        ("fields", "NTE|1|L", "|"),
        ("components", "NTE|1|L|a", "^"),
        ("escapes", "NTE|1|L|", "\\F\\"),
        ("lone_escapes", "NTE|1|L|", "\\"),
        ("repetitions", "NTE|1|L|a", "~a"),
        ("subcomponents", "NTE|1|L|a", "&a"),
        ("empty_lines", "NTE|1|L|a", "\r"),
    ];
    for (name, begin, piece) in hostile {
        let content = filled(dice, begin, piece, longest);
        save_copies(folder, name, content, 12_000_000)?;
    }
    let short_lines = filled(dice, "NTE|1", "\rNTE|1", 60_000);
    save_copies(folder, "short_lines", short_lines, 12_000_000)?;
    let small: Vec<String> = (0..48_000).map(|i| small_admission(dice, i)).collect();
    save(folder, "small", &small)?;
    save(folder, "unreadable", &vec!["A".repeat(1_500); 16_000])?;
    save(folder, "tiny_blocks", &vec!["A".to_string(); 200_000])?;
    let document = document(dice, longest);
    save_copies(folder, "document", document, 24_000_000)
}
