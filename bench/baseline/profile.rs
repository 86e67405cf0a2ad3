//! Profiles. The text is taken to be lawful: the program that this one is compared with tests it.
use std::collections::{HashMap, HashSet};

#[derive(Clone, Copy, PartialEq)]
pub enum Usage {
    Required,
    Open,
    Forbidden,
}

#[derive(Clone, Copy)]
pub struct Card {
    pub min: usize,
    pub max: usize,
}

pub struct Sub {
    pub number: usize,
    pub usage: Usage,
    pub len: Option<usize>,
    pub table: Option<usize>,
}

pub struct Comp {
    pub number: usize,
    pub usage: Usage,
    pub subs: Vec<Sub>,
}

pub struct Field {
    pub number: usize,
    pub usage: Usage,
    pub card: Card,
    pub comps: Vec<Comp>,
}

pub enum Node {
    Segment {
        name: [u8; 3],
        card: Card,
        fields: Vec<Field>,
    },
    Group {
        card: Card,
        nodes: Vec<Node>,
    },
}

pub struct Profile {
    pub tables: Vec<HashSet<Vec<u8>>>,
    pub nodes: Vec<Node>,
    pub names: HashSet<[u8; 3]>,
}

fn words(line: &str) -> Vec<String> {
    let mut words = Vec::new();
    let mut rest = line.trim();
    while !rest.is_empty() {
        let (word, behind) = match rest.strip_prefix('"') {
            Some(quoted) => quoted.split_once('"').unwrap_or((quoted, "")),
            None => rest.split_once([' ', '\t']).unwrap_or((rest, "")),
        };
        words.push(word.to_string());
        rest = behind.trim_start();
    }
    words
}

fn usage(word: &str) -> Usage {
    match word {
        "R" => Usage::Required,
        "X" => Usage::Forbidden,
        _ => Usage::Open,
    }
}

fn card(word: &str) -> Option<Card> {
    let (min, max) = word.split_once("..")?;
    let max = if max == "*" {
        usize::MAX
    } else {
        max.parse().ok()?
    };
    Some(Card {
        min: min.parse().ok()?,
        max,
    })
}

/// What follows a usage and a cardinality: `leaf`, `len N`, `table NAME`.
#[derive(Default)]
struct Options {
    is_leaf: bool,
    len: Option<usize>,
    table: Option<usize>,
}

fn options(words: &[String], tables: &HashMap<String, usize>) -> Option<Options> {
    let mut found = Options::default();
    let mut words = words.iter();
    while let Some(word) = words.next() {
        found.is_leaf = true;
        match word.as_str() {
            "len" => found.len = Some(words.next()?.parse().ok()?),
            "table" => found.table = Some(*tables.get(words.next()?)?),
            _ => {}
        }
    }
    Some(found)
}

fn leaf(options: &Options) -> Vec<Sub> {
    if !options.is_leaf {
        return Vec::new();
    }
    vec![Sub {
        number: 1,
        usage: Usage::Required,
        len: options.len,
        table: options.table,
    }]
}

struct Parser {
    names_of_tables: HashMap<String, usize>,
    profile: Profile,
    open: Vec<(Card, Vec<Node>)>,
}

impl Parser {
    fn level(&mut self) -> &mut Vec<Node> {
        match self.open.last_mut() {
            Some((_, nodes)) => nodes,
            None => &mut self.profile.nodes,
        }
    }

    fn fields(&mut self) -> Option<&mut Vec<Field>> {
        match self.level().last_mut()? {
            Node::Segment { fields, .. } => Some(fields),
            Node::Group { .. } => None,
        }
    }

    fn take_field(&mut self, words: &[String]) -> Option<()> {
        let options = options(words.get(4..)?, &self.names_of_tables)?;
        let subs = leaf(&options);
        let comps = if options.is_leaf {
            vec![Comp {
                number: 1,
                usage: Usage::Required,
                subs,
            }]
        } else {
            Vec::new()
        };
        let field = Field {
            number: words[1].parse().ok()?,
            usage: usage(&words[2]),
            card: card(&words[3])?,
            comps,
        };
        self.fields()?.push(field);
        Some(())
    }

    fn take_comp(&mut self, words: &[String]) -> Option<()> {
        let options = options(words.get(3..)?, &self.names_of_tables)?;
        let comp = Comp {
            number: words[1].parse().ok()?,
            usage: usage(&words[2]),
            subs: leaf(&options),
        };
        self.fields()?.last_mut()?.comps.push(comp);
        Some(())
    }

    fn take_sub(&mut self, words: &[String]) -> Option<()> {
        let options = options(words.get(3..)?, &self.names_of_tables)?;
        let sub = Sub {
            number: words[1].parse().ok()?,
            usage: usage(&words[2]),
            len: options.len,
            table: options.table,
        };
        self.fields()?.last_mut()?.comps.last_mut()?.subs.push(sub);
        Some(())
    }

    fn take_segment(&mut self, words: &[String]) -> Option<()> {
        let name: [u8; 3] = words[1].as_bytes().try_into().ok()?;
        let card = card(words.last()?)?;
        self.profile.names.insert(name);
        self.level().push(Node::Segment {
            name,
            card,
            fields: Vec::new(),
        });
        Some(())
    }

    fn take_table(&mut self, words: &[String]) {
        self.names_of_tables
            .insert(words[1].clone(), self.profile.tables.len());
        let values = words[2..]
            .iter()
            .map(|word| word.clone().into_bytes())
            .collect();
        self.profile.tables.push(values);
    }

    fn take_line(&mut self, line: &str) -> Option<()> {
        let words = words(line);
        match words.first().map(String::as_str) {
            None | Some("profile") => {}
            Some("table") => self.take_table(&words),
            Some("segment") => self.take_segment(&words)?,
            Some("group") => self.open.push((card(words.get(3)?)?, Vec::new())),
            Some("end") => {
                let (card, nodes) = self.open.pop()?;
                self.level().push(Node::Group { card, nodes });
            }
            Some("field") => self.take_field(&words)?,
            Some("comp") => self.take_comp(&words)?,
            Some("sub") => self.take_sub(&words)?,
            Some(word) if word.starts_with('#') => {}
            Some(_) => return None,
        }
        Some(())
    }
}

/// The profile of a text, or the first line that wasn't understood.
pub fn parse(text: &str) -> Result<Profile, usize> {
    let mut parser = Parser {
        names_of_tables: HashMap::new(),
        profile: Profile {
            tables: Vec::new(),
            nodes: Vec::new(),
            names: HashSet::new(),
        },
        open: Vec::new(),
    };
    for (i, line) in text.lines().enumerate() {
        parser.take_line(line).ok_or(i + 1)?;
    }
    Ok(parser.profile)
}
