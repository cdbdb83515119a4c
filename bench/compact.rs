//! Schemas in a notation after the compact syntax, as schema rows and as RELAX NG in XML, both in simple form.
//!
//! A line `d = n { pattern }` is the definition d of elements named n; `start = d` stands first. In a pattern `text`,
//! `empty`, `token` and `"v"` (a token value) are as in the compact syntax, `@n{p}` is an attribute, a word is a ref to
//! the definition of that name; `,`, `|`, `&`, `?`, `*` and `+` and brackets are as in the compact syntax.

use super::reference::job::Job;

#[derive(Clone)]
pub enum Pattern {
    Empty,
    Text,
    Token,
    Value(String),
    Attribute(String, Box<Pattern>),
    Ref(String),
    OneOrMore(Box<Pattern>),
    /// A choice, group or interleave, by its kind of row.
    Pair(u32, Box<Pattern>, Box<Pattern>),
}

pub struct Definition {
    pub name: String,
    pub element: String,
    pub content: Pattern,
}

pub struct Grammar {
    pub start: String,
    pub definitions: Vec<Definition>,
}

const CHOICE: u32 = 10;
const GROUP: u32 = 11;
const INTERLEAVE: u32 = 12;

// Reading the notation.

/// The words, signs and values of a text.
fn tokens(text: &str) -> Vec<String> {
    let mut tokens: Vec<String> = vec![];
    let (mut word, mut quoted) = (String::new(), false);
    for c in text.chars() {
        let part_of_word = c.is_alphanumeric() || "._-".contains(c);
        if c == '"' {
            quoted = !quoted;
        }
        if part_of_word || quoted {
            word.push(c);
            continue;
        }
        tokens.extend((!word.is_empty()).then(|| std::mem::take(&mut word)));
        if !c.is_whitespace() && c != '"' {
            tokens.push(c.to_string());
        }
    }
    tokens.extend((!word.is_empty()).then_some(word));
    tokens
}

struct Reader {
    tokens: Vec<String>,
    next: usize,
}

impl Reader {
    fn sign(&self) -> &str {
        self.tokens.get(self.next).map_or("", |token| token)
    }
    fn take(&mut self) -> String {
        self.next += 1;
        self.tokens[self.next - 1].clone()
    }
    fn ask(&mut self, sign: &str) {
        assert_eq!(self.take(), sign, "in {:?}", &self.tokens[self.next.saturating_sub(4)..self.next]);
    }
    /// Parts joined by one sign, nested on the left.
    fn pattern(&mut self) -> Pattern {
        let mut all = self.part();
        let joint = self.sign().to_string();
        let kind = match joint.as_str() {
            "|" => CHOICE,
            "," => GROUP,
            "&" => INTERLEAVE,
            _ => return all,
        };
        while self.sign() == joint {
            self.ask(&joint);
            all = Pattern::Pair(kind, Box::new(all), Box::new(self.part()));
        }
        all
    }
    /// A single pattern with the sign behind it. What may be absent is a choice with empty.
    fn part(&mut self) -> Pattern {
        let one = self.single();
        let optional = |p| Pattern::Pair(CHOICE, Box::new(Pattern::Empty), Box::new(p));
        match self.sign() {
            "?" => {
                self.next += 1;
                optional(one)
            }
            "+" => {
                self.next += 1;
                Pattern::OneOrMore(Box::new(one))
            }
            "*" => {
                self.next += 1;
                optional(Pattern::OneOrMore(Box::new(one)))
            }
            _ => one,
        }
    }
    fn single(&mut self) -> Pattern {
        let word = self.take();
        match word.as_str() {
            "empty" => Pattern::Empty,
            "text" => Pattern::Text,
            "token" => Pattern::Token,
            "(" => {
                let inner = self.pattern();
                self.ask(")");
                inner
            }
            "@" => {
                let name = self.take();
                Pattern::Attribute(name, Box::new(self.in_braces()))
            }
            _ => match word.strip_prefix('"') {
                Some(value) => Pattern::Value(value.to_string()),
                None => Pattern::Ref(word),
            },
        }
    }
    fn in_braces(&mut self) -> Pattern {
        self.ask("{");
        let inner = self.pattern();
        self.ask("}");
        inner
    }
    fn definition(&mut self) -> Definition {
        let name = self.take();
        self.ask("=");
        let element = self.take();
        Definition { name, element, content: self.in_braces() }
    }
}

pub fn grammar(text: &str) -> Grammar {
    let mut reader = Reader { tokens: tokens(text), next: 0 };
    reader.ask("start");
    reader.ask("=");
    let start = reader.take();
    let mut definitions = vec![];
    while reader.next < reader.tokens.len() {
        definitions.push(reader.definition());
    }
    Grammar { start, definitions }
}

// As rows.

/// The number of a string, which is added where it is new.
pub fn number(job: &mut Job, text: &str) -> u32 {
    let known = job.strings.iter().position(|string| string == text.as_bytes());
    known.unwrap_or_else(|| {
        job.strings.push(text.as_bytes().to_vec());
        job.strings.len() - 1
    }) as u32
}

fn row(job: &mut Job, row: [u32; 3]) -> u32 {
    job.schema.extend(row);
    job.schema.len() as u32 / 3 - 1
}

impl Grammar {
    fn name(&self, job: &mut Job, name: &str) -> u32 {
        let local = number(job, name);
        row(job, [18, 0, local])
    }
    /// Which definition, in their order.
    fn place(&self, name: &str) -> usize {
        let place = self.definitions.iter().position(|definition| definition.name == name);
        place.unwrap_or_else(|| panic!("no definition {name}"))
    }
    /// Adds the rows of a pattern. A ref has the place of its definition until all rows are there.
    fn pattern(&self, job: &mut Job, pattern: &Pattern) -> u32 {
        let words = match pattern {
            Pattern::Empty => [1, 0, 0],
            Pattern::Text => [3, 0, 0],
            Pattern::Token => [4, 1, u32::MAX],
            Pattern::Value(value) => [5, 1, number(job, value)],
            Pattern::Attribute(name, content) => [7, self.name(job, name), self.pattern(job, content)],
            Pattern::Ref(name) => [8, self.place(name) as u32, 0],
            Pattern::OneOrMore(a) => [9, self.pattern(job, a), 0],
            Pattern::Pair(kind, a, b) => [*kind, self.pattern(job, a), self.pattern(job, b)],
        };
        row(job, words)
    }
    /// A job with the rows of the schema and the strings that they name.
    pub fn job(&self) -> Job {
        let mut job = Job { strings: vec![vec![]], ..Job::default() };
        let mut rows = vec![];
        for definition in &self.definitions {
            let class = self.name(&mut job, &definition.element);
            let content = self.pattern(&mut job, &definition.content);
            rows.push(row(&mut job, [20, class, content]));
        }
        let start = row(&mut job, [8, self.place(&self.start) as u32, 0]);
        row(&mut job, [21, start, 0]);
        for words in job.schema.chunks_mut(3).filter(|words| words[0] == 8) {
            words[1] = rows[words[1] as usize];
        }
        job
    }

    // As XML.

    pub fn xml(&self) -> String {
        let open = "<grammar xmlns=\"http://relaxng.org/ns/structure/1.0\" datatypeLibrary=\"\">";
        let mut out = format!("{open}\n<start><ref name=\"{}\"/></start>\n", self.start);
        for Definition { name, element, content } in &self.definitions {
            let element = format!("<element><name ns=\"\">{element}</name>{}</element>", xml(content));
            out += &format!("<define name=\"{name}\">{element}</define>\n");
        }
        out + "</grammar>\n"
    }
}

fn xml(pattern: &Pattern) -> String {
    match pattern {
        Pattern::Empty => "<empty/>".to_string(),
        Pattern::Text => "<text/>".to_string(),
        Pattern::Token => "<data type=\"token\"/>".to_string(),
        Pattern::Value(value) => format!("<value type=\"token\">{value}</value>"),
        Pattern::Attribute(name, content) => {
            format!("<attribute><name ns=\"\">{name}</name>{}</attribute>", xml(content))
        }
        Pattern::Ref(name) => format!("<ref name=\"{name}\"/>"),
        Pattern::OneOrMore(a) => format!("<oneOrMore>{}</oneOrMore>", xml(a)),
        Pattern::Pair(kind, a, b) => {
            let tag = ["choice", "group", "interleave"][(kind - CHOICE) as usize];
            format!("<{tag}>{}{}</{tag}>", xml(a), xml(b))
        }
    }
}
