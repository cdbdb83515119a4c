//! A journal article near the limits with its schema: as a job, and as RELAX NG and XML for other validators.

use super::compact::{grammar, number};
use super::maker::Rng;
use super::reference::job::Job;
use std::cell::Cell;

/// The definitions of a journal article. As in the schemas of publishers several definitions share a name: what may
/// stand in a title, a paragraph, a section or a label depends on where it stands.
const SCHEMA: &str = r#"
start = article
article = article { @type{"research" | "review" | "letter"}, @lang{token}?, front, body, back? }
front = front { journal, meta }
journal = journal { title.plain, issn+ }
title.plain = title { text }
issn = issn { @media{"print" | "online"}, token }
meta = meta { @doi{token}, (title.full & authors & date+ & keywords?), abstract+ }
title.full = title { (text | emphasis | sub | footnote)+ }
authors = authors { author+, affiliation* }
author = author { @id{token}, @corresponding{"yes" | "no"}?, given, surname, xref+ }
given = given { text }
surname = surname { text }
affiliation = affiliation { @id{token}, label?, institution }
institution = institution { text }
date = date { @type{"received" | "accepted" | "published"}, month?, year }
month = month { token }
year = year { token }
keywords = keywords { keyword+ }
keyword = keyword { (text | emphasis)+ }
abstract = abstract { @lang{token}?, (p.note+ | section.abstract+) }
section.abstract = section { title.plain, p.note+ }
body = body { (p | figure | table | list)*, section* }
section = section { @id{token}, label?, title.full, (p | figure | table | list)*, section.last* }
section.last = section { @id{token}?, title.plain, p+ }
p = p { @id{token}?, (text & (emphasis | bold | sub | xref | footnote | formula)*) }
p.note = p { (text | emphasis | bold | sub | xref)+ }
emphasis = emphasis { (text | sub | bold)+ }
bold = bold { (text | sub)+ }
sub = sub { text }
xref = xref { @rid{token}, @type{"figure" | "table" | "reference" | "affiliation"}, text }
footnote = footnote { @id{token}?, label?, p.note+ }
label = label { (text | bold)+ }
formula = formula { @notation{"tex" | "text"}, text }
figure = figure { @id{token}, (label? & caption & graphic+) }
caption = caption { title.plain?, p.note+ }
graphic = graphic { @href{token} }
table = table { @id{token}, (label? & caption?), head?, row+, footnote* }
head = head { row }
row = row { cell+ }
cell = cell { @align{"left" | "right" | "center"}?, (text & (emphasis | bold | sub | xref)*) }
list = list { @type{"bullet" | "order"}, item+ }
item = item { (label?, p+, list?) | (text | emphasis | xref)+ }
back = back { acknowledgement?, references }
acknowledgement = acknowledgement { p.note+ }
references = references { title.plain?, reference+ }
reference = reference { @id{token}, @type{"journal" | "book"},
    (text & persons & year & source & title.plain? & pages?) }
persons = persons { (text | surname)+ }
source = source { (text | emphasis)+ }
pages = pages { token }
"#;

const WORDS: &str = "the of and a in to with for by from growth cell model rate sample light field water protein \
    measured observed surface between under response structure temperature increase result method phase signal \
    control density membrane spectrum gradient boundary layer effect species during higher lower after each two \
    significant distribution analysis particle reaction energy binding mean value constant figure series both not";

// The document.

#[derive(Clone)]
enum Child {
    Text(String),
    Element(Element),
}

#[derive(Clone)]
struct Element {
    name: &'static str,
    attributes: Vec<(&'static str, String)>,
    /// Whether white space stands between the children, as in indented XML.
    indented: bool,
    children: Vec<Child>,
}

/// An element whose children are elements.
fn element(name: &'static str, children: Vec<Element>) -> Element {
    let children = children.into_iter().map(Child::Element).collect();
    Element { name, attributes: vec![], indented: true, children }
}

/// An element with text and elements among it.
fn mixed(name: &'static str, children: Vec<Child>) -> Element {
    Element { name, attributes: vec![], indented: false, children }
}

fn text_in(name: &'static str, text: &str) -> Element {
    mixed(name, vec![Child::Text(text.to_string())])
}

impl Element {
    fn with(mut self, name: &'static str, value: &str) -> Element {
        self.attributes.push((name, value.to_string()));
        self
    }
}

/// Makes texts from words, no two alike but for short ones.
struct Author<'a>(&'a Rng);

impl Author<'_> {
    fn words(&self, count: usize) -> String {
        let words: Vec<&str> = WORDS.split_whitespace().collect();
        let chosen: Vec<&str> = (0..count).map(|_| self.0.pick(&words)).collect();
        chosen.join(" ")
    }
    fn text(&self, count: usize) -> Child {
        Child::Text(self.words(3 * count))
    }
    fn inline(&self, k: usize) -> Child {
        Child::Element(match k % 5 {
            0 => text_in("emphasis", &self.words(1)),
            1 => xref("reference", 1 + k % 10),
            2 => mixed("emphasis", vec![self.text(2), Child::Element(text_in("sub", "2"))]),
            3 => text_in("formula", "E = mc^2").with("notation", "tex"),
            _ => text_in("bold", &self.words(1)),
        })
    }
    /// Texts with inline elements between them.
    fn paragraph(&self, inlines: usize, words: usize) -> Element {
        let mut children = vec![self.text(words)];
        for _ in 0..inlines {
            children.extend([self.inline(self.0.below(60)), self.text(words)]);
        }
        mixed("p", children)
    }
    fn note(&self, words: usize) -> Element {
        mixed("p", vec![self.text(words), Child::Element(text_in("emphasis", &self.words(1))), self.text(2)])
    }
    fn front(&self) -> Element {
        let issn = |media, number| text_in("issn", number).with("media", media);
        let title = text_in("title", "Journal of Measured Growth");
        let journal = element("journal", vec![title, issn("print", "1234-5678"), issn("online", "8765-4321")]);
        let mut parts = vec![self.authors(), mixed("title", vec![self.text(7), self.inline(2), self.text(5)])];
        for (kind, month) in [("received", "3"), ("accepted", "7"), ("published", "10")] {
            parts.push(element("date", vec![text_in("month", month), text_in("year", "2025")]).with("type", kind));
        }
        let keywords = (0..5).map(|_| text_in("keyword", &self.words(2))).collect();
        parts.push(element("keywords", keywords));
        let sections = ["Background", "Results"];
        let section = |title| element("section", vec![text_in("title", title), self.note(9), self.note(8)]);
        parts.push(element("abstract", sections.map(section).into()).with("lang", "en"));
        element("front", vec![journal, element("meta", parts).with("doi", "10.5555/example.2025.42")])
    }
    fn authors(&self) -> Element {
        let names = [("Ada", "Ruiz"), ("Ben", "Okoro"), ("Chen", "Wei"), ("Dora", "Lind"), ("Emil", "Haas")];
        let author = |(k, (given, surname)): (usize, (&str, &str))| {
            let parts = vec![text_in("given", given), text_in("surname", surname), xref("affiliation", 1 + k % 2)];
            let author = element("author", parts).with("id", &format!("au{}", k + 1));
            if k == 0 {
                author.with("corresponding", "yes")
            } else {
                author
            }
        };
        let affiliation = |k: usize| {
            let institution = text_in("institution", ["Institute of Cells", "School of Water"][k - 1]);
            element("affiliation", vec![text_in("label", &k.to_string()), institution]).with("id", &format!("aff{k}"))
        };
        let authors = names.into_iter().enumerate().map(author);
        element("authors", authors.chain((1..=2).map(affiliation)).collect())
    }
    fn figure(&self, k: usize) -> Element {
        let graphic = mixed("graphic", vec![]).with("href", &format!("fig{k}.png"));
        let caption = element("caption", vec![text_in("title", &self.words(4)), self.note(10)]);
        element("figure", vec![graphic, text_in("label", &format!("Figure {k}")), caption]).with("id", &format!("f{k}"))
    }
    fn table(&self, k: usize) -> Element {
        let cell = |row: usize, column: usize| match (row, column) {
            (0, _) => mixed("cell", vec![Child::Element(text_in("bold", ["Phase", "Rate", "Mean"][column]))]),
            (_, 0) => text_in("cell", ["first", "second", "third"][row % 3]).with("align", "left"),
            _ => text_in("cell", &format!("{}.{}", self.0.below(4), self.0.below(5))).with("align", "right"),
        };
        let row = |row: usize| element("row", (0..3).map(|column| cell(row, column)).collect());
        let caption = element("caption", vec![self.note(6)]);
        let mut parts = vec![text_in("label", &format!("Table {k}")), caption, element("head", vec![row(0)])];
        parts.extend((1..4).map(row));
        parts.push(element("footnote", vec![self.note(5)]));
        element("table", parts).with("id", &format!("t{k}"))
    }
    fn list(&self) -> Element {
        let items = (0..3).map(|k| match k {
            0 => mixed("item", vec![self.text(5), self.inline(0), self.text(3)]),
            _ => element("item", vec![self.paragraph(1, 4)]),
        });
        element("list", items.collect()).with("type", "bullet")
    }
    fn section(&self, k: usize) -> Element {
        let title = mixed("title", vec![self.text(3), self.inline(0)]);
        let mut parts = vec![text_in("label", &format!("{k}.")), title];
        parts.extend([self.paragraph(3, 7), self.paragraph(4, 5)]);
        parts.push(match k % 3 {
            0 => self.list(),
            1 => self.figure(k),
            _ => self.table(k),
        });
        parts.push(self.paragraph(3, 6));
        for _ in 0..1 + k % 2 {
            let paragraphs = [self.paragraph(2, 6), self.paragraph(2, 7)];
            let heading = vec![text_in("title", &self.words(3))];
            parts.push(element("section", [heading, paragraphs.into()].concat()));
        }
        element("section", parts).with("id", &format!("s{k}"))
    }
    fn reference(&self, k: usize) -> Element {
        let between = |text: &str| Child::Text(text.to_string());
        let names = [between("Okoro B., "), Child::Element(text_in("surname", "Lind"))];
        let persons = mixed("persons", names[k % 2..].to_vec());
        let year = text_in("year", &format!("{}", 1990 + k));
        let source = text_in("source", &format!("J. {}", self.words(1)));
        let pages = text_in("pages", &format!("{}-{}", 10 + 3 * k, 18 + 4 * k));
        let parts = [persons, year, text_in("title", &self.words(6)), source, pages];
        let mut children = vec![];
        for part in parts {
            children.extend([Child::Element(part), between(". ")]);
        }
        let reference = mixed("reference", children).with("id", &format!("r{k}"));
        reference.with("type", "journal")
    }
    fn article(&self, sections: usize, references: usize) -> Element {
        let body = element("body", (1..=sections).map(|k| self.section(k)).collect());
        let acknowledgement = element("acknowledgement", vec![self.note(8)]);
        let heading = vec![text_in("title", "References")];
        let references = (1..=references).map(|k| self.reference(k)).collect();
        let references = element("references", [heading, references].concat());
        let back = element("back", vec![acknowledgement, references]);
        element("article", vec![self.front(), body, back]).with("type", "research").with("lang", "en")
    }
}

fn xref(kind: &str, k: usize) -> Element {
    let (letter, shown) = if kind == "affiliation" { ("aff", k.to_string()) } else { ("r", format!("[{k}]")) };
    text_in("xref", &shown).with("rid", &format!("{letter}{k}")).with("type", kind)
}

impl Element {
    /// White space before each child and behind the last, where children are indented.
    fn spaced(&self, depth: usize) -> Element {
        let space = |depth: usize| Child::Text(format!("\n{}", "  ".repeat(depth)));
        let mut children = vec![];
        for child in &self.children {
            children.extend(self.indented.then(|| space(depth + 1)));
            children.push(match child {
                Child::Element(inner) => Child::Element(inner.spaced(depth + 1)),
                text => text.clone(),
            });
        }
        children.extend(self.indented.then(|| space(depth)));
        Element { children, ..self.clone() }
    }
    /// Adds the rows of the element to a job.
    fn add_to(&self, job: &mut Job, parent: u32) {
        let row = job.instance.len() as u32 / 5;
        let local = number(job, self.name);
        job.instance.extend([1, parent, 0, local, 0]);
        for (name, value) in &self.attributes {
            let words = [2, row, 0, number(job, name), number(job, value)];
            job.instance.extend(words);
        }
        for child in &self.children {
            match child {
                Child::Element(inner) => inner.add_to(job, row),
                Child::Text(text) => {
                    let words = [3, row, number(job, text), 0, 0];
                    job.instance.extend(words);
                }
            }
        }
    }
    fn xml(&self) -> String {
        let attributes: String = self.attributes.iter().map(|(name, value)| format!(" {name}=\"{value}\"")).collect();
        let content: String = self
            .children
            .iter()
            .map(|child| match child {
                Child::Element(inner) => inner.xml(),
                Child::Text(text) => text.clone(),
            })
            .collect();
        format!("<{}{attributes}>{content}</{}>", self.name, self.name)
    }
}

pub struct Article {
    pub job: Job,
    /// The schema in RELAX NG's XML syntax.
    pub schema: String,
    /// The article as XML.
    pub document: String,
}

/// The sections and the references of the article.
pub const SECTIONS: usize = 4;
pub const REFERENCES: usize = 10;

/// The article, the same each time.
pub fn article() -> Article {
    article_with(SECTIONS, REFERENCES)
}

/// The article with so many of its sections and references.
pub fn article_with(sections: usize, references: usize) -> Article {
    let r = Rng(Cell::new(0x2545_F491_4F6C_DD1D));
    let (grammar, root) = (grammar(SCHEMA), Author(&r).article(sections, references).spaced(0));
    let mut job = grammar.job();
    root.add_to(&mut job, u32::MAX);
    let document = format!("<?xml version=\"1.0\" encoding=\"UTF-8\"?>\n{}\n", root.xml());
    Article { job, schema: grammar.xml(), document }
}
