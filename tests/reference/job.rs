//! The job file of FORMAT, "Job file", by lines of text, independent of the proved reader and writer.

#[derive(Clone, Debug, Default, PartialEq, Eq)]
pub struct Job {
    pub strings: Vec<Vec<u8>>,
    pub schema: Vec<u32>,
    pub instance: Vec<u32>,
}

pub const MAX_FILE: usize = 65_536;

impl Job {
    pub fn bytes(&self) -> Vec<u8> {
        self.strings.concat()
    }

    pub fn ends(&self) -> Vec<u32> {
        let mut end = 0;
        self.strings
            .iter()
            .map(|s| {
                end += s.len() as u32;
                end
            })
            .collect()
    }
}

fn word(w: u32) -> String {
    if w == u32::MAX {
        "-".into()
    } else {
        w.to_string()
    }
}

fn rows(key: &str, width: usize, table: &[u32]) -> String {
    let row = |r: &[u32]| format!("{key}={}\n", r.iter().map(|&w| word(w)).collect::<Vec<_>>().join(","));
    table.chunks(width).map(row).collect()
}

pub fn write(job: &Job) -> String {
    let hex = |s: &Vec<u8>| format!("s={}\n", s.iter().map(|b| format!("{b:02x}")).collect::<String>());
    format!(
        "rng=1\nstrings={}\n{}schema={}\n{}instance={}\n{}end=1\n",
        job.strings.len(),
        job.strings.iter().map(hex).collect::<String>(),
        job.schema.len() / 3,
        rows("row", 3, &job.schema),
        job.instance.len() / 5,
        rows("node", 5, &job.instance),
    )
}

fn number(text: &str) -> Option<u32> {
    let value: u32 = text.parse().ok()?;
    (value.to_string() == text && value != u32::MAX).then_some(value)
}

fn value(text: &str) -> Option<u32> {
    if text == "-" {
        Some(u32::MAX)
    } else {
        number(text)
    }
}

fn hex(text: &str) -> Option<Vec<u8>> {
    let digit = |c: char| "0123456789abcdef".find(c).map(|v| v as u8);
    let digits: Option<Vec<u8>> = text.chars().map(digit).collect();
    let digits = digits?;
    (digits.len() % 2 == 0).then(|| digits.chunks(2).map(|d| d[0] * 16 + d[1]).collect())
}

struct Lines<'a> {
    lines: Vec<&'a [u8]>,
    next: usize,
}

impl Lines<'_> {
    /// What follows the key in the next line; the number of that line where it is missing or begins otherwise.
    fn take(&mut self, key: &str) -> Result<String, usize> {
        let line = self.lines.get(self.next).ok_or(self.next + 1)?;
        let text = std::str::from_utf8(line).map_err(|_| self.next + 1)?;
        let rest = text.strip_prefix(key).ok_or(self.next + 1)?;
        self.next += 1;
        Ok(rest.into())
    }

    fn count(&mut self, key: &str, limit: u32) -> Result<u32, usize> {
        let text = self.take(key)?;
        number(&text).filter(|&n| n <= limit).ok_or(self.next)
    }

    fn row(&mut self, key: &str, width: usize, table: &mut Vec<u32>) -> Result<(), usize> {
        let text = self.take(key)?;
        let words: Option<Vec<u32>> = text.split(',').map(value).collect();
        table.extend(words.filter(|w| w.len() == width).ok_or(self.next)?);
        Ok(())
    }
}

/// The job, or its first wrong line.
pub fn read(file: &[u8]) -> Result<Job, usize> {
    if file.len() > MAX_FILE {
        return Err(0);
    }
    let mut pieces: Vec<&[u8]> = file.split(|&b| b == b'\n').collect();
    let unended = pieces.pop().unwrap_or_default();
    let mut lines = Lines { lines: pieces, next: 0 };
    let mut job = Job::default();
    let empty = |rest: String, line| if rest.is_empty() { Ok(()) } else { Err(line) };
    let rest = lines.take("rng=1")?;
    empty(rest, lines.next)?;
    let mut total = 0;
    for _ in 0..lines.count("strings=", 512)? {
        let text = lines.take("s=")?;
        let bytes = hex(&text).ok_or(lines.next)?;
        total += bytes.len();
        if total > 16_384 {
            return Err(lines.next);
        }
        job.strings.push(bytes);
    }
    for _ in 0..lines.count("schema=", 512)? {
        lines.row("row=", 3, &mut job.schema)?;
    }
    for _ in 0..lines.count("instance=", 1024)? {
        lines.row("node=", 5, &mut job.instance)?;
    }
    let rest = lines.take("end=1")?;
    empty(rest, lines.next)?;
    if lines.next < lines.lines.len() || !unended.is_empty() {
        return Err(lines.next + 1);
    }
    Ok(job)
}
