//! The jobs of tests/jobs with the outputs beside them. A missing output is empty, which is right for no job.

use super::tally::Tally;
use std::fs;
use std::path::PathBuf;

const JOBS: &str = "tests/jobs";

pub struct JobFile {
    pub name: String,
    pub file: Vec<u8>,
    pub output: String,
}

fn files(ending: &str) -> Vec<PathBuf> {
    let found = fs::read_dir(JOBS).into_iter().flatten().flatten().map(|entry| entry.path());
    let mut files: Vec<PathBuf> = found.filter(|path| path.extension().is_some_and(|e| e == ending)).collect();
    files.sort();
    files
}

/// All jobs in the order of their names. There are some, and each output has its job.
pub fn job_files(y: &mut Tally) -> Vec<JobFile> {
    let jobs = files("job");
    let wanted: Vec<PathBuf> = files("out").iter().map(|path| path.with_extension("job")).collect();
    y.same("there are jobs", jobs.is_empty(), false);
    y.same("each output has its job", &jobs, &wanted);
    let read = |path: &PathBuf| JobFile {
        name: path.display().to_string(),
        file: fs::read(path).unwrap_or_default(),
        output: fs::read_to_string(path.with_extension("out")).unwrap_or_default(),
    };
    jobs.iter().map(read).collect()
}
