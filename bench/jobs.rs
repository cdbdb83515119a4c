// Writes the jobs of the benchmark into a folder: an article near the limits with the answer of the reference, its
// schema and its text as XML for other validators; the jobs that look slow with a list of them: name, how the answer
// begins, and what is slow; and the jobs that grow with a list: name, how the answer begins, schema rows, instance
// rows, and what it is.
// Build at the top of the repository: rustc -O --edition 2021 -o target/bench/jobs bench/jobs.rs

#[path = "article.rs"]
mod article;
#[path = "compact.rs"]
mod compact;
#[path = "growth.rs"]
mod growth;
#[allow(dead_code)]
#[path = "../tests/reference/schema_maker.rs"]
mod maker;
#[allow(dead_code)]
#[path = "../tests/reference/check.rs"]
mod reference;
#[path = "slow.rs"]
mod slow;

use reference::job::{self, Job};
use std::fs;
use std::path::Path;

/// The rows of the schema and of the instance.
fn rows(job: &Job) -> (usize, usize) {
    (job.schema.len() / 3, job.instance.len() / 5)
}

fn sizes(job: &Job) -> String {
    let ((rows, nodes), file) = (rows(job), job::write(job).len());
    let (strings, bytes) = (job.strings.len(), job.bytes().len());
    format!("{strings} strings, {bytes} bytes, {rows} schema rows, {nodes} instance rows, {file} bytes of file")
}

fn main() {
    let folder = std::env::args().nth(1).expect("a folder to write into");
    let folder = Path::new(&folder);
    let put = |name: &str, text: &str| fs::write(folder.join(name), text).expect("the folder can be written");
    let article = article::article();
    let text = job::write(&article.job);
    put("article.job", &text);
    put("article.out", &reference::check(text.as_bytes()));
    put("article.rng", &article.schema);
    put("article.xml", &article.document);
    println!("article: {}", sizes(&article.job));
    let one_line = |begins: &str| begins.trim().replace('\n', " ");
    let mut list = String::new();
    for slow in slow::slow_jobs() {
        put(&format!("slow_{}.job", slow.name), &job::write(&slow.job));
        list += &format!("{}\t{}\t{}\n", slow.name, one_line(&slow.begins), slow.what);
        println!("{}: {}", slow.name, sizes(&slow.job));
    }
    put("slow.txt", &list);
    let mut list = String::new();
    for (k, step) in growth::growth().iter().enumerate() {
        let (rows, nodes) = rows(&step.job);
        put(&format!("growth_{k}.job"), &job::write(&step.job));
        list += &format!("growth_{k}\t{}\t{rows}\t{nodes}\t{}\n", one_line(&step.begins), step.what);
    }
    put("growth.txt", &list);
}
