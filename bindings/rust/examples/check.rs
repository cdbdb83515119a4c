//! Prints the match list of the job on standard input as the program `check` does, however long the list is.

use farshavan::{match_list, read_job, MatchList, Refusal, Validity};
use std::io::{self, Read};

fn matches(file: &[u8]) -> Result<MatchList, Refusal> {
    match_list(read_job(file)?.tables())
}

fn main() -> io::Result<()> {
    let mut file = vec![];
    io::stdin().read_to_end(&mut file)?;
    match matches(&file) {
        Ok(found) => {
            println!("valid={}", if found.validity == Validity::Valid { "yes" } else { "no" });
            println!("pairs={}", found.pairs.len());
            found.pairs.iter().for_each(|pair| println!("pair={},{}", pair.element, pair.definition));
        }
        Err(refusal) => println!("refusal={},{}", refusal.code as u32, refusal.place),
    }
    Ok(())
}
