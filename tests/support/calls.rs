//! The calls of the library. Each output is full of other values before, with some after it that must stay: where they
//! do not, they are given with the output.

use super::reference::calls::Read;
use super::reference::{Answer, Input};
use farshavan::lent::{self, JobOutputs};
use farshavan::{Membership, Name, Refusal, Strings, Tables, Validity};

const OTHER: u8 = 0xA5;
const AFTER: usize = 8;

/// An output of so many values, with others after it.
struct Output<T> {
    values: Vec<T>,
    room: usize,
}

impl<T: From<u8> + Copy + PartialEq> Output<T> {
    fn new(room: usize) -> Output<T> {
        Output { values: vec![OTHER.into(); room + AFTER], room }
    }

    fn lent(&mut self) -> &mut [T] {
        &mut self.values[..self.room]
    }

    fn held(mut self) -> Vec<T> {
        if self.values[self.room..].iter().all(|&value| value == OTHER.into()) {
            self.values.truncate(self.room);
        }
        self.values
    }
}

fn strings(t: &Input) -> Strings<'_> {
    Strings { bytes: &t.bytes, ends: &t.ends }
}

fn tables(t: &Input) -> Tables<'_> {
    Tables { strings: strings(t), schema: &t.schema, instance: &t.instance }
}

/// Code and place of a refusal, or 0 and the answer.
fn answer(result: Result<u64, Refusal>) -> Answer {
    result.map_or_else(|refusal| (refusal.code as u64, u64::from(refusal.place)), |answer| (0, answer))
}

pub fn schema_verdict(t: &Input) -> Answer {
    answer(lent::schema_verdict(strings(t), &t.schema).map(|()| 0))
}

pub fn name_in_class(t: &Input, class: u32, (namespace, local): (u32, u32), room: usize) -> (Answer, Vec<u32>) {
    let mut row = Output::new(room);
    let found = lent::name_in_class(strings(t), &t.schema, class, Name { namespace, local }, row.lent());
    (answer(found.map(|member| u64::from(matches!(member, Membership::Yes { .. })))), row.held())
}

pub fn least_common_name(t: &Input, (first, second): (u32, u32), room: usize) -> (Answer, Vec<u32>) {
    let mut name = Output::new(room);
    let found = lent::least_common_name(strings(t), &t.schema, first, second, name.lent());
    (answer(found.map(|name| u64::from(name.is_some()))), name.held())
}

pub fn verdict(t: &Input, work: usize) -> (Answer, Vec<u8>) {
    let mut work = Output::new(work);
    let found = lent::verdict(tables(t), work.lent());
    (answer(found.map(|validity| u64::from(validity == Validity::Valid))), work.held())
}

pub fn match_list(t: &Input, list: usize, work: usize) -> (Answer, (Vec<u32>, Vec<u8>)) {
    let (mut list, mut work) = (Output::new(list), Output::new(work));
    let found = lent::match_list(tables(t), list.lent(), work.lent());
    let number = found.map(|found| 2 * found.pairs().len() as u64 + u64::from(found.validity() == Validity::Valid));
    (answer(number), (list.held(), work.held()))
}

pub fn string_text(t: &Input, k: u32, room: usize) -> (Answer, Vec<u8>) {
    let mut text = Output::new(room);
    let length = lent::string_text(strings(t), k, text.lent());
    (answer(length.map(|length| length as u64)), text.held())
}

pub fn read_job(file: &[u8], room: [usize; 5]) -> (Answer, Read) {
    let mut bytes = Output::new(room[0]);
    let [mut ends, mut schema, mut instance, mut counts] = [1, 2, 3, 4].map(|k| Output::new(room[k]));
    let outputs = JobOutputs {
        bytes: bytes.lent(),
        ends: ends.lent(),
        schema: schema.lent(),
        instance: instance.lent(),
        counts: counts.lent(),
    };
    let found = answer(lent::read_job(file, outputs).map(|_| 0));
    (found, (bytes.held(), ends.held(), schema.held(), instance.held(), counts.held()))
}

pub fn write_job(t: &Input, room: usize) -> (Answer, Vec<u8>) {
    let mut file = Output::new(room);
    let length = lent::write_job(tables(t), file.lent());
    (answer(length.map(|length| length as u64)), file.held())
}

pub fn report(file: &[u8], room: usize) -> (Answer, Vec<u8>) {
    let mut text = Output::new(room);
    let length = lent::report(file, text.lent());
    (answer(length.map(|length| length as u64)), text.held())
}
