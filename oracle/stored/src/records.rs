//! The readers of a record.

use crate::kinds::{CELL, CODE, GRID, HEADER, TABLE_ENTRY};
use crate::script::Script;
use records::telling::{Place, Telling, telling, telling_least_weights, telling_marked};
use records::{Read, read, told};

pub fn ask(script: &mut Script) {
    ask_all(script, telling());
}

/// Of legacy boards.
pub fn ask_marked(script: &mut Script) {
    ask_all(script, telling_marked());
}

/// With a least weight.
pub fn ask_least_weights(script: &mut Script, legacy: bool) {
    ask_all(script, telling_least_weights(legacy));
}

fn ask_all(script: &mut Script, records: Vec<Telling>) {
    for asked in records {
        script.give_bytes(&asked.record);
        let read = read(&asked.record);
        ask_header(script, read.as_ref());
        for place in asked.places {
            ask_place(script, read.as_ref(), place);
        }
    }
}

pub fn ask_header(script: &mut Script, read: Option<&Read>) {
    script.ask(HEADER, &[], told::header(read));
}

pub fn ask_place(script: &mut Script, read: Option<&Read>, place: Place) {
    match place {
        Place::Entry(k) => script.ask(TABLE_ENTRY, &[k as u64], told::table_entry(read, k)),
        Place::Code(k) => script.ask(CODE, &[k as u64], told::code(read, k)),
        Place::Cell(k) => {
            let [cell, grid] = [told::cell(read, k), told::grid(read, k)];
            script.ask(CELL, &[k as u64], cell);
            script.ask_with_bytes(GRID, &[k as u64], grid, told::greys(read, k));
        }
    }
}
