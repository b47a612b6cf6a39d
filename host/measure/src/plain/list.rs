//! A table as text in a lent buffer.

use dsg::records::Table;
use std::io::{Cursor, Write};

/// Writes the listing of a table at the buffer's start; says how many bytes, or nothing where it is too short.
#[inline(never)]
pub fn list_table(count: u8, table: &Table, out: &mut [u8]) -> Option<usize> {
    let rules = &table.rules[..usize::from(table.rulecount)];
    let classifiers = &table.classifiers[..usize::from(table.classifiercount)];
    let channels = &table.channels[..usize::from(table.channelcount)];
    let mut text = Cursor::new(out);
    writeln!(
        text,
        "dcd {count} rules {} classifiers {} channels {}",
        rules.len(),
        classifiers.len(),
        channels.len()
    )
    .ok()?;
    for r in rules {
        writeln!(
            text,
            "rule {} priority {} tunnel {:012x} clients {} classifiers {}",
            r.number, r.priority, r.tunnel, r.clientcount, r.numbercount
        )
        .ok()?;
    }
    for c in classifiers {
        writeln!(text, "classifier {} priority {}", c.number, c.priority).ok()?;
    }
    for hertz in channels {
        writeln!(text, "channel {hertz}").ok()?;
    }
    let t = table.timers;
    writeln!(
        text,
        "timers {} {} {} {}",
        t.tdsg1, t.tdsg2, t.tdsg3, t.tdsg4
    )
    .ok()?;
    Some(text.position() as usize)
}
