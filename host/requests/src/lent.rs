//! The lent table, by what requests and their answers say of it.

use reference::protocol::request::Request;
use reference::protocol::tables::parse_table;
use reference::table::{read_table, Table};

/// The table that becomes lent by a request with that answer, if one does.
pub fn lent_by(request: &Request, answer: &str) -> Option<Table> {
    match request {
        Request::TSet(table) => Some(table.clone()),
        Request::TRead(message) if answer == "ok" => Some(read_table(message).unwrap_or_default()),
        Request::Recv(_) => {
            let (table, _) = answer.strip_prefix("accepted ")?.split_once(" | ")?;
            let words: Vec<&str> = table.split(' ').collect();
            Some(parse_table(&words).unwrap_or_default())
        }
        _ => None,
    }
}
