//! The comparisons, by entry point: each call is made by both programs, and the whole effect of one must be the other's.

mod arrival;
mod call;
mod check_retry;
mod damage;
mod draft;
mod entry;
mod faults;
mod initial_keys;
mod install_keys;
mod open;
mod opening;
mod read_header;
mod read_integer;
mod receiver;
mod recover;
mod sample;
mod seal;
mod shorten;
mod tally;
mod write_retry;

pub use entry::Entry;
pub use tally::Tally;

/// Every entry point, in the order of the header file.
pub const ENTRIES: [&Entry; 12] = [
    &read_integer::ENTRY,
    &shorten::SMALLEST_LENGTH,
    &shorten::SHORTEN,
    &recover::ENTRY,
    &initial_keys::ENTRY,
    &install_keys::ENTRY,
    &seal::SEAL,
    &seal::SEAL_LONG,
    &open::ENTRY,
    &read_header::ENTRY,
    &write_retry::ENTRY,
    &check_retry::ENTRY,
];
