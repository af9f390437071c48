//! Every call beside an independent plain Rust reading of docs/RULES.md, on random and edge inputs, with canaries around
//! every buffer.

mod directories;
mod files;
mod lent;
mod made;
mod numbers;
mod packbits;
mod packets;
mod pictures;
mod plain;
mod plain_files;
mod plain_packbits;
mod plain_packets;
mod random;
mod spoiled;
mod strips;
mod words;

/// The library's answer in the plain reading's terms: a refusal is its number.
fn told<T>(answer: Result<T, hamrisk::Refusal>) -> Result<T, u32> {
    answer.map_err(hamrisk::Refusal::number)
}
