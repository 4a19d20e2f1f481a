//! The first worked file of docs/FORMAT.md, in edition 1.

pub fn worked_file() -> Vec<u8> {
    reference::page::WORKED[0].file()
}
