//! Splits a request by slot and combines the replies to its parts.

use slotroute::{combine, split, Refused};

fn main() -> Result<(), Refused> {
    let request = b"*4\r\n$3\r\nDEL\r\n$3\r\nfoo\r\n$3\r\nbar\r\n$8\r\n{bar}vaz\r\n";
    for (slot, part) in &split(request, b"")? {
        print!("slot {slot}: {} bytes\n{}", part.len(), String::from_utf8_lossy(part));
    }
    print!("reply: {}", String::from_utf8_lossy(&combine(request, b"", b":1\r\n:2\r\n")?));
    Ok(())
}
