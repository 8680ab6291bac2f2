//! say_caps [FILE]: what a client says it can do. Prints the capability container of a file in words, or, with no file, writes one of our own, prints it,
//! and acknowledges a frame; `bindings/c/say_caps.c` prints the same.
use std::{env, error::Error, fs};
use xurbalenz::{Ack, Caps, CapsEntry, Mode};

fn say(message: &[u8]) -> Result<(), Box<dyn Error>> {
    let caps = Caps::read(message)?;
    println!("container, {} bytes: captureFlags {:08X}, entries {}", message.len(), caps.flags, caps.entries.len());
    for (i, entry) in caps.entries.iter().enumerate() {
        println!("entry {}: flags {:02X}, {}", i + 1, entry.flags, if entry.mode == Mode::Rlgr1 { "RLGR1" } else { "RLGR3" });
    }
    Ok(())
}

fn main() -> Result<(), Box<dyn Error>> {
    if let Some(file) = env::args_os().nth(1) {
        return say(&fs::read(file)?);
    }
    let entries = [Mode::Rlgr1, Mode::Rlgr3].map(|mode| CapsEntry { flags: 0, mode }).to_vec();
    say(&Caps { flags: 1, entries }.bytes()?)?;
    let ack = Ack { version: 1, source: 1007, share: 0x103EA, stream: 1, uncompressed: 8, frame: 7, ..Ack::default() };
    println!("frame {} acknowledged, {} bytes behind the link's own", ack.frame, ack.bytes()?.len());
    Ok(())
}
