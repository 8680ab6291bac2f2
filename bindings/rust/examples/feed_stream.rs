//! feed_stream STREAM [BYTES]: reads a RemoteFX stream from a file as a network card would hand it over, so many bytes at a time (1,460 where
//! nothing else is said), and prints a line for each message; `bindings/c/feed_stream.c` prints the same.
use std::{env, error::Error, fs::File, io::Read};
use xurbalenz::{Collector, Message, Refusal, Screen};

/// 0 and "done", or the refusal's number and word.
fn answer(refusal: Option<Refusal>) -> String {
    refusal.map_or("0 done".into(), |refusal| refusal.to_string().split(':').next().unwrap_or_default().into())
}

fn show(screen: &mut Screen, message: Message<'_>) {
    match message {
        Message::Header(block) => {
            let refusal = screen.header(block).err();
            let (headers, width, height, mode) = screen.session().numbers();
            let kind = u16::from_le_bytes([block[0], block[1]]);
            println!("header {kind:04X}, {} bytes: {}; record {headers} {width} {height} {mode}", block.len(), answer(refusal));
        }
        Message::Frame(frame) => {
            let drawn = screen.frame(frame);
            println!("frame, {} bytes: {}; {} tiles", frame.len(), answer(drawn.err()), drawn.unwrap_or(0));
        }
    }
}

fn main() -> Result<(), Box<dyn Error>> {
    let mut words = env::args_os().skip(1);
    let mut file = File::open(words.next().ok_or("feed_stream STREAM [BYTES]")?)?;
    let most = words.next().map_or(Ok(1460), |word| word.to_string_lossy().parse())?;
    let (mut collector, mut screen, mut piece) = (Collector::new(3 << 20), Screen::new(), vec![0; most]);
    loop {
        let got = file.read(&mut piece)?;
        if got == 0 {
            break;
        }
        if let Err(refusal) = collector.feed(&piece[..got], |message| show(&mut screen, message)) {
            println!("the collector refuses: {}", answer(Some(refusal)));
            collector.reset(); // as a link that starts anew must
            break;
        }
    }
    println!("picture {} x {}", screen.width(), screen.height());
    Ok(())
}
