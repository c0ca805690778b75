//! Reads words of the message from standard input, one in a line: thirty bits as 0 and 1.
use seldomplough::{FrameSync, check};

fn main() -> Result<(), Box<dyn std::error::Error>> {
    let (mut sync, mut prior, mut sound, mut count) = (FrameSync::new(), 0, 0, 0);
    for line in std::io::stdin().lines() {
        let line = line?;
        if line.len() != 30 || line.contains(|it| it != '0' && it != '1') {
            return Err("a word has thirty bits".into());
        }
        let word = u32::from_str_radix(&line, 2)?;
        count += 1;
        sound += u32::from(check(word, prior).is_some());
        prior = (word & 3) as u8;
        for place in (0..30).rev() {
            let Some(found) = sync.push(word >> place & 1 == 1) else {
                continue;
            };
            let (id, next) = (found.subframe.id(), found.subframe.tow() * 6);
            print!("subframe {id}, and the next at {next} s of the week:");
            for number in 1..=10 {
                let word = found.subframe.word(number);
                print!(" {}", word.map_or("------".into(), |data| format!("{data:06x}")));
            }
            println!();
        }
    }
    println!("{sound} of {count} words keep their parity");
    Ok(())
}
