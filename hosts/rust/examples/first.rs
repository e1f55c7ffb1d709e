//! README's first dialogue, in README's words. Ends with an error where it isn't as it stands there.
use pipettor::{Error, Framing, Pipettor, Sense, ANSWER};

enum Line {
    Send(&'static str),
    Ticks(u32),
}
use Line::{Send, Ticks};

const DIALOGUE: [(Line, &str); 8] = [
    (Send("1WR"), "@"),
    (Ticks(1), "0 0"),
    (Send("1P0.01,1P0.01,1P0.01,1P0.01,1P0.01,1R"), "@"),
    (Ticks(1), "0 400000"),
    (Ticks(1), "0 800000"),
    (Ticks(1), "1 800000"),
    (Ticks(5), "2 2000000"),
    (Send("1?1"), "`2"),
];

/// `/`, the text and CR; what is shown of the answer are its status and data.
fn send(pipettor: &mut Pipettor, text: &str) -> Result<String, Error> {
    let mut buffer = [0; ANSWER];
    pipettor.listen(b"/")?;
    pipettor.listen(text.as_bytes())?;
    Ok(match pipettor.byte(b'\r', &mut buffer)? {
        Some(answer) => String::from_utf8_lossy(&answer[2..answer.len() - 3]).into_owned(),
        None => "-".to_string(),
    })
}

fn pass(pipettor: &mut Pipettor, ticks: u32) -> Result<String, Error> {
    for _ in 0..ticks {
        pipettor.tick(Sense::default())?;
    }
    Ok(format!("{} {}", pipettor.plunger()?, pipettor.exact()?))
}

fn main() -> Result<(), Box<dyn std::error::Error>> {
    let mut pipettor = Pipettor::new(Framing::Dt, 1)?;
    for (line, readme) in &DIALOGUE {
        let shown = match line {
            Send(text) => {
                println!("> {text}");
                send(&mut pipettor, text)?
            }
            Ticks(n) => {
                println!("t {n}");
                pass(&mut pipettor, *n)?
            }
        };
        println!("{shown}");
        if shown != *readme {
            return Err(format!("README shows {readme}").into());
        }
    }
    Ok(())
}
