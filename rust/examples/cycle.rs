//! Document 01's run: it reads an area file from standard input, enters train 1 on route 1 at 250 and train 2 on route 2 at 200, each a
//! decimetre long, runs six cycles and prints where both are after each. A refusal is named on standard error, and the exit status is
//! then 1.
use std::error::Error;
use std::io::Read;
use std::process::ExitCode;

fn run() -> Result<(), Box<dyn Error>> {
    let mut file = vec![];
    std::io::stdin().lock().read_to_end(&mut file)?;
    let mut area = rbu::Area::start(&file)?;
    area.enter(1, 1, 250, 1)?;
    area.enter(2, 2, 200, 1)?;
    println!("cycle train segment position speed");
    for cycle in 1..=6 {
        area.speed(&[300; rbu::TRAINS])?;
        area.request()?;
        area.grant()?;
        area.position()?;
        for (number, train) in area.trains_on() {
            println!("{cycle} {number} {} {} {}", area.segment_of(number), train.position, train.speed);
        }
    }
    Ok(())
}

fn main() -> ExitCode {
    match run() {
        Ok(()) => ExitCode::SUCCESS,
        Err(wrong) => {
            eprintln!("cycle: {wrong}");
            ExitCode::FAILURE
        }
    }
}
