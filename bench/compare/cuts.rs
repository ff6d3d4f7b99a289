//! Usage: cuts FOLDER NAME..
//! Whether the rows of FOLDER/NAME.cut.calls in pieces have in FOLDER/NAME.cut.ours the same answers as in one piece;
//! prints counts. The result is 1 if one has not.

use judging::calls::answers;
use judging::joined::Joined;
use std::fs::File;
use std::io::{self, BufRead, BufReader};
use std::path::PathBuf;
use std::process::ExitCode;

const SHOWN: usize = 5;
const SHOWN_WIDTH: usize = 200;

fn main() -> io::Result<ExitCode> {
    let mut arguments = std::env::args().skip(1);
    let folder = PathBuf::from(arguments.next().expect("usage: cuts FOLDER NAME.."));
    let mut differences = 0;
    for name in arguments {
        let script = BufReader::new(File::open(folder.join(format!("{name}.cut.calls")))?).lines();
        let ours = answers(&folder, &format!("{name}.cut"), "ours")?;
        let joined = Joined::of(script.map_while(Result::ok), ours.map_while(Result::ok));
        println!(
            "{name}: rows {} events {} refused {} cut {} pieces {} differences {}",
            joined.rows,
            joined.events,
            joined.refused,
            joined.cut,
            joined.pieces,
            joined.faults.len()
        );
        for fault in joined.faults.iter().take(SHOWN) {
            println!("  {}", fault.chars().take(SHOWN_WIDTH).collect::<String>());
        }
        differences += joined.faults.len();
    }
    Ok(ExitCode::from(u8::from(differences > 0)))
}
