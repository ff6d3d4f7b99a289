//! Decoder calls.

use crate::limits::MOST_OPEN;
use crate::player::Player;
use crate::prng::Prng;
use crate::{payloads, records, sessions, short};
use oracle::fields::bytes;
use std::io;
use std::path::Path;

pub fn generate(folder: &Path, seed: u64) -> io::Result<()> {
    let mut prng = Prng::new(seed ^ 2);
    lines(folder)?;
    named(folder)?;
    short::generate(folder)?;
    payloads::generate(folder, &mut prng)?;
    sessions::generate(folder, &mut prng)?;
    records::generate(folder, &mut prng)?;
    sessions::strict(folder, &mut prng)
}

const LINES: &[&str] = &[
    "st",
    "new",
    "new ",
    "new 1",
    "allow",
    "allow 0",
    "allow 7",
    "allow 007",
    "allow 8",
    "allow -1",
    "allow -",
    "allow 1 2",
    "max",
    "max -",
    "max --",
    "max -1",
    "max 0",
    "max 18446744073709551615",
    "max 18446744073709551616",
    "max 1 2",
    "st 1",
    "st",
    "decode",
    "decode 4",
    "decode 4E 01",
    "decode -",
    "eof",
    "eof 4",
    "recover",
    "recover 4",
    "recover -",
    "set",
    "set ",
    "set y=1",
    "set a",
    "set a=",
    "set =1",
    "set a=8",
    "set a=3",
    "set a=1 a=1",
    "set m=-",
    "set m=u",
    "set m=5 p=7",
    "set m=5  p=7",
    "set p=-1",
    "set s=2",
    "set s=01",
    "set f=",
    "set s=1 f=1",
    "set O=",
    "set O=-",
    "set O=A1",
    "set O=A1:u",
    "set O=A1:u:0",
    "set O=A1:u:0:0:0",
    "set O=A1:u:0:0,",
    "set O=A1:-:0:0",
    "set O=0A1:u:0:0",
    "set O=A1:u:0:0",
    "set O=A1:u:0:0,A1:5:1:2",
    "set W=A1",
    "set W=A1:u",
    "set W=A1:1:1",
    "set W=A1:1,A2:2",
    "set W=-,A2:2",
    "set p=1 q=2",
    "st",
    "set O=- W=- p=0 s=0 f=0 m=4000000000 a=0",
    "set A=1",
    "set p=0x1",
    "set p=1=1",
    "set p==1",
    "st",
    "new",
    "st",
];

/// Counts of children: as many as there are masters and Ends, one fewer, one more; the fields in another order.
const COUNTS: &[&str] = &[
    "new",
    "set C=",
    "set C=-",
    "set C=- V=-",
    "set C=0",
    "set V=0",
    "set V=-,0",
    "set p=9 s=1 O=A1:u:0:0,A1:5:1:6 W=A1:1,A2:2,A3:3",
    "st",
    "set C=-",
    "set C=1",
    "set C=1,2,3",
    "set C=1,",
    "set C=,1",
    "set C=1,u",
    "set C=1,-1",
    "set C=1 2",
    "set C=1,2 C=1,2",
    "set c=1,2",
    "set V=1,2",
    "set V=1,2,3,4",
    "set V=-",
    "st",
    "set C=1,0000000000000000002",
    "set V=3,4,5",
    "st",
    "new",
    "set p=9 s=1 O=A1:u:0:0,A1:5:1:6 W=A1:1,A2:2,A3:3",
    "set C=18446744073709551615,0",
    "st",
    "decode -",
    "set C=18446744073709551616,0",
    "set C=0,000000000000000000000",
    "set C=9,9 V=9,0,9",
    "st",
    "decode -",
    "st",
    "set V=0,10",
    "decode -",
    "recover -",
    "eof -",
    "set V=9,9 C=0,10",
    "decode -",
    "st",
    "new",
    "set p=9 s=1 O=A1:u:0:0,A1:5:1:6 W=A1:1,A2:2,A3:3",
    "set C=1,2 V=3,4,5",
    "set O=A1:u:0:0 C=1,2",
    "set C=1 O=A1:u:0:0",
    "st",
    "set C=1,2 O=A1:u:0:0",
    "st",
    "set V=1 W=A1:1",
    "set V=1,2,3 W=A1:1",
    "st",
    "set V=7 O=A1:u:0:0,A1:u:0:0 C=8,9 W=A1:1,A2:2",
    "st",
    "set O=A1:u:0:0 C=6 W=A2:1 V=5",
    "st",
    "set O=- C=- W=- V=-",
    "st",
];

fn lines(folder: &Path) -> io::Result<()> {
    let mut player = Player::create(folder, "decoder-lines")?;
    player.calls(LINES)?;
    player.calls(COUNTS)?;
    player.call("new")?;
    for held in [MOST_OPEN, MOST_OPEN + 1] {
        for counted in [held - 1, held, held + 1] {
            let counts = vec!["0"; counted].join(",");
            player.call(&format!("set O={} W=-", vec!["A1:u:0:0"; held].join(",")))?;
            player.call(&format!("set C={counts}"))?;
            player.call("decode -")?;
            player.call(&format!("set O=- W={}", vec!["A1:0"; held].join(",")))?;
            player.call(&format!("set V={counts}"))?;
            player.call("decode -")?;
        }
    }
    for count in [MOST_OPEN, MOST_OPEN + 1, MOST_OPEN + 2] {
        player.call(&format!("set O={} W=-", vec!["A1:u:0:0"; count].join(",")))?;
        player.call("decode -")?;
        player.call("eof -")?;
        player.call("recover -")?;
        player.call(&format!("set O=- W={}", vec!["A1:0"; count].join(",")))?;
        player.call("decode -")?;
        player.call("recover -")?;
        player.call("new")?;
    }
    player.finish()
}

/// The records of document 01, each with its allowances.
const NAMED: &[(&str, &str)] = &[
    ("4E0189A187A28178A3826D6C", "0"),
    ("4E01FFA1FFA28178", "0"),
    ("4E0189A187A28178", "0"),
    ("4E01FFA1854E0180", "0"),
    ("A28178", "0"),
    ("008105", "0"),
    ("008105", "1"),
    ("A289", "0"),
    ("A2FF", "0"),
    ("A200", "0"),
    ("A3FF", "0"),
    ("4E0188A187A28178A3826D6C", "0"),
    ("4E0181A1FF", "0"),
    ("4E01FF8180", "1"),
    ("A6843F800000", "0"),
    ("A408EE6B2800", "0"),
    ("A408EE6B2801", "0"),
];

/// Records with counts: one that the next ID settles, one whose Ends wait, one whose masters close first.
const COUNTED: [&str; 3] = [
    "a=1 p=10 s=0 O=EC:u:0:0,EC:u:0:0 C=10,9",
    "a=1 p=10 s=1 O=4E01:u:0:3,A1:u:3:5 W=A1:5,EC:2 C=7,8 V=10,6",
    "a=1 p=10 s=1 O=4E01:u:0:3,A1:5:3:5,A1:5:3:5 C=7,8,9",
];

fn named(folder: &Path) -> io::Result<()> {
    let mut player = Player::create(folder, "decoder-named")?;
    player.lend_document_table()?;
    for (stream, allowances) in NAMED {
        player.call("new")?;
        player.call(&format!("allow {allowances}"))?;
        player.to_the_end(bytes(stream).expect("HEX"), true)?;
    }
    for record in COUNTED {
        player.call("new")?;
        player.call(&format!("set {record}"))?;
        player.to_the_end(bytes("A28178A1FFA2817881804E01FFEC80").expect("HEX"), true)?;
    }
    player.finish()
}
