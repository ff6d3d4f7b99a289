//! Every short stream of telling bytes or elements.

use crate::player::Player;
use crate::strings::strings;
use oracle::fields::bytes;
use std::io;
use std::path::Path;

pub fn generate(folder: &Path) -> io::Result<()> {
    short_bytes(folder)?;
    short_elements(folder)
}

/// Every string of telling bytes, short ones of many and longer ones of fewer.
fn short_bytes(folder: &Path) -> io::Result<()> {
    let many = [
        0x00, 0x01, 0x40, 0x4E, 0x7F, 0x80, 0x81, 0x82, 0x84, 0xA1, 0xA2, 0xA3, 0xA6, 0xEC, 0xFF,
    ];
    let few = [0x01, 0x4E, 0x80, 0x82, 0xA1, 0xA2, 0xFF];
    let mut player = Player::create(folder, "decoder-bytes")?;
    player.lend_document_table()?;
    for stream in strings(&many, 0, 4) {
        from_fresh(&mut player, 0, stream)?;
    }
    for stream in strings(&few, 5, 5) {
        from_fresh(&mut player, 0, stream)?;
    }
    for allowances in 1..8 {
        for stream in strings(&many, 0, 3) {
            from_fresh(&mut player, allowances, stream)?;
        }
    }
    for record in MIDWAY {
        for stream in strings(&many, 0, 3) {
            from_midway(&mut player, record, stream)?;
        }
    }
    player.finish()
}

/// Records in the midst of a stream.
const MIDWAY: [&str; 7] = [
    "a=0 m=4000000000 p=3 s=1 f=0 O=4E01:u:0:3 W=- C=2 V=-",
    "a=0 m=4000000000 p=5 s=1 f=0 O=4E01:u:0:3,A1:u:3:5 W=- C=1,0 V=-",
    "a=0 m=4000000000 p=5 s=1 f=0 O=4E01:5:0:3,A1:u:3:5 W=- C=5,4 V=-",
    "a=0 m=4000000000 p=5 s=1 f=0 O=4E01:u:0:3,A1:2:3:5 W=-",
    "a=0 m=1 p=5 s=1 f=0 O=4E01:6:0:3,A1:4:3:5 W=A1:7 C=3,1 V=5",
    "a=3 m=- p=5 s=0 f=0 O=EC:2:3:5 W=- C=5 V=-",
    "a=0 m=4000000000 p=5 s=1 f=1 O=4E01:u:0:0 W=- C=1 V=-",
];

fn from_midway(player: &mut Player, record: &str, stream: Vec<u8>) -> io::Result<()> {
    player.call(&format!("set {record}"))?;
    player.lend("recover", &mut stream.clone())?;
    player.call("st")?;
    player.call(&format!("set {record}"))?;
    player.to_the_end(stream, false)?;
    player.call("st").map(drop)
}

fn from_fresh(player: &mut Player, allowances: u64, stream: Vec<u8>) -> io::Result<()> {
    player.call("new")?;
    if allowances > 0 {
        player.call(&format!("allow {allowances}"))?;
    }
    player.to_the_end(stream, false)?;
    player.call("st").map(drop)
}

/// Every row of telling elements, whole ones and pieces.
fn short_elements(folder: &Path) -> io::Result<()> {
    let elements: Vec<Vec<u8>> = [
        "4E01FF", "4E0180", "4E0182", "4E0186", "A1FF", "A180", "A183", "A187", "A28105", "A280", "A38161", "EC80",
        "EC8100", "A2", "008100", "818100",
    ]
    .iter()
    .map(|element| bytes(element).expect("HEX"))
    .collect();
    let places: Vec<u8> = (0..elements.len() as u8).collect();
    let mut player = Player::create(folder, "decoder-elements")?;
    player.lend_document_table()?;
    for allowances in 0..8 {
        let longest = if allowances == 0 { 4 } else { 2 };
        for row in strings(&places, 1, longest) {
            let stream = row
                .iter()
                .flat_map(|place| elements[usize::from(*place)].clone())
                .collect();
            from_fresh(&mut player, allowances, stream)?;
        }
    }
    player.finish()
}
