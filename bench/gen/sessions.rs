//! Sessions over streams that come in pieces.

use crate::counts::{over, within, Counts};
use crate::limits::MOST_OPEN;
use crate::player::{Outcome, Player};
use crate::prng::Prng;
use crate::script::listed;
use crate::stream::{damage, document, nested, Faults};
use crate::table::{at_a_limit_of_shape, ill_formed, largest, of_document, well_formed};
use crate::table::{Entry, Part, Table, ANYWHERE, MASTER};
use std::io;
use std::path::Path;

const RANDOM_TABLES: usize = 2_000;
const STREAMS_OF_A_TABLE: usize = 16;
const DEEP_SESSIONS: usize = 900;
const STRICT_TABLES: usize = 400;
const MOST_CALLS: usize = 120;

/// Lines that are just or just not the setting.
const STRICT_LINES: &[&str] = &[
    "new",
    "strict",
    "strict 2",
    "strict 01",
    "strict -",
    "strict 1 ",
    "strict  1",
    "strict x",
    "Strict 1",
    "st",
    "strict 1",
    "st",
    "strict 0",
    "st",
    "set x=1",
    "st",
    "set x=",
    "set x=2",
    "set x=00",
    "set x=0 x=0",
    "st",
    "set p=3 x=0",
    "st",
    "set x=1 p=4",
    "new",
    "st",
];

pub fn generate(folder: &Path, prng: &mut Prng) -> io::Result<()> {
    random(folder, prng)?;
    deep(folder, prng)
}

fn random(folder: &Path, prng: &mut Prng) -> io::Result<()> {
    let mut player = Player::create(folder, "decoder-random")?;
    for turn in 0..RANDOM_TABLES {
        on_a_table(&mut player, prng, turn, &["new"])?;
    }
    player.finish()
}

/// Sessions that are read strictly. What a call lends is what the ported reading left.
pub fn strict(folder: &Path, prng: &mut Prng) -> io::Result<()> {
    let mut player = Player::create(folder, "decoder-strict")?;
    player.calls(STRICT_LINES)?;
    for turn in 0..STRICT_TABLES {
        on_a_table(&mut player, prng, turn, &["new", "strict 1"])?;
    }
    player.finish()
}

fn on_a_table(player: &mut Player, prng: &mut Prng, turn: usize, begin: &[&str]) -> io::Result<()> {
    let table = match turn % 8 {
        0 | 1 => of_document(),
        2..=4 => well_formed(prng),
        5 | 6 => ill_formed(prng),
        _ if prng.below(8) == 0 => largest(prng),
        _ => ill_formed(prng),
    };
    player.call(&table.call(prng))?;
    for _ in 0..STREAMS_OF_A_TABLE {
        session(player, prng, &table, begin)?;
    }
    Ok(())
}

fn session(player: &mut Player, prng: &mut Prng, table: &Table, begin: &[&str]) -> io::Result<()> {
    let faults = Faults {
        one_in: prng.pick(&[6, 20, 1_000_000]),
    };
    let mut stream = document(prng, table, faults);
    for _ in 0..prng.pick(&[0, 0, 1, 1, 2, 5]) {
        damage(prng, &mut stream);
    }
    stream.truncate(600);
    let beside = prng.beside();
    player.calls(begin)?;
    if prng.below(3) == 0 {
        switch(player, prng)?;
    }
    Run {
        player,
        prng,
        table,
        unread: Vec::new(),
        coming: stream,
        left: MOST_CALLS,
        beside,
    }
    .play()
}

fn switch(player: &mut Player, prng: &mut Prng) -> io::Result<()> {
    let allowances = prng.below(8);
    let size = prng.pick(&[0, 1, 4, 20, 126, 4_000_000_000, 1 << 56, u64::MAX]);
    let line = match prng.below(6) {
        0 => "max -".to_string(),
        1 => format!("max {size}"),
        _ => format!("allow {allowances}"),
    };
    player.call(&line).map(drop)
}

struct Run<'a> {
    player: &'a mut Player,
    prng: &'a mut Prng,
    table: &'a Table,
    unread: Vec<u8>,
    coming: Vec<u8>,
    left: usize,
    beside: Prng,
}

impl Run<'_> {
    fn play(mut self) -> io::Result<()> {
        let pieces = self.prng.pick(&[1, 8, 8, 20, 20, 60, 60, 600, 600, 600, 600, 600]);
        self.receive(pieces);
        while self.left > 0 {
            let name = if self.coming.is_empty() && self.prng.below(4) == 0 {
                "eof"
            } else {
                "decode"
            };
            match self.lend(name)? {
                Outcome::Event => {}
                Outcome::NeedMore if self.coming.is_empty() => break,
                Outcome::NeedMore => self.receive(pieces),
                Outcome::Refused if !self.goes_on(pieces)? => break,
                Outcome::Refused => {}
                _ => break,
            }
        }
        self.end()
    }

    fn lend(&mut self, name: &str) -> io::Result<Outcome> {
        self.left = self.left.saturating_sub(1);
        let outcome = self.player.lend(name, &mut self.unread)?;
        if self.prng.below(5) == 0 || outcome == Outcome::Refused {
            self.player.call("st")?;
        }
        if self.beside.below(60) == 0 {
            self.count()?;
        }
        Ok(outcome)
    }

    /// Sets the counts of the masters and the Ends that are held; in some cases first one of them over the position,
    /// which every call refuses.
    fn count(&mut self) -> io::Result<()> {
        let state = self.player.call("st")?;
        let field = |name: &str| state.split(' ').find_map(|word| word.strip_prefix(name)).unwrap_or("-");
        let position = field("p=").parse().expect("a position");
        let held = ["C=", "V="].map(|name| field(name).split(',').filter(|count| *count != "-").count());
        if held != [0, 0] && self.beside.below(4) == 0 {
            let counts = over(&mut self.beside, position, held);
            self.set(&counts)?;
            for name in ["decode", "recover", "eof"] {
                self.player.lend(name, &mut self.unread.clone())?;
            }
        }
        let counts = within(&mut self.beside, position, held);
        self.set(&counts)
    }

    fn set(&mut self, counts: &Counts) -> io::Result<()> {
        let [open, waiting] = counts.each_ref().map(|list| listed(list.iter().map(u64::to_string)));
        self.player.call(&format!("set C={open} V={waiting}")).map(drop)
    }

    fn receive(&mut self, pieces: usize) {
        let count = (1 + self.prng.index(pieces)).min(self.coming.len());
        self.unread.extend(self.coming.drain(..count));
    }

    /// Something was refused: recovers, switches tests off, or gives up.
    fn goes_on(&mut self, pieces: usize) -> io::Result<bool> {
        match self.prng.below(10) {
            0 => return Ok(false),
            1 | 2 => switch(self.player, self.prng)?,
            3 => self.other_table()?,
            4 if !self.unread.is_empty() => drop(self.unread.remove(0)),
            _ => self.recover(pieces)?,
        }
        Ok(true)
    }

    fn recover(&mut self, pieces: usize) -> io::Result<()> {
        if self.prng.below(3) > 0 && self.unread.len() > 1 && self.prng.below(2) == 0 {
            self.unread.remove(0);
        }
        while self.left > 0 {
            let outcome = self.lend("recover")?;
            if outcome != Outcome::NotFound || self.coming.is_empty() {
                break;
            }
            self.receive(8 * pieces);
        }
        Ok(())
    }

    /// A table of any shape for a few calls, then the old one again or one near it.
    fn other_table(&mut self) -> io::Result<()> {
        let words = at_a_limit_of_shape(self.prng);
        self.player.call(&words.call())?;
        for name in ["decode", "recover", "eof"] {
            self.lend(name)?;
        }
        let call = if self.prng.below(2) == 0 {
            self.table.call(self.prng)
        } else {
            of_document().call(self.prng)
        };
        self.player.call(&call).map(drop)
    }

    fn end(mut self) -> io::Result<()> {
        for _ in 0..MOST_OPEN + 8 {
            match self.lend("eof")? {
                Outcome::Event => {}
                Outcome::Finished => return self.after_the_finish(),
                _ if self.prng.below(3) == 0 => break,
                _ if self.unread.is_empty() => break,
                _ => self.unread.clear(),
            }
        }
        self.player.call("st").map(drop)
    }

    fn after_the_finish(&mut self) -> io::Result<()> {
        self.player.call("st")?;
        if self.prng.below(4) > 0 {
            return Ok(());
        }
        for _ in 0..3 {
            self.unread = self
                .prng
                .pick(&[&[][..], &[0xEC, 0x80], &[0xA2, 0x80], &[0x00, 0xA1, 0xFF]])
                .to_vec();
            let name = self.prng.pick(&["decode", "eof", "recover"]);
            self.lend(name)?;
        }
        self.player.call("st").map(drop)
    }
}

/// Masters in masters, up to and over 32.
fn deep(folder: &Path, prng: &mut Prng) -> io::Result<()> {
    let mut player = Player::create(folder, "decoder-deep")?;
    for turn in 0..DEEP_SESSIONS {
        let (table, ids, allowances) = match turn % 3 {
            0 => (of_document(), vec![0xA1], 2),
            1 => (of_document(), vec![0x4E01, 0xA1], 7),
            _ => (anywhere(prng), vec![0x81, 0x82, 0x83], 0),
        };
        let depth = MOST_OPEN - 3 + prng.index(7);
        let mut stream = nested(prng, &ids, depth);
        if prng.below(4) == 0 {
            damage(prng, &mut stream);
        }
        player.call(&table.call(prng))?;
        player.call("new")?;
        player.call(&format!("allow {allowances}"))?;
        let beside = prng.beside();
        Run {
            player: &mut player,
            prng,
            table: &table,
            unread: Vec::new(),
            coming: stream,
            left: 2 * MOST_CALLS,
            beside,
        }
        .play()?;
    }
    player.finish()
}

/// Masters that may stand anywhere, one of them a root that settles the decoder.
fn anywhere(prng: &mut Prng) -> Table {
    let entry = |id, path: &[Part]| Entry {
        id,
        kind: MASTER,
        path: path.to_vec(),
    };
    let mut table = Table {
        entries: vec![
            entry(0x81, &[ANYWHERE]),
            entry(0x82, &[Part::Global(1, 0)]),
            entry(0x83, &[Part::Global(0, 40)]),
        ],
    };
    if prng.below(2) == 0 {
        table.entries.push(entry(0x84, &[]));
    }
    table
}
