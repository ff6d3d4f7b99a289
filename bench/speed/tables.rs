//! The tables, each as a specification of the Rust (a `match`, as the crate's own macro makes it) and as the words that
//! ours is lent.

use ebml_iterable::specs::{PathPart, TagDataType};

pub type Entry = (TagDataType, &'static [PathPart]);

pub trait Table: Clone {
    const IDS: &'static [u64];

    fn find(id: u64) -> Option<Entry>;
}

macro_rules! table {
    ($name:ident { $($filler:literal)* } $($id:literal $kind:ident [$($part:expr),*];)*) => {
        #[derive(Clone)]
        pub struct $name;

        impl Table for $name {
            const IDS: &'static [u64] = &[$($filler,)* $($id),*];

            fn find(id: u64) -> Option<Entry> {
                match id {
                    $($filler => Some((TagDataType::Binary, &[PathPart::Id(0x4E01), PathPart::Id(0xA1)])),)*
                    $($id => Some((TagDataType::$kind, &[$($part),*])),)*
                    _ => None,
                }
            }
        }
    };
}

/// Document 01's table behind some entries that no stream uses.
macro_rules! night_table {
    ($name:ident { $($filler:literal)* }) => {
        table! {
            $name { $($filler)* }
            0x4E01 Master [];
            0xA1 Master [PathPart::Id(0x4E01)];
            0xA2 UnsignedInt [PathPart::Id(0x4E01), PathPart::Id(0xA1)];
            0xA3 Utf8 [PathPart::Id(0x4E01), PathPart::Id(0xA1)];
            0xA4 Binary [PathPart::Id(0x4E01), PathPart::Id(0xA1)];
            0xA5 Integer [PathPart::Id(0x4E01), PathPart::Id(0xA1)];
            0xA6 Float [PathPart::Id(0x4E01), PathPart::Id(0xA1)];
            0xEC Binary [PathPart::Global((None, None))];
        }
    };
}

night_table! { Document {} }
night_table! { Of16 { 0x4101 0x4102 0x4103 0x4104 0x4105 0x4106 0x4107 0x4108 } }
night_table! { Of32 {
    0x4101 0x4102 0x4103 0x4104 0x4105 0x4106 0x4107 0x4108 0x4109 0x410A 0x410B 0x410C
    0x410D 0x410E 0x410F 0x4110 0x4111 0x4112 0x4113 0x4114 0x4115 0x4116 0x4117 0x4118
} }
night_table! { Of64 {
    0x4101 0x4102 0x4103 0x4104 0x4105 0x4106 0x4107 0x4108 0x4109 0x410A 0x410B 0x410C
    0x410D 0x410E 0x410F 0x4110 0x4111 0x4112 0x4113 0x4114 0x4115 0x4116 0x4117 0x4118
    0x4119 0x411A 0x411B 0x411C 0x411D 0x411E 0x411F 0x4120 0x4121 0x4122 0x4123 0x4124
    0x4125 0x4126 0x4127 0x4128 0x4129 0x412A 0x412B 0x412C 0x412D 0x412E 0x412F 0x4130
    0x4131 0x4132 0x4133 0x4134 0x4135 0x4136 0x4137 0x4138
} }

table! {
    // A master that stands anywhere, so that it nests to any depth.
    Deep {}
    0x4E01 Master [];
    0xB0 Master [PathPart::Global((None, None))];
    0xA2 UnsignedInt [PathPart::Global((None, None))];
}

/// Sixteen masters, each in the one before, and a number in the last.
#[derive(Clone)]
pub struct Chain;

macro_rules! ids {
    ($($id:literal)*) => { [$(PathPart::Id($id)),*] };
}

static DOWN: [PathPart; 16] = ids! { 0xB0 0xB1 0xB2 0xB3 0xB4 0xB5 0xB6 0xB7 0xB8 0xB9 0xBA 0xBB 0xBC 0xBD 0xBE 0xBF };

impl Table for Chain {
    const IDS: &'static [u64] =
        &[0xB0, 0xB1, 0xB2, 0xB3, 0xB4, 0xB5, 0xB6, 0xB7, 0xB8, 0xB9, 0xBA, 0xBB, 0xBC, 0xBD, 0xBE, 0xBF, 0xA2];

    fn find(id: u64) -> Option<Entry> {
        match id {
            0xB0..=0xBF => Some((TagDataType::Master, &DOWN[..(id - 0xB0) as usize])),
            0xA2 => Some((TagDataType::UnsignedInt, &DOWN)),
            _ => None,
        }
    }
}

/// The two lists of words that ours is lent.
pub struct Words {
    pub entries: Vec<u64>,
    pub parts: Vec<u64>,
}

pub fn words<T: Table>() -> Words {
    let mut words = Words {
        entries: Vec::new(),
        parts: Vec::new(),
    };
    for &id in T::IDS {
        let (kind, path) = T::find(id).expect("an entry of the table");
        let first = words.parts.len() as u64 / 3;
        words.entries.extend([id, number(kind), first, path.len() as u64]);
        words.parts.extend(path.iter().flat_map(part));
    }
    words
}

fn number(kind: TagDataType) -> u64 {
    match kind {
        TagDataType::Master => 0,
        TagDataType::UnsignedInt => 1,
        TagDataType::Integer => 2,
        TagDataType::Utf8 => 3,
        TagDataType::Binary => 4,
        TagDataType::Float => 5,
    }
}

fn part(part: &PathPart) -> [u64; 3] {
    let bound = |bound: Option<u64>| bound.map_or(0, |n| n + 1);
    match *part {
        PathPart::Id(id) => [0, id, 0],
        PathPart::Global((min, max)) => [1, bound(min), bound(max)],
    }
}
