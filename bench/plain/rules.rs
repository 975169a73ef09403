//! Block tables: what water and light ask of a state. Reads the part of TOML that such tables are written in.
use crate::state::{State, StateTable};

#[derive(Clone, Copy)]
pub struct Row {
    pub open: bool,
    pub floor: bool,
    pub opacity: u8,
    pub emission: u8,
}

#[derive(Clone, Copy, PartialEq)]
pub enum Wet {
    Dry,
    Source,
    Flow(u8),
    Falling,
}

impl Wet {
    pub fn is_wet(self) -> bool {
        self != Wet::Dry
    }

    pub fn amount(self) -> u8 {
        match self {
            Wet::Dry => 0,
            Wet::Flow(amount) => amount,
            Wet::Source | Wet::Falling => 8,
        }
    }

    fn of(state: &State) -> Wet {
        if state.name != b"minecraft:water" {
            return Wet::Dry;
        }
        match state.properties[0].1[0] - b'0' {
            0 => Wet::Source,
            8 => Wet::Falling,
            level => Wet::Flow(8 - level),
        }
    }

    /// The level that water of this kind is written with.
    pub fn level(self) -> Option<u8> {
        match self {
            Wet::Dry => None,
            Wet::Source => Some(0),
            Wet::Flow(amount) => Some(8 - amount),
            Wet::Falling => Some(8),
        }
    }
}

struct NamedRow {
    name: Vec<u8>,
    row: Row,
}

pub struct Rules(Vec<NamedRow>);

impl Rules {
    pub fn read(text: &str) -> Rules {
        let mut rows: Vec<NamedRow> = Vec::new();
        for line in text.lines().map(str::trim) {
            if line == "[[block]]" {
                let row = Row {
                    open: false,
                    floor: true,
                    opacity: 15,
                    emission: 0,
                };
                let name = Vec::new();
                rows.push(NamedRow { name, row });
            }
            let (Some((key, value)), Some(last)) = (line.split_once(" = "), rows.last_mut()) else {
                continue;
            };
            match key {
                "name" => last.name = value.trim_matches('"').into(),
                "open" => last.row.open = value == "true",
                "floor" => last.row.floor = value == "true",
                "opacity" => last.row.opacity = value.parse().expect("an opacity is a number"),
                "emission" => last.row.emission = value.parse().expect("an emission is a number"),
                _ => {}
            }
        }
        Rules(rows)
    }

    fn row(&self, state: &State) -> Row {
        let built_in = |open, opacity| Row {
            open,
            floor: false,
            opacity,
            emission: 0,
        };
        match state.name.as_slice() {
            b"minecraft:air" => return built_in(true, 0),
            b"minecraft:water" => return built_in(false, 1),
            _ => {}
        }
        let found = self.0.iter().find(|row| row.name == state.name);
        found.map_or(
            Row {
                open: false,
                floor: true,
                opacity: 15,
                emission: 0,
            },
            |named| named.row,
        )
    }
}

/// What each number of a table means.
pub struct Kinds {
    pub rows: Vec<Row>,
    pub wet: Vec<Wet>,
    /// The number of each water level.
    levels: [u16; 9],
}

impl Kinds {
    pub fn new(table: &mut StateTable, rules: &Rules) -> Kinds {
        let levels = std::array::from_fn(|level| {
            let state = State {
                name: b"minecraft:water".to_vec(),
                properties: vec![(b"level".to_vec(), level.to_string().into_bytes())],
            };
            table.intern(state).expect("water has numbers")
        });
        let states = table.states();
        Kinds {
            rows: states.iter().map(|state| rules.row(state)).collect(),
            wet: states.iter().map(Wet::of).collect(),
            levels,
        }
    }

    pub fn number_of(&self, wet: Wet) -> u16 {
        wet.level()
            .map_or(0, |level| self.levels[usize::from(level)])
    }
}
