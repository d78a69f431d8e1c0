//! Groups and their laws, with coefficients that keep the state near its readings.

use std::iter;

use second::law::Settings;

/// The readings of every call and tick that is measured.
pub const VALUES: [i32; 4] = [103, 204, 305, 406];

const HALF: i32 = 32_768;
const ONE: i32 = 65_536;

#[derive(Clone)]
pub struct Law {
    pub settings: winder::Settings,
    pub start: [i32; 6],
}

impl Law {
    /// Places beyond n, m and p hold 0.
    pub fn new(n: usize, m: usize, p: usize) -> Law {
        let settings = winder::Settings {
            n,
            m,
            p,
            a: table(n, n, 6, HALF, 1_024),
            l: table(n, m, 4, HALF, 512),
            c: table(m, n, 6, ONE, 256),
            k: table(p, n, 6, ONE, -2_048),
            low: table(1, p, 4, -1_000_000, -1_000_000),
            high: table(1, p, 4, 1_000_000, 1_000_000),
        };
        Law {
            settings,
            start: table(1, n, 6, 10, 20),
        }
    }

    /// The same settings for the second implementation.
    pub fn second_settings(&self) -> Settings {
        let size = |size: usize| u8::try_from(size).expect("at most 6");
        let settings = &self.settings;
        Settings {
            n: size(settings.n),
            m: size(settings.m),
            p: size(settings.p),
            a: rows(&settings.a),
            l: rows(&settings.l),
            c: rows(&settings.c),
            k: rows(&settings.k),
            lower: settings.low,
            upper: settings.high,
            start: self.start,
        }
    }
}

fn rows<const ROWS: usize, const WIDTH: usize>(table: &[i32]) -> [[i32; WIDTH]; ROWS] {
    let mut rows = [[0; WIDTH]; ROWS];
    for (row, places) in rows.iter_mut().zip(table.chunks(WIDTH)) {
        row.copy_from_slice(places);
    }
    rows
}

/// A table with one value on its diagonal and another off it.
fn table<const PLACES: usize>(
    rows: usize,
    columns: usize,
    stride: usize,
    on: i32,
    off: i32,
) -> [i32; PLACES] {
    let mut places = [0; PLACES];
    for (i, row) in places.chunks_mut(stride).take(rows).enumerate() {
        row[..columns].fill(off);
        if i < columns {
            row[i] = on;
        }
    }
    places
}

/// A group of boxes; without a law it is the bench's, whose sizes are 1.
pub struct Group {
    pub boxes: usize,
    pub law: Option<Law>,
}

impl Group {
    /// N/2 rounded down, plus 1.
    pub fn majority(&self) -> usize {
        self.boxes / 2 + 1
    }

    fn readings(&self) -> usize {
        self.law.as_ref().map_or(1, |law| law.settings.m)
    }

    /// A tick; its readings differ a little from one turn to the next.
    pub fn tick(&self, box_number: usize, turn: usize) -> String {
        let readings = (1..=self.readings()).map(|j| format!(" {}", 100 * j + turn % 10));
        format!("T {box_number}{}", readings.collect::<String>())
    }

    /// A tick whose last reading has a needless zero.
    pub fn malformed(&self) -> String {
        let readings: String = iter::repeat_n(" 100", self.readings() - 1).collect();
        format!("T 1{readings} 0100")
    }

    /// The line that describes the group to `rig`.
    pub fn first_line(&self) -> Option<String> {
        let law = self.law.as_ref()?;
        let settings = &law.settings;
        let (n, m, p) = (settings.n, settings.m, settings.p);
        let mut words = vec![self.boxes as i32, n as i32, m as i32, p as i32];
        push(&mut words, &settings.a, n, n, 6);
        push(&mut words, &settings.l, n, m, 4);
        push(&mut words, &settings.c, m, n, 6);
        push(&mut words, &settings.k, p, n, 6);
        words.extend(&settings.low[..p]);
        words.extend(&settings.high[..p]);
        words.extend(&law.start[..n]);
        let words: Vec<String> = words.iter().map(i32::to_string).collect();
        Some(format!("rig {}", words.join(" ")))
    }
}

/// The places in use of a table, row by row.
fn push(words: &mut Vec<i32>, table: &[i32], rows: usize, columns: usize, stride: usize) {
    for row in table.chunks(stride).take(rows) {
        words.extend(&row[..columns]);
    }
}
