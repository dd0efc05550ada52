//! The library's side: each call through the boundary, on guarded memory, with rubbish in the answers beforehand.
#![allow(unsafe_code)]
use kohlenfloh::raw;

use crate::ask::{Add, Map, Palette, PaletteFromGroups, Picture, Round, Rule, Run, RunFixed, Search, Table};
use crate::guarded::Guarded;
use crate::outcome::{Difference, Outcome, Values};

const BYTE: u8 = 0xA5;
const WORD: u32 = 0xA5A5_5A5A;
const LONG: u64 = 0xA5A5_5A5A_C3C3_3C3C;
const RUBBISH: u64 = 0xDEAD_BEEF_0BAD_CAFE;

type Seen = Result<Outcome, Difference>;

/// An answer of `SIZE` numbers with rubbish in it.
fn answer<const SIZE: usize>(name: &'static str) -> Guarded<u64> {
    Guarded::new(name, &[RUBBISH; SIZE], LONG)
}

/// A table's slices between guard elements.
fn lent(table: &Table) -> (Guarded<u64>, Guarded<u32>, Guarded<u32>) {
    (
        Guarded::new("record", &table.record.to_array(), LONG),
        Guarded::new("keys", &table.keys, WORD),
        Guarded::new("weights", &table.weights, WORD),
    )
}

/// Nothing where a table that is only read is as it was.
fn kept(table: &Table, lent: (Guarded<u64>, Guarded<u32>, Guarded<u32>)) -> Result<(), Difference> {
    lent.0.as_before(&table.record.to_array())?;
    lent.1.as_before(&table.keys)?;
    lent.2.as_before(&table.weights)
}

/// `kf_add_strip`.
pub fn add(ask: &Add) -> Seen {
    let (mut record, mut keys, mut weights) = lent(&ask.table);
    let strip = Guarded::new("strip", &ask.strip, BYTE);
    let mut taken = answer::<1>("taken");
    // SAFETY: the pointers are those of live, apart buffers of the lengths told.
    let refusal = unsafe {
        raw::kf_add_strip(
            record.begin_mut().cast(),
            keys.begin_mut(),
            keys.len(),
            weights.begin_mut(),
            weights.len(),
            strip.begin(),
            strip.len(),
            taken.begin_mut().cast(),
        )
    };
    strip.as_before(&ask.strip)?;
    let fields = vec![
        ("taken", Values::Longs(taken.taken_back()?)),
        ("record", Values::Longs(record.taken_back()?)),
        ("keys", Values::Words(keys.taken_back()?)),
        ("weights", Values::Words(weights.taken_back()?)),
    ];
    Ok(Outcome { refusal, fields })
}

/// `kf_plain_round` or `kf_short_round`.
pub fn round(ask: &Round) -> Seen {
    let (record, keys, weights) = lent(&ask.table);
    let mut coordinates = Guarded::new("coordinates", &ask.coordinates, WORD);
    let mut members = Guarded::new("members", &ask.members, WORD);
    let mut answer = answer::<{ raw::KF_ROUND_PLACES }>("answer");
    let call = match ask.search {
        Search::Plain => raw::kf_plain_round,
        Search::Shortened => raw::kf_short_round,
    };
    // SAFETY: the pointers are those of live, apart buffers of the lengths told.
    let refusal = unsafe {
        call(
            record.begin().cast(),
            keys.begin(),
            keys.len(),
            weights.begin(),
            weights.len(),
            coordinates.begin_mut(),
            coordinates.len(),
            members.begin_mut(),
            members.len(),
            answer.begin_mut().cast(),
        )
    };
    kept(&ask.table, (record, keys, weights))?;
    let fields = vec![
        ("total, moved, distances", Values::Longs(answer.taken_back()?)),
        ("coordinates", Values::Words(coordinates.taken_back()?)),
        ("members", Values::Words(members.taken_back()?)),
    ];
    Ok(Outcome { refusal, fields })
}

/// `kf_run`.
pub fn run(ask: &Run) -> Seen {
    run_by(Rule::Lloyd, ask)
}

/// `kf_run_jancey`.
pub fn run_jancey(ask: &Run) -> Seen {
    run_by(Rule::Jancey, ask)
}

/// What a run is lent beside its table, with guard elements about it.
struct LentToRun {
    members: Guarded<u32>,
    totals: Guarded<u64>,
    shades: Guarded<u32>,
    answer: Guarded<u64>,
}

impl LentToRun {
    /// Members and totals as they are asked, and rubbish in shades and answer.
    fn new(ask: &Run) -> LentToRun {
        LentToRun {
            members: Guarded::new("members", &ask.members, WORD),
            totals: Guarded::new("totals", &ask.totals, LONG),
            shades: Guarded::new("shades", &[RUBBISH as u32; raw::KF_MOST_COORDINATES], WORD),
            answer: answer::<{ raw::KF_RUN_PLACES }>("answer"),
        }
    }

    /// What a run that answered this number left.
    fn taken_back(self, refusal: u32) -> Seen {
        let fields = vec![
            ("rounds, settled, distances, final total", Values::Longs(self.answer.taken_back()?)),
            ("shades", Values::Words(self.shades.taken_back()?)),
            ("members", Values::Words(self.members.taken_back()?)),
            ("totals", Values::Longs(self.totals.taken_back()?)),
        ];
        Ok(Outcome { refusal, fields })
    }
}

/// A run by one of the rules.
fn run_by(rule: Rule, ask: &Run) -> Seen {
    let (record, keys, weights) = lent(&ask.table);
    let mut lent = LentToRun::new(ask);
    let call = match rule {
        Rule::Lloyd => raw::kf_run,
        Rule::Jancey => raw::kf_run_jancey,
    };
    // SAFETY: the pointers are those of live, apart buffers of the lengths told.
    let refusal = unsafe {
        call(
            record.begin().cast(),
            keys.begin(),
            keys.len(),
            weights.begin(),
            weights.len(),
            ask.count,
            ask.limit,
            lent.members.begin_mut(),
            lent.members.len(),
            lent.totals.begin_mut(),
            lent.totals.len(),
            lent.shades.begin_mut().cast(),
            lent.answer.begin_mut().cast(),
        )
    };
    kept(&ask.table, (record, keys, weights))?;
    lent.taken_back(refusal)
}

/// `kf_run_fixed`.
pub fn run_fixed(ask: &RunFixed) -> Seen {
    let RunFixed { run, fixed } = ask;
    let (record, keys, weights) = lent(&run.table);
    let stock = Guarded::new("fixed shades", fixed, BYTE);
    let mut lent = LentToRun::new(run);
    // SAFETY: the pointers are those of live, apart buffers of the lengths told.
    let refusal = unsafe {
        raw::kf_run_fixed(
            record.begin().cast(),
            keys.begin(),
            keys.len(),
            weights.begin(),
            weights.len(),
            stock.begin(),
            stock.len(),
            run.count,
            run.limit,
            lent.members.begin_mut(),
            lent.members.len(),
            lent.totals.begin_mut(),
            lent.totals.len(),
            lent.shades.begin_mut().cast(),
            lent.answer.begin_mut().cast(),
        )
    };
    kept(&run.table, (record, keys, weights))?;
    stock.as_before(fixed)?;
    lent.taken_back(refusal)
}

/// `kf_palette_from_shades`.
pub fn palette(ask: &Palette) -> Seen {
    let coordinates = Guarded::new("coordinates", &ask.coordinates, WORD);
    let mut palette = Guarded::new("palette", &ask.palette, BYTE);
    // SAFETY: the pointers are those of live, apart buffers of the lengths told.
    let refusal = unsafe {
        raw::kf_palette_from_shades(coordinates.begin(), coordinates.len(), palette.begin_mut(), palette.len())
    };
    coordinates.as_before(&ask.coordinates)?;
    Ok(Outcome { refusal, fields: vec![("palette", Values::Bytes(palette.taken_back()?))] })
}

/// `kf_palette_from_groups_fixed`; with no fixed shade `kf_palette_from_groups` too, which must leave the same.
pub fn palette_from_groups(ask: &PaletteFromGroups) -> Seen {
    let told = palette_of_groups(ask, true)?;
    if ask.fixed == 0 {
        palette_of_groups(ask, false)?.against(&told)?;
    }
    Ok(told)
}

/// A palette from groups, by the call that is told the number of fixed shades or by the one that is not.
fn palette_of_groups(ask: &PaletteFromGroups, told: bool) -> Seen {
    let (record, keys, weights) = lent(&ask.table);
    let coordinates = Guarded::new("coordinates", &ask.coordinates, WORD);
    let members = Guarded::new("members", &ask.members, WORD);
    let mut palette = Guarded::new("palette", &ask.palette, BYTE);
    // SAFETY: the pointers are those of live, apart buffers of the lengths told.
    let refusal = unsafe {
        if told {
            raw::kf_palette_from_groups_fixed(
                record.begin().cast(),
                keys.begin(),
                keys.len(),
                weights.begin(),
                weights.len(),
                coordinates.begin(),
                coordinates.len(),
                members.begin(),
                members.len(),
                ask.fixed,
                palette.begin_mut(),
                palette.len(),
            )
        } else {
            raw::kf_palette_from_groups(
                record.begin().cast(),
                keys.begin(),
                keys.len(),
                weights.begin(),
                weights.len(),
                coordinates.begin(),
                coordinates.len(),
                members.begin(),
                members.len(),
                palette.begin_mut(),
                palette.len(),
            )
        }
    };
    kept(&ask.table, (record, keys, weights))?;
    coordinates.as_before(&ask.coordinates)?;
    members.as_before(&ask.members)?;
    Ok(Outcome { refusal, fields: vec![("palette", Values::Bytes(palette.taken_back()?))] })
}

/// `kf_map_strip`. The means are lent as longs, so that they are compared by their bits.
pub fn map(ask: &Map) -> Seen {
    let strip = Guarded::new("strip", &ask.strip, BYTE);
    let palette = Guarded::new("palette", &ask.palette, BYTE);
    let mut index = Guarded::new("index", &ask.index, BYTE);
    let mut means = answer::<{ raw::KF_MAP_STRIP_MEAN_PLACES }>("means");
    let mut answer = answer::<{ raw::KF_MAP_STRIP_PLACES }>("answer");
    // SAFETY: the pointers are those of live, apart buffers of the lengths told.
    let refusal = unsafe {
        raw::kf_map_strip(
            strip.begin(),
            strip.len(),
            palette.begin(),
            palette.len(),
            index.begin_mut(),
            index.len(),
            ask.first,
            answer.begin_mut().cast(),
            means.begin_mut().cast(),
        )
    };
    strip.as_before(&ask.strip)?;
    palette.as_before(&ask.palette)?;
    let fields = vec![
        ("error, R, G, B, mean or none, lower, higher", Values::Longs(answer.taken_back()?)),
        ("means by their bits", Values::Longs(means.taken_back()?)),
        ("index", Values::Bytes(index.taken_back()?)),
    ];
    Ok(Outcome { refusal, fields })
}

/// `kf_read_picture`.
pub fn picture(ask: &Picture) -> Seen {
    let input = Guarded::new("input", &ask.input, BYTE);
    let mut answer = answer::<{ raw::KF_READ_PICTURE_PLACES }>("answer");
    // SAFETY: the pointers are those of live, apart buffers of the lengths told.
    let refusal = unsafe { raw::kf_read_picture(input.begin(), input.len(), answer.begin_mut().cast()) };
    input.as_before(&ask.input)?;
    Ok(Outcome { refusal, fields: vec![("offset, width, height, raster", Values::Longs(answer.taken_back()?))] })
}
