//! A sound record as a draft: its plan, and what its sections mean, so that damage can be aimed and
//! reading compared.

use super::plan::Plan;
use super::rhythm::{self, Rhythm};
use super::rng::Rng;
use super::section_1;
use super::tables::{self, Row};
use crate::bounds;
use crate::encoding::tables_to_write;
use crate::tables::Tables;

/// How values are coded.
#[derive(Clone, Copy, Debug, PartialEq, Eq)]
pub enum Coding {
    /// No Section 2.
    TwoBytes,
    /// Section 2 names the default table.
    Default,
    /// Section 2 has tables of its own.
    Own,
}

/// How much there is of Sections 3 to 6.
#[derive(Clone, Copy, Debug, PartialEq, Eq)]
pub enum Holds {
    /// Neither Section 3 nor 6.
    Nothing,
    /// Section 3 without Section 6, with or without a beat.
    NoStreams,
    /// Leads with nothing subtracted.
    Leads,
    /// Leads with a subtracted beat.
    Beat,
}

/// The wishes for a draft; the rest is free.
#[derive(Clone, Copy, Debug, Default)]
pub struct Wish {
    pub coding: Option<Coding>,
    pub holds: Option<Holds>,
}

impl Wish {
    pub fn coded(coding: Coding) -> Self {
        Wish {
            coding: Some(coding),
            holds: None,
        }
    }

    pub fn holding(holds: Holds) -> Self {
        Wish {
            coding: None,
            holds: Some(holds),
        }
    }
}

/// A sound record.
#[derive(Clone, Debug)]
pub struct Draft {
    pub plan: Plan,
    /// The tables of a Section 2 of its own.
    pub rows: Vec<Vec<Row>>,
    /// The tables by which values are coded; none without Section 2.
    pub tables: Option<Tables>,
    pub holds: Holds,
    /// Where there is a Section 3.
    pub rhythm: Option<Rhythm>,
}

impl Draft {
    /// A draft within the bound on records.
    pub fn new(rng: &mut Rng, wish: Wish) -> Self {
        loop {
            if let Some(draft) = Draft::drawn(rng, wish) {
                if draft.plan.size() <= *bounds::RECORD.end() {
                    return draft;
                }
            }
        }
    }

    fn drawn(rng: &mut Rng, wish: Wish) -> Option<Self> {
        let mut plan = Plan::new(rng);
        let fields = section_1::fields(rng);
        plan.put(rng, 1, section_1::data(&fields));
        let (coding, holds) = choose(rng, wish);
        let mut draft = Draft {
            plan,
            rows: Vec::new(),
            tables: None,
            holds,
            rhythm: None,
        };
        draft.put_tables(rng, coding)?;
        draft.put_rhythm(rng)?;
        if !rng.one_in(6) {
            put_others(rng, &mut draft.plan);
            scatter(rng, &mut draft.plan);
        }
        Some(draft)
    }

    fn put_tables(&mut self, rng: &mut Rng, coding: Coding) -> Option<()> {
        let data = match coding {
            Coding::TwoBytes => return Some(()),
            Coding::Default => tables::default_data(),
            Coding::Own => {
                self.rows = tables::rows(rng);
                tables::data(&self.rows)
            }
        };
        self.tables = tables_to_write(&data).ok()?;
        self.plan.put(rng, 2, data);
        Some(())
    }

    fn put_rhythm(&mut self, rng: &mut Rng) -> Option<()> {
        let beaten = match self.holds {
            Holds::Nothing => {
                self.put_unjudged(rng);
                return Some(());
            }
            Holds::NoStreams => rng.one_in(3),
            Holds::Leads => false,
            Holds::Beat => true,
        };
        let rhythm = rhythm::rhythm(rng, self.tables.as_ref(), beaten)?;
        self.plan.put(rng, 3, rhythm.section_3());
        if self.holds != Holds::NoStreams {
            self.plan.put(rng, 6, rhythm.section_6());
        }
        match (rhythm.section_4(), rhythm.section_5(rng.byte())) {
            (Some(mut section_4), Some(section_5)) => {
                let more = rng.pick(&[0, 0, 8]) * rng.small(40);
                section_4.extend(rng.bytes(more));
                self.plan.put(rng, 4, section_4);
                self.plan.put(rng, 5, section_5);
            }
            _ => self.put_unjudged(rng),
        }
        self.rhythm = Some(rhythm);
        Some(())
    }

    /// Puts the data of Sections 3 to 6 as they now are in place of those before.
    pub fn renew(&mut self, rng: &mut Rng) {
        let Some(rhythm) = &self.rhythm else { return };
        let sections = [
            (3, Some(rhythm.section_3())),
            (4, rhythm.section_4()),
            (5, rhythm.section_5(rng.byte())),
            (6, Some(rhythm.section_6())),
        ];
        for (id, new) in sections {
            if let Some(new) = new {
                self.plan.replace(rng, id, new);
            }
        }
    }

    /// Sections 4 and 5 with any data, where nothing was subtracted.
    fn put_unjudged(&mut self, rng: &mut Rng) {
        for id in [4, 5] {
            if rng.one_in(6) {
                let length = rng.small(40);
                let data = rng.bytes(length);
                self.plan.put(rng, id, data);
            }
        }
    }
}

fn choose(rng: &mut Rng, wish: Wish) -> (Coding, Holds) {
    use Coding::{Default, Own, TwoBytes};
    use Holds::{Beat, Leads, NoStreams, Nothing};
    let coding = rng.pick(&[TwoBytes, Default, Own, Own]);
    let holds = rng.pick(&[
        Nothing, NoStreams, Leads, Leads, Leads, Leads, Beat, Beat, Beat,
    ]);
    (wish.coding.unwrap_or(coding), wish.holds.unwrap_or(holds))
}

/// Sections of which only place, header and check are judged.
fn put_others(rng: &mut Rng, plan: &mut Plan) {
    let seldom = rng.within(1..=12);
    for (id, _) in plan.pointers.clone() {
        if id > 6 && rng.one_in(seldom) {
            let most = if rng.one_in(60) { 60_000 } else { 100 };
            let length = rng.small(most);
            let data = rng.bytes(length);
            plan.put(rng, id, data);
        }
    }
}

/// Any order in the file, gaps of any length, and the whole at times as long as a record may be.
fn scatter(rng: &mut Rng, plan: &mut Plan) {
    if !rng.one_in(3) {
        rng.shuffle(&mut plan.sections);
    }
    let gap = |rng: &mut Rng| {
        let length = rng.pick(&[0, 0, 0, 1]) * rng.small(300);
        rng.bytes(length)
    };
    for section in &mut plan.sections {
        section.gap = gap(rng);
    }
    plan.after = gap(rng);
    if rng.one_in(1000) {
        lengthen(rng, plan);
    }
}

/// Makes the record one of exactly 1,048,576 bytes, by bytes after the last section or by one more
/// section.
fn lengthen(rng: &mut Rng, plan: &mut Plan) {
    let room = bounds::RECORD.end().saturating_sub(plan.size());
    if room % 2 == 0 && room >= 16 && !plan.has(7) && rng.coin() {
        plan.put(rng, 7, vec![0x5A; room - 16]);
    } else {
        plan.after.extend(vec![0xA5; room]);
    }
}
