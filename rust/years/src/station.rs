//! The station: one equaliser record, the kept image, the gain control, and a count of the calls that the library turned
//! down.

use crate::assumptions::Assumptions;
use crate::converter::{convert, full_scale, gain_for, peak};
use plots::block::{self, Heard};
use plots::random::{Purpose, Random};
use tigbulode::{check_sum, Block, Equaliser, IMAGE_BYTES};

#[derive(Clone)]
pub struct Station<'a> {
    given: &'a Assumptions,
    record: Equaliser,
    /// The kept image and its check sum.
    image: Option<(Vec<u8>, u32)>,
    damage: Random,
    /// What the gain control holds.
    level: f64,
    /// Calls turned down, by number.
    pub refused: [u32; 10],
}

/// One block: what it was lent, and what came of it.
#[derive(Clone, Debug)]
pub struct Ran {
    pub samples: Vec<i16>,
    pub gain: u8,
    pub entries: Vec<i8>,
    /// Samples beyond the converter's range.
    pub clipped: usize,
    pub before: Equaliser,
    pub after: Equaliser,
    /// None where the block was turned down.
    pub heard: Option<Heard>,
}

/// How the station came back after a loss of power.
#[derive(Clone, Copy, PartialEq, Eq, Debug)]
pub enum Return {
    Loaded = 1,
    /// There was no image, or it was turned down or had other settings.
    SetUpAnew = 2,
    /// A damaged image that is still one of a sound state.
    LoadedDamaged = 3,
    /// Set up anew, since the image's check sum was wrong.
    CheckSumWrong = 4,
}

impl<'a> Station<'a> {
    pub fn new(given: &'a Assumptions) -> Station<'a> {
        let answer = tigbulode::set_up(given.settings);
        let mut station = Station {
            given,
            record: answer.state,
            image: None,
            damage: Random::new(given.seed, Purpose::Damage),
            level: full_scale(given.settings.r, given.settings.l),
            refused: [0; 10],
        };
        station.count(answer.number);
        station
    }

    pub fn record(&self) -> &Equaliser {
        &self.record
    }

    /// A copy with another record.
    pub fn with_record(&self, record: Equaliser) -> Station<'a> {
        Station { record, ..self.clone() }
    }

    /// A copy that is set up anew.
    pub fn set_up_anew(&self) -> Station<'a> {
        self.with_record(self.fresh())
    }

    fn fresh(&self) -> Equaliser {
        tigbulode::set_up(self.given.settings).state
    }

    fn count(&mut self, number: u8) {
        if number != 0 {
            self.refused[usize::from(number)] += 1;
        }
    }

    /// Takes the levels of a burst, block by block; a message where what a block hands out can't be read.
    pub fn burst(&mut self, levels: &[f64], entries: &[i8]) -> Result<Vec<Ran>, String> {
        let n = usize::from(self.given.settings.n);
        let blocks = levels.chunks(n).zip(entries.chunks(n));
        blocks.map(|(levels, entries)| self.block(levels, entries)).collect()
    }

    /// Sets the gain by the blocks before, converts the levels and runs the block.
    fn block(&mut self, levels: &[f64], entries: &[i8]) -> Result<Ran, String> {
        let sizes = self.given.settings;
        let gain = gain_for(self.level, self.given.headroom, sizes.r, sizes.l);
        self.level = peak(levels).max(self.given.hold * self.level);
        let converted = levels.iter().map(|x| convert(*x, sizes.r, gain));
        let (samples, beyond): (Vec<i16>, Vec<bool>) = converted.unzip();
        let before = self.record;
        let block = Block { samples: &samples, gains: &vec![gain; samples.len()], entries };
        let heard = block::run(&mut self.record, block)?;
        self.count(heard.as_ref().err().copied().unwrap_or(0));
        Ok(Ran {
            samples,
            gain,
            entries: entries.to_vec(),
            clipped: beyond.iter().filter(|b| **b).count(),
            before,
            after: self.record,
            heard: heard.ok(),
        })
    }

    /// Keeps the image of the record, and its check sum beside it.
    pub fn save(&mut self) {
        let mut buffer = [0; IMAGE_BYTES];
        let saved = tigbulode::save(&self.record, &mut buffer);
        self.count(saved.number);
        if saved.number == 0 {
            let image = buffer[..saved.length].to_vec();
            let sum = check_sum(&image);
            self.image = Some((image, sum));
        }
    }

    /// Forgets all but the image, which may be damaged, and loads it. Where there is none, its check sum is wrong, it is
    /// turned down, or its sizes or M are not the station's own, the station is set up anew.
    pub fn lose_power(&mut self) -> Return {
        self.level = full_scale(self.given.settings.r, self.given.settings.l);
        self.record = self.fresh();
        let Some((kept, sum)) = self.image.clone() else {
            return Return::SetUpAnew;
        };
        let image = self.damaged(&kept);
        if self.given.check_sum == 1 && check_sum(&image) != sum {
            return Return::CheckSumWrong;
        }
        let answer = tigbulode::load(&image);
        self.count(answer.number);
        if answer.number != 0 || answer.state.settings() != self.record.settings() {
            return Return::SetUpAnew;
        }
        self.record = answer.state;
        if image == kept {
            Return::Loaded
        } else {
            Return::LoadedDamaged
        }
    }

    /// The image, with one byte changed where damage strikes.
    fn damaged(&mut self, kept: &[u8]) -> Vec<u8> {
        let mut image = kept.to_vec();
        if self.damage.happens(self.given.damaged_images) {
            let place = self.damage.below(image.len() as u32) as usize;
            image[place] ^= self.damage.below(255) as u8 + 1;
        }
        image
    }
}
