//! The station: one equaliser record, the kept image, the gain control, and a
//! count of the calls that the library turned down.

use crate::assumptions::Assumptions;
use crate::converter::{convert, full_scale, gain_for, peak};
use crate::power::{ErrorPower, ReadingInputs};
use crate::random::{Purpose, Random};
use tigbulode::sides::Operations;
use tigbulode::{Block, Equaliser, Outputs, IMAGE_BYTES};
use tigbulode_laboratory::Reading;

#[derive(Clone)]
pub struct Station<'a> {
    given: &'a Assumptions,
    /// The library, or what stands in for it.
    by: &'a dyn Operations,
    record: Equaliser,
    /// The kept image and its check sum.
    image: Option<(Vec<u8>, u32)>,
    damage: Random,
    /// What the gain control holds.
    level: f64,
    /// Calls turned down, by number.
    pub refused: [u32; 10],
}

/// What came of one block.
#[derive(Clone, Debug)]
pub struct Decided {
    /// Empty where the block was turned down.
    pub decisions: Vec<i8>,
    /// y and the error of each sample; empty where it was.
    pub readings: Vec<Reading>,
    /// None where it was.
    pub error_power: Option<ErrorPower>,
    /// After the block.
    pub record: Equaliser,
    pub gain: u8,
    /// Samples beyond the converter's range.
    pub clipped: u32,
    /// Whether a sample is −32768.
    pub lowest: bool,
}

/// Decisions, y and error of each sample, and the error power; none of them
/// where the block was turned down.
type Answered = (Vec<i8>, Vec<Reading>, Option<ErrorPower>);

/// How the station came back after a loss of power.
#[derive(Clone, Copy, PartialEq, Eq, Debug)]
pub enum Return {
    Loaded = 1,
    /// There was no image, or it was turned down or had other settings.
    SetUpAnew = 2,
    /// A damaged image that is still one of a sound state.
    LoadedDamaged = 3,
    /// Set up anew, since the image's check sum was wrong.
    CheckSumWrong = 4,
}

impl<'a> Station<'a> {
    pub fn new(given: &'a Assumptions, by: &'a dyn Operations) -> Station<'a> {
        let answer = by.set_up(given.sizes.settings());
        let mut station = Station {
            given,
            by,
            record: answer.state,
            image: None,
            damage: Random::new(given.seed, Purpose::Damage),
            level: full_scale(given.sizes.r, given.sizes.l),
            refused: [0; 10],
        };
        station.count(answer.number);
        station
    }

    pub fn record(&self) -> &Equaliser {
        &self.record
    }

    /// A copy with another record.
    pub fn with_record(&self, record: Equaliser) -> Station<'a> {
        Station {
            record,
            ..self.clone()
        }
    }

    /// A copy that is set up anew.
    pub fn set_up_anew(&self) -> Station<'a> {
        self.with_record(self.fresh())
    }

    fn fresh(&self) -> Equaliser {
        self.by.set_up(self.given.sizes.settings()).state
    }

    fn count(&mut self, number: u8) {
        if number != 0 {
            self.refused[usize::from(number)] += 1;
        }
    }

    /// Takes the levels of a burst, block by block; a message where what a
    /// block hands out can't be read.
    pub fn burst(&mut self, levels: &[f64], entries: &[i8]) -> Result<Vec<Decided>, String> {
        let n = usize::from(self.given.sizes.n);
        let blocks = levels.chunks(n).zip(entries.chunks(n));
        blocks
            .map(|(levels, entries)| self.block(levels, entries))
            .collect()
    }

    /// Sets the gain by the blocks before, converts the levels and runs the block.
    fn block(&mut self, levels: &[f64], entries: &[i8]) -> Result<Decided, String> {
        let sizes = self.given.sizes;
        let gain = gain_for(self.level, self.given.gain.headroom, sizes.r, sizes.l);
        self.level = peak(levels).max(self.given.gain.hold * self.level);
        let converted = levels.iter().map(|x| convert(*x, sizes.r, gain));
        let (samples, beyond): (Vec<i16>, Vec<bool>) = converted.unzip();
        let (decisions, readings, error_power) = self.run(Block {
            samples: &samples,
            gains: &vec![gain; samples.len()],
            entries,
        })?;
        Ok(Decided {
            decisions,
            readings,
            error_power,
            record: self.record,
            gain,
            clipped: beyond.iter().filter(|b| **b).count() as u32,
            lowest: samples.contains(&i16::MIN),
        })
    }

    /// The decisions, the readings and the error power of one call.
    fn run(&mut self, block: Block) -> Result<Answered, String> {
        let n = block.samples.len();
        let (mut y, mut z) = (vec![0; n], vec![0; n]);
        let (mut xi, mut theta) = (vec![0; n], vec![0; n]);
        let mut decision = vec![0; n];
        let out = Outputs {
            y: &mut y,
            xi: &mut xi,
            decision: &mut decision,
            z: &mut z,
            theta: &mut theta,
        };
        let number = self.by.run(&mut self.record, block, out);
        if number != 0 {
            self.count(number);
            return Ok((Vec::new(), Vec::new(), None));
        }
        let handed = ReadingInputs {
            y: &y,
            xi: &xi,
            z: &z,
            theta: &theta,
        };
        let (readings, power) = handed.read()?;
        Ok((decision, readings, Some(ErrorPower::of_block(power))))
    }

    /// Keeps the image of the record, and its check sum beside it.
    pub fn save(&mut self) {
        let mut buffer = [0; IMAGE_BYTES];
        let saved = self.by.save(&mut self.record, &mut buffer);
        self.count(saved.number);
        if saved.number == 0 {
            let image = buffer[..saved.length].to_vec();
            let sum = tigbulode::check_sum(&image);
            self.image = Some((image, sum));
        }
    }

    /// Forgets all but the image, which may be damaged, and loads it. Where
    /// there is none, its check sum is wrong, it is turned down, or its sizes
    /// or M are not the station's own, the station is set up anew.
    pub fn lose_power(&mut self) -> Return {
        self.level = full_scale(self.given.sizes.r, self.given.sizes.l);
        self.record = self.fresh();
        let Some((kept, sum)) = self.image.clone() else {
            return Return::SetUpAnew;
        };
        let image = self.damaged(&kept);
        if self.given.power.check_sum && tigbulode::check_sum(&image) != sum {
            return Return::CheckSumWrong;
        }
        let answer = self.by.load(&image);
        self.count(answer.number);
        if answer.number != 0 || answer.state.settings() != self.record.settings() {
            return Return::SetUpAnew;
        }
        self.record = answer.state;
        if image == kept {
            Return::Loaded
        } else {
            Return::LoadedDamaged
        }
    }

    /// The image, with one byte changed where damage strikes.
    fn damaged(&mut self, kept: &[u8]) -> Vec<u8> {
        let mut image = kept.to_vec();
        if self.damage.happens(self.given.power.damaged_images) {
            let place = self.damage.below(image.len() as u32) as usize;
            image[place] ^= self.damage.below(255) as u8 + 1;
        }
        image
    }
}
