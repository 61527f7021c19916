//! The history of one station, reading by reading.

use crate::assumptions::Assumptions;
use crate::burst::{Burst, Sender};
use crate::cable::{CableModel, Weather};
use crate::old_rule::RisesOnly;
use crate::outcome::Outcome;
use crate::power::ErrorPower;
use crate::random::{Purpose, Random};
use crate::station::{Decided, Return, Station};
use crate::swap::{Swap, SwapReading};
use tigbulode::sides::{Library, Operations};
use tigbulode::Equaliser;

/// One reading: a row of the table.
#[derive(Clone, Debug)]
pub struct Reading {
    pub number: u32,
    pub day: f64,
    pub pressure_true: f64,
    pub pressure_sent: u16,
    pub pressure_received: Option<u16>,
    pub symbols: u32,
    pub wrong: u32,
    /// Of the payload; none where no block of it was accepted.
    pub error_power: Option<ErrorPower>,
    pub gain_least: u8,
    pub gain_most: u8,
    pub clipped: u32,
    pub record: Equaliser,
    pub loud: bool,
    pub faint: bool,
    pub joint: bool,
    pub saved: bool,
    pub power_lost: Option<Return>,
    pub refused: [u32; 10],
    /// The same reading by the old rule, where that is run.
    pub old: Option<Outcome>,
}

/// What came of the years.
#[derive(Debug)]
pub struct History {
    pub readings: Vec<Reading>,
    /// Those around a swapped joint, by copies of the station.
    pub swapped: Vec<SwapReading>,
}

impl Reading {
    /// A wrong pressure that the check bits let pass.
    pub fn is_wrong(&self) -> bool {
        let sent = self.pressure_sent;
        self.pressure_received.is_some_and(|n| n != sent)
    }
}

struct World<'a> {
    given: &'a Assumptions,
    sender: Sender<'a>,
    cable: CableModel<'a>,
    station: Station<'a>,
    /// The same station by the old rule.
    old: Option<Station<'a>>,
    losses: Random,
    swap: Swap<'a>,
}

/// The blocks of a burst, by the station and by the old rule.
type Both = (Vec<Decided>, Option<Vec<Decided>>);

/// Every reading in turn; `done` is told how many there are so far. A message
/// where what a block handed out can't be read.
pub fn run(given: &Assumptions, done: impl FnMut(u32)) -> Result<History, String> {
    run_beside(given, &RisesOnly, done)
}

/// The same with what stands in for the old rule.
pub fn run_beside(
    given: &Assumptions,
    old: &dyn Operations,
    mut done: impl FnMut(u32),
) -> Result<History, String> {
    let old = given.old_rule.then(|| Station::new(given, old));
    let mut world = World {
        given,
        sender: Sender::new(given),
        cable: CableModel::new(given),
        station: Station::new(given, &Library),
        old,
        losses: Random::new(given.seed, Purpose::Power),
        swap: Swap::new(given),
    };
    world.commission()?;
    let mut readings = Vec::new();
    for number in 0..given.readings() {
        readings.push(world.reading(number)?);
        done(number + 1);
    }
    Ok(History {
        readings,
        swapped: world.swap.readings,
    })
}

impl World<'_> {
    /// Passes a burst through the cable.
    fn receive(&mut self, burst: &Burst, weather: &Weather) -> Vec<f64> {
        let unheard = self.sender.lead() + 1 - weather.taps.len();
        self.cable.receive(weather, &burst.sent[unheard..])
    }

    /// Passes what is received of a burst to the stations.
    fn hear(&mut self, levels: &[f64], burst: &Burst) -> Result<Both, String> {
        let own = self.station.burst(levels, &burst.entries)?;
        let old = self.old.as_mut();
        let old = old.map(|station| station.burst(levels, &burst.entries));
        Ok((own, old.transpose()?))
    }

    fn commission(&mut self) -> Result<(), String> {
        let weather = self.cable.weather(0.0);
        let burst = self.sender.commissioning();
        let levels = self.receive(&burst, &weather);
        self.hear(&levels, &burst).map(|_| ())
    }

    /// Whether power is lost before a reading, and how the station came back.
    fn lose_power(&mut self) -> Option<Return> {
        let days = self.given.power.loss_days;
        let readings = days * f64::from(self.given.readings_a_day);
        let lost = days > 0.0 && self.losses.happens(1.0 / readings);
        lost.then(|| {
            if let Some(old) = &mut self.old {
                old.lose_power();
            }
            self.station.lose_power()
        })
    }

    fn save(&mut self, number: u32) -> bool {
        let every = self.given.power.save_every_days * self.given.readings_a_day;
        let due = number.is_multiple_of(every);
        if due {
            self.station.save();
            if let Some(old) = &mut self.old {
                old.save();
            }
        }
        due
    }

    fn reading(&mut self, number: u32) -> Result<Reading, String> {
        let day = self.given.day_of(number);
        let power_lost = self.lose_power();
        let weather = self.cable.weather(day);
        let pressure_sent = self.given.pressure.number_at(day);
        let burst = self.sender.reading(pressure_sent);
        let levels = self.receive(&burst, &weather);
        let (station, now) = (&self.station, (number, pressure_sent));
        self.swap.hear(now, station, &levels, &burst)?;
        let (blocks, old_blocks) = self.hear(&levels, &burst)?;
        let by = |blocks: &[Decided]| Outcome::of(self.given, &burst, blocks);
        let (own, old) = (by(&blocks), old_blocks.map(|blocks| by(&blocks)));
        let saved = self.save(number);
        Ok(Reading {
            number,
            day,
            pressure_true: self.given.pressure.at(day),
            pressure_sent,
            pressure_received: own.received,
            symbols: burst.payload.len() as u32,
            wrong: own.wrong,
            error_power: own.error_power,
            gain_least: blocks.iter().map(|b| b.gain).min().unwrap_or(0),
            gain_most: blocks.iter().map(|b| b.gain).max().unwrap_or(0),
            clipped: blocks.iter().map(|b| b.clipped).sum(),
            record: own.record,
            loud: weather.loud,
            faint: weather.faint,
            joint: weather.joint,
            saved,
            power_lost,
            refused: self.station.refused,
            old,
        })
    }
}
