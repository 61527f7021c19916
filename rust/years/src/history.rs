//! The history of one station, reading by reading.

use crate::assumptions::Assumptions;
use crate::burst::{Burst, Sender};
use crate::cable::{CableModel, Weather};
use crate::outcome::Outcome;
use crate::station::{Ran, Return, Station};
use crate::swap::{Swap, SwapReading};
use plots::random::{Purpose, Random};

/// One reading: a row of the table.
#[derive(Clone, Debug)]
pub struct Reading {
    pub number: u32,
    pub day: f64,
    pub pressure: f64,
    /// The number for it that is sent.
    pub sent: u16,
    pub outcome: Outcome,
    pub gain_least: u8,
    pub gain_most: u8,
    pub clipped: usize,
    pub loud: bool,
    pub faint: bool,
    pub joint: bool,
    pub saved: bool,
    pub power_lost: Option<Return>,
    /// Calls turned down so far, by number.
    pub refused: [u32; 10],
}

/// What came of the years.
#[derive(Debug)]
pub struct History {
    pub readings: Vec<Reading>,
    /// Those around a swapped joint, by copies of the station.
    pub swapped: Vec<SwapReading>,
}

impl Reading {
    pub fn is_lost(&self) -> bool {
        self.outcome.received.is_none()
    }

    /// A wrong pressure that the check bits let pass.
    pub fn is_wrong(&self) -> bool {
        self.outcome.received.is_some_and(|number| number != self.sent)
    }
}

struct World<'a> {
    given: &'a Assumptions,
    sender: Sender<'a>,
    cable: CableModel<'a>,
    station: Station<'a>,
    losses: Random,
    swap: Swap<'a>,
}

/// Every reading in turn; `watch` is shown each with its blocks. A message where what a block handed out can't be read.
pub fn run(given: &Assumptions, mut watch: impl FnMut(&Reading, &[Ran])) -> Result<History, String> {
    let mut world = World {
        given,
        sender: Sender::new(given),
        cable: CableModel::new(given),
        station: Station::new(given),
        losses: Random::new(given.seed, Purpose::Power),
        swap: Swap::new(given),
    };
    world.commission()?;
    let mut readings = Vec::new();
    for number in 0..given.readings() {
        let (reading, blocks) = world.reading(number)?;
        watch(&reading, &blocks);
        readings.push(reading);
    }
    Ok(History { readings, swapped: world.swap.readings })
}

impl World<'_> {
    /// Passes a burst through the cable.
    fn receive(&mut self, burst: &Burst, weather: &Weather) -> Vec<f64> {
        let unheard = self.sender.lead() + 1 - weather.taps.len();
        self.cable.receive(weather, &burst.sent[unheard..])
    }

    fn commission(&mut self) -> Result<(), String> {
        let weather = self.cable.weather(0.0);
        let burst = self.sender.commissioning();
        let levels = self.receive(&burst, &weather);
        self.station.burst(&levels, &burst.entries).map(|_| ())
    }

    /// Whether power is lost before a reading, and how the station came back.
    fn lose_power(&mut self) -> Option<Return> {
        let days = self.given.power_loss_days;
        let readings = days * f64::from(self.given.readings_a_day);
        let lost = days > 0.0 && self.losses.happens(1.0 / readings);
        lost.then(|| self.station.lose_power())
    }

    fn save(&mut self, number: u32) -> bool {
        let due = number.is_multiple_of(self.given.save_every_days * self.given.readings_a_day);
        if due {
            self.station.save();
        }
        due
    }

    fn reading(&mut self, number: u32) -> Result<(Reading, Vec<Ran>), String> {
        let day = self.given.day_of(number);
        let power_lost = self.lose_power();
        let weather = self.cable.weather(day);
        let sent = self.given.number_at(day);
        let burst = self.sender.reading(sent);
        let levels = self.receive(&burst, &weather);
        self.swap.hear((number, sent), &self.station, &levels, &burst)?;
        let blocks = self.station.burst(&levels, &burst.entries)?;
        let saved = self.save(number);
        let gains = blocks.iter().map(|block| block.gain);
        let reading = Reading {
            number,
            day,
            pressure: self.given.pressure_at(day),
            sent,
            outcome: Outcome::of(self.given, &burst, &blocks),
            gain_least: gains.clone().min().unwrap_or(0),
            gain_most: gains.max().unwrap_or(0),
            clipped: blocks.iter().map(|block| block.clipped).sum(),
            loud: weather.loud,
            faint: weather.faint,
            joint: weather.joint,
            saved,
            power_lost,
            refused: self.station.refused,
        };
        Ok((reading, blocks))
    }
}
