//! The trace of each step size, made by the laboratory's library.

use crate::refusal::refusal;
use crate::text::{Given, Step};
use crate::words::{cut, At};
use tigbulode_laboratory::{cable, trace_length, Cable};
use traces::Problem;

/// A step size: its M, and its name on the page.
#[derive(Clone, Debug, PartialEq)]
pub struct StepSize {
    pub line: usize,
    pub m: u32,
    pub name: String,
    /// Of the greatest admitted M.
    pub share: f64,
}

fn step_size(given: &Given, step: &At<Step>) -> StepSize {
    let greatest = given.greatest_step().unwrap_or(0);
    let (m, name) = match &step.value {
        Step::M(m) => (*m, format!("M = {m}")),
        Step::Share(share, word) => (share.of(greatest), format!("share {}", cut(word, 8))),
    };
    let share = f64::from(m) / f64::from(greatest.max(1));
    let line = step.line;
    StepSize {
        line,
        m,
        name,
        share,
    }
}

/// Each step size with its trace, or why there is none.
pub fn traces(given: &Given) -> Result<Vec<(StepSize, Vec<u8>)>, Problem> {
    let steps = given.steps.iter().map(|step| step_size(given, step));
    let steps: Vec<StepSize> = steps.collect();
    let made = steps.iter().map(|step| trace(given, step));
    let made = made.collect::<Result<Vec<_>, _>>()?;
    apart(&steps)?;
    Ok(steps.into_iter().zip(made).collect())
}

fn trace(given: &Given, step: &StepSize) -> Result<Vec<u8>, Problem> {
    let (response, symbols) = (given.response.plain(), given.symbols.plain());
    let mut trace = vec![0; trace_length(symbols.len())];
    let described = Cable {
        p: given.p.value,
        q: given.q.value,
        n: given.n.value,
        r: given.r.value,
        l: given.l.value,
        step: step.m,
        response: &response,
        symbols: &symbols,
        training: given.training.value,
    };
    match cable(&described, &mut trace) {
        0 => Ok(trace),
        number => Err(refusal(given, step, number)),
    }
}

/// Two curves of one M would be one.
fn apart(steps: &[StepSize]) -> Result<(), Problem> {
    for (place, step) in steps.iter().enumerate() {
        if let Some(first) = steps[..place].iter().find(|other| other.m == step.m) {
            let sentence = format!(
                "{} comes to M = {}, and so does {} in line {}: each is wanted once",
                step.name, step.m, first.name, first.line
            );
            return Err(Problem::new(step.line, sentence));
        }
    }
    Ok(())
}
