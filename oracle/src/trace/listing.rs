//! The listing of a trace, record by record. Bad records are judged by document
//! 01's numbers in the printer's order; every figure is the published Rust's.

use super::records::{self, Settings, BLOCK, LENGTHS, RESET, SETTINGS};
use crate::judge::{self, Judged, Refusal, BANDS};
use crate::kinds::call::Call;
use crate::kinds::erle::Erle;
use crate::kinds::ring::Ring;
use crate::kinds::standing::Estimator;
use crate::lines::Lines;
use crate::record::{take_record_of, Malformed, Record};

/// The lines before those of the first record.
pub fn header() -> Lines {
    let mut lines = Lines::default();
    lines.push(format_args!("block channel plain compensated uncapped"));
    lines
}

/// What is kept from record to record.
#[derive(Default)]
pub struct Listing {
    standing: Option<Standing>,
    blocks: u32,
    records: u32,
}

impl Listing {
    /// Takes the first record off a trace and lists it. A refusal ends the run.
    pub fn step(&mut self, trace: &mut &[u8], lines: &mut Lines) -> Judged {
        self.records = self.records.saturating_add(1);
        let record = take_record_of(LENGTHS, trace).map_err(|Malformed| Refusal(10));
        let listed = record.and_then(|record| self.apply(&record, lines));
        listed.inspect_err(|refusal| lines.push(format_args!("{refusal} at {}", self.records)))
    }

    /// 11: an unknown kind. 22: a block or reset before settings. 23: second
    /// settings.
    fn apply(&mut self, record: &Record<'_>, lines: &mut Lines) -> Judged {
        match (record.kind, &mut self.standing) {
            (SETTINGS, standing @ None) => *standing = Some(Standing::started(record.body)?),
            (BLOCK, Some(standing)) => {
                standing.update(record.body)?;
                self.blocks = self.blocks.saturating_add(1);
                standing.rows(self.blocks, lines);
            }
            (RESET, Some(standing)) => standing.erle.reset(records::read_reset(record.body)?),
            (BLOCK | RESET, None) => return Err(Refusal(22)),
            (SETTINGS, Some(_)) => return Err(Refusal(23)),
            _ => return Err(Refusal(11)),
        }
        Ok(())
    }
}

/// What settings set up.
struct Standing {
    erle: Erle,
    /// The printed band.
    band: usize,
    /// The latest block.
    call: Call,
    /// What the estimator is lent, and does not read with one section.
    ring: Ring,
    responses: Vec<Vec<[f32; BANDS]>>,
}

impl Standing {
    /// 12 and 13, and then 1 and 2, by which a start is judged.
    fn started(body: &[u8]) -> Result<Self, Refusal> {
        let settings = Settings::read(body)?;
        let erle = Erle::started(&settings.start())?;
        let channels = settings.channels as usize;
        Ok(Self {
            erle,
            band: settings.band.into(),
            call: Call {
                channels: settings.channels.into(),
                flags: vec![false; channels],
                render: vec![0.0; BANDS],
                capture: vec![0.0; BANDS * channels],
                residual: vec![0.0; BANDS * channels],
            },
            ring: Ring::new(1, &[[0.0; BANDS]]),
            responses: vec![Vec::new(); channels],
        })
    }

    /// 12 and 13, and then 6.
    fn update(&mut self, body: &[u8]) -> Judged {
        let call = &mut self.call;
        records::read_block(body, call)?;
        judge::erle_update(call, call.flags.len())?;
        let [render, captures, residuals] = call.spectra();
        self.erle.estimator.update(
            &self.ring.at(0),
            &self.responses,
            &render[0],
            captures,
            residuals,
            &call.flags,
        );
        Ok(())
    }

    /// A line for each channel, after a block.
    fn rows(&self, block: u32, lines: &mut Lines) {
        let erle = &self.erle.estimator;
        let streams = [erle.erle(false), erle.erle(true), erle.erle_unbounded()];
        for channel in 0..self.call.flags.len() {
            let figures = streams.map(|stream| stream[channel][self.band]);
            lines.push_hex(format_args!("{block} {channel}"), &figures);
        }
    }
}
