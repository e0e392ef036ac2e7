//! Stores: docs/stores.md. A store is its meaning; the bytes of its memory are worked out from that.

use crate::book::LAST_RUN;
use crate::logic::Run;
use crate::refusal::{Fault, Refusal};

#[derive(Clone, Copy, PartialEq, Eq, Debug)]
pub enum Kind {
    RowTable,
    StretchTable,
}

const MOST_RUNS: usize = 4_096;

#[derive(Clone, Debug)]
pub struct Store {
    kind: Kind,
    width: usize,
    memory: usize,
    pub limit: usize,
    pub low: Run,
    records: Vec<Vec<u8>>,
}

impl Store {
    /// A store on that many bytes of memory.
    pub fn make(kind: Kind, width: usize, memory: usize) -> Result<Self, Refusal> {
        if !(4..=289).contains(&width) {
            return Err(Fault::NoSuchStore.at(0));
        }
        let piece = match kind {
            Kind::RowTable => width,
            Kind::StretchTable => width + 8,
        };
        let limit = (memory / piece).min(MOST_RUNS);
        if limit < 2 {
            return Err(Fault::NoSuchStore.at(0));
        }
        Ok(Store { kind, width, memory, limit, low: 1, records: Vec::new() })
    }

    /// The same store with these records, the first of them of run low.
    pub fn holding(&self, low: Run, records: Vec<Vec<u8>>) -> Self {
        Store { low, records, ..self.clone() }
    }

    pub fn high(&self) -> Run {
        self.low + self.records.len() - 1
    }

    pub fn read(&self, run: Run, room: usize) -> Result<&[u8], Refusal> {
        self.test_length(room)?;
        self.test_run(run)?;
        Ok(&self.records[run - self.low])
    }

    pub fn write(&mut self, run: Run, record: Vec<u8>) -> Result<(), Refusal> {
        self.test_length(record.len())?;
        self.test_run(run)?;
        self.records[run - self.low] = record;
        Ok(())
    }

    pub fn append(&mut self, record: Vec<u8>) -> Result<(), Refusal> {
        self.test_length(record.len())?;
        if self.high() == LAST_RUN {
            return Err(Fault::LastRun.at(LAST_RUN));
        }
        if self.records.len() == self.limit {
            return Err(Fault::Full.at(self.limit));
        }
        self.records.push(record);
        Ok(())
    }

    pub fn forget(&mut self, run: Run) -> Result<(), Refusal> {
        self.test_run(run)?;
        self.records.drain(..run - self.low);
        self.low = run;
        Ok(())
    }

    fn test_length(&self, length: usize) -> Result<(), Refusal> {
        if length != self.width {
            return Err(Fault::Length.at(length));
        }
        Ok(())
    }

    fn test_run(&self, run: Run) -> Result<(), Refusal> {
        if !(self.low..=self.high()).contains(&run) {
            return Err(Fault::NotKept.at(run));
        }
        Ok(())
    }

    /// Every byte of the memory.
    pub fn image(&self) -> Vec<u8> {
        let mut image = vec![0; self.memory];
        match self.kind {
            Kind::RowTable => {
                for (run, record) in (self.low..).zip(&self.records) {
                    let slot = (run - 1) % self.limit;
                    image[slot * self.width..][..self.width].copy_from_slice(record);
                }
            }
            Kind::StretchTable => {
                for (entry, (first, runs, record)) in self.stretches().into_iter().enumerate() {
                    let bytes = &mut image[entry * (self.width + 8)..][..self.width + 8];
                    bytes[..4].copy_from_slice(&(first as u32).to_be_bytes());
                    bytes[4..8].copy_from_slice(&(runs as u32).to_be_bytes());
                    bytes[8..].copy_from_slice(record);
                }
            }
        }
        image
    }

    /// Consecutive runs with the same record: the first run, how many runs, their record.
    fn stretches(&self) -> Vec<(Run, usize, &Vec<u8>)> {
        let mut stretches: Vec<(Run, usize, &Vec<u8>)> = Vec::new();
        for (run, record) in (self.low..).zip(&self.records) {
            match stretches.last_mut() {
                Some((_, runs, same)) if *same == record => *runs += 1,
                _ => stretches.push((run, 1, record)),
            }
        }
        stretches
    }
}
