//! A bus with one fault; all else is the second implementation's.
#![allow(dead_code)]

mod images;

use images::Wrong;
use trials::bus::files::{Disk, Files};
use trials::bus::images::Images;
use trials::bus::Bus;
use trials::feed::Way;
use trials::image;
use trials::image::rules;
use trials::program::{Answering, Outcome};
use trials::protocol::{read_call, Call};
use trials::reference::Station;
use trials::script::{self, Line};

#[derive(Clone, Copy, Debug, PartialEq, Eq)]
pub enum Fault {
    None,
    // Of images.
    /// The check is the sum of the bytes.
    CheckWithoutPlace,
    /// The check leaves the last byte out.
    CheckOf507Bytes,
    BigEndian,
    /// The check is not looked at.
    AnyCheck,
    /// 22 before 21.
    ContentsBeforeChecks,
    /// z = 20 × q + j (N9).
    NumberedByRecord,
    /// Block 1 + z / 512 at place z modulo 512, of which the check takes the last four.
    BlocksOf512,
    /// As they lay before N9.
    RecordsInARow,
    // Of how many blocks differ (N9).
    BlocksWithoutChecks,
    /// Compared when the image has been written already.
    BlocksAfterWriting,
    BlocksWithoutTheFirst,
    // Of what is accepted.
    UnsoundTaken,
    TicketsRepeat,
    FinishedTaken,
    SpareByteTaken,
    /// "start + p" in 32 bits.
    EndIn32Bits,
    /// A plan has to be sound from minute 0 on.
    SoundInThePast,
    /// A due minute that could not be met is refused.
    DueRefused,
    Only180Tickets,
    /// W is not held against the plan (N14).
    SiteExceededTaken,
    /// Nor looked at at all.
    AnySiteLimit,
    // Of the bus.
    /// The fresh station beside a refused opening is saved.
    SavedAfterRefusal,
    OpeningReadsTheImage,
    /// 22 before the refusals of an opening of several feeders (N14).
    SeveralRefusedFirst,
    /// The first of several feeders is saved.
    FirstOfSeveralSaved,
    /// 8 and 11 before 20 to 22.
    OwnRefusalFirst,
    /// An unreadable line is refused where the image is.
    ErrorRefused,
    /// Files of another length are not read.
    OtherLengthsNotRead,
    /// The buffer before the first opening is the fresh station of 1, 100.
    FreshAtFirst,
}

pub struct WrongBus {
    fault: Fault,
    bus: Bus<Wrong, Disk>,
}

impl WrongBus {
    pub fn new(fault: Fault) -> WrongBus {
        let mut bus = Bus::new(Wrong(fault), Disk);
        if fault == Fault::FreshAtFirst {
            bus.set_image(image::image_of(&Station::fresh(1, 100, 0)));
        }
        WrongBus { fault, bus }
    }

    pub fn answer(&mut self, text: &[u8], out: &mut Vec<u8>) -> bool {
        if let Some(answer) = self.wrong_answer(text) {
            out.extend(answer);
            return true;
        }
        let length = out.len();
        let answered = self.bus.answer(text, out);
        let refused = out[length..].starts_with(b"refused ");
        if self.fault == Fault::SavedAfterRefusal && refused && text.starts_with(b"open ") {
            self.bus.set_image(image::image_of(&Station::fresh(1, 100, 0)));
        }
        answered
    }

    /// Where the fault gives an answer of its own.
    fn wrong_answer(&self, text: &[u8]) -> Option<Line> {
        let call = read_call(text);
        let restored = Wrong(self.fault).restore(self.bus.image());
        // The reference is not asked about stations that it would not accept.
        if restored.as_ref().is_ok_and(|station| !rules::broken(station).is_empty()) {
            return matches!(call, Ok(Some(_))).then(|| b"start 0 blocks 0".to_vec());
        }
        let refusal = restored.err();
        let own = match call {
            Ok(Some(Call::Move { target: 1_000_001.., .. })) => Some(8),
            Ok(Some(Call::Lines { feeder: 1, allowance: 0 | 1_001.. })) => Some(11),
            _ => None,
        };
        let several = matches!(&call, Ok(Some(Call::Open { opening })) if opening.count > 1);
        let is_call = text.starts_with(b"read") || text.starts_with(b"write") || call.is_ok();
        let refused = match self.fault {
            Fault::OpeningReadsTheImage if matches!(call, Ok(Some(Call::Open { .. }))) => refusal,
            Fault::OwnRefusalFirst => own,
            Fault::SeveralRefusedFirst if several => {
                let size = image::refuse_size(self.bus.image()).err();
                size.or(Some(image::CONTENTS))
            }
            Fault::ErrorRefused if !is_call => refusal,
            _ => None,
        };
        let short = |path: &[u8]| Disk.read(path).is_some_and(|bytes| bytes.len() != image::BYTES);
        match text.strip_prefix(b"read ") {
            Some(path) if self.fault == Fault::OtherLengthsNotRead && short(path) => {
                Some(b"error the file is no image".to_vec())
            }
            _ => refused.map(|number| format!("refused {number}").into_bytes()),
        }
    }
}

/// It in the place of a program.
pub struct Inside(pub Fault);

impl Answering for Inside {
    fn answers_to(&self, input: &[u8], _: &Way) -> Outcome {
        let mut bus = WrongBus::new(self.0);
        let mut answers = Vec::new();
        for line in script::split(input) {
            let mut answer = Vec::new();
            if bus.answer(&line, &mut answer) {
                answers.push(answer);
            }
        }
        Outcome { answers, trouble: None }
    }
}
