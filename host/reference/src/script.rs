//! A script of calls on a session for the program `cases`, with the answers by the documents.

use crate::{between, convert, couple, gauge, join, judge, reader, yard};
use crate::{Answer, Deflection, Judged, Member, Passing, Rated, Readings, Refused, Vehicle};
use std::fmt::Write;

/// The program takes scripts that are shorter than this.
pub const SPACE: usize = 524_288;

/// The most entries of a list that the program lends for a yard.
const MOST_ANSWERS: usize = 40;

/// The most entries of a list of numbers that it lends: more than two for each of 255 members.
pub const MOST_ENTRIES: usize = 520;

/// The most bytes of a buffer that it lends: more than the longest survey has, 6 + 32 × 255.
pub const MOST_BYTES: usize = 8200;

/// The bytes of a gauge's step: a place, and the bits of three readings.
pub const GAUGE_BYTES: usize = 2 + 3 * 4;

/// What each byte of a lent buffer holds.
const KNOWN_BYTE: u8 = 0xee;

/// Each number of entry i of a lent list is KNOWN + i.
const KNOWN: u32 = 1_000_000;

/// The steps so far, what they print, and the session: what was taken.
#[derive(Default)]
pub struct Script {
    pub bytes: Vec<u8>,
    pub text: String,
    survey: Option<Vec<Member>>,
    vehicle: Option<Vehicle>,
}

fn verdict(passes: bool) -> &'static str {
    if passes {
        "pass"
    } else {
        "refuse"
    }
}

fn refused(number: u64, place: u64) -> String {
    format!("refused {number} at {place}")
}

fn taken<T>(read: &Result<T, Refused>) -> String {
    match read {
        Ok(_) => "taken".to_string(),
        Err(fault) => refused(fault.number, fault.place),
    }
}

/// A number of two bytes, as it stands in a step.
fn number(value: usize) -> [u8; 2] {
    u16::try_from(value).expect("a number of two bytes").to_le_bytes()
}

/// The gap and the two files of a coupling's step: two numbers, the gap and the first file's length,
/// stand before them.
pub fn halves(body: &[u8]) -> Option<(u16, [&[u8]; 2])> {
    let (&[gap_low, gap_high, low, high], files) = body.split_first_chunk()?;
    let (first, second) = files.split_at_checked(u16::from_le_bytes([low, high]).into())?;
    Some((u16::from_le_bytes([gap_low, gap_high]), [first, second]))
}

/// What a list of so many numbers holds when it is lent.
fn known_list(entries: usize) -> Vec<u64> {
    (KNOWN..).take(entries).map(u64::from).collect()
}

/// An entry of a list of answers when it is lent.
fn known_answer(known: u32) -> Answer {
    let number = u64::from(known);
    Answer { figure: number, governing: number, passes: false, margin: known.into() }
}

/// An answer as it stands in a printed list.
fn entry(answer: &Answer) -> String {
    let &Answer { figure, governing, passes, margin } = answer;
    format!(" {figure} {governing} {} {margin}", verdict(passes))
}

/// Writes from the front of the list; entries beyond are kept.
fn fill<T>(list: &mut [T], written: impl IntoIterator<Item = T>) {
    list.iter_mut().zip(written).for_each(|(entry, value)| *entry = value);
}

fn passing(passing: Passing) -> &'static str {
    match passing {
        Passing::All => "all",
        Passing::None => "none",
        Passing::Undecided => "undecided",
    }
}

impl Script {
    fn step(&mut self, letter: u8, with: usize, body: &[u8]) {
        self.bytes.push(letter);
        self.bytes.extend(number(with));
        self.bytes.extend(body);
    }

    fn print(&mut self, line: &str) {
        writeln!(self.text, "{line}").unwrap();
    }

    /// A line of its own in the output.
    pub fn title(&mut self, title: &str) {
        self.step(b'T', title.len(), title.as_bytes());
        self.print(title);
    }

    /// A new session.
    pub fn start(&mut self) {
        self.step(b'N', 0, &[]);
        self.survey = None;
        self.vehicle = None;
        self.print("new");
    }

    /// Loads a survey: one that is taken replaces the survey, and nothing else changes.
    pub fn survey(&mut self, bytes: &[u8]) {
        self.step(b'S', bytes.len(), bytes);
        let read = reader::survey(bytes);
        self.print(&format!("survey {}", taken(&read)));
        if let Ok(members) = read {
            self.survey = Some(members);
        }
    }

    /// Loads a vehicle, in the same way.
    pub fn vehicle(&mut self, bytes: &[u8]) {
        self.step(b'V', bytes.len(), bytes);
        self.load_vehicle("vehicle", reader::vehicle(bytes));
    }

    /// Loads what two vehicle files and the gap between them make, in the same way.
    pub fn couple(&mut self, first: &[u8], second: &[u8], gap: u16) {
        self.couple_body(&[&gap.to_le_bytes(), &number(first.len()), first, second].concat());
    }

    /// The same by the bytes of the step. Where they end before the first file does, they are no
    /// call, and stand as a line of text in the output.
    pub fn couple_body(&mut self, body: &[u8]) {
        self.step(b'K', body.len(), body);
        let Some((gap, [first, second])) = halves(body) else {
            return self.print(std::str::from_utf8(body).expect("a short step of letters"));
        };
        self.load_vehicle("couple", couple(first, second, gap));
    }

    /// The vehicle that a call loads: one that is taken replaces the vehicle.
    fn load_vehicle(&mut self, call: &str, read: Result<Vehicle, Refused>) {
        self.print(&format!("{call} {}", taken(&read)));
        if let Ok(vehicle) = read {
            self.vehicle = Some(vehicle);
        }
    }

    /// The members and the vehicle that are loaded.
    fn loaded(&self) -> (Option<&[Member]>, Option<&Vehicle>) {
        (self.survey.as_deref(), self.vehicle.as_ref())
    }

    fn rated(&self, place: usize) -> Result<Rated, u64> {
        let (survey, vehicle) = self.loaded();
        let (member, vehicle) = judge::loaded_at(survey, vehicle, place)?;
        Ok(judge::rate(member, vehicle))
    }

    /// Rates the member at a place.
    pub fn rate(&mut self, place: usize) {
        self.step(b'R', place, &[]);
        let answer = match self.rated(place) {
            Ok(rated) => {
                let (permitted, vehicle) = (rated.permitted, rated.vehicle);
                format!("{permitted} {vehicle} {} {}", verdict(rated.passes()), rated.margin())
            }
            Err(number) => refused(number, 0),
        };
        self.print(&format!("rate {place} {answer}"));
    }

    fn judged(&self, entries: usize) -> Result<Judged, u64> {
        let (survey, vehicle) = self.loaded();
        let (members, vehicle) = (survey.ok_or(11u64)?, vehicle.ok_or(12u64)?);
        if entries < 2 * members.len() {
            return Err(14);
        }
        Ok(judge::judge_members(members, vehicle))
    }

    /// Judges with a list of so many entries; the whole list is printed as it is then.
    pub fn judge(&mut self, entries: usize) {
        self.step(b'J', entries, &[]);
        if entries > MOST_ENTRIES {
            return self.print("no list is so long");
        }
        let mut list = known_list(entries);
        let answer = match self.judged(entries) {
            Ok(judged) => {
                let loads = judged.members.iter();
                fill(&mut list, loads.flat_map(|rated| [rated.permitted, rated.vehicle]));
                let (figure, governing) = (judged.figure, judged.governing);
                format!("{figure} {governing} {} {}", verdict(judged.passes), judged.margin)
            }
            Err(number) => refused(number, 0),
        };
        self.print(&format!("judge {answer}"));
        self.print_list(&list);
    }

    fn print_list(&mut self, list: &[u64]) {
        let list: String = list.iter().map(|entry| format!(" {entry}")).collect();
        self.print(&format!("list{list}"));
    }

    /// The list filled with a yard's answers, and the number of passes.
    fn fill_yard(&self, bytes: &[u8], list: &mut [Answer]) -> Result<u64, Refused> {
        let judged = yard(self.loaded().0, bytes, list.len())?;
        fill(list, judged.answers);
        Ok(judged.passes)
    }

    /// Judges a yard with a list of so many answers; the whole list is printed as it is then.
    pub fn yard(&mut self, bytes: &[u8], entries: usize) {
        let body = [&number(entries), bytes].concat();
        self.step(b'Y', body.len(), &body);
        if entries > MOST_ANSWERS {
            return self.print("no list is so long");
        }
        let mut list: Vec<Answer> = (KNOWN..).take(entries).map(known_answer).collect();
        let answer = match self.fill_yard(bytes, &mut list) {
            Ok(passes) => passes.to_string(),
            Err(fault) => refused(fault.number, fault.place),
        };
        self.print(&format!("yard {answer}"));
        let list: String = list.iter().map(entry).collect();
        self.print(&format!("list{list}"));
    }

    /// The list filled with the bounds of the members of two surveys, and the verdict.
    fn fill_between(&self, surveys: [&[u8]; 2], list: &mut [u64]) -> Result<Passing, Refused> {
        let answer = between(self.loaded().1, surveys[0], surveys[1], list.len())?;
        let bounds = answer.members.iter();
        fill(list, bounds.flat_map(|bounds| [bounds.lowest, bounds.highest]));
        Ok(answer.passing)
    }

    /// Takes two surveys of one bridge, with a list of so many entries; the whole list is printed
    /// as it is then.
    pub fn between(&mut self, first: &[u8], second: &[u8], entries: usize) {
        let body = [&number(entries), &number(first.len()), first, second].concat();
        self.step(b'B', body.len(), &body);
        if entries > MOST_ENTRIES {
            return self.print("no list is so long");
        }
        let mut list = known_list(entries);
        let answer = match self.fill_between([first, second], &mut list) {
            Ok(verdict) => passing(verdict).to_string(),
            Err(fault) => refused(fault.number, fault.place),
        };
        self.print(&format!("between {answer}"));
        self.print_list(&list);
    }

    /// Asks for a vehicle file in another version, 1 or 2, with a buffer of so many bytes; the
    /// whole buffer is printed as it is then. The call needs no session, and changes none.
    pub fn convert(&mut self, wanted: u8, file: &[u8], room: usize) {
        let body = [&[wanted], &number(room)[..], file].concat();
        self.step(b'C', body.len(), &body);
        self.written("convert", room, convert(file, wanted.into(), room));
    }

    /// Joins two surveys of one bridge with a buffer of so many bytes; the whole buffer is printed
    /// as it is then. The call needs no session, and changes none.
    pub fn join(&mut self, first: &[u8], second: &[u8], room: usize) {
        let body = [&number(room), &number(first.len()), first, second].concat();
        self.step(b'M', body.len(), &body);
        self.written("join", room, join(first, second, room));
    }

    /// Takes the bits of a gauge's three readings at a place.
    pub fn gauge(&mut self, place: usize, readings: [u32; 3]) {
        let bits = readings.map(u32::to_le_bytes);
        self.gauge_body(&[&number(place), &bits.concat()[..]].concat());
    }

    /// The same by the bytes of the step, of which the first 14 count; fewer are no call, and stand
    /// as a line of text in the output.
    pub fn gauge_body(&mut self, body: &[u8]) {
        self.step(b'G', body.len(), body);
        let Some((&[low, high, ref bits @ ..], _)) = body.split_first_chunk::<GAUGE_BYTES>() else {
            return self.print(std::str::from_utf8(body).expect("a short step of letters"));
        };
        let reading = |i: usize| u32::from_le_bytes(std::array::from_fn(|byte| bits[4 * i + byte]));
        let readings = Readings::of_bits([0, 1, 2].map(reading));
        let (survey, vehicle) = self.loaded();
        let place = u16::from_le_bytes([low, high]).into();
        let answer = match gauge(survey, vehicle, place, &readings) {
            Ok(Deflection::Within(deflection)) => format!("within {}", deflection.to_bits()),
            Ok(Deflection::Over(deflection)) => format!("over {}", deflection.to_bits()),
            Err((number, place)) => refused(number, place),
        };
        self.print(&format!("gauge {answer}"));
    }

    /// The answer of a call that writes into a lent buffer, and the buffer as it is then.
    fn written(&mut self, call: &str, room: usize, answer: Result<Vec<u8>, Refused>) {
        if room > MOST_BYTES {
            return self.print("no buffer is so long");
        }
        let mut buffer = vec![KNOWN_BYTE; room];
        let answer = match answer {
            Ok(bytes) => {
                let written = bytes.len();
                fill(&mut buffer, bytes);
                written.to_string()
            }
            Err(fault) => refused(fault.number, fault.place),
        };
        self.print(&format!("{call} {answer}"));
        let hex: String = buffer.iter().map(|byte| format!("{byte:02x}")).collect();
        self.print(format!("bytes {hex}").trim_end());
    }

    /// Rates every place of a survey of so many members, and judges with a list that just holds it.
    pub fn all(&mut self, count: usize) {
        (1..=count).for_each(|place| self.rate(place));
        self.judge(2 * count);
    }
}
