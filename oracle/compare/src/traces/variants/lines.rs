//! The lines of a trace in the other trace program: settings, keeps and backs. A name
//! holds a copy of the state.

use super::{Contents, Fault, Machine, Values};
use crate::Answer;
use std::collections::BTreeMap;

/// How a run ends before its trace does: with a refusal, or by a fault with none.
pub type End = Option<Answer>;

/// A run and what it has printed.
pub struct Lines<'a> {
    machine: Machine<'a>,
    inputs: Vec<u32>,
    outputs: Vec<u32>,
    now: Option<Values<'a>>,
    /// Whether no settings line has come since a back.
    is_back: bool,
    /// The longest held first.
    kept: Vec<(Vec<u8>, State)>,
    number: u32,
    pub text: String,
}

#[derive(Clone)]
struct State {
    setting: BTreeMap<u32, bool>,
    contents: Contents,
    /// The line of the keep.
    number: u32,
}

/// Whether a line keeps, not comes back, and the name.
type NameLine<'l> = (bool, &'l [u8]);

impl<'a> Lines<'a> {
    pub fn new(machine: Machine<'a>) -> Self {
        let [inputs, outputs] = [0, 8].map(|kind| machine.faults.port_nets(machine.netlist, kind));
        Lines { machine, inputs, outputs, now: None, is_back: false, kept: Vec::new(), number: 0, text: String::new() }
    }

    fn has(&self, fault: Fault) -> bool {
        self.machine.has(fault)
    }

    /// Takes a line without its byte 10, and says whether it had one.
    pub fn take(&mut self, line: &[u8], is_ended: bool) -> Result<(), End> {
        let line = if self.has(Fault::CarriageReturn) { line.strip_suffix(b"\r").unwrap_or(line) } else { line };
        let Some(name_line) = self.name_line(line) else {
            self.take_setting(line, is_ended)?;
            self.number += 1;
            return Ok(());
        };
        if is_ended || self.has(Fault::OpenName) || self.has(Fault::NameBefore13) {
            self.take_name(name_line)?;
        }
        if !is_ended && !self.has(Fault::OpenName) {
            return Err(self.wrong());
        }
        self.number += u32::from(!self.has(Fault::NamesNotCounted));
        Ok(())
    }

    fn wrong(&self) -> End {
        let line = self.number + u32::from(self.has(Fault::LinesFromOne));
        (!self.has(Fault::SilentEnd)).then_some([13, line, 0])
    }

    // ---- settings ----

    fn take_setting(&mut self, line: &[u8], is_ended: bool) -> Result<(), End> {
        let bits = self.bits(line).filter(|_| is_ended || self.has(Fault::ClashBefore13));
        let bits = bits.ok_or_else(|| self.wrong())?;
        let setting = self.inputs.iter().copied().zip(bits).collect();
        let (mut next, clash) = match self.now.take() {
            Some(now) if self.is_back && self.has(Fault::NoStepAfterBack) => (self.machine.values(setting, now.contents), None),
            now => self.machine.next(now, setting),
        };
        self.is_back = false;
        let shown = self.shown(&mut next);
        if let Some(memory) = clash {
            return Err(self.clash(memory, &shown));
        }
        if !is_ended {
            return Err(self.wrong());
        }
        self.text += &shown;
        self.now = Some(next);
        Ok(())
    }

    /// The bits of a line; nothing if it is wrong.
    fn bits(&self, line: &[u8]) -> Option<Vec<bool>> {
        let count = self.inputs.len();
        let line = if self.has(Fault::LongLine) { &line[..line.len().min(count)] } else { line };
        let bit = |&letter: &u8| match letter {
            b'0' | b'1' => Some(letter == b'1'),
            _ => self.has(Fault::AnyLetter).then_some(letter % 2 == 1),
        };
        (line.len() == count).then(|| line.iter().map(bit).collect())?
    }

    fn shown(&self, values: &mut Values) -> String {
        self.outputs.iter().map(|&net| if values.of(net) { '1' } else { '0' }).chain(['\n']).collect()
    }

    fn clash(&mut self, memory: u32, shown: &str) -> End {
        if self.has(Fault::PrintedFirst) {
            self.text += shown;
        }
        let line = if self.has(Fault::LineBefore) { self.number.saturating_sub(1) } else { self.number };
        (!self.has(Fault::SilentClash)).then_some([14, line, memory])
    }

    // ---- keeps and backs ----

    fn name_line<'l>(&self, line: &'l [u8]) -> Option<NameLine<'l>> {
        let (word, mut name) = line.split_at_checked(5)?;
        let is_keep = match word {
            b"keep " => true,
            b"back " => false,
            _ => return None,
        };
        if self.has(Fault::BlanksLeftOut) {
            name = name.trim_ascii();
        }
        let [fewest, most] = [usize::from(!self.has(Fault::EmptyName)), 8 + usize::from(self.has(Fault::NineLetters))];
        let is_letter = |byte: &u8| matches!(byte, b'a'..=b'z') || self.has(Fault::AnyName) && byte.is_ascii_alphanumeric();
        let is_short = line.len() <= self.inputs.len() || !self.has(Fault::LongAsInputs);
        let is_one = (fewest..=most).contains(&name.len()) && name.iter().all(is_letter) && is_short;
        is_one.then_some((is_keep, name))
    }

    fn take_name(&mut self, (is_keep, name): NameLine) -> Result<(), End> {
        let name = if self.has(Fault::SevenLetters) { &name[..name.len().min(7)] } else { name };
        let held = self.kept.iter().position(|(other, _)| other == name);
        let is_taken = if is_keep { self.keep(name, held) } else { self.back(held) };
        let prints = self.has(Fault::KeepPrints) && is_keep || self.has(Fault::BackPrints) && !is_keep;
        if let Some(mut now) = self.now.take() {
            self.text += &if prints { self.shown(&mut now) } else { String::new() };
            self.now = Some(now);
        }
        match is_taken {
            true => Ok(()),
            false if self.has(Fault::NotKeptIs13) => Err(self.wrong()),
            false => Err(Some([15, self.number, 0])),
        }
    }

    fn keep(&mut self, name: &[u8], held: Option<usize>) -> bool {
        let Some(now) = &self.now else { return self.has(Fault::KeepAtStart) };
        let state = State { setting: now.setting.clone(), contents: now.contents.clone(), number: self.number };
        let most = 4 + usize::from(self.has(Fault::FiveNames)) - usize::from(self.has(Fault::ThreeNames));
        let is_full = self.kept.len() == most;
        match held {
            Some(_) if is_full && self.has(Fault::FullIsFull) => return false,
            Some(_) if self.has(Fault::FirstKeepStays) => {}
            Some(place) => self.kept[place].1 = state,
            None if is_full && !self.has(Fault::FifthForOldest) => return false,
            None => {
                self.kept.drain(..usize::from(is_full));
                self.kept.push((name.to_vec(), state));
            }
        }
        true
    }

    fn back(&mut self, held: Option<usize>) -> bool {
        let Some(place) = held else { return self.has(Fault::AnyBack) };
        let State { mut setting, mut contents, number } = self.kept[place].1.clone();
        let Some(now) = self.now.take() else { return false };
        if self.has(Fault::WordsStay) {
            contents.words = now.contents.words.clone();
        }
        let stays = |kind: u32| kind == 7 && self.has(Fault::RegistersStay) || kind == 9 && self.has(Fault::ReadDataStay);
        let nets = (0..).zip(&self.machine.netlist.nodes).filter(|(_, node)| stays(node[0]));
        contents.bits.extend(nets.map(|(net, _)| (net, now.contents.bits.get(&net).copied().unwrap_or(false))));
        if self.has(Fault::SettingStays) {
            setting = now.setting.clone();
        }
        self.now = Some(match self.has(Fault::BackSteps) {
            true => self.machine.next(Some(self.machine.values(now.setting, contents)), setting).0,
            false => self.machine.values(setting, contents),
        });
        self.is_back = true;
        if self.has(Fault::CountedFromKeep) {
            self.number = number;
        }
        if self.has(Fault::BackFrees) {
            self.kept.remove(place);
        }
        if self.has(Fault::BackFreesLater) {
            self.kept.retain(|(_, state)| state.number <= number);
        }
        true
    }
}
