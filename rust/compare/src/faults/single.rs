//! A gate with a fault, or with none, in the place of the proved calls: single calls on
//! any words and lists. Unlike the host of schedules it judges whether these are sound.

use super::{Fault, FaultyHost};
use crate::forms::{Calls, Made};
use crate::gate::{self, Answer, Lent, PluginList, Words, IDLE};
use crate::proved;
use crate::random::states::State;
use crate::schedule::Call;
use crate::transcript::Host;
use slot_gate::forms::Shown;

pub struct FaultyCalls(pub Option<Fault>);

impl FaultyCalls {
    fn sound(&self, words: &Words, list: &Lent) -> bool {
        let all_slots = words.year == 1979 && u16::from(words.k) == words.n;
        let let_through = match self.0 {
            Some(Fault::AllSlotsSound) => all_slots,
            Some(Fault::OtherYearSound) => words.year == 1990,
            _ => false,
        };
        (let_through || gate::year_is_sound(words)) && gate::sound_but_for_year(words, list)
    }

    /// The list as it is judged.
    fn judged(&self, words: &Words, list: &PluginList) -> PluginList {
        let mut judged = list.clone();
        if self.0 == Some(Fault::IdleOneSound) && words.year == 1979 {
            let values = judged.values.iter_mut().zip(&judged.regions);
            for (value, _) in values.filter(|(value, &region)| region == IDLE && **value == 1) {
                *value = 0;
            }
        }
        judged
    }

    fn answer(&self, letter: u8, p: u64, host: &mut FaultyHost) -> Answer {
        // A number above N is none of a plugin, however large.
        let p = u16::try_from(p).unwrap_or(u16::MAX);
        let call = match letter {
            b'T' => Call::Take(p),
            b'L' => Call::Look(p),
            b'B' => Call::Leave(p),
            b'P' => Call::Place(p),
            b'S' => Call::Stop(p),
            b'W' => Call::Wake(p),
            _ => return Answer::Refused(8),
        };
        let mut judged = self.judged(&host.words, &host.list);
        let lent = judged.lend();
        if lent.length() != Some(host.words.n.into()) {
            Answer::Refused(2)
        } else if !self.sound(&host.words, &lent) {
            Answer::Refused(3)
        } else {
            host.perform(call)
        }
    }
}

impl Calls for FaultyCalls {
    fn name(&self) -> &'static str {
        self.0.map_or("no fault", Fault::name)
    }

    fn open(&self, year: u64, n: u64, k: u64, list: &PluginList) -> Option<Made> {
        let mut host = FaultyHost {
            list: list.clone(),
            ..FaultyHost::new(self.0)
        };
        let shown = proved::shown(host.open(year, n, k, list.clone()));
        let left = (host.words, host.list);
        Some(Made { shown, left })
    }

    fn call(&self, letter: u8, p: u64, (words, list): &State) -> Option<Made> {
        let mut host = FaultyHost {
            fault: self.0,
            words: *words,
            list: list.clone(),
        };
        let shown = proved::shown(self.answer(letter, p, &mut host));
        let left = (host.words, host.list);
        Some(Made { shown, left })
    }

    /// These gates have no alike.
    fn alike(&self, _: &State, _: &State) -> Option<Shown> {
        None
    }
}
