//! Recipes (RULES 12), of which the original has nothing: the oracle keeps the recipe that was loaded last, as a list,
//! until one of the five resets, which may come in a frame. The state that a load and a weight are tried in is the original's, and so is what it makes of
//! the ready word.

use crate::forms;
use crate::head::{Answer, Head};
use crate::script::Component;
use powerlink_rs::nmt::events::NmtEvent;
use powerlink_rs::nmt::states::NmtState;

/// The places of a weigh head.
pub const PLACES: usize = 16;

const LAST_BIN: u8 = 64;
const MOST_GRAMS: u16 = 30_000;

/// Number 15: what no recipe is.
fn is_recipe(components: &[Component]) -> bool {
    let mut bins: Vec<u8> = components.iter().map(|(bin, _)| *bin).collect();
    bins.sort_unstable();
    bins.dedup();
    let within = |(bin, grams): &Component| {
        *bin > 0 && *bin <= LAST_BIN && *grams > 0 && *grams <= MOST_GRAMS
    };
    !components.is_empty()
        && components.len() <= PLACES
        && bins.len() == components.len()
        && components.iter().all(within)
}

impl Head {
    /// Refused by 15 or 16, in this order; otherwise the node gets the ready word.
    pub fn load_recipe(&mut self, components: Vec<Component>) -> Answer {
        if !is_recipe(&components) {
            return Err(15);
        }
        if self.context.nmt_state_machine.current_state != NmtState::NmtPreOperational2 {
            return Err(16);
        }
        let word = self.nmt(NmtEvent::CnConfigurationComplete as u64);
        assert_eq!(word, Ok("(taken (errors))".to_string()), "the word counts");
        self.recipe = components;
        Ok(forms::taken(&[]))
    }

    /// Refused by 17.
    pub fn weight(&self, place: u64) -> Answer {
        let state = self.context.nmt_state_machine.current_state;
        let component = usize::try_from(place).ok().and_then(|place| self.recipe.get(place));
        match component {
            Some((_, grams)) if state == NmtState::NmtOperational => {
                Ok(forms::taken(&[grams.to_string()]))
            }
            _ => Err(17),
        }
    }
}
