//! What the programs `place` and `reread` print of an answer.

use crate::answer::{Hypothesis, Marker, Matched, Placed};
use std::fmt::{self, Display, Formatter};

/// All that `place` prints.
pub fn text(matched: &Matched) -> String {
    match matched {
        Ok(placed) => placed.to_string(),
        Err(_) => line(matched) + "\n",
    }
}

/// The line of it that `reread` prints too: the best placement, or the refusal.
pub fn line(matched: &Matched) -> String {
    match matched {
        Ok(placed) => format!("best {}", placed.best),
        Err(refused) if refused.number == 16 => format!("refused 16 {:08X}", refused.words[0]),
        Err(refused) => format!("refused {}", refused.number),
    }
}

impl Display for Placed {
    fn fmt(&self, f: &mut Formatter) -> fmt::Result {
        writeln!(f, "placed")?;
        writeln!(f, "best {}", self.best)?;
        match &self.runner_up {
            None => writeln!(f, "next absent")?,
            Some(next) => writeln!(f, "next {next}")?,
        }
        writeln!(f, "margin {:08X}", self.margin.to_bits())?;
        writeln!(f, "placements {}", self.placements)?;
        let corners = self.corners;
        writeln!(f, "corners {} {} {}", corners.turn, corners.tx, corners.ty)?;
        self.markers
            .iter()
            .try_for_each(|marker| writeln!(f, "marker {marker}"))
    }
}

impl Display for Hypothesis {
    fn fmt(&self, f: &mut Formatter) -> fmt::Result {
        let at = self.alignment;
        write!(f, "{} {} {} ", at.turn, at.tx, at.ty)?;
        match self.evidence {
            None => write!(f, "none")?,
            Some(evidence) => write!(f, "{:08X}", evidence.to_bits())?,
        }
        write!(f, " {}", self.contributing_cells)
    }
}

impl Display for Marker {
    fn fmt(&self, f: &mut Formatter) -> fmt::Result {
        let [u, v] = self.point;
        write!(f, "{} {} {u} {v} {} ", self.cell, self.id, self.turn)?;
        let quotient = self.quotient.to_bits();
        write!(f, "{} {:016X} {quotient:08X}", self.differing, self.code)
    }
}
