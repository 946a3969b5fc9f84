//! Why not another fare: the rivals of a passage's row of states, one for each sample, and the closest of them.

use crate::decode::{fares, Decoded, Lent};
use crate::model::Tables;
use crate::states::Fare;
use wasnugram::{rival, Refusal, Refused};

/// The rival at a sample: the best row of states among those with another state there.
#[derive(Debug, PartialEq)]
pub struct Rival {
    pub sample: usize,
    /// The state of the best row at the sample.
    pub chosen: usize,
    pub row: Vec<u8>,
    /// The best row's value less the rival's.
    pub margin: f64,
}

impl Rival {
    /// Its own state at the sample.
    pub fn state(&self) -> usize {
        usize::from(self.row[self.sample])
    }

    /// By the same rule as those of the best row.
    pub fn fares(&self) -> Vec<Fare> {
        fares(&self.row)
    }
}

/// A passage's rivals, beside the fares that its best row pays.
pub struct Rivals {
    fares: Vec<Fare>,
    /// One for each sample; none where no row with another state there explains the samples.
    at: Vec<Option<Rival>>,
}

impl Rivals {
    /// Makes a call for each sample, so the time grows with the square of their number.
    pub fn of(tables: &Tables, samples: &[u16], decoded: &Decoded, lent: &mut Lent) -> Result<Rivals, Refused> {
        let at = (0..samples.len()).map(|sample| at(tables, samples, sample, lent));
        Ok(Rivals {
            fares: fares(&decoded.row),
            at: at.collect::<Result<_, Refused>>()?,
        })
    }

    /// The margin at each sample, infinite where there is no rival.
    pub fn margins(&self) -> impl Iterator<Item = f64> + '_ {
        self.at
            .iter()
            .map(|rival| rival.as_ref().map_or(f64::INFINITY, |rival| rival.margin))
    }

    /// Whether the rival at each sample pays another fare.
    pub fn other_fares(&self) -> impl Iterator<Item = bool> + '_ {
        self.at
            .iter()
            .map(|rival| rival.as_ref().is_some_and(|rival| self.pays_another_fare(rival)))
    }

    /// The rival of least margin, the first of equals. No row of states but the best one has a lesser margin.
    pub fn closest(&self) -> Option<&Rival> {
        closest(self.at.iter().flatten())
    }

    /// The same among the rivals that pay another fare. A row of another fare that is the rival at no sample is not seen.
    pub fn closest_of_another_fare(&self) -> Option<&Rival> {
        closest(self.at.iter().flatten().filter(|rival| self.pays_another_fare(rival)))
    }

    /// Whether the fares of a rival are not those of the best row.
    pub fn pays_another_fare(&self, rival: &Rival) -> bool {
        rival.fares() != self.fares
    }
}

fn at(tables: &Tables, samples: &[u16], sample: usize, lent: &mut Lent) -> Result<Option<Rival>, Refused> {
    let found = rival(
        &tables.lend(),
        samples,
        sample,
        &mut lent.path,
        &mut lent.rival_path,
        &mut lent.values,
        &mut lent.from,
    );
    match found {
        Ok(found) => Ok(Some(Rival {
            sample,
            chosen: found.chosen,
            row: found.rival_path.to_vec(),
            margin: found.margin(),
        })),
        Err(refused) if refused.refusal == Refusal::NoRival => Ok(None),
        Err(refused) => Err(refused),
    }
}

/// `min_by` gives the first of equals.
fn closest<'a>(rivals: impl Iterator<Item = &'a Rival>) -> Option<&'a Rival> {
    rivals.min_by(|one, other| one.margin.total_cmp(&other.margin))
}
