//! The gate's model as it is stored: its file, and the tables that the reader made of it.

use crate::model::{Tables, SHAPE};
use wasnugram::OwnedModel;

pub struct Stored {
    pub file: Vec<u8>,
    pub tables: Tables,
}

impl Stored {
    /// Reads the file; else says what is wrong with it.
    pub fn read(file: Vec<u8>) -> Result<Stored, String> {
        let owned = OwnedModel::read(&file).map_err(|refused| refused.to_string())?;
        let model = owned.model();
        if model.shape != SHAPE {
            return Err("the model of a gate has 12 states, 256 symbols and no end state".to_string());
        }
        let tables = Tables::of(&model);
        Ok(Stored { file, tables })
    }
}

#[cfg(test)]
mod tests {
    use super::*;
    use wasnugram::model_file;

    #[test]
    fn the_model_of_another_lane_is_not_taken() {
        let exit_lane = model_file(&Tables::of_the_exit_lane().lend()).unwrap();
        assert!(Stored::read(exit_lane).is_err_and(|why| why.contains("no end state")));
    }
}
