// Defines what the supervisor's caller does with saved settings: it saves them at any moment and restores images, fresh, old and damaged ones.
// Assumes the model of the image (tests/differential/images.rs): each image saved, and each refusal with its offset, is compared with it.

use crate::images;
use crate::lists::Value;
use crate::simulation::Simulation;

/// How many saved images are kept.
const KEPT: usize = 6;
/// The place of key 5 among the settings.
const LIST: usize = 2;

impl Simulation {
    fn list(&self) -> &Value {
        &self.model.settings[LIST].value
    }

    /// Tells the ledger which list the model holds.
    pub fn list_held(&mut self) {
        self.ledger.holds(&self.model.settings[LIST].value);
    }

    /// The image is kept; one of chance goes for it, so that some grow old.
    pub fn save(&mut self) -> Result<(), String> {
        self.tally.saves += 1;
        let known = images::saved(&self.model.settings);
        let image = self.supervisor_says("a save", |supervisor| supervisor.save(), known)?;
        if self.saved.len() == KEPT {
            self.saved.remove(self.random.below(KEPT));
        }
        self.saved.push(image);
        Ok(())
    }

    /// The newest image, any that is kept, or one made of the settings in it or of others, damaged at times.
    fn chosen(&mut self) -> Vec<u8> {
        let which = self.random.below(10);
        let place = if which < 5 { self.saved.len().saturating_sub(1) } else { self.random.below(self.saved.len()) };
        match self.saved.get(place) {
            Some(image) if which < 8 => image.clone(),
            kept => {
                let (settings, _) = images::restored(&self.model.settings, kept.map_or(&[], |image| &image[..]));
                images::random_image(&mut self.random, &settings)
            }
        }
    }

    /// A refused image changes nothing; a good one replaces the settings of keys 3 to 5.
    pub fn restore(&mut self) -> Result<(), String> {
        let image = self.chosen();
        let (left, known) = images::restored(&self.model.settings, &image);
        let result = self.supervisor_says("a restore", |supervisor| supervisor.restore(&image), known)?;
        self.model.settings = left;
        self.ledger.trips.ended();
        match result {
            Ok(()) => {
                self.tally.restores += 1;
                self.ledger.restored(&self.list().clone());
                self.note(|| "restore".to_string());
            }
            Err((number, _)) => self.image_refused(number),
        }
        self.list_held();
        Ok(())
    }

    pub fn restore_behind_start(&mut self) -> Result<(), String> {
        let before = self.tally.restores;
        self.restore()?;
        self.tally.restored_behind_start += self.tally.restores - before;
        Ok(())
    }

    fn image_refused(&mut self, number: u32) {
        let tally = &mut self.tally;
        *match number {
            30 => &mut tally.bad_mark,
            31 => &mut tally.bad_key,
            32 => &mut tally.too_long,
            33 => &mut tally.bad_checksum,
            34 => &mut tally.cut_short,
            35 => &mut tally.bytes_after,
            _ => panic!("a restore is refused as {number}"),
        } += 1;
    }
}
