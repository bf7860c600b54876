//! Products of rows, on guarded buffers of any lengths and contents.

use super::calls::ListCall;
use super::guarded::Guarded;
use super::reference;
use sukhlent::{raw, Product};

impl ListCall {
    /// The product of the chosen rows that the call writes, or the number of its refusal.
    ///
    /// Asserts that the list and all guards keep their contents, and on a refusal the answer too.
    pub fn product(&self, chosen: u64) -> Result<Product, u8> {
        let mut list = self.guarded();
        let [mut z, mut x] = [0, 1].map(|_| Guarded::patterned(1));
        let mut phase = Guarded::patterned(1);
        let (to_z, to_x, to_phase) = (&mut z.lent()[0], &mut x.lent()[0], &mut phase.lent()[0]);
        let number = raw::product(list.lent(), chosen, to_z, to_x, to_phase);
        list.assert_unchanged();
        if number != 0 {
            z.assert_unchanged("product_z");
            x.assert_unchanged("product_x");
            phase.assert_unchanged("phase");
            return Err(number);
        }
        Ok(Product {
            phase: phase.answer("phase")[0],
            z: z.answer("product_z")[0],
            x: x.answer("product_x")[0],
        })
    }

    /// The answer due to the list and the word.
    pub fn product_due(&self, chosen: u64) -> Result<Product, u8> {
        match reference::product_refusal(self.n, &self.signs, &self.z, &self.x, chosen) {
            0 => Ok(reference::product(&self.list(), chosen)),
            number => Err(number),
        }
    }
}
